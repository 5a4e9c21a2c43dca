/* cases509.c: of cases.c, what is of the MT509 alone: accepted messages, near misses for the numbers 4, 8 to 10, 12 to 15 and 22,
 * and records. */

/* ---------------------------------------------------------------- an accepted MT509 */

static bool is_cancel(const char *status) { return status[0] == 'C'; }
static bool is_reject(const char *status) { return strcmp(status + 4, "//REJT") == 0; }

static const char *a_status(struct chance *c) { return second_statuses[below(c, STATUSES)]; }

/* As often a reject as all the others together, since a reject has the most to it. */
static const char *often_reject(struct chance *c)
{
    if (one_in(c, 2))
        return a_status(c);
    return one_in(c, 3) ? "CPRC//REJT" : "IPRC//REJT";
}

/* What is drawn as a text of c, and some of its bytes hyphens. */
static const char *hyphened(struct chance *c, size_t least, size_t most)
{
    static char made[64];
    paste(made, sizeof made, text(c, least, most), "");
    if (one_in(c, 2))
        for (size_t i = 0; made[i]; i++)
            if (one_in(c, 4))
                made[i] = '-';
    return made;
}

/* Any printable characters, blanks, slashes and colons among them more often than the rest. */
static const char *free_words(struct chance *c, size_t least, size_t most)
{
    static const char often[] = " /:-~";
    static char made[64];
    size_t wide = c->widest || one_in(c, 3) ? most : one_in(c, 3) ? least : between(c, least, most);
    for (size_t i = 0; i < wide; i++)
        made[i] = one_in(c, 3) ? often[below(c, sizeof often - 1)] : (char)between(c, 0x20, 0x7E);
    made[wide] = 0;
    return made;
}

static const char *reason_text(struct chance *c)
{
    static const char *const codes[] = { "GSCC/MDRJ", "CSRJ", "DKRJ", "GSCC/DNRJ" };
    return one_in(c, 4) ? PICK(c, codes) : free_words(c, 1, 35);
}

/* The seven in the order of the plain form, with what stands before the value. */
static const struct { enum label label; const char *before; bool hyphens; } answer_links[] = {
    { MAST, ":20C::MAST//", false }, { PREV, ":20C::PREV//", true }, { RELA, ":20C::RELA//", false }, { LIST, ":20C::LIST//", true },
    { BASK, ":20C::BASK//", true }, { PROG, ":20C::PROG//", true }, { COMM, ":20C::COMM//", true }
};

static const char *a_reference(struct chance *c, size_t which)
{
    return answer_links[which].hyphens ? hyphened(c, 1, 16) : text(c, 1, 16);
}

/* LINK blocks, none to all seven, in any order. */
static void add_answer_links(struct sheet *s)
{
    struct chance *c = s->chance;
    size_t order[7] = { 0, 1, 2, 3, 4, 5, 6 }, wanted = one_in(c, 4) ? 7 : one_in(c, 6) ? 0 : 4;
    for (size_t i = 6; i > 0; i--) {
        size_t k = below(c, i + 1), other = order[i];
        order[i] = order[k];
        order[k] = other;
    }
    for (size_t i = 0; i < 7; i++)
        if (wanted == 7 || (wanted > 0 && one_in(c, 2))) {
            add(s, LINK, ":16R:LINK", "");
            add(s, answer_links[order[i]].label, answer_links[order[i]].before, a_reference(c, order[i]));
            add(s, LINK_END, ":16S:LINK", "");
        }
}

/* A REAS put in before a row; answers the row behind it. */
static size_t insert_reason(struct sheet *s, size_t at)
{
    struct chance *c = s->chance;
    insert(s, at++, REAS, ":16R:REAS", "");
    insert(s, at++, CODE, ":24B::REJT/GSCC/", text_of(c, 4));
    if (one_in(c, 2) || c->widest)
        insert(s, at++, REASON, ":70D::REAS//", reason_text(c));
    insert(s, at++, REAS_END, ":16S:REAS", "");
    return at;
}

static void add_status(struct sheet *s, const char *status)
{
    struct chance *c = s->chance;
    add(s, STAT, ":16R:STAT", "");
    add(s, STATUS, ":25D::", status);
    if (is_reject(status))
        for (size_t many = c->widest || one_in(c, 6) ? 10 : one_in(c, 2) ? 1 : between(c, 1, 10); many > 0; many--)
            insert_reason(s, s->count);
    add(s, STAT_END, ":16S:STAT", "");
}

static void accepted_answer(struct sheet *s)
{
    struct chance *c = s->chance;
    const char *status = often_reject(c);
    bool copy = strcmp(status, "CPRC//CAND") == 0 && one_in(c, 2);
    s->count = 0;
    add(s, PASSWORD, "", one_in(c, 2) ? "" : text(c, 0, 12));
    add(s, FOURTH, "MBSCTRRS", "");
    add(s, THIRD, "509/000/GSCC", "");
    add(s, SENDER, "", text(c, 1, 8));
    add(s, GENL, ":16R:GENL", "");
    add(s, SEME, ":20C::SEME//", text(c, 1, 16));
    add(s, FUNCTION, ":23G:", copy ? "CAST/COPY" : is_cancel(status) ? "CAST" : "INST");
    if (one_in(c, 2) || c->widest)
        add(s, PREP, ":98C::PREP//", digits(a_moment(c)));
    add_answer_links(s);
    add_status(s, status);
    add(s, GENL_END, ":16S:GENL", "");
    add(s, END, "-", "");
}

/* ---------------------------------------------------------------- near misses: 4, 8, 9 and 22 */

static void wrong_answer_header(struct sheet *s)
{
    static const char *const lines[] = {
        "", " ", "509/000/GSC", "509/000/GSCCC", "509/000/GSCC ", "515/000/GSCC", "509/000/DTCY", "509/001/GSCC", "509/000/gscc",
        "509/000/GSCC", "MBSCTRR", "MBSCTRRSS", "MBSCTRRS", "GSCCTRRS", "MBSCPNET", "mbsctrrs", "aB1", "A 1", "A-1", "A@", "A[", "9:", "/0", "ABCDEFGHIJKL",
        "ABCDEFGHIJKLM", "ABCDEFGH", "ABCDEFGHI"
    };
    size_t at = below(s->chance, s->count < 4 ? s->count : 4);
    switch (below(s->chance, 6)) {
    case 0: drop(s, at); return;
    case 1: insert(s, at, OTHER, PICK(s->chance, lines), ""); return;
    case 2: exchange(s, at, below(s->chance, s->count < 4 ? s->count : 4)); return;
    default: put(s, at, OTHER, PICK(s->chance, lines), ""); return;
    }
}

static void stray_answer_line(struct sheet *s)
{
    static const char *const lines[] = {
        ":99Z::ABCD//1", ":20D::SEME//1", ":20C::SEME//1", ":20C::SEMEX", ":20C::seme//1", ":20C::MAST//1", ":20C::PREV//1", ":20C::RELA//1",
        ":20C::LIST//1", ":20C::BASK//1", ":20C::PROG//1", ":20C::COMM//1", ":20C::COMM", ":20C::INDX//1", ":20C::PROC//1", ":20C::REL",
        ":13B::LINK//515", ":23G:INST", ":23G:CAST", ":23G:", ":98C::PREP//20240229000000", ":98A::PREP//20240229", ":22F::TRTR/GSCC/CASH",
        ":25D::IPRC//PACK", ":25D::CPRC//PACK", ":25D::MTCH//MACH", ":25D::XPRC//PACK", ":25D::IPR", ":25D:IPRC//PACK", ":25D::iprc//PACK",
        ":25C::IPRC//PACK", ":24B::REJT/GSCC/E001", ":24B::RJCT/GSCC/E001", ":24B:REJT/GSCC/E001", ":24B::REJ", ":70D::REAS//X", ":70D::REAS",
        ":70E::REAS//X", ":70D::NARR//X", ":16T:REAS"
    };
    size_t at = any_row(s);
    if (one_in(s->chance, 3))
        put(s, at, OTHER, PICK(s->chance, lines), "");
    else
        insert(s, at, OTHER, PICK(s->chance, lines), "");
}

/* A further LINK block, in place or elsewhere. */
static void further_link(struct sheet *s)
{
    static const char *const odd[] = { ":20C::INDX//1", ":20C::PROC//1", ":20C::SEME//1", ":20C::MAST", ":13B::LINK//515" };
    struct chance *c = s->chance;
    size_t at = one_in(c, 4) ? any_row(s) : find(s, STAT), which = below(c, 7);
    if (at == s->count)
        return;
    insert(s, at, LINK, ":16R:LINK", "");
    if (one_in(c, 4))
        insert(s, ++at, OTHER, PICK(c, odd), "");
    else if (!one_in(c, 5))
        insert(s, ++at, answer_links[which].label, answer_links[which].before, a_reference(c, which));
    insert(s, at + 1, LINK_END, ":16S:LINK", "");
}

/* The row of which REAS blocks may stand before: that of another REAS, or the end of STAT. */
static size_t where_reasons_stand(struct sheet *s)
{
    size_t at = find(s, REAS), end = find(s, STAT_END);
    for (size_t skip = below(s->chance, 11); skip > 0; skip--) {
        size_t next = find_from(s, REAS, at + 1);
        if (next < s->count)
            at = next;
    }
    return at < s->count && one_in(s->chance, 2) ? at : end;
}

/* REAS up to nine, ten, eleven or more; of a reject, so that ten are accepted. Some of the further ones are empty, stand in
 * another or outside. */
static void many_reasons(struct sheet *s)
{
    struct chance *c = s->chance;
    size_t wanted = between(c, 9, 13), have = 0;
    if (!one_in(c, 4)) {
        bool cancel = one_in(c, 2);
        set(s, STATUS, ":25D::", cancel ? "CPRC//REJT" : "IPRC//REJT");
        set(s, FUNCTION, ":23G:", cancel ? "CAST" : "INST");
    }
    for (size_t at = find(s, REAS); at < s->count; at = find_from(s, REAS, at + 1))
        have++;
    for (; have < wanted && s->count + 8 < MOST_ROWS; have++) {
        size_t at = one_in(c, 60) ? any_row(s) : where_reasons_stand(s);
        if (at == s->count)
            return;
        if (one_in(c, 40)) {
            insert(s, at, REAS_END, ":16S:REAS", "");
            insert(s, at, REAS, ":16R:REAS", "");
        } else
            insert_reason(s, at);
    }
}

/* ---------------------------------------------------------------- near misses: 10 and 12 */

static const struct value answer_values[] = {
    { SEME, ":20C::SEME", "//", TEXT, 1, 16 }, { FUNCTION, ":23G:", "", WORD, 0, 0 }, { PREP, ":98C::PREP", "//", MOMENT, 0, 0 },
    { MAST, ":20C::MAST", "//", TEXT, 1, 16 }, { PREV, ":20C::PREV", "//", TEXT, 1, 16 }, { RELA, ":20C::RELA", "//", TEXT, 1, 16 },
    { LIST, ":20C::LIST", "//", TEXT, 1, 16 }, { BASK, ":20C::BASK", "//", TEXT, 1, 16 }, { PROG, ":20C::PROG", "//", TEXT, 1, 16 },
    { COMM, ":20C::COMM", "//", TEXT, 1, 16 }, { STATUS, ":25D::", "", TAIL, 0, 0 }, { CODE, ":24B::REJT", "/GSCC/", TEXT, 4, 4 },
    { REASON, ":70D::REAS", "//", TAIL, 1, 35 }, { PREP, ":98C::PREP", "//", MOMENT, 0, 0 },
};

static const char *odd_function(struct chance *c)
{
    static const char *const words[] = {
        "INST", "CAST", "CAST/COPY", "INST/COPY", "CAST/", "CAST/COP", "CAST/COPYY", "CAST//COPY", "COPY", "/COPY", "cast", "INST ", " INST",
        "NEWM", "CANC", "INS", "INSTX", "", ":INST"
    };
    return PICK(c, words);
}

/* One of the thirty with its issuer put in or left out, its qualifier another's, cut, longer, in lower case. */
static const char *odd_status(struct chance *c)
{
    static const char *const qualifiers[] = { "IPRC", "CPRC", "MTCH", "XPRC", "iprc" };
    static const char *const issuers[] = { "//", "/GSCC/", "//GSCC/", "/DTCY/", "/", "" };
    static char made[WIDEST_ROW];
    const char *status = a_status(c), *word = status + strlen(status) - 4;
    paste(made, sizeof made, one_in(c, 8) ? PICK(c, qualifiers) : "", "");
    if (made[0] == 0) {
        memcpy(made, status, 4);
        made[4] = 0;
    }
    paste(made, sizeof made, made, PICK(c, issuers));
    paste(made, sizeof made, made, one_in(c, 6) ? odd_text(c, 4, 4) : word);
    if (one_in(c, 8))
        made[below(c, strlen(made) + 1)] = 0;
    return made;
}

static const char *odd_reason_text(struct chance *c)
{
    static char made[64];
    switch (below(c, 5)) {
    case 0: return "";
    case 1: return free_words(c, 35, 35);
    case 2: return free_words(c, 1, 1);
    case 3:
        paste(made, sizeof made, free_words(c, 35, 35), one_in(c, 2) ? " " : "XY");
        return made;
    default: return free_words(c, 1, 40);
    }
}

static const char *odd_answer_value(struct chance *c, const struct value *v)
{
    switch (v->form) {
    case TEXT: return odd_text(c, v->least, v->most);
    case WORD: return odd_function(c);
    case TAIL: return v->label == STATUS ? odd_status(c) : odd_reason_text(c);
    default: return odd_digits(c, v->form);
    }
}

/* One of the rows of a label. */
static size_t any_of(struct sheet *s, enum label label)
{
    size_t at = find(s, label);
    for (size_t next = at; next < s->count; next = find_from(s, label, next + 1))
        if (one_in(s->chance, 3))
            at = next;
    return at;
}

static void wrong_answer_value(struct sheet *s)
{
    const struct value *v = &PICK(s->chance, answer_values);
    size_t at = any_of(s, v->label);
    if (at == s->count)
        return;
    char before[40];
    paste(before, sizeof before, v->tag, v->fixed);
    put(s, at, v->label, before, odd_answer_value(s->chance, v));
}

/* The text between the qualifier and the value, or a part of the qualifier: cut, changed or longer. */
static void wrong_answer_fixed_text(struct sheet *s)
{
    static const char others[] = "/:.X0 g";
    const struct value *v = &PICK(s->chance, answer_values);
    size_t at = any_of(s, v->label), tag = strlen(v->tag), fixed = strlen(v->fixed);
    if (at == s->count)
        return;
    char *text = s->rows[at].text, other = others[below(s->chance, sizeof others - 1)];
    size_t wide = strlen(text), from = one_in(s->chance, 4) ? tag - 1 : tag, place = from + below(s->chance, fixed + 1);
    if (place >= wide)
        return;
    switch (below(s->chance, 4)) {
    case 0: text[place] = 0; return;
    case 1: text[place] = other; return;
    case 2: memmove(text + place, text + place + 1, wide - place); return;
    default: squeeze(text, place, other); return;
    }
}

/* ---------------------------------------------------------------- near misses: 13, 14 and 15 */

/* Another status, mostly with the function that goes with it. */
static void other_status(struct sheet *s)
{
    const char *status = a_status(s->chance);
    set(s, STATUS, ":25D::", status);
    if (!one_in(s->chance, 4))
        set(s, FUNCTION, ":23G:", is_cancel(status) ? "CAST" : "INST");
}

static void other_answer_function(struct sheet *s)
{
    static const char *const functions[] = { "INST", "CAST", "CAST/COPY", "CAST/COPY" };
    set(s, FUNCTION, ":23G:", PICK(s->chance, functions));
}

/* All of them gone, or one more. */
static void other_reasons(struct sheet *s)
{
    size_t end = find(s, STAT_END);
    if (one_in(s->chance, 3)) {
        if (end < s->count)
            insert_reason(s, end);
        return;
    }
    for (size_t at = find(s, REAS); at < s->count; at = find(s, REAS)) {
        size_t to = block_end(s, at);
        for (; to > at; to--)
            drop(s, at);
    }
}

/* A reject of a cancel, or one that has been processed, as a copy. */
static void copied(struct sheet *s)
{
    set(s, STATUS, ":25D::", one_in(s->chance, 2) ? "CPRC//CAND" : "CPRC//PACK");
    set(s, FUNCTION, ":23G:", "CAST/COPY");
    if (one_in(s->chance, 2))
        other_reasons(s);
}

static change *const answer_changes[] = {
    early_end, wrong_end, wrong_answer_header, wrong_answer_header, wrong_shape, wrong_nesting, nest, stray_answer_line, stray_answer_line,
    drop_row, drop_row, double_row, exchange_rows, move_row, drop_block, double_block, further_link, further_link, many_reasons, many_reasons,
    many_reasons, wrong_answer_value, wrong_answer_value, wrong_answer_value, wrong_answer_value, wrong_answer_value, wrong_answer_fixed_text,
    other_status, other_status, other_answer_function, other_reasons, other_reasons, copied
};

/* ---------------------------------------------------------------- records */

static void hold(struct text *into, const char *text)
{
    memset(into, 0, sizeof *into);
    into->length = strlen(text);
    memcpy(into->bytes, text, into->length);
}

static void hold_free(struct free_text *into, const char *text)
{
    memset(into, 0, sizeof *into);
    into->length = strlen(text);
    memcpy(into->bytes, text, into->length);
}

static struct moment to_moment(uint64_t n)
{
    return (struct moment){ { (unsigned)(n / 10000000000u), (unsigned)(n / 100000000 % 100), (unsigned)(n / 1000000 % 100) },
                            { (unsigned)(n / 10000 % 100), (unsigned)(n / 100 % 100), (unsigned)(n % 100) } };
}

/* The texts of a record in the order of the seven, and where they are mandatory. */
static struct text *reference_of(struct mt509_record *r, size_t which)
{
    struct text *of[] = { &r->mast, &r->prev, &r->rela, &r->list, &r->bask, &r->prog, &r->comm };
    return of[which];
}

static void hold_reasons(struct chance *c, struct mt509_record *r, size_t many)
{
    memset(r->reasons, 0, sizeof r->reasons);
    for (size_t k = 0; k < many; k++) {
        hold(&r->reasons[k].code, text_of(c, 4));
        if (one_in(c, 2) || c->widest)
            hold_free(&r->reasons[k].text, reason_text(c));
    }
}

static void writable_answer(struct chance *c, struct mt509_record *r)
{
    memset(r, 0, sizeof *r);
    const char *status = often_reject(c);
    while (strcmp(second_statuses[r->status], status) != 0)
        r->status++;
    r->copy = strcmp(status, "CPRC//CAND") == 0 && one_in(c, 2);
    hold(&r->password, text(c, 0, 12));
    hold(&r->receiver, text(c, 1, 8));
    hold(&r->reference, text(c, 1, 16));
    for (size_t i = 0; i < 7; i++)
        if (one_in(c, 2) || c->widest)
            hold(reference_of(r, i), a_reference(c, i));
    if (one_in(c, 2) || c->widest) {
        r->prep_present = 1;
        r->prep = to_moment(a_moment(c));
    }
    if (is_reject(status))
        hold_reasons(c, r, c->widest ? 10 : between(c, 1, 10));
}

/* A text past one of its edges: too wide, a byte out of its class, a byte behind it. */
static void break_text(struct chance *c, struct text *t, size_t most, bool hyphens)
{
    static const uint8_t odd[] = { 'a', 'z', ' ', '/', ':', '@', '[', '`', 0, 10, 0x7F, 0x80, 255, '-' };
    switch (below(c, 4)) {
    case 0: hold(t, text_of(c, between(c, most + 1, 20))); return;
    case 1: t->length = one_in(c, 2) ? 21 : (size_t)-1; return;
    case 2:
        if (t->length == 0)
            hold(t, "A");
        t->bytes[below(c, t->length)] = odd[below(c, sizeof odd - hyphens)];
        return;
    default:
        t->bytes[between(c, t->length, WIDEST_TEXT - 1)] = one_in(c, 2) ? 'A' : 1;
        return;
    }
}

static void break_free_text(struct chance *c, struct free_text *t)
{
    static const uint8_t odd[] = { 0, 9, 10, 13, 0x1F, 0x7F, 0x80, 255 };
    if (t->length == 0)
        hold_free(t, "A");
    switch (below(c, 3)) {
    case 0: t->length = one_in(c, 2) ? 36 : (size_t)-1; return;
    case 1: t->bytes[below(c, t->length)] = PICK(c, odd); return;
    default:
        if (t->length < WIDEST_FREE_TEXT)
            t->bytes[between(c, t->length, WIDEST_FREE_TEXT - 1)] = ' ';
        else
            t->length--;
        return;
    }
}

static void break_reasons(struct chance *c, struct mt509_record *r)
{
    size_t k = below(c, MOST_REASONS);
    hold_reasons(c, r, MOST_REASONS);
    switch (below(c, 5)) {
    case 0: hold(&r->reasons[k].code, text_of(c, between(c, 1, 3))); return;
    case 1: hold(&r->reasons[k].code, text_of(c, 5)); return;
    case 2: break_text(c, &r->reasons[k].code, 4, false); return;
    case 3: break_free_text(c, &r->reasons[k].text); return;
    default:
        k = below(c, MOST_REASONS - 1);                 /* a gap; or a text that has lost its code */
        if (one_in(c, 2))
            memset(&r->reasons[k], 0, sizeof r->reasons[k]);
        else {
            memset(&r->reasons[k].code, 0, sizeof r->reasons[k].code);
            hold_free(&r->reasons[k].text, "A");
        }
        return;
    }
}

/* 18 in one way, whatever else the record is. */
static void break_record(struct chance *c, struct mt509_record *r)
{
    static const int odd[] = { -1, 30, 31, 255, 256, -2147483647 };
    size_t which = below(c, 7);
    switch (below(c, 9)) {
    case 0: r->status = PICK(c, odd); return;
    case 1: r->copy = one_in(c, 2) ? 2 : -1; return;
    case 2: break_text(c, &r->password, 12, false); return;
    case 3:
        if (one_in(c, 3))
            hold(&r->receiver, "");
        else
            break_text(c, &r->receiver, 8, false);
        return;
    case 4:
        if (one_in(c, 3))
            hold(&r->reference, "");
        else
            break_text(c, &r->reference, 16, false);
        return;
    case 5:
        r->prep_present = 1;
        r->prep = to_moment(a_moment(c));
        switch (below(c, 6)) {
        case 0: r->prep_present = 0; return;
        case 1: r->prep_present = 2; return;
        case 2: r->prep.date.day = days(r->prep.date.year, r->prep.date.month) + 1; return;
        case 3: r->prep.date.year = one_in(c, 2) ? 0 : 10000; return;
        case 4: r->prep.time.minute = 60; return;
        default: memset(&r->prep, 0, sizeof r->prep); return;
        }
    case 6: break_reasons(c, r); return;
    default: break_text(c, reference_of(r, which), 16, answer_links[which].hyphens); return;
    }
}

/* 14 or 15 in one way; answers which. */
static int break_rule(struct chance *c, struct mt509_record *r)
{
    static const int others[] = { 0, 2, 13, 14, 16, 17, 25, 26, 29 };
    bool reject = is_reject(second_statuses[r->status]);
    if (reject && one_in(c, 2)) {
        memset(r->reasons, 0, sizeof r->reasons);
        r->copy = one_in(c, 2);
        return KIND_MUST;
    }
    if (one_in(c, 2)) {
        if (!reject && strcmp(second_statuses[r->status], "CPRC//CAND") == 0)
            r->status = 14;
        r->copy = 1;
        return KIND_MAY_NOT;
    }
    r->status = PICK(c, others);
    hold_reasons(c, r, between(c, 1, 10));
    r->copy = one_in(c, 4);
    return KIND_MAY_NOT;
}

int make_mt509_record(struct chance *chance, struct mt509_record *record)
{
    writable_answer(chance, record);
    int number = one_in(chance, 3) ? break_rule(chance, record) : ACCEPTED;
    if (!one_in(chance, 3))
        return number;
    break_record(chance, record);
    return BAD_RECORD;
}

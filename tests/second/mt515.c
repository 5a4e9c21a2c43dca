/* mt515.c - our own profile of the second program, from document 01: its slots, its kinds, the
 * narrative, what a record must be, writing; and the desk's lister. */

/* ---------------------------------------------------------------- the slots, in order */

static const struct slot our_slots[] = {
    OPEN(TOP, ":16R:GENL", 1, 1, GENL),
    OPEN(TOP, ":16R:CONFDET", 1, 1, CONFDET),
    OPEN(TOP, "-", 1, 1, NO_BLOCK),

    LINE(GENL, ":20C::SEME", 1, 1, "//", TEXT, 1, 16),
    LINE(GENL, ":23G:", 1, 2, "", FUNCTION, 0, 0),
    LINE(GENL, ":98C::PREP", 0, 3, "//", MOMENT, 0, 0),
    LINE(GENL, ":22F::TRTR", 1, 0, "/GSCC/CASH", NO_VALUE, 0, 0),
    OPEN(GENL, ":16R:LINK", 0, ANY_NUMBER, LINK),
    CLOSE(GENL, ":16S:GENL"),

    CHOICE(LINK, 4, "//", 1, 16, ":20C::MAST", ":20C::PREV", ":20C::LIST"),
    CLOSE(LINK, ":16S:LINK"),

    LINE(CONFDET, ":98C::TRAD", 1, 7, "//", MOMENT, 0, 0),
    LINE(CONFDET, ":98A::SETT", 1, 8, "//", DATE, 0, 0),
    LINE(CONFDET, ":90A::DEAL", 1, 9, "//PRCT/", AMOUNT, 0, 0),
    LINE(CONFDET, ":22H::BUSE", 1, 10, "//", WORD, 0, 0),
    LINE(CONFDET, ":22F::PROC", 1, 11, "/GSCC/", WORD, 0, 0),
    LINE(CONFDET, ":22H::PAYM", 1, 0, "//APMT", NO_VALUE, 0, 0),
    OPEN(CONFDET, ":16R:CONFPRTY", 2, 2, CONFPRTY),
    LINE(CONFDET, ":36B::CONF", 1, 18, "//FAMT/", AMOUNT, 0, 0),
    LINE(CONFDET, ":35B:", 1, 19, "/US/", TEXT, 9, 9),
    OPEN(CONFDET, ":16R:FIA", 0, 1, FIA),
    LINE(CONFDET, ":70E::TPRO", 1, 21, "//GSCC/", NARRATIVE, 0, 0),
    CLOSE(CONFDET, ":16S:CONFDET"),

    CHOICE(CONFPRTY, 12, "/GSCC/PART", 4, 4, ":95R::BUYR", ":95R::SELL"),
    LINE(CONFPRTY, ":20C::PROC", 0, 13, "//", TEXT, 1, 16),
    LINE(CONFPRTY, ":70C::PACO", 0, 14, "//GSCC/TDID", TEXT, 1, 20),
    CLOSE(CONFPRTY, ":16S:CONFPRTY"),

    LINE(FIA, ":13B::POOL", 1, 20, "/GSCC/", TEXT, 1, 9),
    CLOSE(FIA, ":16S:FIA"),
};

static const char *const our_kinds[] = { "INST", "CANC", "MDFC", "TDDK", NULL };
static const char *const tdsv_words[] = { "SBOD", "TFTD", "STIP", NULL };

#define AT(of) offsetof(struct record, of)

static const struct place our_places[] = {
    [1] = { .at = AT(reference) },
    [3] = { .at = AT(prep), .present = AT(prep_present) },
    [4] = { .at = AT(mast) },
    [5] = { .at = AT(prev) },
    [6] = { .at = AT(list) },
    [7] = { .at = AT(trade) },
    [8] = { .at = AT(settlement) },
    [9] = { .at = AT(price.amount) },
    [10] = { .at = AT(side), .words = side_words },
    [11] = { .at = AT(kind), .words = our_kinds },
    [12] = { .at = AT(buyer.code) },
    [13] = { .at = AT(buyer.contra) },
    [14] = { .at = AT(buyer.tdid) },
    [15] = { .at = AT(seller.code) },
    [16] = { .at = AT(seller.contra) },
    [17] = { .at = AT(seller.tdid) },
    [18] = { .at = AT(par.amount) },
    [19] = { .at = AT(identifier) },
    [20] = { .at = AT(pool) },
    [FIELDS + 1] = { .at = AT(password) },
    [FIELDS + 2] = { .at = AT(sender) },
};

/* INST, CANC, MDFC, TDDK */
static const struct rule our_rules[] = {
    { A_TEXT, AT(mast), "MMM-" },
    { A_TEXT, AT(prev), "--O-" },
    { A_TEXT, AT(list), "-OO-" },
    { OTHER_SIDES_CONTRA, 0, "---M" },
    { OWN_SIDES_CONTRA, 0, "----" },
    { A_TEXT, AT(dkrs), "---M" },
    { A_FLAG, AT(gupp_present), "OOO-" },
};

/* ---------------------------------------------------------------- the narrative */

/* 70E after `//GSCC/`: TDSV and a word, perhaps /GUPP and a digit, perhaps /DKRS and 4 c. */
static int our_read_narrative(const uint8_t *at, size_t length, void *read)
{
    struct record *record = read;
    if (!go_past(&at, &length, "TDSV") || length < 4)
        return BAD_VALUE;
    record->word = word_in(at, 4, tdsv_words);
    if (record->word < 0)
        return BAD_VALUE;
    at += 4;
    length -= 4;
    if (go_past(&at, &length, "/GUPP")) {
        if (length < 1 || !is_digit(at[0]))
            return BAD_VALUE;
        record->gupp_present = 1;
        record->gupp = (unsigned)(at[0] - '0');
        at += 1;
        length -= 1;
    }
    return read_dkrs(&at, &length, &record->dkrs) && length == 0 ? ACCEPTED : BAD_VALUE;
}

/* ---------------------------------------------------------------- writing a record */

static bool our_party_stands(const struct party *party)
{
    return text_stands(&party->code, 4, 4)
        && optional_text_stands(&party->contra, 1, 16)
        && optional_text_stands(&party->tdid, 1, 20);
}

static bool our_record_stands(const void *written)
{
    const struct record *record = written;
    return record->kind >= KIND_INST && record->kind <= KIND_TDDK
        && text_stands(&record->password, 0, 12)
        && text_stands(&record->sender, 1, 8)
        && text_stands(&record->reference, 1, 16)
        && optional_moment_stands(record->prep_present, &record->prep)
        && optional_text_stands(&record->mast, 1, 16)
        && optional_text_stands(&record->prev, 1, 16)
        && optional_text_stands(&record->list, 1, 16)
        && moment_stands(&record->trade)
        && is_date(&record->settlement)
        && amount_stands(&record->price.amount)
        && (record->side == SIDE_BUYI || record->side == SIDE_SELL)
        && our_party_stands(&record->buyer)
        && our_party_stands(&record->seller)
        && amount_stands(&record->par.amount)
        && text_stands(&record->identifier, 9, 9)
        && optional_text_stands(&record->pool, 1, 9)
        && record->word >= WORD_SBOD && record->word <= WORD_STIP
        && (record->gupp_present == 0 ? record->gupp == 0
            : record->gupp_present == 1 && record->gupp <= 9)
        && optional_text_stands(&record->dkrs, 4, 4);
}

static void our_put_party(struct page *page, const char *before, const struct party *party)
{
    put_line(page, ":16R:CONFPRTY");
    put_text_line(page, before, &party->code);
    put_optional_line(page, ":20C::PROC//", &party->contra);
    put_optional_line(page, ":70C::PACO//GSCC/TDID", &party->tdid);
    put_line(page, ":16S:CONFPRTY");
}

/* The narrative of 70E from `GSCC` on. */
static void our_put_narrative(struct page *page, const struct record *record)
{
    put_words(page, "GSCC/TDSV");
    put_words(page, tdsv_words[record->word]);
    if (record->gupp_present) {
        put_words(page, "/GUPP");
        put_number(page, record->gupp, 1);
    }
    put_dkrs(page, &record->dkrs);
}

static size_t our_put_message(struct page *page, const void *written)
{
    const struct record *record = written;
    put_text_line(page, "", &record->password);
    put_text_line(page, "", &record->sender);
    put_line(page, "515/000/GSCC");
    put_line(page, "MBSCTRRS");

    put_line(page, ":16R:GENL");
    put_text_line(page, ":20C::SEME//", &record->reference);
    put_line(page, record->kind == KIND_CANC ? ":23G:CANC" : ":23G:NEWM");
    if (record->prep_present)
        put_moment_line(page, ":98C::PREP//", &record->prep);
    put_line(page, ":22F::TRTR/GSCC/CASH");
    put_link(page, ":20C::MAST//", &record->mast);
    put_link(page, ":20C::PREV//", &record->prev);
    put_link(page, ":20C::LIST//", &record->list);
    put_line(page, ":16S:GENL");

    put_line(page, ":16R:CONFDET");
    put_moment_line(page, ":98C::TRAD//", &record->trade);
    put_date_line(page, ":98A::SETT//", &record->settlement);
    put_amount_line(page, ":90A::DEAL//PRCT/", &record->price.amount);
    put_words(page, ":22H::BUSE//");
    put_line(page, side_words[record->side]);
    put_words(page, ":22F::PROC/GSCC/");
    put_line(page, our_kinds[record->kind]);
    put_line(page, ":22H::PAYM//APMT");
    our_put_party(page, ":95R::BUYR/GSCC/PART", &record->buyer);
    our_put_party(page, ":95R::SELL/GSCC/PART", &record->seller);
    put_amount_line(page, ":36B::CONF//FAMT/", &record->par.amount);
    put_text_line(page, ":35B:/US/", &record->identifier);
    if (record->pool.length > 0) {
        put_line(page, ":16R:FIA");
        put_text_line(page, ":13B::POOL/GSCC/", &record->pool);
        put_line(page, ":16S:FIA");
    }
    put_words(page, ":70E::TPRO//");
    size_t before = page->length;
    our_put_narrative(page, record);
    size_t narrative = page->length - before;
    put_end(page);
    put_line(page, ":16S:CONFDET");
    put_line(page, "-");
    return narrative;
}

/* ---------------------------------------------------------------- the profile */

const struct profile second_mt515 = {
    .header = { NULL, "515/000/GSCC", "MBSCTRRS" },
    .slots = our_slots,
    .slot_count = sizeof our_slots / sizeof our_slots[0],
    .fields = FIELDS,
    .block_fields = 3,
    .places = our_places,
    .functions = trade_functions,
    .rules = our_rules,
    .rule_count = sizeof our_rules / sizeof our_rules[0],
    .record_size = sizeof(struct record),
    .kind = AT(kind),
    .side = AT(side),
    .contra = { AT(buyer.contra), AT(seller.contra) },
    .trade = AT(trade),
    .settlement = AT(settlement),
    .par = AT(par),
    .function_stands = function_of_kind,
    .judge = kind_number,
    .read_narrative = our_read_narrative,
    .record_stands = our_record_stands,
    .put_message = our_put_message,
};

#undef AT

void second_blank(struct record *record)
{
    second_blank_by(&second_mt515, record);
}

struct answer second_read(const uint8_t *message, size_t length, struct record *record)
{
    return second_read_by(&second_mt515, message, length, record);
}

struct written second_plain(const uint8_t *message, size_t length, uint8_t *buffer, size_t room)
{
    return second_plain_by(&second_mt515, message, length, buffer, room);
}

struct written second_write(const struct record *record, uint8_t *buffer, size_t room)
{
    return second_write_by(&second_mt515, record, buffer, room);
}

struct next second_next(const uint8_t *batch, size_t length, size_t position, struct record *record)
{
    return second_next_by(&second_mt515, batch, length, position, record);
}

struct stretch second_field(const uint8_t *message, size_t length, unsigned field)
{
    return second_field_by(&second_mt515, message, length, field);
}

/* ---------------------------------------------------------------- the lister */

/* `-` for what is absent or refused. */
static void print_text(FILE *out, const struct text *text)
{
    if (text->length == 0)
        fputs(" -", out);
    else
        fprintf(out, " %.*s", (int)text->length, (const char *)text->bytes);
}

/* Fields: message, number, line, kind, MAST, buyer, seller. */
void second_lister_line(FILE *out, size_t message, struct answer answer, const struct record *record)
{
    fprintf(out, "%zu %d %zu %s", message, answer.number, answer.line,
            answer.number == ACCEPTED ? our_kinds[record->kind] : "-");
    print_text(out, &record->mast);
    print_text(out, &record->buyer.code);
    print_text(out, &record->seller.code);
    fputc('\n', out);
}

void second_lister(FILE *out, const uint8_t *input, size_t length)
{
    if (length > LONGEST_LISTED) {
        fputs("TOO LONG\n", out);
        return;
    }
    fputs("MSG CODE LINE KIND MAST BUYR SELL\n", out);
    struct record record;
    size_t message = 1;
    struct next next = second_next(input, length, 0, &record);
    while (next.state == NEXT_MESSAGE) {
        second_lister_line(out, message++, next.answer, &record);
        next = second_next(input, length, next.position, &record);
    }
}

/* mt509.c - the MT509 of the second program, the answers that come back, from the page of request A3: its slots, its statuses,
 * what a record must be, writing; and the list of answers. */

/* ---------------------------------------------------------------- the slots, in order */

static const struct slot mt509_slots[] = {
    OPEN(TOP, ":16R:GENL", 1, 1, GENL),
    OPEN(TOP, "-", 1, 1, NO_BLOCK),

    LINE(GENL, ":20C::SEME", 1, 1, "//", TEXT, 1, 16),
    LINE(GENL, ":23G:", 1, 2, "", FUNCTION, 0, 0),
    LINE(GENL, ":98C::PREP", 0, 3, "//", MOMENT, 0, 0),
    OPEN(GENL, ":16R:LINK", 0, ANY_NUMBER, LINK),
    OPEN(GENL, ":16R:STAT", 1, 1, STAT),
    CLOSE(GENL, ":16S:GENL"),

    /* in the order of the plain form, and which of them may have a hyphen is said with their places */
    CHOICE(LINK, 4, "//", 1, 16, ":20C::MAST", ":20C::PREV", ":20C::RELA", ":20C::LIST", ":20C::BASK", ":20C::PROG", ":20C::COMM"),
    CLOSE(LINK, ":16S:LINK"),

    /* 25D: the value begins at the qualifier, so that it tells the status alone */
    { .block = STAT, .fits = { ":25D::IPRC", ":25D::CPRC", ":25D::MTCH" }, .least = 1, .most = 1, .opens = NO_BLOCK, .field = 11,
      .fixed = "", .form = WORD, .kept = 4 },
    { .block = STAT, .fits = { ":16R:REAS" }, .whole = true, .least = 0, .most = MOST_REASONS, .opens = REAS, .fixed = "",
      .over = TOO_MANY_REASONS },
    CLOSE(STAT, ":16S:STAT"),

    LINE(REAS, ":24B::REJT", 1, 12, "/GSCC/", TEXT, 4, 4),
    LINE(REAS, ":70D::REAS", 0, 13, "//", FREE_TEXT, 1, 35),
    CLOSE(REAS, ":16S:REAS"),
};

const char *const second_statuses[STATUSES + 1] = {
    "IPRC//PACK", "IPRC//REJT", "IPRC/GSCC/MODA", "IPRC/GSCC/MODP", "IPRC/GSCC/PAMS", "IPRC/GSCC/YPPR", "IPRC/GSCC/PADK",
    "IPRC/GSCC/DPPR", "IPRC/GSCC/DELE", "IPRC/GSCC/DEPS", "IPRC/GSCC/DESA", "IPRC/GSCC/TUNB", "IPRC/GSCC/TBAL", "IPRC/GSCC/DNAL",
    "CPRC//PACK", "CPRC//REJT", "CPRC//CAND", "CPRC/GSCC/PACS", "CPRC/GSCC/XPPR", "CPRC/GSCC/UPBP", "CPRC/GSCC/UPBR",
    "CPRC/GSCC/UPBC", "CPRC/GSCC/VPBP", "CPRC/GSCC/VPBR", "CPRC/GSCC/VPBC", "CPRC/GSCC/CDNA",
    "MTCH//MACH", "MTCH/GSCC/MAPL", "MTCH/GSCC/MAPS", "MTCH/GSCC/MAFM", NULL
};

/* By their places in the list. */
enum { REJECTED = 1, FIRST_CANCEL = 14, CANCEL_REJECTED = 15, CANCEL_PROCESSED = 16, FIRST_MATCH = 26 };

enum { INSTRUCTED, CANCELLED, CANCELLED_COPY };
static const char *const mt509_functions[] = { "INST", "CAST", "CAST/COPY", NULL };

#define AT(of) offsetof(struct mt509_record, of)
#define REASON(k) \
    [10 + 2 * (k)] = { .at = AT(reasons) + ((k) - 1) * sizeof(struct reason) + offsetof(struct reason, code) }, \
    [11 + 2 * (k)] = { .at = AT(reasons) + ((k) - 1) * sizeof(struct reason) + offsetof(struct reason, text) }

static const struct place mt509_places[] = {
    [1] = { .at = AT(reference) },
    [3] = { .at = AT(prep), .present = AT(prep_present) },
    [4] = { .at = AT(mast) },
    [5] = { .at = AT(prev), .hyphens = true },
    [6] = { .at = AT(rela) },
    [7] = { .at = AT(list), .hyphens = true },
    [8] = { .at = AT(bask), .hyphens = true },
    [9] = { .at = AT(prog), .hyphens = true },
    [10] = { .at = AT(comm), .hyphens = true },
    [11] = { .at = AT(status), .words = second_statuses },
    REASON(1), REASON(2), REASON(3), REASON(4), REASON(5), REASON(6), REASON(7), REASON(8), REASON(9), REASON(10),
    [FIELDS_OF_MT509 + 1] = { .at = AT(password) },
    [FIELDS_OF_MT509 + 2] = { .at = AT(receiver) },
};

/* ---------------------------------------------------------------- the rules by status */

static bool is_of_cancel(int status) { return status >= FIRST_CANCEL && status < FIRST_MATCH; }

static bool is_reject(int status) { return status == REJECTED || status == CANCEL_REJECTED; }

/* The first stands where any does. */
static bool has_reason(const struct mt509_record *record) { return record->reasons[0].code.length > 0; }

static void mt509_hold_function(int function, void *read)
{
    struct mt509_record *record = read;
    record->copy = function == CANCELLED_COPY;
}

/* CAST, as a copy or not, is of a cancel, and INST of all else. */
static bool mt509_function_stands(const struct profile *by, int function, const void *read)
{
    const struct mt509_record *record = read;
    (void)by;
    return (function != INSTRUCTED) == is_of_cancel(record->status);
}

/* A reject has a reason and nothing else has one; a copy is of a processed cancel. */
static int mt509_judge(const struct profile *by, const void *read)
{
    const struct mt509_record *record = read;
    (void)by;
    if (is_reject(record->status) && !has_reason(record))
        return KIND_MUST;
    if (!is_reject(record->status) && has_reason(record))
        return KIND_MAY_NOT;
    return record->copy && record->status != CANCEL_PROCESSED ? KIND_MAY_NOT : ACCEPTED;
}

/* ---------------------------------------------------------------- writing a record */

/* A reference that may be absent, and may have hyphens. */
static bool hyphened_stands(const struct text *text)
{
    return bytes_stand(text->bytes, WIDEST_TEXT, text->length, 0, 16, is_c_or_hyphen);
}

static bool reason_stands(const struct reason *reason)
{
    const struct free_text *text = &reason->text;
    return optional_text_stands(&reason->code, 4, 4)
        && bytes_stand(text->bytes, WIDEST_FREE_TEXT, text->length, 0, WIDEST_FREE_TEXT, is_printable)
        && (text->length == 0 || reason->code.length > 0);
}

/* Each by itself, and none behind one that does not stand. */
static bool reasons_stand(const struct reason reasons[MOST_REASONS])
{
    for (size_t k = 0; k < MOST_REASONS; k++) {
        if (!reason_stands(&reasons[k]))
            return false;
        if (k > 0 && reasons[k].code.length > 0 && reasons[k - 1].code.length == 0)
            return false;
    }
    return true;
}

static bool mt509_record_stands(const void *written)
{
    const struct mt509_record *record = written;
    return (record->copy == 0 || record->copy == 1)
        && record->status >= 0 && record->status < STATUSES
        && text_stands(&record->password, 0, 12)
        && text_stands(&record->receiver, 1, 8)
        && text_stands(&record->reference, 1, 16)
        && optional_moment_stands(record->prep_present, &record->prep)
        && optional_text_stands(&record->mast, 1, 16)
        && hyphened_stands(&record->prev)
        && optional_text_stands(&record->rela, 1, 16)
        && hyphened_stands(&record->list)
        && hyphened_stands(&record->bask)
        && hyphened_stands(&record->prog)
        && hyphened_stands(&record->comm)
        && reasons_stand(record->reasons);
}

static void put_reason(struct page *page, const struct reason *reason)
{
    if (reason->code.length == 0)
        return;
    put_line(page, ":16R:REAS");
    put_text_line(page, ":24B::REJT/GSCC/", &reason->code);
    if (reason->text.length > 0) {
        put_words(page, ":70D::REAS//");
        put(page, reason->text.bytes, reason->text.length);
        put_end(page);
    }
    put_line(page, ":16S:REAS");
}

/* There is no narrative that could be too long (20). */
static size_t mt509_put_message(struct page *page, const void *written)
{
    const struct mt509_record *record = written;
    put_text_line(page, "", &record->password);
    put_line(page, "MBSCTRRS");
    put_line(page, "509/000/GSCC");
    put_text_line(page, "", &record->receiver);

    put_line(page, ":16R:GENL");
    put_text_line(page, ":20C::SEME//", &record->reference);
    put_words(page, ":23G:");
    put_line(page, mt509_functions[record->copy ? CANCELLED_COPY : is_of_cancel(record->status) ? CANCELLED : INSTRUCTED]);
    if (record->prep_present)
        put_moment_line(page, ":98C::PREP//", &record->prep);
    put_link(page, ":20C::MAST//", &record->mast);
    put_link(page, ":20C::PREV//", &record->prev);
    put_link(page, ":20C::RELA//", &record->rela);
    put_link(page, ":20C::LIST//", &record->list);
    put_link(page, ":20C::BASK//", &record->bask);
    put_link(page, ":20C::PROG//", &record->prog);
    put_link(page, ":20C::COMM//", &record->comm);
    put_line(page, ":16R:STAT");
    put_words(page, ":25D::");
    put_line(page, second_statuses[record->status]);
    for (size_t k = 0; k < MOST_REASONS; k++)
        put_reason(page, &record->reasons[k]);
    put_line(page, ":16S:STAT");
    put_line(page, ":16S:GENL");
    put_line(page, "-");
    return 0;
}

/* ---------------------------------------------------------------- the type */

const struct profile second_mt509 = {
    .header = { "MBSCTRRS", "509/000/GSCC", NULL },
    .slots = mt509_slots,
    .slot_count = sizeof mt509_slots / sizeof mt509_slots[0],
    .fields = FIELDS_OF_MT509,
    .block_fields = 2,
    .places = mt509_places,
    .functions = mt509_functions,
    .record_size = sizeof(struct mt509_record),
    .hold_function = mt509_hold_function,
    .function_stands = mt509_function_stands,
    .judge = mt509_judge,
    .record_stands = mt509_record_stands,
    .put_message = mt509_put_message,
};

#undef REASON
#undef AT

/* ---------------------------------------------------------------- the list of answers */

/* The codes of the reasons that stand, or `-`. */
static void print_reasons(FILE *out, const struct reason reasons[MOST_REASONS])
{
    if (reasons[0].code.length == 0)
        fputs(" -", out);
    for (size_t k = 0; k < MOST_REASONS && reasons[k].code.length > 0; k++)
        fprintf(out, "%c%.4s", k == 0 ? ' ' : ',', (const char *)reasons[k].code.bytes);
}

/* The status is its qualifier and its word, four letters each, without the issuer. */
void second_answers_columns(FILE *out, struct answer answer, const struct mt509_record *record)
{
    const char *status = second_statuses[record->status];
    if (answer.number == ACCEPTED)
        fprintf(out, " %.4s/%s", status, status + strlen(status) - 4);
    else
        fputs(" -", out);
    print_text(out, &record->mast);
    print_text(out, &record->list);
    print_text(out, &record->rela);
    print_reasons(out, record->reasons);
}

void second_answers(FILE *out, const uint8_t *input, size_t length)
{
    if (length > LONGEST_LISTED) {
        fputs("TOO LONG\n", out);
        return;
    }
    fputs("MSG CODE LINE STATUS MAST LIST RELA REASONS\n", out);
    struct mt509_record record;
    size_t message = 1;
    struct next next = second_next_by(&second_mt509, input, length, 0, &record);
    while (next.state == NEXT_MESSAGE) {
        fprintf(out, "%zu %d %zu", message++, next.answer.number, next.answer.line);
        second_answers_columns(out, next.answer, &record);
        fputc('\n', out);
        next = second_next_by(&second_mt509, input, length, next.position, &record);
    }
}

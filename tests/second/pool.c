/* pool.c - the pool netting members' profile of the second program, from the page of request A1: its slots, its kinds, the
 * narrative, what a record must be, writing. */

/* ---------------------------------------------------------------- the slots, in order */

static const struct slot pool_slots[] = {
    OPEN(TOP, ":16R:GENL", 1, 1, GENL),
    OPEN(TOP, ":16R:CONFDET", 1, 1, CONFDET),
    OPEN(TOP, "-", 1, 1, NO_BLOCK),

    LINE(GENL, ":20C::SEME", 1, 1, "//", TEXT, 1, 16),
    LINE(GENL, ":23G:", 1, 2, "", FUNCTION, 0, 0),
    LINE(GENL, ":22F::TRTR", 1, 0, "/DTCY/CASH", NO_VALUE, 0, 0),
    OPEN(GENL, ":16R:LINK", 0, ANY_NUMBER, LINK),
    CLOSE(GENL, ":16S:GENL"),

    CHOICE(LINK, 3, "//", 1, 16, ":20C::MAST", ":20C::PREV", ":20C::LIST"),
    CLOSE(LINK, ":16S:LINK"),

    LINE(CONFDET, ":98C::TRAD", 1, 6, "//", MOMENT, 0, 0),
    LINE(CONFDET, ":98A::SETT", 1, 7, "//", DATE, 0, 0),
    LINE(CONFDET, ":90A::DEAL", 1, 8, "//PRCT/", AMOUNT, 0, 0),
    LINE(CONFDET, ":19A::SETT", 0, 9, "//USD", AMOUNT, 0, 0),
    LINE(CONFDET, ":22H::BUSE", 1, 10, "//", WORD, 0, 0),
    LINE(CONFDET, ":22F::PROC", 1, 11, "/DTCY/", WORD, 0, 0),
    LINE(CONFDET, ":22H::PAYM", 1, 0, "//APMT", NO_VALUE, 0, 0),
    OPEN(CONFDET, ":16R:CONFPRTY", 2, 2, CONFPRTY),
    LINE(CONFDET, ":36B::CONF", 1, 16, "//FAMT/", AMOUNT, 0, 0),
    LINE(CONFDET, ":35B:", 1, 17, "/US/", TEXT, 9, 9),
    OPEN(CONFDET, ":16R:FIA", 0, 1, FIA),
    LINE(CONFDET, ":70E::TPRO", 1, 19, "//DTCY/", NARRATIVE, 0, 0),
    CLOSE(CONFDET, ":16S:CONFDET"),

    CHOICE(CONFPRTY, 12, "/DTCY/PART", 4, 4, ":95R::BUYR", ":95R::SELL"),
    LINE(CONFPRTY, ":20C::PROC", 0, 13, "//", TEXT, 1, 16),
    CLOSE(CONFPRTY, ":16S:CONFPRTY"),

    LINE(FIA, ":13B::POOL", 1, 18, "/DTCY/", TEXT, 1, 9),
    CLOSE(FIA, ":16S:FIA"),
};

static const char *const pool_kinds[] = { "INST", "CANC", "MDFC", "TDDK", "CDRQ", "CDRL", NULL };

#define AT(of) offsetof(struct pool_record, of)

static const struct place pool_places[] = {
    [1] = { .at = AT(reference) },
    [3] = { .at = AT(mast) },
    [4] = { .at = AT(prev) },
    [5] = { .at = AT(list) },
    [6] = { .at = AT(trade) },
    [7] = { .at = AT(settlement) },
    [8] = { .at = AT(price.amount) },
    [9] = { .at = AT(money.amount), .present = AT(money_present) },
    [10] = { .at = AT(side), .words = side_words },
    [11] = { .at = AT(kind), .words = pool_kinds },
    [12] = { .at = AT(buyer.code) },
    [13] = { .at = AT(buyer.contra) },
    [14] = { .at = AT(seller.code) },
    [15] = { .at = AT(seller.contra) },
    [16] = { .at = AT(par.amount) },
    [17] = { .at = AT(identifier) },
    [18] = { .at = AT(pool) },
    [FIELDS_OF_POOL + 1] = { .at = AT(password) },
    [FIELDS_OF_POOL + 2] = { .at = AT(sender) },
};

/* INST, CANC, MDFC, TDDK, CDRQ, CDRL. Every kind may have 19A, FIA and DDTE, of which there is no rule here. */
static const struct rule pool_rules[] = {
    { A_TEXT, AT(mast), "MMMOMM" },
    { A_TEXT, AT(prev), "-OO---" },
    { A_TEXT, AT(list), "-OO-OO" },
    { OTHER_SIDES_CONTRA, 0, "---M--" },
    { OWN_SIDES_CONTRA, 0, "------" },
    { A_FLAG, AT(cdry), "OOO-OO" },
    { A_TEXT, AT(dkrs), "---M--" },
};

/* ---------------------------------------------------------------- the narrative */

/* 70E after `//DTCY/`: TDSVPOOL, perhaps /CDRY, perhaps /DDTE and a date, perhaps /DKRS and 4 c. The date is all up to the next
 * slash; it is looked at last, since text of another shape is 10 whatever stands for it. */
static int pool_read_narrative(const uint8_t *at, size_t length, void *read)
{
    struct pool_record *record = read;
    const uint8_t *date = NULL;
    size_t wide = 0;
    if (!go_past(&at, &length, "TDSVPOOL"))
        return BAD_VALUE;
    if (go_past(&at, &length, "/CDRY"))
        record->cdry = 1;
    if (go_past(&at, &length, "/DDTE")) {
        date = at;
        while (wide < length && date[wide] != '/')
            wide++;
        at += wide;
        length -= wide;
    }
    if (!read_dkrs(&at, &length, &record->dkrs) || length > 0)
        return BAD_VALUE;
    if (date == NULL)
        return ACCEPTED;
    record->ddte_present = 1;
    return read_date(date, wide, &record->ddte) ? ACCEPTED : BAD_DATE;
}

/* ---------------------------------------------------------------- writing a record */

static bool pool_party_stands(const struct pool_party *party)
{
    return text_stands(&party->code, 4, 4) && optional_text_stands(&party->contra, 1, 16);
}

/* Zero is an amount; what is absent has no digits and no decimals beside it. */
static bool money_stands(int present, const struct amount *amount)
{
    return present == 0 ? amount->digits == 0 && amount->decimals == 0 : present == 1 && amount_stands(amount);
}

static bool pool_record_stands(const void *written)
{
    const struct pool_record *record = written;
    return record->kind >= KIND_INST && record->kind <= KIND_CDRL
        && text_stands(&record->password, 0, 12)
        && text_stands(&record->sender, 1, 8)
        && text_stands(&record->reference, 1, 16)
        && optional_text_stands(&record->mast, 1, 16)
        && optional_text_stands(&record->prev, 1, 16)
        && optional_text_stands(&record->list, 1, 16)
        && moment_stands(&record->trade)
        && is_date(&record->settlement)
        && amount_stands(&record->price.amount)
        && money_stands(record->money_present, &record->money.amount)
        && (record->side == SIDE_BUYI || record->side == SIDE_SELL)
        && pool_party_stands(&record->buyer)
        && pool_party_stands(&record->seller)
        && amount_stands(&record->par.amount)
        && text_stands(&record->identifier, 9, 9)
        && optional_text_stands(&record->pool, 1, 9)
        && (record->cdry == 0 || record->cdry == 1)
        && (record->ddte_present == 0 ? date_is_zero(&record->ddte)
            : record->ddte_present == 1 && is_date(&record->ddte))
        && optional_text_stands(&record->dkrs, 4, 4);
}

static void pool_put_party(struct page *page, const char *before, const struct pool_party *party)
{
    put_line(page, ":16R:CONFPRTY");
    put_text_line(page, before, &party->code);
    put_optional_line(page, ":20C::PROC//", &party->contra);
    put_line(page, ":16S:CONFPRTY");
}

/* The narrative of 70E from `DTCY` on. */
static void pool_put_narrative(struct page *page, const struct pool_record *record)
{
    put_words(page, "DTCY/TDSVPOOL");
    if (record->cdry)
        put_words(page, "/CDRY");
    if (record->ddte_present) {
        put_words(page, "/DDTE");
        put_date(page, &record->ddte);
    }
    put_dkrs(page, &record->dkrs);
}

static size_t pool_put_message(struct page *page, const void *written)
{
    const struct pool_record *record = written;
    put_text_line(page, "", &record->password);
    put_text_line(page, "", &record->sender);
    put_line(page, "515/000/DTCY");
    put_line(page, "MBSCPNET");

    put_line(page, ":16R:GENL");
    put_text_line(page, ":20C::SEME//", &record->reference);
    put_line(page, record->kind == KIND_CANC ? ":23G:CANC" : ":23G:NEWM");
    put_line(page, ":22F::TRTR/DTCY/CASH");
    put_link(page, ":20C::MAST//", &record->mast);
    put_link(page, ":20C::PREV//", &record->prev);
    put_link(page, ":20C::LIST//", &record->list);
    put_line(page, ":16S:GENL");

    put_line(page, ":16R:CONFDET");
    put_moment_line(page, ":98C::TRAD//", &record->trade);
    put_date_line(page, ":98A::SETT//", &record->settlement);
    put_amount_line(page, ":90A::DEAL//PRCT/", &record->price.amount);
    if (record->money_present)
        put_amount_line(page, ":19A::SETT//USD", &record->money.amount);
    put_words(page, ":22H::BUSE//");
    put_line(page, side_words[record->side]);
    put_words(page, ":22F::PROC/DTCY/");
    put_line(page, pool_kinds[record->kind]);
    put_line(page, ":22H::PAYM//APMT");
    pool_put_party(page, ":95R::BUYR/DTCY/PART", &record->buyer);
    pool_put_party(page, ":95R::SELL/DTCY/PART", &record->seller);
    put_amount_line(page, ":36B::CONF//FAMT/", &record->par.amount);
    put_text_line(page, ":35B:/US/", &record->identifier);
    if (record->pool.length > 0) {
        put_line(page, ":16R:FIA");
        put_text_line(page, ":13B::POOL/DTCY/", &record->pool);
        put_line(page, ":16S:FIA");
    }
    put_words(page, ":70E::TPRO//");
    size_t before = page->length;
    pool_put_narrative(page, record);
    size_t narrative = page->length - before;
    put_end(page);
    put_line(page, ":16S:CONFDET");
    put_line(page, "-");
    return narrative;
}

/* ---------------------------------------------------------------- the profile */

const struct profile second_pool = {
    .header = { NULL, "515/000/DTCY", "MBSCPNET" },
    .slots = pool_slots,
    .slot_count = sizeof pool_slots / sizeof pool_slots[0],
    .fields = FIELDS_OF_POOL,
    .block_fields = 2,
    .places = pool_places,
    .functions = trade_functions,
    .rules = pool_rules,
    .rule_count = sizeof pool_rules / sizeof pool_rules[0],
    .record_size = sizeof(struct pool_record),
    .kind = AT(kind),
    .side = AT(side),
    .contra = { AT(buyer.contra), AT(seller.contra) },
    .trade = AT(trade),
    .settlement = AT(settlement),
    .par = AT(par),
    .function_stands = function_of_kind,
    .judge = kind_number,
    .read_narrative = pool_read_narrative,
    .record_stands = pool_record_stands,
    .put_message = pool_put_message,
};

#undef AT

/* The pool has every kind. */
const char *second_kind_text(int kind)
{
    return pool_kinds[kind];
}

/* cases.c: see cases.h. A message is made as rows, a line each; near misses are changes to rows or to the bytes they give. Both
 * profiles of the MT515 are made by the same code: where they differ, `pool` of a sheet tells. What is of the MT509 alone stands in
 * cases509.c; what is of all and differs in its lists goes by `answer` of a sheet. */
#include "cases.h"

#include <stdio.h>
#include <string.h>

#define COUNT(list) (sizeof (list) / sizeof (list)[0])
#define PICK(chance, list) (list)[below(chance, COUNT(list))]

/* ---------------------------------------------------------------- chance
 * One draw to an expression whose order C leaves open, so that a seed gives the same cases with every compiler. */

/* splitmix64 */
static uint64_t draw(struct chance *chance)
{
    uint64_t x = chance->state += 0x9E3779B97F4A7C15u;
    x = (x ^ x >> 30) * 0xBF58476D1CE4E5B9u;
    x = (x ^ x >> 27) * 0x94D049BB133111EBu;
    return x ^ x >> 31;
}

void chance_start(struct chance *chance, uint64_t seed, uint64_t number)
{
    chance->state = seed;
    chance->state = draw(chance) ^ number;
    chance->state = draw(chance);
    chance->widest = draw(chance) % 25 == 0;
}

size_t below(struct chance *chance, size_t count) { return (size_t)(draw(chance) >> 16) % count; }
static bool one_in(struct chance *chance, size_t count) { return below(chance, count) == 0; }
static size_t between(struct chance *chance, size_t least, size_t most) { return least + below(chance, most - least + 1); }

/* ---------------------------------------------------------------- rows */

enum { WIDEST_ROW = 120, MOST_ROWS = 160 };

/* What a row is, so that a change can find it. */
enum label {
    PASSWORD, SENDER, THIRD, FOURTH, GENL, SEME, FUNCTION, PREP, TRTR, LINK, MAST, PREV, LIST, LINK_END, GENL_END,
    CONFDET, TRAD, SETT, DEAL, MONEY, BUSE, PROC, PAYM, PARTY, BUYR, SELL, CONTRA, TDID, PARTY_END, PAR, CUSIP, FIA, POOL, FIA_END,
    NARRATIVE, CONFDET_END, END, RELA, BASK, PROG, COMM, STAT, STATUS, STAT_END, REAS, CODE, REASON, REAS_END, OTHER
};

struct row {
    enum label label;
    char text[WIDEST_ROW];      /* ended by a zero byte, which no row holds: bytes are changed later */
};

struct sheet {
    struct chance *chance;
    bool pool, answer;
    size_t count;
    struct row rows[MOST_ROWS];
};

/* Two texts one after the other, cut where there is no more room. */
static void paste(char *out, size_t room, const char *a, const char *b)
{
    size_t n = 0;
    for (; *a && n + 1 < room; a++)
        out[n++] = *a;
    for (; *b && n + 1 < room; b++)
        out[n++] = *b;
    out[n] = 0;
}

/* A byte put into a row's text before a place; where there is no more room the text stays. */
static void squeeze(char text[WIDEST_ROW], size_t at, char byte)
{
    size_t wide = strlen(text);
    if (wide + 1 == WIDEST_ROW)
        return;
    memmove(text + at + 1, text + at, wide + 1 - at);
    text[at] = byte;
}

/* One house's word for another's, wherever it stands. */
static void rename_house(char *text, const char *from, const char *to)
{
    while ((text = strstr(text, from)))
        memcpy(text, to, strlen(to));
}

/* What is written here says GSCC, for which a row of the pool says DTCY. */
static struct row row_of(const struct sheet *s, enum label label, const char *before, const char *value)
{
    struct row made;
    paste(made.text, sizeof made.text, before, value);
    made.label = label;
    if (s->pool)
        rename_house(made.text, "GSCC", "DTCY");
    return made;
}

static void put(struct sheet *s, size_t at, enum label label, const char *before, const char *value)
{
    s->rows[at] = row_of(s, label, before, value);
}

static void add(struct sheet *s, enum label label, const char *before, const char *value)
{
    put(s, s->count++, label, before, value);
}

/* A row put in before another; where the sheet is full nothing is. */
static void insert(struct sheet *s, size_t at, enum label label, const char *before, const char *value)
{
    struct row row = row_of(s, label, before, value);
    if (s->count == MOST_ROWS)
        return;
    memmove(&s->rows[at + 1], &s->rows[at], (s->count - at) * sizeof s->rows[0]);
    s->count++;
    s->rows[at] = row;
}

static void drop(struct sheet *s, size_t at)
{
    s->count--;
    memmove(&s->rows[at], &s->rows[at + 1], (s->count - at) * sizeof s->rows[0]);
}

static void exchange(struct sheet *s, size_t a, size_t b)
{
    struct row row = s->rows[a];
    s->rows[a] = s->rows[b];
    s->rows[b] = row;
}

/* The first row of a label from a place on, or the count of rows. */
static size_t find_from(const struct sheet *s, enum label label, size_t from)
{
    while (from < s->count && s->rows[from].label != label)
        from++;
    return from;
}

static size_t find(const struct sheet *s, enum label label) { return find_from(s, label, 0); }

static void set(struct sheet *s, enum label label, const char *before, const char *value)
{
    size_t at = find(s, label);
    if (at < s->count)
        put(s, at, label, before, value);
}

/* Any row behind the header, `-` too. */
static size_t any_row(struct sheet *s) { return s->count <= 4 ? below(s->chance, s->count) : between(s->chance, 4, s->count - 1); }

/* ---------------------------------------------------------------- values */

static const char letters[] = "ABCDEFGHIJKLMNOPQRSTUVWXYZ0123456789000";
static const char *const kinds[] = { "INST", "CANC", "MDFC", "TDDK", "CDRQ", "CDRL" };
static const char *const sides[] = { "BUYI", "SELL" };
static const char *const services[] = { "SBOD", "TFTD", "STIP" };
static const char *const zeros[] = { "0,", "0,00", "0,000", "000,", "0,0000000000000", "00000000000000," };

/* One of the kinds, of which the last two are the pool's alone. */
static size_t a_kind(const struct sheet *s) { return below(s->chance, s->pool ? 6 : 4); }

/* A text of c, as wide as asked. */
static const char *text_of(struct chance *c, size_t wide)
{
    static char text[64];
    for (size_t i = 0; i < wide; i++)
        text[i] = letters[below(c, sizeof letters - 1)];
    text[wide] = 0;
    return text;
}

/* The narrowest, the widest, or one between. */
static const char *text(struct chance *c, size_t least, size_t most)
{
    size_t wide = one_in(c, 4) ? least : one_in(c, 3) ? most : between(c, least, most);
    return text_of(c, c->widest ? most : wide);
}

static unsigned days(unsigned year, unsigned month)
{
    static const unsigned of_month[] = { 31, 28, 31, 30, 31, 30, 31, 31, 30, 31, 30, 31 };
    bool leap = (year % 4 == 0 && year % 100 != 0) || year % 400 == 0;
    return of_month[month - 1] + (month == 2 && leap);
}

static unsigned a_date(struct chance *c)
{
    static const unsigned years[] = { 1, 4, 400, 1899, 1900, 2000, 2023, 2024, 2024, 2100, 2400, 9999 };
    unsigned year = one_in(c, 3) ? (unsigned)between(c, 1, 9999) : PICK(c, years);
    unsigned month = one_in(c, 3) ? 2 : (unsigned)between(c, 1, 12);
    unsigned last = days(year, month), day = one_in(c, 3) ? last : (unsigned)between(c, 1, last);
    return year * 10000 + month * 100 + day;
}

static unsigned a_time(struct chance *c)
{
    if (one_in(c, 4))
        return one_in(c, 2) ? 0 : 235959;
    unsigned hour = (unsigned)below(c, 24), minute = (unsigned)below(c, 60), second = (unsigned)below(c, 60);
    return hour * 10000 + minute * 100 + second;
}

static uint64_t moment(unsigned date, unsigned time) { return date * (uint64_t)1000000 + time; }

static uint64_t a_moment(struct chance *c)
{
    unsigned date = a_date(c);
    return moment(date, a_time(c));
}

static const char *digits(uint64_t moment)
{
    static char text[32];
    snprintf(text, sizeof text, "%014llu", (unsigned long long)moment);
    return text;
}

static const char *date_digits(unsigned date)
{
    static char text[16];
    snprintf(text, sizeof text, "%08u", date);
    return text;
}

/* An amount of up to fourteen digits, with needless noughts or without. */
static const char *amount(struct chance *c)
{
    static char text[20];
    size_t whole = between(c, 1, 14), parts = c->widest ? 14 - whole : one_in(c, 3) ? 0 : below(c, 15 - whole);
    for (size_t i = 0; i < whole + 1 + parts; i++)
        text[i] = i == whole ? ',' : one_in(c, 3) ? '0' : (char)('0' + below(c, 10));
    text[whole + 1 + parts] = 0;
    size_t noughts = one_in(c, 4) ? below(c, whole) : 0;
    memset(text, '0', noughts);
    if (text[noughts] == '0' && !one_in(c, 3))
        text[noughts] = '7';
    return text;
}

static const char *above_zero(struct chance *c)
{
    const char *text = amount(c);
    while (strspn(text, "0,") == strlen(text))
        text = amount(c);
    return text;
}

/* ---------------------------------------------------------------- an accepted message */

static void add_link(struct sheet *s, enum label label)
{
    static const char *const before[] = { ":20C::MAST//", ":20C::PREV//", ":20C::LIST//" };
    add(s, LINK, ":16R:LINK", "");
    add(s, label, before[label - MAST], text(s->chance, 1, 16));
    add(s, LINK_END, ":16S:LINK", "");
}

/* LINK blocks: those that the kind must have and some that it may, in any order. */
static void add_links(struct sheet *s, size_t kind)
{
    static const char *const ours[] = { "MMM-", "--O-", "-OO-" }, *const pools[] = { "MMMOMM", "-OO---", "-OO-OO" };
    size_t first = below(s->chance, 3), step = between(s->chance, 1, 2);
    for (size_t i = 0; i < 3; i++) {
        size_t which = (first + i * step) % 3;
        char rule = (s->pool ? pools : ours)[which][kind];
        if (rule == 'M' || (rule == 'O' && one_in(s->chance, 2)))
            add_link(s, MAST + (enum label)which);
    }
}

static void add_party(struct sheet *s, enum label label, bool contra)
{
    struct chance *c = s->chance;
    add(s, PARTY, ":16R:CONFPRTY", "");
    add(s, label, label == BUYR ? ":95R::BUYR/GSCC/PART" : ":95R::SELL/GSCC/PART", one_in(c, 4) ? "0017" : text(c, 4, 4));
    if (contra)
        add(s, CONTRA, ":20C::PROC//", text(c, 1, 16));
    if (!s->pool && one_in(c, 2))
        add(s, TDID, ":70C::PACO//GSCC/TDID", text(c, 1, 20));
    add(s, PARTY_END, ":16S:CONFPRTY", "");
}

static void add_parties(struct sheet *s, size_t kind, size_t side)
{
    enum label first = one_in(s->chance, 2) ? BUYR : SELL, second = first == BUYR ? SELL : BUYR;
    enum label other = side == 0 ? SELL : BUYR;
    add_party(s, first, kind == 3 && first == other);
    add_party(s, second, kind == 3 && second == other);
}

static void add_pool_narrative(struct sheet *s, size_t kind)
{
    struct chance *c = s->chance;
    char made[WIDEST_ROW] = ":70E::TPRO//GSCC/TDSVPOOL";
    if (kind != 3 && one_in(c, 2))
        paste(made, sizeof made, made, "/CDRY");
    if (one_in(c, 2)) {
        paste(made, sizeof made, made, "/DDTE");
        paste(made, sizeof made, made, date_digits(a_date(c)));
    }
    if (kind == 3)
        paste(made, sizeof made, made, "/DKRS");
    add(s, NARRATIVE, made, kind == 3 ? text_of(c, 4) : "");
}

static void add_narrative(struct sheet *s, size_t kind)
{
    struct chance *c = s->chance;
    const char digit[] = { "00123456789"[below(c, 11)], 0 };
    char before[WIDEST_ROW];
    paste(before, sizeof before, ":70E::TPRO//GSCC/TDSV", PICK(c, services));
    if (kind == 3) {
        paste(before, sizeof before, before, "/DKRS");
        add(s, NARRATIVE, before, text_of(c, 4));
    } else if (one_in(c, 2)) {
        paste(before, sizeof before, before, "/GUPP");
        add(s, NARRATIVE, before, digit);
    } else
        add(s, NARRATIVE, before, "");
}

static void add_general(struct sheet *s, size_t kind)
{
    struct chance *c = s->chance;
    add(s, PASSWORD, "", text(c, 0, 12));
    add(s, SENDER, "", text(c, 1, 8));
    add(s, THIRD, "515/000/GSCC", "");
    add(s, FOURTH, s->pool ? "MBSCPNET" : "MBSCTRRS", "");
    add(s, GENL, ":16R:GENL", "");
    add(s, SEME, ":20C::SEME//", text(c, 1, 16));
    add(s, FUNCTION, ":23G:", kind == 1 ? "CANC" : "NEWM");
    if (!s->pool && one_in(c, 2))
        add(s, PREP, ":98C::PREP//", digits(a_moment(c)));
    add(s, TRTR, ":22F::TRTR/GSCC/CASH", "");
    add_links(s, kind);
    add(s, GENL_END, ":16S:GENL", "");
}

static void add_details(struct sheet *s, size_t kind)
{
    struct chance *c = s->chance;
    unsigned one = a_date(c), two = one_in(c, 5) ? one : a_date(c);
    size_t side = below(c, 2);
    add(s, CONFDET, ":16R:CONFDET", "");
    add(s, TRAD, ":98C::TRAD//", digits(moment(one < two ? one : two, a_time(c))));
    add(s, SETT, ":98A::SETT//", date_digits(one < two ? two : one));
    add(s, DEAL, ":90A::DEAL//PRCT/", amount(c));
    if (s->pool && !one_in(c, 3))
        add(s, MONEY, ":19A::SETT//USD", one_in(c, 3) ? PICK(c, zeros) : amount(c));
    add(s, BUSE, ":22H::BUSE//", sides[side]);
    add(s, PROC, ":22F::PROC/GSCC/", kinds[kind]);
    add(s, PAYM, ":22H::PAYM//APMT", "");
    add_parties(s, kind, side);
    add(s, PAR, ":36B::CONF//FAMT/", above_zero(c));
    add(s, CUSIP, ":35B:/US/", text(c, 9, 9));
    if (one_in(c, 2)) {
        add(s, FIA, ":16R:FIA", "");
        add(s, POOL, ":13B::POOL/GSCC/", text(c, 1, 9));
        add(s, FIA_END, ":16S:FIA", "");
    }
    if (s->pool)
        add_pool_narrative(s, kind);
    else
        add_narrative(s, kind);
    add(s, CONFDET_END, ":16S:CONFDET", "");
    add(s, END, "-", "");
}

static void accepted(struct sheet *s)
{
    size_t kind = a_kind(s);
    s->count = 0;
    add_general(s, kind);
    add_details(s, kind);
}

/* ---------------------------------------------------------------- near misses: 3 and 4 */

static void early_end(struct sheet *s) { insert(s, below(s->chance, s->count), END, "-", ""); }

static void wrong_end(struct sheet *s)
{
    static const char *const ends[] = { "--", "- ", " -", "", ":99A:-", "_", "-X" };
    size_t at = find(s, END);
    if (at == s->count)
        return;
    switch (below(s->chance, 4)) {
    case 0: drop(s, at); return;
    case 1: put(s, at, OTHER, PICK(s->chance, ends), ""); return;
    case 2: add(s, OTHER, PICK(s->chance, ends), ""); return;
    default: add(s, END, "-", ""); return;
    }
}

static void wrong_header(struct sheet *s)
{
    static const char *const lines[] = {
        "", " ", "515/000/GSC", "515/000/GSCCC", "515/000/GSCC ", "518/000/GSCC", "515/000/gscc", "MBSCTRR", "MBSCTRRSS", "MBSCTRRS",
        "mbsctrrs", "515/000/GSCC", "515/000/DTCY", "515/000/DTC", "MBSCPNET", "MBSCPNE", "MBSCPNETT", "mbscpnet",
        "aB1", "A 1", "A/1", "A@", "A[", "9:", "/0", "ABCDEFGHIJKL", "ABCDEFGHIJKLM", "ABCDEFGH", "ABCDEFGHI"
    };
    size_t at = below(s->chance, s->count < 4 ? s->count : 4);
    switch (below(s->chance, 6)) {
    case 0: drop(s, at); return;
    case 1: insert(s, at, OTHER, PICK(s->chance, lines), ""); return;
    case 2:
        while (s->count > 5 && s->count > at + 1)      /* a header of some lines, and `-` */
            drop(s, at);
        return;
    default: put(s, at, OTHER, PICK(s->chance, lines), ""); return;
    }
}

/* The other profile's words: in one row that has some, in the header alone, or everywhere. */
static void other_house(struct sheet *s)
{
    const char *own = s->pool ? "DTCY" : "GSCC", *other = s->pool ? "GSCC" : "DTCY";
    size_t how = below(s->chance, 3), from = below(s->chance, s->count), changed = 0;
    for (size_t i = 0; i < s->count && (how > 0 || changed == 0); i++) {
        struct row *row = &s->rows[(from + i) % s->count];
        if ((how != 1 || row->label == THIRD) && strstr(row->text, own)) {
            rename_house(row->text, own, other);
            changed++;
        }
    }
    if (how > 0)
        set(s, FOURTH, s->pool ? "MBSCTRRS" : "MBSCPNET", "");
}

/* ---------------------------------------------------------------- near misses: 5, 6 and 7 */

static void wrong_shape(struct sheet *s)
{
    static const char *const lines[] = {
        "", "X", "20C::SEME//1", ":2C::SEME//1", ":2OC::SEME//1", ":20c::SEME//1", ":200:SEME//1", ":20CC:SEME//1", ":20C", ":20C:",
        " :20C::SEME//1", ":201:SEME", ":", ":20C;:SEME//1", ":/0C::SEME//1", ":20@::SEME//1", ":20[::SEME//1", ":2:C::SEME//1", "#SEME",
        ":16R:", ":16S:", ":16R:a", ":16S:a", ":16R:GENL ", ":16S:GENL ", ":16R:ABCDEFGHIJKLMNOPQ", ":16S:ABCDEFGHIJKLMNOPQ",
        ":16R:ABCDEFGHIJKLMNOP", ":16R:-", ":16R:A/B", ":99Z:x"
    };
    size_t at = any_row(s);
    if (one_in(s->chance, 2))
        insert(s, at, OTHER, PICK(s->chance, lines), "");
    else
        put(s, at, OTHER, PICK(s->chance, lines), "");
}

static bool is_bracket(const struct row *row) { return strncmp(row->text, ":16", 3) == 0; }

/* A row that opens or closes a block, or any where there is none near. */
static size_t a_bracket(struct sheet *s)
{
    size_t at = any_row(s);
    for (size_t i = 0; i < s->count; i++)
        if (is_bracket(&s->rows[(at + i) % s->count]))
            return (at + i) % s->count;
    return at;
}

static const char *const brackets[] = {
    ":16R:GENL", ":16S:GENL", ":16R:LINK", ":16S:LINK", ":16R:CONFDET", ":16S:CONFDET", ":16R:CONFPRTY", ":16S:CONFPRTY", ":16R:FIA",
    ":16S:FIA", ":16R:OTHR", ":16S:OTHR", ":16R:0", ":16S:0"
};

static const char *const answer_brackets[] = {
    ":16R:GENL", ":16S:GENL", ":16R:LINK", ":16S:LINK", ":16R:STAT", ":16S:STAT", ":16R:REAS", ":16S:REAS", ":16R:REAS", ":16S:REAS",
    ":16R:CONFDET", ":16S:CONFDET", ":16R:0", ":16S:0"
};

static const char *some_bracket(struct sheet *s) { return s->answer ? PICK(s->chance, answer_brackets) : PICK(s->chance, brackets); }

static void wrong_nesting(struct sheet *s)
{
    size_t at = a_bracket(s), wide = strlen(s->rows[at].text);
    switch (below(s->chance, 7)) {
    case 0: drop(s, at); return;
    case 1: insert(s, at, OTHER, s->rows[at].text, ""); return;
    case 2: at = any_row(s); insert(s, at, OTHER, some_bracket(s), ""); return;
    case 3: exchange(s, at, a_bracket(s)); return;
    case 4: put(s, at, OTHER, some_bracket(s), ""); return;
    case 5: s->rows[at].text[wide - (wide > 0)] = 0; return;
    default: put(s, at, OTHER, s->rows[at].text, text_of(s->chance, 1)); return;
    }
}

/* Blocks in blocks, of known names or of others, down to ten levels; some are left open. */
static void nest(struct sheet *s)
{
    static const char *const names[] = { "A", "B1", "OTHR", "GENL", "LINK", "CONFDET", "FIA", "ABCDEFGHIJKLMNOP", "n" };
    struct chance *c = s->chance;
    size_t depth = between(c, 1, 10), at = any_row(s), open = one_in(c, 4) ? below(c, depth + 1) : 0;
    const char *opened[10];
    for (size_t i = 0; i < depth; i++) {
        opened[i] = names[below(c, COUNT(names) - !one_in(c, 20))];
        insert(s, at + i, OTHER, ":16R:", opened[i]);
    }
    if (one_in(c, 3))
        insert(s, at + depth, OTHER, ":20C::MAST//1", "");
    for (size_t i = open; i < depth; i++)
        insert(s, at + depth, OTHER, ":16S:", opened[i]);
}

/* ---------------------------------------------------------------- near misses: 8 and 9 */

static void stray_line(struct sheet *s)
{
    static const char *const lines[] = {
        ":99Z::ABCD//1", ":20D::SEME//1", ":21C::SEME//1", ":00A:x", ":20C::ABCD//1", ":16T:GENL", ":17R:GENL", ":20C::SEM", ":20C:SEME//1",
        ":20C::SEME//1", ":20C::SEMEX", ":20C::seme//1", ":20C::MAST//1", ":20C::PREV//1", ":20C::LIST//1", ":20C::PROC//1", ":23G:NEWM",
        ":98C::PREP//20240229000000", ":22F::TRTR/GSCC/CASH", ":98C::TRAD//20240229000000", ":98A::SETT//20240229", ":98A::TRAD//20240229",
        ":98C::SETT//20240229000000", ":90A::DEAL//PRCT/1,", ":22H::BUSE//BUYI", ":22F::PROC/GSCC/INST", ":22H::PROC/GSCC/INST",
        ":22H::PAYM//APMT", ":95R::BUYR/GSCC/PART0001", ":95R::SELL/GSCC/PART0001", ":95R::BUYI/GSCC/PART0001", ":95P::BUYR/GSCC/PART0001",
        ":70C::PACO//GSCC/TDID1", ":36B::CONF//FAMT/1,", ":35B:/US/123456789", ":35A:/US/123456789", ":13B::POOL/GSCC/1",
        ":70E::TPRO//GSCC/TDSVSTIP", ":70C::TPRO//GSCC/TDSVSTIP", ":70E::TPR", ":70E::TPRO//GSCC/TDSVPOOL", ":19A::SETT//USD1,",
        ":19A::LOCO//USD1,", ":19B::SETT//USD1,", ":90A::SETT//USD1,"
    };
    size_t at = any_row(s);
    if (one_in(s->chance, 3))
        put(s, at, OTHER, PICK(s->chance, lines), "");
    else
        insert(s, at, OTHER, PICK(s->chance, lines), "");
}

static void drop_row(struct sheet *s)
{
    size_t at = any_row(s);
    if (s->count > 1)
        drop(s, at);
}

static void double_row(struct sheet *s)
{
    size_t at = any_row(s);
    struct row row = s->rows[at];
    insert(s, one_in(s->chance, 2) ? at + 1 : any_row(s), row.label, row.text, "");
}

static void exchange_rows(struct sheet *s)
{
    size_t at = any_row(s);
    exchange(s, at, one_in(s->chance, 2) && at > 0 ? at - 1 : any_row(s));
}

static void move_row(struct sheet *s)
{
    size_t at = any_row(s);
    struct row row = s->rows[at];
    drop(s, at);
    insert(s, s->count == 0 ? 0 : any_row(s), row.label, row.text, "");
}

/* The rows from a block's opening line to the next close of its name. */
static size_t block_end(const struct sheet *s, size_t at)
{
    size_t to = at;
    while (to < s->count && (strncmp(s->rows[to].text, ":16S:", 5) != 0 || strcmp(s->rows[to].text + 5, s->rows[at].text + 5) != 0))
        to++;
    return to < s->count ? to + 1 : s->count;
}

static size_t a_block(struct sheet *s)
{
    static const enum label openers[] = { GENL, LINK, LINK, CONFDET, PARTY, PARTY, FIA };
    static const enum label of_answers[] = { GENL, LINK, LINK, STAT, REAS, REAS, REAS };
    enum label label = s->answer ? PICK(s->chance, of_answers) : PICK(s->chance, openers);
    size_t at = find(s, label), next = find_from(s, label, at + 1);
    return next < s->count && one_in(s->chance, 2) ? next : at;
}

static void drop_block(struct sheet *s)
{
    size_t at = a_block(s), to = block_end(s, at);
    for (; to > at && s->count > 1; to--)
        drop(s, at);
}

/* A block once more, after itself or elsewhere. */
static void double_block(struct sheet *s)
{
    size_t from = a_block(s), to = block_end(s, from);
    if (from == s->count)
        return;
    size_t at = one_in(s->chance, 3) ? any_row(s) : to;
    for (size_t i = 0; i < to - from && to - from < 30; i++) {
        struct row row = s->rows[at <= from ? from + i + i : from + i];
        insert(s, at + i, row.label, row.text, "");
    }
}

/* A further LINK or party block, in place or elsewhere. */
static void further_block(struct sheet *s)
{
    static const char *const links[] = { ":20C::MAST//1", ":20C::PREV//1", ":20C::LIST//1", ":20C::LIST", ":20C::PROC//1", ":20C::SEME//1" };
    static const char *const parties[] = { ":95R::BUYR/GSCC/PART0001", ":95R::SELL/GSCC/PART0001", ":95R::BUYR" };
    bool link = one_in(s->chance, 2);
    size_t at = one_in(s->chance, 4) ? any_row(s) : find(s, link ? GENL_END : PAR);
    if (at == s->count)
        return;
    insert(s, at, OTHER, link ? ":16R:LINK" : ":16R:CONFPRTY", "");
    if (!one_in(s->chance, 5))
        insert(s, ++at, OTHER, link ? PICK(s->chance, links) : PICK(s->chance, parties), "");
    insert(s, at + 1, OTHER, link ? ":16S:LINK" : ":16S:CONFPRTY", "");
}

/* ---------------------------------------------------------------- near misses: 10, 11 and 12 */

enum form { TEXT, WORD, AMOUNT, DATE, MOMENT, TAIL };

struct value {
    enum label label;
    const char *tag;            /* tag and qualifier, by which the line fits */
    const char *fixed;
    enum form form;
    size_t least, most;
};

static const struct value values[] = {
    { SEME, ":20C::SEME", "//", TEXT, 1, 16 }, { FUNCTION, ":23G:", "", WORD, 0, 0 }, { PREP, ":98C::PREP", "//", MOMENT, 0, 0 },
    { TRTR, ":22F::TRTR", "/GSCC/CASH", WORD, 0, 0 }, { MAST, ":20C::MAST", "//", TEXT, 1, 16 }, { PREV, ":20C::PREV", "//", TEXT, 1, 16 },
    { LIST, ":20C::LIST", "//", TEXT, 1, 16 }, { TRAD, ":98C::TRAD", "//", MOMENT, 0, 0 }, { SETT, ":98A::SETT", "//", DATE, 0, 0 },
    { DEAL, ":90A::DEAL", "//PRCT/", AMOUNT, 0, 0 }, { MONEY, ":19A::SETT", "//USD", AMOUNT, 0, 0 },
    { BUSE, ":22H::BUSE", "//", WORD, 0, 0 }, { PROC, ":22F::PROC", "/GSCC/", WORD, 0, 0 },
    { PAYM, ":22H::PAYM", "//APMT", WORD, 0, 0 }, { BUYR, ":95R::BUYR", "/GSCC/PART", TEXT, 4, 4 },
    { SELL, ":95R::SELL", "/GSCC/PART", TEXT, 4, 4 }, { CONTRA, ":20C::PROC", "//", TEXT, 1, 16 },
    { TDID, ":70C::PACO", "//GSCC/TDID", TEXT, 1, 20 }, { PAR, ":36B::CONF", "//FAMT/", AMOUNT, 0, 0 }, { CUSIP, ":35B:", "/US/", TEXT, 9, 9 },
    { POOL, ":13B::POOL", "/GSCC/", TEXT, 1, 9 }, { NARRATIVE, ":70E::TPRO", "//GSCC/", TAIL, 0, 0 },
};

static const char *odd_text(struct chance *c, size_t least, size_t most)
{
    static const char odd[] = "a /:@[,~-`{z.";
    static char made[64];
    size_t past = one_in(c, 4) ? 5 : 1;
    size_t wide = one_in(c, 3) ? most + past : one_in(c, 3) ? least - (least > 0) : between(c, least, most);
    paste(made, sizeof made, text_of(c, wide), "");
    size_t at = below(c, wide + 1);
    if (at < wide && one_in(c, 2))
        made[at] = odd[below(c, sizeof odd - 1)];
    return made;
}

static const char *odd_word(struct chance *c)
{
    static const char *const words[] = {
        "NEW M", "NEWN", "newm", "NEWMX", "NEWM ", "NEW", ":NEWM", "INST", "NEWM", "CANC", "", "BUY", "BUYR", "BUYII", "BUYI", "SELL", "SEL",
        "SELLR", "INS", "INSTX", "TDD", "TDDK", "MDFC", "MDFD", "CANX", "CDRQ", "CDRL", "CDRY", "CASE", "X", "/", "//"
    };
    return PICK(c, words);
}

static const char *odd_amount(struct chance *c)
{
    static const char *const amounts[] = {
        "", ",", "17", "1,2,", "1,,", ",5", "-1,", "+1,", " 1,", "1, ", "1.5", "1,A", "123456789012345,", "000000000000000,", "12345678901234,5",
        "123456789012345", "12345678901234", "0,11111111111111", "1,00000000000000", ",11111111111111", "1,/", "1,:", "000", "1;5",
        "12345678901234,", "99999999999999,", "1234567890123,4", "1,0000000000001", "0,0000000000001", "0000017,5000000", "7,0000000000000",
        "1,", "0017,", "99,50", "10,", "0100,010", "00,10", "00000000000001,", "0,", "0,000", "000,", "0,0000000000000", "00000000000000,"
    };
    return PICK(c, amounts);
}

/* Year, month and day, each perhaps one past its edge. */
static unsigned odd_date(struct chance *c)
{
    static const unsigned dates[] = {
        20230229, 19000229, 21000229, 20240229, 20000229, 20240230, 20240001, 20241301, 20240100, 20240132, 20240431, 101, 99991231, 10101, 99990229
    };
    if (one_in(c, 2))
        return PICK(c, dates);
    unsigned year = (unsigned)between(c, 1, 9999), month = (unsigned)below(c, 14), day = (unsigned)below(c, 33);
    return year * 10000 + month * 100 + day;
}

static unsigned odd_time(struct chance *c)
{
    static const unsigned times[] = { 0, 235959, 240000, 236000, 235960, 6000, 60, 990000, 5959, 230000, 99 };
    if (one_in(c, 2))
        return PICK(c, times);
    unsigned hour = (unsigned)below(c, 25), minute = (unsigned)below(c, 61), second = (unsigned)below(c, 61);
    return hour * 10000 + minute * 100 + second;
}

static uint64_t odd_moment(struct chance *c)
{
    unsigned date = odd_date(c);
    return moment(date, odd_time(c));
}

/* The digits of a date or of a date and time, as they are, cut, longer, or with one byte that is no digit. */
static const char *odd_digits(struct chance *c, enum form form)
{
    static const char odd[] = "A -:/+.";
    static char made[32];
    paste(made, sizeof made, form == DATE ? date_digits(odd_date(c)) : digits(odd_moment(c)), "");
    size_t wide = strlen(made), at = below(c, wide);
    switch (below(c, 8)) {
    case 0: made[at] = 0; return made;
    case 1: made[wide] = '0'; made[wide + 1] = 0; return made;
    case 2: made[at] = odd[below(c, sizeof odd - 1)]; return made;
    default: return made;
    }
}

/* What follows `GSCC/`: pieces of a narrative, put together in any way. */
static const char *odd_tail(struct chance *c)
{
    static const char *const first[] = { "TDSVSTIP", "TDSVSBOD", "TDSVTFTD", "TDSVSTIQ", "TDSVSTI", "tdsvSTIP", "TDSV", "", "STIP", "TDSVSTIPX" };
    static const char *const more[] = {
        "", "/GUPP0", "/GUPP9", "/GUPP", "/GUPPA", "/GUPP10", "/GUPP/", "/GUPP:", "/DKRSABCD", "/DKRS0001", "/DKRSABC", "/DKRSABCDE", "/DKRS",
        "/DKRSABCd", "/DKRSABC/", "/XXXX1", "/", " ", "GUPP1", "/TDSVSTIP"
    };
    static char made[WIDEST_ROW];
    paste(made, sizeof made, first[below(c, one_in(c, 2) ? COUNT(first) : 3)], "");
    paste(made, sizeof made, made, PICK(c, more));
    if (one_in(c, 2))
        paste(made, sizeof made, made, PICK(c, more));
    return made;
}

/* The pool's: its parts in their order, each left out, as it should be or odd; the date is mostly a try at the calendar's edges. */
static const char *odd_pool_tail(struct chance *c)
{
    static const char *const first[] = { "TDSVSBOD", "TDSVPOO", "TDSVPOOLX", "tdsvPOOL", "TDSV", "", "POOL", "/TDSVPOOL" };
    static const char *const odd[] = {
        "/CDRYY", "/CDR", "/cdry", "CDRY", "/CDRY/", "/CDRY/CDRY", "/GUPP0", "/DKRSABC", "/DKRSABCDE", "/DKRS", "/DKRSABCd", "/DKRSABC/",
        "/XXXX1", "/", " ", "/CDRY", "/DKRSABCD", "/DDTE20240313", "/DDTE", "/TDSVPOOL"
    };
    static char made[WIDEST_ROW];
    paste(made, sizeof made, one_in(c, 12) ? PICK(c, first) : "TDSVPOOL", "");
    paste(made, sizeof made, made, one_in(c, 12) ? PICK(c, odd) : one_in(c, 2) ? "/CDRY" : "");
    if (!one_in(c, 4)) {
        paste(made, sizeof made, made, "/DDTE");
        paste(made, sizeof made, made, one_in(c, 8) ? "" : odd_digits(c, DATE));
    }
    paste(made, sizeof made, made, one_in(c, 4) ? PICK(c, odd) : one_in(c, 2) ? "/DKRS0001" : "");
    return made;
}

static const char *odd_value(struct sheet *s, const struct value *v)
{
    struct chance *c = s->chance;
    switch (v->form) {
    case TEXT: return odd_text(c, v->least, v->most);
    case WORD: return odd_word(c);
    case AMOUNT: return odd_amount(c);
    case TAIL: return s->pool ? odd_pool_tail(c) : odd_tail(c);
    default: return odd_digits(c, v->form);
    }
}

/* Amounts and dates, which have the most ways to be wrong, as often as all else together. */
static const struct value *a_value(struct sheet *s)
{
    struct chance *c = s->chance;
    const struct value *v = &PICK(c, values);
    while (one_in(c, 2) && (v->form == TEXT || v->form == WORD || (v->form == TAIL && !s->pool)))
        v = &PICK(c, values);
    return v;
}

static void wrong_value(struct sheet *s)
{
    const struct value *v = a_value(s);
    size_t at = find(s, v->label), next = find_from(s, v->label, at + 1);
    if (next < s->count && one_in(s->chance, 2))
        at = next;
    if (at == s->count)
        return;
    char before[40];
    paste(before, sizeof before, v->tag, v->fixed);
    put(s, at, v->label, before, odd_value(s, v));
}

/* The text between the qualifier and the value, or a part of the qualifier: cut, changed or longer. */
static void wrong_fixed_text(struct sheet *s)
{
    static const char others[] = "/:.X0 g";
    const struct value *v = &PICK(s->chance, values);
    size_t at = find(s, v->label), tag = strlen(v->tag), fixed = strlen(v->fixed);
    if (at == s->count)
        return;
    char *text = s->rows[at].text, other = others[below(s->chance, sizeof others - 1)];
    size_t wide = strlen(text), from = one_in(s->chance, 4) ? tag - 1 : tag, place = from + below(s->chance, fixed + 1);
    if (place >= wide)
        return;
    switch (below(s->chance, 4)) {
    case 0: text[place] = 0; return;
    case 1: text[place] = other; return;
    case 2: memmove(text + place, text + place + 1, wide - place); return;
    default: squeeze(text, place, other); return;
    }
}

/* ---------------------------------------------------------------- near misses: 13 to 17 */

static void other_function(struct sheet *s)
{
    size_t at = find(s, FUNCTION);
    if (at < s->count)
        put(s, at, FUNCTION, ":23G:", strcmp(s->rows[at].text, ":23G:NEWM") == 0 ? "CANC" : "NEWM");
}

static void other_kind(struct sheet *s)
{
    const char *kind = kinds[a_kind(s)];
    set(s, PROC, ":22F::PROC/GSCC/", kind);
    if (!one_in(s->chance, 4))
        set(s, FUNCTION, ":23G:", strcmp(kind, "CANC") == 0 ? "CANC" : "NEWM");
}

static void other_side(struct sheet *s) { set(s, BUSE, ":22H::BUSE//", PICK(s->chance, sides)); }

static void other_links(struct sheet *s)
{
    static const char *const before[] = { ":20C::MAST//", ":20C::PREV//", ":20C::LIST//" };
    enum label label = MAST + (enum label)below(s->chance, 3);
    size_t at = find(s, label);
    if (at < s->count && at > 0 && at + 1 < s->count) {
        drop(s, at + 1);
        drop(s, at);
        drop(s, at - 1);
        return;
    }
    at = find(s, GENL_END);
    if (at == s->count)
        return;
    insert(s, at, LINK_END, ":16S:LINK", "");
    insert(s, at, label, before[label - MAST], text(s->chance, 1, 16));
    insert(s, at, LINK, ":16R:LINK", "");
}

static void other_contra(struct sheet *s)
{
    size_t at = find(s, CONTRA), party = find(s, one_in(s->chance, 2) ? BUYR : SELL);
    if (at < s->count && one_in(s->chance, 2))
        drop(s, at);
    if (party < s->count && !one_in(s->chance, 3))
        insert(s, party + 1, CONTRA, ":20C::PROC//", text(s->chance, 1, 16));
}

static void other_narrative(struct sheet *s)
{
    static const char *const tails[] = { "", "/GUPP0", "/DKRSABCD", "/GUPP0/DKRSABCD" };
    static const char *const pool_tails[] = {
        "", "/CDRY", "/DDTE00010101", "/CDRY/DDTE99991231", "/DKRSABCD", "/CDRY/DKRSABCD", "/DDTE20240229/DKRSABCD",
        "/CDRY/DDTE20240229/DKRSABCD"
    };
    if (s->pool && one_in(s->chance, 2))
        set(s, NARRATIVE, ":70E::TPRO//GSCC/", odd_pool_tail(s->chance));
    else if (s->pool)
        set(s, NARRATIVE, ":70E::TPRO//GSCC/TDSVPOOL", PICK(s->chance, pool_tails));
    else
        set(s, NARRATIVE, ":70E::TPRO//GSCC/TDSVSTIP", PICK(s->chance, tails));
}

/* A 19A line more or less, or another one; our own profile has no slot for it. */
static void other_money(struct sheet *s)
{
    static const char *const others[] = {
        "USD0,", "USD0,00", "USD000,", "USD0012,500", "USD99999999999999,", "USD", "USD1", "USDN1,", "NUSD1,", "EUR1,", "usd1,", "USD 1,",
        "US1,", "USDD1,"
    };
    size_t at = find(s, MONEY), next = find(s, BUSE);
    if (at < s->count && one_in(s->chance, 3))
        drop(s, at);
    else if (at < s->count)
        put(s, at, MONEY, ":19A::SETT//", PICK(s->chance, others));
    else if (next < s->count)
        insert(s, next, MONEY, ":19A::SETT//", PICK(s->chance, others));
}

static void zero_par(struct sheet *s)
{
    set(s, PAR, ":36B::CONF//FAMT/", PICK(s->chance, zeros));
}

static void early_settlement(struct sheet *s)
{
    static const unsigned pairs[][2] = {
        { 20240229, 20240229 }, { 20240229, 20240228 }, { 20240301, 20240229 }, { 20240101, 20231231 }, { 20231231, 20240101 },
        { 20240229, 20230313 }, { 20240201, 20240131 }, { 99991231, 99991230 }, { 10102, 10101 }, { 20241101, 20240930 }, { 10000101, 9991231 }
    };
    const unsigned *pair = PICK(s->chance, pairs);
    set(s, TRAD, ":98C::TRAD//", digits(moment(pair[0], a_time(s->chance))));
    set(s, SETT, ":98A::SETT//", date_digits(pair[1]));
}

typedef void change(struct sheet *s);

static change *const changes[] = {
    early_end, wrong_end, wrong_header, wrong_header, other_house, wrong_shape, wrong_nesting, nest, nest, stray_line, drop_row, double_row,
    exchange_rows, move_row, drop_block, double_block, further_block, wrong_value, wrong_value, wrong_value, wrong_value, wrong_value,
    wrong_fixed_text, wrong_fixed_text, other_function, other_kind, other_side, other_links, other_contra, other_narrative, other_money,
    zero_par, early_settlement
};

#include "cases509.c"

/* None, or one to three, of these changes. */
static void near_miss(struct sheet *s)
{
    size_t many = one_in(s->chance, 4) ? 0 : one_in(s->chance, 5) ? 2 : one_in(s->chance, 12) ? 3 : 1;
    for (size_t i = 0; i < many && s->count > 0; i++)
        (s->answer ? PICK(s->chance, answer_changes) : PICK(s->chance, changes))(s);
}

/* ---------------------------------------------------------------- damage by lines
 * A near miss is mostly one fault. Here are several, of several passes and far from one another, so that it is tried which of
 * them decides. */

/* A byte more somewhere behind the tag, mostly one that a value may have. */
static void longer(struct sheet *s, char text[WIDEST_ROW])
{
    static const char bytes[] = "AZ09AZ09AZ09,/:- a";
    size_t wide = strlen(text), tag = wide < 5 ? wide : 5, at = one_in(s->chance, 2) ? wide : between(s->chance, tag, wide);
    squeeze(text, at, bytes[below(s->chance, sizeof bytes - 1)]);
}

static void cut_short(struct sheet *s, char text[WIDEST_ROW]) { text[below(s->chance, strlen(text) + 1)] = 0; }

/* Another line of the message, or now and then the same. */
static void like_another(struct sheet *s, char text[WIDEST_ROW]) { paste(text, WIDEST_ROW, s->rows[any_row(s)].text, ""); }

static void bracket(struct sheet *s, char text[WIDEST_ROW]) { paste(text, WIDEST_ROW, some_bracket(s), ""); }

/* A blank put in, or a stretch of it in lower case. */
static void untidy(struct sheet *s, char text[WIDEST_ROW])
{
    size_t wide = strlen(text), from = below(s->chance, wide + 1), to = between(s->chance, from, wide);
    if (one_in(s->chance, 2))
        squeeze(text, from, ' ');
    else
        for (size_t i = from; i < to; i++)
            if (text[i] >= 'A' && text[i] <= 'Z')
                text[i] = (char)(text[i] + ('a' - 'A'));
}

static void nothing(struct sheet *s, char text[WIDEST_ROW])
{
    (void)s;
    text[0] = 0;
}

static void dash(struct sheet *s, char text[WIDEST_ROW])
{
    (void)s;
    paste(text, WIDEST_ROW, "-", "");
}

/* An odd line, made of the text of a row. What the late passes find stands first, what the early ones find last. */
typedef void odd_line(struct sheet *s, char text[WIDEST_ROW]);

static odd_line *const odd_lines[] = { longer, cut_short, like_another, bracket, untidy, nothing, dash };
enum { BEFORE_BLOCKS = 3 };     /* so many stand before the lines of blocks */

/* A row between the header and `-`, and no line of a block where those are spared; now and then any row, and so where no such row
 * is found, since an MT509 has few of them and they may all be gone. */
static size_t a_target(struct sheet *s, bool spared)
{
    size_t at = any_row(s);
    if (one_in(s->chance, 40))
        return below(s->chance, s->count);
    for (size_t tries = 0; tries < 200 && (s->rows[at].label == END || (spared && is_bracket(&s->rows[at]))); tries++)
        at = any_row(s);
    return at;
}

/* A row gives way to an odd line, is followed by one, or vanishes. */
static void damage_line(struct sheet *s, size_t ways)
{
    size_t at = a_target(s, ways <= BEFORE_BLOCKS);
    struct row odd = s->rows[at];
    odd_lines[below(s->chance, ways)](s, odd.text);
    switch (below(s->chance, 6)) {
    case 0: drop(s, at); return;
    case 1: insert(s, at + 1, OTHER, odd.text, ""); return;
    default: s->rows[at] = odd; return;
    }
}

/* Up to six lines, and often one, which leaves some messages accepted. A message takes its odd lines from the first few of the list
 * only, and spares the lines of blocks where those few have none: else a fault of an early pass would nearly always hide those of
 * the later ones. */
static void damage_lines(struct sheet *s)
{
    size_t ways = between(s->chance, 1, COUNT(odd_lines)), many = one_in(s->chance, 3) ? 1 : between(s->chance, 1, 6);
    for (; many > 0; many--)
        damage_line(s, ways);
}

/* ---------------------------------------------------------------- from rows to bytes */

static void put_byte(struct bytes *b, uint8_t byte)
{
    if (b->length < LONGEST_CASE)
        b->at[b->length++] = byte;
}

/* Lines end in LF, in CR LF, or in one or the other. */
static void join(struct sheet *s, struct bytes *b)
{
    size_t ending = below(s->chance, 3);
    for (size_t i = 0; i < s->count; i++) {
        for (const char *at = s->rows[i].text; *at; at++)
            put_byte(b, (uint8_t)*at);
        if (ending == 1 || (ending == 2 && one_in(s->chance, 2)))
            put_byte(b, '\r');
        put_byte(b, '\n');
    }
}

/* Bytes put in before a place. */
static void spread(struct bytes *b, size_t at, size_t count, uint8_t byte)
{
    if (b->length + count > LONGEST_CASE)
        return;
    memmove(b->at + at + count, b->at + at, b->length - at);
    memset(b->at + at, byte, count);
    b->length += count;
}

static void lose(struct bytes *b, size_t at, size_t count)
{
    memmove(b->at + at, b->at + at + count, b->length - at - count);
    b->length -= count;
}

/* A byte that changes something: a plain one, one of the format's own, or one that is none. */
static uint8_t odd_byte(struct chance *c)
{
    static const uint8_t own[] = { 'A', '0', '1', '9', ':', '/', ',', '-', 'R', 'S', '\n', '\r' };
    static const uint8_t none[] = { 0, 9, 13, 0x1F, 0x7F, 0x80, 0xFF };
    if (one_in(c, 3))
        return PICK(c, none);
    return one_in(c, 2) ? PICK(c, own) : (uint8_t)between(c, 0x20, 0x7E);
}

static void damage(struct chance *c, struct bytes *b)
{
    if (b->length == 0)
        return;
    size_t at = below(c, b->length);
    switch (below(c, 4)) {
    case 0: b->at[at] = odd_byte(c); return;
    case 1: spread(b, at, 1, odd_byte(c)); return;
    case 2: lose(b, at, 1); return;
    default: lose(b, at, below(c, b->length - at < 40 ? b->length - at : 40)); return;
    }
}

/* The last line without its LF, with a CR alone, with more behind. */
static void wrong_last_bytes(struct chance *c, struct bytes *b)
{
    static const char *const tails[] = { "X", "-", "\r", "\n", "\r\n", "-\r", "-\r\r\n", "X\n", "-\n" };
    if (one_in(c, 2) && b->length > 0)
        b->length--;
    if (one_in(c, 2))
        for (const char *at = PICK(c, tails); *at; at++)
            put_byte(b, (uint8_t)*at);
}

/* Nothing; or about 4,096 bytes, by one long line or by many short ones. */
static void wrong_length(struct chance *c, struct bytes *b)
{
    static const size_t lengths[] = { 4095, 4096, 4096, 4097, 4098, 5000 };
    size_t length = PICK(c, lengths);
    if (one_in(c, 5)) {
        b->length = 0;
        return;
    }
    if (b->length < 2 || b->length > 4000)
        return;
    size_t lf = 0;
    while (lf < b->length && b->at[lf] != '\n')
        lf++;
    spread(b, lf, length - b->length, one_in(c, 3) ? '\n' : one_in(c, 2) ? 'X' : ' ');
}

static void finish(struct chance *c, struct bytes *b)
{
    switch (below(c, 24)) {
    case 0: wrong_last_bytes(c, b); return;
    case 1: wrong_length(c, b); return;
    case 2: damage(c, b); damage(c, b); return;
    case 3: case 4: case 5: damage(c, b); return;
    default: return;
    }
}

bool make_message(struct chance *chance, enum sort sort, struct bytes *message)
{
    static struct sheet s;
    s.chance = chance;
    s.pool = sort == POOLS;
    s.answer = sort == ANSWERS;
    message->length = 0;
    if (s.answer)
        accepted_answer(&s);
    else
        accepted(&s);
    bool by_lines = one_in(chance, 4);
    if (by_lines)
        damage_lines(&s);
    else
        near_miss(&s);
    join(&s, message);
    finish(chance, message);
    return by_lines;
}

/* ---------------------------------------------------------------- records */

static const struct { size_t least, most; bool optional; } texts[TEXTS] = {
    { 0, 12, false }, { 1, 8, false }, { 1, 16, false }, { 1, 16, true }, { 1, 16, true }, { 1, 16, true }, { 4, 4, false }, { 1, 16, true },
    { 1, 20, true }, { 4, 4, false }, { 1, 16, true }, { 1, 20, true }, { 9, 9, false }, { 1, 9, true }, { 4, 4, true }
};

enum { A_PASSWORD, A_SENDER, A_SEME, A_MAST, A_PREV, A_LIST, A_BUYER, A_BUYERS, A_BUYERS_TDID, A_SELLER, A_SELLERS, A_SELLERS_TDID,
       A_CUSIP, A_POOL, A_DKRS };

static uint8_t *text_place(uint8_t *record, size_t which) { return record + FIRST_TEXT + which * TEXT_BYTES; }

static void put_record_text(struct chance *c, uint8_t *record, size_t which, size_t length)
{
    uint8_t *at = text_place(record, which);
    size_t held = length < WIDEST_TEXT ? length : WIDEST_TEXT;
    memset(at, 0, TEXT_BYTES);
    at[0] = (uint8_t)length;
    memcpy(at + 1, text_of(c, held), held);
}

static void put_record_number(uint8_t *record, size_t which, uint64_t value)
{
    for (size_t i = 0; i < 8; i++)
        record[FIRST_NUMBER + which * 8 + i] = (uint8_t)(value >> 8 * i);
}

/* Digits and decimals in the shortest form. */
static void put_record_amount(struct chance *c, uint8_t *record, size_t which)
{
    uint64_t n = 0;
    for (size_t i = between(c, 1, 14); i > 0; i--)
        n = n * 10 + below(c, 10);
    size_t decimals = one_in(c, 2) ? 0 : between(c, 1, 13);
    if (n == 0)
        n = 1;
    if (decimals > 0 && n % 10 == 0)
        n++;
    put_record_number(record, which, n);
    put_record_number(record, which + 1, decimals);
}

/* Does the kind have the optional text? Must, may, or never. */
static bool kind_has(struct chance *c, unsigned kind, unsigned side, size_t which)
{
    switch (which) {
    case A_MAST: return kind != KIND_TDDK;
    case A_PREV: return kind == KIND_MDFC && one_in(c, 2);
    case A_LIST: return (kind == KIND_MDFC || kind == KIND_CANC) && one_in(c, 2);
    case A_BUYERS: return kind == KIND_TDDK && side == SIDE_SELL;
    case A_SELLERS: return kind == KIND_TDDK && side == SIDE_BUYI;
    case A_DKRS: return kind == KIND_TDDK;
    default: return one_in(c, 2);
    }
}

static void writable(struct chance *c, uint8_t record[RECORD_BYTES])
{
    unsigned one = a_date(c), two = one_in(c, 5) ? one : a_date(c);
    memset(record, 0, RECORD_BYTES);
    record[0] = (uint8_t)below(c, 4);
    record[1] = (uint8_t)below(c, 2);
    record[2] = (uint8_t)below(c, 3);
    record[3] = record[0] == KIND_TDDK || one_in(c, 2) ? NO_GUPP : (uint8_t)below(c, 10);
    for (size_t i = 0; i < TEXTS; i++)
        if (!texts[i].optional || kind_has(c, record[0], record[1], i))
            put_record_text(c, record, i, c->widest || one_in(c, 3) ? texts[i].most : between(c, texts[i].least, texts[i].most));
    if (one_in(c, 2))
        put_record_number(record, 0, a_moment(c));
    put_record_number(record, 1, moment(one < two ? one : two, a_time(c)));
    put_record_number(record, 2, one < two ? two : one);
    put_record_amount(c, record, 3);
    put_record_amount(c, record, 5);
    if (one_in(c, 8)) {
        put_record_number(record, 3, 0);
        put_record_number(record, 4, 0);
    }
}

/* One of a text's edges. */
static void edge_of_text(struct chance *c, uint8_t *record)
{
    size_t which = below(c, TEXTS), most = texts[which].most, least = texts[which].least;
    size_t lengths[] = { 0, least, least - (least > 0), most, most + 1, 20, 21, 255 };
    static const uint8_t odd[] = { 'a', ' ', '/', ':', '@', '[', 0, 0x80, 255, 'A', '0' };
    uint8_t *at = text_place(record, which), byte = PICK(c, odd);
    switch (below(c, 3)) {
    case 0: put_record_text(c, record, which, PICK(c, lengths)); return;
    case 1: at[below(c, TEXT_BYTES)] = byte; return;
    default: at[0] = (uint8_t)(at[0] + between(c, 0, 2) - 1); return;
    }
}

static void edge_of_number(struct chance *c, uint8_t *record)
{
    static const uint64_t amounts[] = { 0, 1, 9, 10, 995, 990, 99999999999999, 100000000000000, 100000000000001, UINT64_MAX, 1000000 };
    static const uint64_t decimals[] = { 0, 1, 2, 13, 14, 15, 255, 256, 257, 4294967296, 4294967297, UINT64_MAX };
    static const uint64_t far[] = { 0, 1, 20240229, 20240229093000, 100000101, 100000101000000, 4294967296, UINT64_MAX };
    size_t which = below(c, NUMBERS);
    uint64_t value = which == 4 || which == 6 ? PICK(c, decimals) : which >= 3 ? PICK(c, amounts)
                   : one_in(c, 3) ? PICK(c, far) : which == 2 ? odd_date(c) : odd_moment(c);
    put_record_number(record, which, value);
}

static void edge_of_kind(struct chance *c, uint8_t *record)
{
    static const uint8_t codes[] = { 0, 1, 2, 3, 4, 9, 10, 128, 254, 255 };
    static const size_t which[] = { A_MAST, A_PREV, A_LIST, A_BUYERS, A_SELLERS, A_DKRS };
    uint8_t code = PICK(c, codes);
    if (one_in(c, 2))
        record[below(c, 4)] = code;
    else {
        size_t text = PICK(c, which);
        put_record_text(c, record, text, text_place(record, text)[0] > 0 ? 0 : between(c, texts[text].least, texts[text].most));
    }
}

/* Any of the 375 bytes, by a little or to anything. */
static void other_byte(struct chance *c, uint8_t *record)
{
    uint8_t *at = record + below(c, RECORD_BYTES);
    switch (below(c, 4)) {
    case 0: ++*at; return;
    case 1: --*at; return;
    case 2: *at ^= (uint8_t)(1u << below(c, 8)); return;
    default: *at = (uint8_t)below(c, 256); return;
    }
}

/* Par zero; or any two dates. */
static void edge_of_rules(struct chance *c, uint8_t *record)
{
    if (one_in(c, 3)) {
        put_record_number(record, 5, 0);
        put_record_number(record, 6, one_in(c, 4));
        return;
    }
    put_record_number(record, 1, a_moment(c));
    put_record_number(record, 2, a_date(c));
}

void make_record(struct chance *chance, uint8_t record[RECORD_BYTES])
{
    writable(chance, record);
    if (one_in(chance, 100)) {
        for (size_t i = 0; i < RECORD_BYTES; i++)
            record[i] = (uint8_t)below(chance, 256);
        return;
    }
    size_t many = one_in(chance, 4) ? 0 : one_in(chance, 4) ? 2 : 1;
    for (size_t i = 0; i < many; i++)
        switch (below(chance, 6)) {
        case 0: edge_of_text(chance, record); break;
        case 1: edge_of_number(chance, record); break;
        case 2: edge_of_kind(chance, record); break;
        case 3: edge_of_rules(chance, record); break;
        default: other_byte(chance, record); break;
        }
}

/* ---------------------------------------------------------------- batches */

/* One of the others; the pool's where it is our own, and the other way round. */
static enum sort another(struct chance *chance, enum sort sort)
{
    return sort == OURS ? POOLS : sort == POOLS || one_in(chance, 2) ? OURS : POOLS;
}

void make_batch(struct chance *chance, enum sort sort, struct bytes *batch)
{
    static struct bytes message;
    static const char *const pieces[] = { "", "X\n-\n", "-\n", "-\r\n", "-\r\r\n", "\n", "\r\n", "X", "-", "X\n", "--\n", " -\n" };
    batch->length = 0;
    for (size_t many = below(chance, 5); many > 0; many--) {
        enum sort of_it = one_in(chance, 8) ? another(chance, sort) : sort;
        make_message(chance, of_it, &message);
        if (one_in(chance, 3)) {
            const char *piece = PICK(chance, pieces);
            message.length = strlen(piece);
            memcpy(message.at, piece, message.length);
        }
        for (size_t i = 0; i < message.length && batch->length < LONGEST_CASE - 1; i++)
            put_byte(batch, message.at[i]);
    }
}

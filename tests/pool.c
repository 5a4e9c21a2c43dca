/* pool.c: calls every entry of include/pool.h as a C program does, and holds the answers against what the page of request A1
 * prints: P, its fields and its plain form, the widest messages, and all its worked cases. What is lent stands between guard bytes,
 * and a message ends just before a page that may not be touched. Says what it tried; the last line says how it went. */
#define _DEFAULT_SOURCE
#include "pool.h"

#define ENTRY(name) pool_##name
enum { FIELDS = POOL_FIELDS, LAST_SLOT = POOL_FIELD_NARRATIVE, LONGEST = POOL_LONGEST };
#include "entries.h"

/* ---------------------------------------------------------------- messages */

/* P by the four rules: CR LF, the buyer's block first, no needless noughts in price, money and par. */
static const char P_PLAIN[] =
    "\r\n"
    "0017\r\n"
    "515/000/DTCY\r\n"
    "MBSCPNET\r\n"
    ":16R:GENL\r\n"
    ":20C::SEME//0008\r\n"
    ":23G:NEWM\r\n"
    ":22F::TRTR/DTCY/CASH\r\n"
    ":16R:LINK\r\n"
    ":20C::MAST//0017\r\n"
    ":16S:LINK\r\n"
    ":16S:GENL\r\n"
    ":16R:CONFDET\r\n"
    ":98C::TRAD//20240229000000\r\n"
    ":98A::SETT//20240313\r\n"
    ":90A::DEAL//PRCT/99,5\r\n"
    ":19A::SETT//USD0,\r\n"
    ":22H::BUSE//BUYI\r\n"
    ":22F::PROC/DTCY/INST\r\n"
    ":22H::PAYM//APMT\r\n"
    ":16R:CONFPRTY\r\n"
    ":95R::BUYR/DTCY/PART0017\r\n"
    ":16S:CONFPRTY\r\n"
    ":16R:CONFPRTY\r\n"
    ":95R::SELL/DTCY/PART0015\r\n"
    ":16S:CONFPRTY\r\n"
    ":36B::CONF//FAMT/1000000,\r\n"
    ":35B:/US/01F070633\r\n"
    ":16R:FIA\r\n"
    ":13B::POOL/DTCY/123456\r\n"
    ":16S:FIA\r\n"
    ":70E::TPRO//DTCY/TDSVPOOL/CDRY/DDTE20240313\r\n"
    ":16S:CONFDET\r\n"
    "-\r\n";

/* An MDFC with every field at its widest: 752 bytes, in plain form. */
static const char WIDEST[] =
    "PASSWORD1234\r\n"
    "SENDER12\r\n"
    "515/000/DTCY\r\n"
    "MBSCPNET\r\n"
    ":16R:GENL\r\n"
    ":20C::SEME//SEME567890123456\r\n"
    ":23G:NEWM\r\n"
    ":22F::TRTR/DTCY/CASH\r\n"
    ":16R:LINK\r\n"
    ":20C::MAST//MAST567890123456\r\n"
    ":16S:LINK\r\n"
    ":16R:LINK\r\n"
    ":20C::PREV//PREV567890123456\r\n"
    ":16S:LINK\r\n"
    ":16R:LINK\r\n"
    ":20C::LIST//LIST567890123456\r\n"
    ":16S:LINK\r\n"
    ":16S:GENL\r\n"
    ":16R:CONFDET\r\n"
    ":98C::TRAD//20240229235959\r\n"
    ":98A::SETT//20240229\r\n"
    ":90A::DEAL//PRCT/12345678901234,\r\n"
    ":19A::SETT//USD1234567890123,4\r\n"
    ":22H::BUSE//SELL\r\n"
    ":22F::PROC/DTCY/MDFC\r\n"
    ":22H::PAYM//APMT\r\n"
    ":16R:CONFPRTY\r\n"
    ":95R::BUYR/DTCY/PARTBUYC\r\n"
    ":16S:CONFPRTY\r\n"
    ":16R:CONFPRTY\r\n"
    ":95R::SELL/DTCY/PARTSELC\r\n"
    ":16S:CONFPRTY\r\n"
    ":36B::CONF//FAMT/1,0000000000001\r\n"
    ":35B:/US/01F070641\r\n"
    ":16R:FIA\r\n"
    ":13B::POOL/DTCY/POOL56789\r\n"
    ":16S:FIA\r\n"
    ":70E::TPRO//DTCY/TDSVPOOL/CDRY/DDTE99991231\r\n"
    ":16S:CONFDET\r\n"
    "-\r\n";

/* A TDDK of the buyer, with the contra reference in the seller's block, the seller's block first, and neither MAST nor 19A. */
static const char DK[] =
    "PW\n"
    "0015\n"
    "515/000/DTCY\n"
    "MBSCPNET\n"
    ":16R:GENL\n"
    ":20C::SEME//DK1\n"
    ":23G:NEWM\n"
    ":22F::TRTR/DTCY/CASH\n"
    ":16S:GENL\n"
    ":16R:CONFDET\n"
    ":98C::TRAD//20240229000000\n"
    ":98A::SETT//20240313\n"
    ":90A::DEAL//PRCT/000,00\n"
    ":22H::BUSE//BUYI\n"
    ":22F::PROC/DTCY/TDDK\n"
    ":22H::PAYM//APMT\n"
    ":16R:CONFPRTY\n"
    ":95R::SELL/DTCY/PART0017\n"
    ":20C::PROC//7096000247\n"
    ":16S:CONFPRTY\n"
    ":16R:CONFPRTY\n"
    ":95R::BUYR/DTCY/PART0017\n"
    ":16S:CONFPRTY\n"
    ":36B::CONF//FAMT/0,5\n"
    ":35B:/US/01F070633\n"
    ":70E::TPRO//DTCY/TDSVPOOL/DDTE00010101/DKRS0A1B\n"
    ":16S:CONFDET\n"
    "-\n";

static const char DK_PLAIN[] =
    "PW\r\n"
    "0015\r\n"
    "515/000/DTCY\r\n"
    "MBSCPNET\r\n"
    ":16R:GENL\r\n"
    ":20C::SEME//DK1\r\n"
    ":23G:NEWM\r\n"
    ":22F::TRTR/DTCY/CASH\r\n"
    ":16S:GENL\r\n"
    ":16R:CONFDET\r\n"
    ":98C::TRAD//20240229000000\r\n"
    ":98A::SETT//20240313\r\n"
    ":90A::DEAL//PRCT/0,\r\n"
    ":22H::BUSE//BUYI\r\n"
    ":22F::PROC/DTCY/TDDK\r\n"
    ":22H::PAYM//APMT\r\n"
    ":16R:CONFPRTY\r\n"
    ":95R::BUYR/DTCY/PART0017\r\n"
    ":16S:CONFPRTY\r\n"
    ":16R:CONFPRTY\r\n"
    ":95R::SELL/DTCY/PART0017\r\n"
    ":20C::PROC//7096000247\r\n"
    ":16S:CONFPRTY\r\n"
    ":36B::CONF//FAMT/0,5\r\n"
    ":35B:/US/01F070633\r\n"
    ":70E::TPRO//DTCY/TDSVPOOL/DDTE00010101/DKRS0A1B\r\n"
    ":16S:CONFDET\r\n"
    "-\r\n";

/* ---------------------------------------------------------------- the other types */

/* The MT515's reading. */
static void others_refuse(const void *message, size_t length)
{
    uint8_t record[MT515_RECORD];
    size_t line;
    uint8_t number = mt515_read(lend(message, length), length, record, &line);
    want(number == MT515_HEADER && line == 3, "the MT515's reading of a message of the pool's", number);
}

/* ---------------------------------------------------------------- where the fields of an accepted message stand */

/* What stands before a value in its line. */
static const char *const before[LAST_SLOT + 1] = {
    [POOL_FIELD_SEME] = ":20C::SEME//",
    [POOL_FIELD_23G] = ":23G:",
    [POOL_FIELD_MAST] = ":20C::MAST//",
    [POOL_FIELD_PREV] = ":20C::PREV//",
    [POOL_FIELD_LIST] = ":20C::LIST//",
    [POOL_FIELD_TRAD] = ":98C::TRAD//",
    [POOL_FIELD_SETT] = ":98A::SETT//",
    [POOL_FIELD_DEAL] = ":90A::DEAL//PRCT/",
    [POOL_FIELD_MONEY] = ":19A::SETT//USD",
    [POOL_FIELD_BUSE] = ":22H::BUSE//",
    [POOL_FIELD_PROC] = ":22F::PROC/DTCY/",
    [POOL_FIELD_BUYR] = ":95R::BUYR/DTCY/PART",
    [POOL_FIELD_BUYR_REFERENCE] = ":20C::PROC//",
    [POOL_FIELD_SELL] = ":95R::SELL/DTCY/PART",
    [POOL_FIELD_SELL_REFERENCE] = ":20C::PROC//",
    [POOL_FIELD_PAR] = ":36B::CONF//FAMT/",
    [POOL_FIELD_CUSIP] = ":35B:/US/",
    [POOL_FIELD_POOL] = ":13B::POOL/DTCY/",
    [POOL_FIELD_NARRATIVE] = ":70E::TPRO//DTCY/",
};

/* The value of a slot: told by what its line begins with; a reference is on the line behind its party's. Empty where there is none. */
static struct span value_of(const char *message, size_t slot)
{
    bool reference = slot == POOL_FIELD_BUYR_REFERENCE || slot == POOL_FIELD_SELL_REFERENCE;
    const char *at = message;
    while (*at && !begins(at, before[reference ? slot - 1 : slot]))
        at = strchr(at, '\n') + 1;
    if (*at && reference)
        at = strchr(at, '\n') + 1;
    if (!begins(at, before[slot]))
        return (struct span){ 0, 0 };
    return rest_of_line(message, (size_t)(at - message) + strlen(before[slot]));
}

/* What is read of an accepted message: every slot, password and sender; and nothing at index 0. */
static void places_are(const char *message, const struct read_answer *a, const char *what)
{
    struct span password = rest_of_line(message, 0), sender = rest_of_line(message, line_start(message, 2));
    want(a->starts[0] == 0 && a->ends[0] == 0, "read: index 0", a->ends[0]);
    for (size_t slot = 1; slot <= LAST_SLOT; slot++) {
        struct span value = value_of(message, slot);
        want(a->starts[slot] == value.from && a->ends[slot] == value.to, what, slot);
    }
    want(a->starts[POOL_FIELD_PASSWORD] == 0 && a->ends[POOL_FIELD_PASSWORD] == password.to, "read: the password", password.to);
    want(a->starts[POOL_FIELD_SENDER] == sender.from && a->ends[POOL_FIELD_SENDER] == sender.to, "read: the sender", sender.to);
}

/* ---------------------------------------------------------------- worked cases */

#define MONEY(value) { 17, 17, ":19A::SETT//" value "\n" }
#define KIND(word) { 19, 19, ":22F::PROC/DTCY/" word "\n" }
#define PAR(value) { 27, 27, ":36B::CONF//FAMT/" value "\n" }
#define NARRATIVE(value) { 32, 32, ":70E::TPRO//DTCY/" value "\n" }
#define LINKED(line) { 11, 11, ":16S:LINK\n:16R:LINK\n" line "\n:16S:LINK\n" }
#define NO_LINK GONE(9, 11)
#define CONTRA LINE(22, ":95R::SELL/DTCY/PART0015\n:20C::PROC//1")
#define OWN_CONTRA LINE(25, ":95R::BUYR/DTCY/PART0017\n:20C::PROC//2")

/* Section 10 of the page, in its order, but for B, which is no change to P. */
static const struct worked of_page[] = {
    { "P", 0, 0, { { 0 } } },
    { "line 3 GSCC", 4, 3, { LINE(3, "515/000/GSCC") } },
    { "line 4 MBSCTRRS", 4, 4, { LINE(4, "MBSCTRRS") } },
    { "PREP after line 7", 8, 8, { LINE(7, ":23G:NEWM\n:98C::PREP//20240229093000") } },
    { "70C after line 22", 8, 23, { LINE(22, ":95R::SELL/DTCY/PART0015\n:70C::PACO//DTCY/TDIDA") } },
    { "TRTR with GSCC", 10, 8, { LINE(8, ":22F::TRTR/GSCC/CASH") } },
    { "without line 17", 0, 0, { GONE(17, 17) } },
    { "19A USD0,", 0, 0, { MONEY("USD0,") } },
    { "19A USD0012,500", 0, 0, { MONEY("USD0012,500") } },
    { "19A USD", 11, 17, { MONEY("USD") } },
    { "19A USD1", 11, 17, { MONEY("USD1") } },
    { "19A USDN1,", 11, 17, { MONEY("USDN1,") } },
    { "19A NUSD1,", 10, 17, { MONEY("NUSD1,") } },
    { "19A EUR1,", 10, 17, { MONEY("EUR1,") } },
    { "19A twice", 8, 18, { LINE(17, ":19A::SETT//USD0,00\n:19A::SETT//USD0,00") } },
    { "lines 16 and 17 exchanged", 9, 16, { LINE(16, ":19A::SETT//USD0,00"), LINE(17, ":90A::DEAL//PRCT/99,50") } },
    { "19A after line 18", 8, 18, { GONE(17, 17), LINE(18, ":22H::BUSE//BUYI\n:19A::SETT//USD0,00") } },
    { "19A LOCO", 8, 17, { LINE(17, ":19A::LOCO//USD1,") } },
    { "without lines 29 to 31", 0, 0, { GONE(29, 31) } },
    { "without line 30", 9, 30, { GONE(30, 30) } },
    { "without line 32", 9, 32, { GONE(32, 32) } },
    { "70E TDSVPOOL", 0, 0, { NARRATIVE("TDSVPOOL") } },
    { "70E TDSVSBOD", 10, 32, { NARRATIVE("TDSVSBOD") } },
    { "70E GUPP", 10, 32, { NARRATIVE("TDSVPOOL/GUPP0") } },
    { "70E DDTE before CDRY", 10, 32, { NARRATIVE("TDSVPOOL/DDTE20240313/CDRY") } },
    { "70E CDRYY", 10, 32, { NARRATIVE("TDSVPOOL/CDRYY") } },
    { "70E DDTE no day", 12, 32, { NARRATIVE("TDSVPOOL/DDTE20230229") } },
    { "70E DDTE empty", 12, 32, { NARRATIVE("TDSVPOOL/DDTE") } },
    { "70E DDTE of nine", 12, 32, { NARRATIVE("TDSVPOOL/DDTE202403131") } },
    { "70E DDTE of seven", 12, 32, { NARRATIVE("TDSVPOOL/DDTE2024031") } },
    { "70E DDTE no day, DKRS of three", 10, 32, { NARRATIVE("TDSVPOOL/DDTE20230229/DKRSE00") } },
    { "70E DDTE empty, a slash", 10, 32, { NARRATIVE("TDSVPOOL/DDTE/20240313") } },
    { "70E DDTE no day, par zero", 12, 32, { NARRATIVE("TDSVPOOL/DDTE20230229"), PAR("0,") } },
    { "70E DDTE of the year 1", 0, 0, { NARRATIVE("TDSVPOOL/DDTE00010101") } },
    { "70E DKRS in INST", 15, 0, { NARRATIVE("TDSVPOOL/DKRSE004") } },
    { "kind CASE", 10, 19, { KIND("CASE") } },
    { "kind with GSCC", 10, 19, { LINE(19, ":22F::PROC/GSCC/INST") } },
    { "CDRQ", 0, 0, { KIND("CDRQ"), NARRATIVE("TDSVPOOL") } },
    { "CDRL", 0, 0, { KIND("CDRL"), NARRATIVE("TDSVPOOL") } },
    { "CDRQ with CDRY", 0, 0, { KIND("CDRQ") } },
    { "CDRQ with LIST", 0, 0, { KIND("CDRQ"), NARRATIVE("TDSVPOOL"), LINKED(":20C::LIST//1") } },
    { "CDRQ with PREV", 15, 0, { KIND("CDRQ"), NARRATIVE("TDSVPOOL"), LINKED(":20C::PREV//1") } },
    { "CDRQ without MAST", 14, 0, { KIND("CDRQ"), NARRATIVE("TDSVPOOL"), NO_LINK } },
    { "CDRQ with 23G CANC", 13, 0, { KIND("CDRQ"), NARRATIVE("TDSVPOOL"), LINE(7, ":23G:CANC") } },
    { "MDFC with CDRY", 0, 0, { KIND("MDFC") } },
    { "LIST in INST", 15, 0, { LINKED(":20C::LIST//1") } },
    { "TDDK", 0, 0, { KIND("TDDK"), NO_LINK, CONTRA, NARRATIVE("TDSVPOOL/DDTE20240313/DKRSE004") } },
    { "TDDK with MAST", 0, 0, { KIND("TDDK"), LINE(10, ":20C::MAST//NONREF"), CONTRA, NARRATIVE("TDSVPOOL/DDTE20240313/DKRSE004") } },
    { "TDDK with PREV", 15, 0, { KIND("TDDK"), LINKED(":20C::PREV//1"), CONTRA, NARRATIVE("TDSVPOOL/DDTE20240313/DKRSE004") } },
    { "TDDK without DKRS", 14, 0, { KIND("TDDK"), NO_LINK, CONTRA, NARRATIVE("TDSVPOOL/DDTE20240313") } },
    { "TDDK with CDRY", 15, 0, { KIND("TDDK"), NO_LINK, CONTRA, NARRATIVE("TDSVPOOL/CDRY/DDTE20240313/DKRSE004") } },
    { "CANC with PREV", 0, 0, { KIND("CANC"), LINE(7, ":23G:CANC"), LINKED(":20C::PREV//NONREF"), NARRATIVE("TDSVPOOL") } },
    { "par zero", 16, 0, { PAR("0,") } },
    { "SETT before the trade date", 17, 0, { LINE(15, ":98A::SETT//20240228") } },
};

/* The rest of the table of kinds: what is must, may and never of each, where the page works no case. */
static const struct worked of_kinds[] = {
    { "INST with CDRY", 0, 0, { NARRATIVE("TDSVPOOL/CDRY") } },
    { "INST with PREV", 15, 0, { LINKED(":20C::PREV//1") } },
    { "INST without MAST", 14, 0, { NO_LINK } },
    { "INST with 23G CANC", 13, 0, { LINE(7, ":23G:CANC") } },
    { "INST with a contra reference", 15, 0, { CONTRA } },
    { "INST with one in its own block", 15, 0, { OWN_CONTRA } },
    { "CANC with LIST and CDRY", 0, 0, { KIND("CANC"), LINE(7, ":23G:CANC"), LINKED(":20C::LIST//1") } },
    { "CANC without MAST", 14, 0, { KIND("CANC"), LINE(7, ":23G:CANC"), NO_LINK } },
    { "CANC with 23G NEWM", 13, 0, { KIND("CANC") } },
    { "CANC with DKRS", 15, 0, { KIND("CANC"), LINE(7, ":23G:CANC"), NARRATIVE("TDSVPOOL/DKRSE004") } },
    { "CANC with a contra reference", 15, 0, { KIND("CANC"), LINE(7, ":23G:CANC"), CONTRA } },
    { "CANC with one in its own block", 15, 0, { KIND("CANC"), LINE(7, ":23G:CANC"), OWN_CONTRA } },
    { "MDFC with PREV", 0, 0, { KIND("MDFC"), LINKED(":20C::PREV//1") } },
    { "MDFC with LIST", 0, 0, { KIND("MDFC"), LINKED(":20C::LIST//1") } },
    { "MDFC without MAST", 14, 0, { KIND("MDFC"), NO_LINK } },
    { "MDFC with 23G CANC", 13, 0, { KIND("MDFC"), LINE(7, ":23G:CANC") } },
    { "MDFC with DKRS", 15, 0, { KIND("MDFC"), NARRATIVE("TDSVPOOL/DKRSE004") } },
    { "MDFC with a contra reference", 15, 0, { KIND("MDFC"), CONTRA } },
    { "MDFC with one in its own block", 15, 0, { KIND("MDFC"), OWN_CONTRA } },
    { "TDDK with LIST", 15, 0, { KIND("TDDK"), LINKED(":20C::LIST//1"), CONTRA, NARRATIVE("TDSVPOOL/DKRSE004") } },
    { "TDDK without DDTE", 0, 0, { KIND("TDDK"), NO_LINK, CONTRA, NARRATIVE("TDSVPOOL/DKRSE004") } },
    { "TDDK without its contra reference", 14, 0, { KIND("TDDK"), NO_LINK, NARRATIVE("TDSVPOOL/DKRSE004") } },
    { "TDDK with one in its own block", 14, 0, { KIND("TDDK"), NO_LINK, OWN_CONTRA, NARRATIVE("TDSVPOOL/DKRSE004") } },
    { "TDDK with one in both", 15, 0, { KIND("TDDK"), NO_LINK, CONTRA, OWN_CONTRA, NARRATIVE("TDSVPOOL/DKRSE004") } },
    { "TDDK of the seller", 0, 0, { KIND("TDDK"), NO_LINK, LINE(18, ":22H::BUSE//SELL"), OWN_CONTRA, NARRATIVE("TDSVPOOL/DKRSE004") } },
    { "TDDK with 23G CANC", 13, 0, { KIND("TDDK"), LINE(7, ":23G:CANC"), NO_LINK, CONTRA, NARRATIVE("TDSVPOOL/DKRSE004") } },
    { "CDRQ with DKRS", 15, 0, { KIND("CDRQ"), NARRATIVE("TDSVPOOL/DKRSE004") } },
    { "CDRQ with a contra reference", 15, 0, { KIND("CDRQ"), CONTRA } },
    { "CDRQ with one in its own block", 15, 0, { KIND("CDRQ"), OWN_CONTRA } },
    { "CDRL with CDRY", 0, 0, { KIND("CDRL") } },
    { "CDRL with LIST", 0, 0, { KIND("CDRL"), LINKED(":20C::LIST//1") } },
    { "CDRL with PREV", 15, 0, { KIND("CDRL"), LINKED(":20C::PREV//1") } },
    { "CDRL without MAST", 14, 0, { KIND("CDRL"), NO_LINK } },
    { "CDRL with 23G CANC", 13, 0, { KIND("CDRL"), LINE(7, ":23G:CANC") } },
    { "CDRL with DKRS", 15, 0, { KIND("CDRL"), NARRATIVE("TDSVPOOL/DKRSE004") } },
    { "CDRL with a contra reference", 15, 0, { KIND("CDRL"), CONTRA } },
    { "CDRL with one in its own block", 15, 0, { KIND("CDRL"), OWN_CONTRA } },
};

static void worked_cases(void)
{
    char crlf[LONGEST_MADE];
    heading("the worked cases of the page, with LF and with CR LF, by every entry");
    cases_want(P, of_page, COUNT(of_page));
    whole_wants(B, sizeof B - 1, MT515_HEADER, 3, "B");
    whole_wants(crlf, with_crlf(crlf, B), MT515_HEADER, 3, "B with CR LF");
    heading("the rest of the table of kinds, likewise");
    cases_want(P, of_kinds, COUNT(of_kinds));
}

/* The numbers that the page works no case of: 1 to 3 and 5 to 7; and the least and the greatest length. */
static void refuses(void)
{
    static const struct worked cases[] = {
        { "a tab", MT515_BYTE, 2, { LINE(2, "0017\t") } },
        { "two CRs", MT515_BYTE, 17, { { 17, 17, ":19A::SETT//USD0,00\r\r\n" } } },
        { "- early", MT515_END, 12, { LINE(12, "-") } },
        { "more behind -", MT515_END, 34, { LINE(34, "-\nX") } },
        { "- without its ending", MT515_END, 34, { { 34, 34, "-" } } },
        { "password in lower case", MT515_HEADER, 1, { LINE(1, "lower") } },
        { "password filled with blanks", MT515_HEADER, 1, { LINE(1, "PASSWORD    ") } },
        { "sender blank", MT515_HEADER, 2, { LINE(2, "") } },
        { "no tag", MT515_SHAPE, 17, { LINE(17, "19A::SETT//USD0,00") } },
        { "a second line of the narrative", MT515_SHAPE, 33, { LINE(33, "/DKRSE004\n:16S:CONFDET") } },
        { "FIA not closed", MT515_CLOSE, 32, { GONE(31, 31) } },
        { "CONFDET not closed", MT515_CLOSE, 33, { GONE(33, 33) } },
        { "nine levels", MT515_DEPTH, 13, { LINE(5, ":16R:GENL\n:16R:A\n:16R:B\n:16R:C\n:16R:D\n:16R:E\n:16R:F\n:16R:G\n:16R:H") } },
        { "SETDET", MT515_NO_SLOT, 34, { LINE(34, ":16R:SETDET\n:16S:SETDET\n-") } },
        { "BASK", MT515_NO_SLOT, 13, { LINKED(":20C::BASK//1") } },
        { "a second MAST", MT515_NO_SLOT, 13, { LINKED(":20C::MAST//1") } },
        { "two sellers", MT515_NO_SLOT, 25, { LINE(25, ":95R::SELL/DTCY/PART0017") } },
    };
    char message[LONGEST_MADE];
    heading("refused: the other numbers; nothing, 4,096 bytes and one more");
    for (size_t i = 0; i < COUNT(cases); i++)
        message_wants(message, changed(message, P, cases[i].changes), cases[i].number, cases[i].line, cases[i].what);

    memset(message, 'X', sizeof message);
    message_wants(message, 0, MT515_LENGTH, 0, "nothing");
    message_wants(message, 1, MT515_END, 1, "X");
    message_wants(message, 4096, MT515_END, 1, "4,096 bytes");
    message_wants(message, 4097, MT515_LENGTH, 0, "4,097 bytes");
    message_wants("-\n", 2, MT515_HEADER, 1, "- alone");
}

/* ---------------------------------------------------------------- lines left out, values at their edges */

/* P without one line that must be there, or without a block: 9 at the line that comes in its place. */
static void left_out(void)
{
    static const struct { size_t first, last, at; } gaps[] = {
        { 6, 6, 6 }, { 7, 7, 7 }, { 8, 8, 8 }, { 10, 10, 10 }, { 14, 14, 14 }, { 15, 15, 15 }, { 16, 16, 16 }, { 18, 18, 18 },
        { 19, 19, 19 }, { 20, 20, 20 }, { 22, 22, 22 }, { 25, 25, 25 }, { 27, 27, 27 }, { 28, 28, 28 }, { 30, 30, 30 },
        { 32, 32, 32 }, { 5, 12, 5 }, { 13, 33, 13 }, { 21, 23, 24 }, { 24, 26, 24 }, { 21, 26, 21 },
    };
    char message[LONGEST_MADE];
    heading("left out: each line and each block that must be there");
    for (size_t i = 0; i < COUNT(gaps); i++) {
        size_t from = line_start(P, gaps[i].first), to = line_start(P, gaps[i].last + 1);
        memcpy(message, P, from);
        strcpy(message + from, P + to);
        message_wants(message, strlen(message), MT515_PASSED_OVER, gaps[i].at, "a line is left out");
    }
}

/* A line of P where values are tried, what stands before and behind them, the line that a refusal names, and changes to P without
 * which no value could stand there. */
struct spot { size_t line; const char *before, *behind; size_t at; struct change base[MOST_CHANGES - 1]; };

#define SPOT(line, before) { line, before, "\n", line, { { 0 } } }

static void value_wants(const struct spot *spot, const char *value, uint8_t number)
{
    char text[200], message[LONGEST_MADE];
    struct change changes[MOST_CHANGES];
    snprintf(text, sizeof text, "%s%s%s", spot->before, value, spot->behind);
    memcpy(changes, spot->base, sizeof spot->base);
    changes[MOST_CHANGES - 1] = (struct change){ spot->line, spot->line, text };
    bool has_line = number != MT515_ACCEPTED && number <= MT515_DATE;
    message_wants(message, changed(message, P, changes), number, has_line ? spot->at : 0, text);
}

/* Every value in every spot: the same number. */
static void values_want(const struct spot *spots, size_t spot_count, const char *const *values, size_t value_count, uint8_t number)
{
    for (size_t i = 0; i < spot_count; i++)
        for (size_t k = 0; k < value_count; k++)
            value_wants(&spots[i], values[k], number);
}

/* Each text with every width up to 20, and with an odd last character: 10, in the header 4, where it does not fit. */
static void texts(void)
{
    static const struct { size_t least, most; struct spot spot; } texts[] = {
        { 0, 12, SPOT(1, "") }, { 1, 8, SPOT(2, "") }, { 1, 16, SPOT(6, ":20C::SEME//") }, { 1, 16, SPOT(10, ":20C::MAST//") },
        { 1, 16, { 11, ":16S:LINK\n:16R:LINK\n:20C::PREV//", "\n:16S:LINK\n", 13, { KIND("MDFC") } } },
        { 1, 16, { 11, ":16S:LINK\n:16R:LINK\n:20C::LIST//", "\n:16S:LINK\n", 13, { KIND("MDFC") } } },
        { 4, 4, SPOT(22, ":95R::SELL/DTCY/PART") }, { 4, 4, SPOT(25, ":95R::BUYR/DTCY/PART") },
        { 1, 16, { 22, ":95R::SELL/DTCY/PART0015\n:20C::PROC//", "\n", 23, { KIND("TDDK"), NARRATIVE("TDSVPOOL/DKRSE004") } } },
        { 1, 16, { 25, ":95R::BUYR/DTCY/PART0017\n:20C::PROC//", "\n", 26,
                   { KIND("TDDK"), NARRATIVE("TDSVPOOL/DKRSE004"), LINE(18, ":22H::BUSE//SELL") } } },
        { 9, 9, SPOT(28, ":35B:/US/") }, { 1, 9, SPOT(30, ":13B::POOL/DTCY/") },
        { 4, 4, { 32, ":70E::TPRO//DTCY/TDSVPOOL/DKRS", "\n", 33, { KIND("TDDK"), CONTRA } } },
    };
    heading("values: each text with every width up to 20, and with a character that it may not have");
    for (size_t i = 0; i < COUNT(texts); i++)
        for (size_t width = 0; width <= 20; width++) {
            const struct spot *spot = &texts[i].spot;
            bool fits = width >= texts[i].least && width <= texts[i].most;
            uint8_t wrong = spot->line <= 2 ? MT515_HEADER : MT515_VALUE;
            char value[24] = "";
            memset(value, '0', width);
            value_wants(spot, value, fits ? MT515_ACCEPTED : wrong);
            for (const char *odd = "az _@[/:"; width > 0 && *odd; odd++) {
                value[width - 1] = *odd;
                value_wants(spot, value, wrong);
            }
        }
}

/* Code words and fixed texts, amounts and dates, each in every line that has one. */
static void words_amounts_dates(void)
{
    static const struct spot words[] = {
        SPOT(18, ":22H::BUSE//"), SPOT(19, ":22F::PROC/DTCY/"), SPOT(8, ":22F::TRTR"), SPOT(20, ":22H::PAYM"), SPOT(7, ":23G:"),
    };
    static const char *const odd_words[] = {
        "NEW M", "newm", "NEWMX", "INSTX", "INS", "BUY", "SELLL", " BUYI", "/DTCY/CAS", "/DTCY/CASHX", "/APMT", "//APM", "//APMTX",
    };
    static const struct spot amounts[] = { SPOT(16, ":90A::DEAL//PRCT/"), SPOT(17, ":19A::SETT//USD"), SPOT(27, ":36B::CONF//FAMT/") };
    static const char *const odd_amounts[] = {
        "", ",", "0", "17", ",5", "1,2,", "1.5", "N1,", "-1,", " 1,", "1, ", "A,", "123456789012345,", "1,23456789012345",
    };
    static const char *const good_amounts[] = { "0,1", "17,", "0017,", "12345678901234,", "1,2345678901234", "0000000000000,1" };
    static const char *const zeros[] = { "0,", "000,00", "00000000000000,", "0,0000000000000" };
    static const struct spot dates[] = {
        SPOT(15, ":98A::SETT//"), { 14, ":98C::TRAD//", "000000\n", 14, { { 0 } } }, SPOT(32, ":70E::TPRO//DTCY/TDSVPOOL/CDRY/DDTE"),
        { 32, ":70E::TPRO//DTCY/TDSVPOOL/DDTE", "/DKRSE004\n", 33, { KIND("TDDK"), CONTRA } },
    };
    static const char *const odd_dates[] = {
        "", "20230229", "19000229", "20240230", "20241301", "20240001", "20240300", "00000101", "2024022", "202402299", "2024022A",
        " 2024022",
    };
    static const char *const trade_date[] = { "20240229" };
    heading("values: code words, amounts and dates, good ones and odd ones, in every line that has one");
    values_want(words, COUNT(words), odd_words, COUNT(odd_words), MT515_VALUE);
    for (size_t i = 0; i < COUNT(words); i++)      /* nothing behind `:23G:`, the last, is no line */
        value_wants(&words[i], "", i + 1 < COUNT(words) ? MT515_VALUE : MT515_SHAPE);
    values_want(amounts, COUNT(amounts), odd_amounts, COUNT(odd_amounts), MT515_AMOUNT);
    values_want(amounts, COUNT(amounts), good_amounts, COUNT(good_amounts), MT515_ACCEPTED);
    values_want(amounts, 2, zeros, COUNT(zeros), MT515_ACCEPTED);
    values_want(amounts + 2, 1, zeros, COUNT(zeros), MT515_PAR_ZERO);
    values_want(dates, COUNT(dates), odd_dates, COUNT(odd_dates), MT515_DATE);
    values_want(dates, COUNT(dates), trade_date, COUNT(trade_date), MT515_ACCEPTED);
}

/* ---------------------------------------------------------------- fields */

/* The page tells of P with CR LF where ten fields stand. */
static void page_places(void)
{
    static const struct { size_t slot, offset, count; } told[] = {
        { 1, 55, 4 }, { 9, 248, 4 }, { 12, 403, 4 }, { 14, 347, 4 }, { 17, 463, 9 }, { 19, 535, 26 },
        { 4, 0, 0 }, { 5, 0, 0 }, { 13, 0, 0 }, { 15, 0, 0 },
    };
    char crlf[LONGEST_MADE];
    size_t length = with_crlf(crlf, P);
    struct read_answer a = read_message(crlf, length);
    want(length == 580, "P with CR LF has 580 bytes", length);
    for (size_t i = 0; i < COUNT(told); i++) {
        struct field_answer f = field_of(crlf, length, told[i].slot);
        want(f.number == MT515_ACCEPTED && f.offset == told[i].offset && f.count == told[i].count, "P: a field", told[i].slot);
        want(a.starts[told[i].slot] == told[i].offset, "P: where it begins", told[i].slot);
        want(a.ends[told[i].slot] == told[i].offset + told[i].count, "P: where it ends", told[i].slot);
    }
    want(a.starts[20] == 0 && a.ends[20] == 0, "P: the password is blank", a.ends[20]);
    want(a.starts[21] == 2 && a.ends[21] == 6, "P: the sender", a.starts[21]);
}

/* In the header the fields are numbered as on the page, and there is one more than the last, for index 0. */
static void numbering(void)
{
    static const size_t numbers[] = {
        POOL_FIELD_SEME, POOL_FIELD_23G, POOL_FIELD_MAST, POOL_FIELD_PREV, POOL_FIELD_LIST, POOL_FIELD_TRAD, POOL_FIELD_SETT,
        POOL_FIELD_DEAL, POOL_FIELD_MONEY, POOL_FIELD_BUSE, POOL_FIELD_PROC, POOL_FIELD_BUYR, POOL_FIELD_BUYR_REFERENCE,
        POOL_FIELD_SELL, POOL_FIELD_SELL_REFERENCE, POOL_FIELD_PAR, POOL_FIELD_CUSIP, POOL_FIELD_POOL, POOL_FIELD_NARRATIVE,
        POOL_FIELD_PASSWORD, POOL_FIELD_SENDER, POOL_FIELDS,
    };
    heading("the header: the numbers of the fields");
    for (size_t i = 0; i < COUNT(numbers); i++)
        want(numbers[i] == i + 1, "a field's number", i + 1);
    want(POOL_FIELDS == 22, "how many fields are lent", POOL_FIELDS);
}

static void fields(void)
{
    static const char *const of_P[LAST_SLOT + 1] = {
        [POOL_FIELD_SEME] = "0008", [POOL_FIELD_23G] = "NEWM", [POOL_FIELD_MAST] = "0017", [POOL_FIELD_TRAD] = "20240229000000",
        [POOL_FIELD_SETT] = "20240313", [POOL_FIELD_DEAL] = "99,50", [POOL_FIELD_MONEY] = "0,00", [POOL_FIELD_BUSE] = "BUYI",
        [POOL_FIELD_PROC] = "INST", [POOL_FIELD_BUYR] = "0017", [POOL_FIELD_SELL] = "0015", [POOL_FIELD_PAR] = "0001000000,",
        [POOL_FIELD_CUSIP] = "01F070633", [POOL_FIELD_POOL] = "123456", [POOL_FIELD_NARRATIVE] = "TDSVPOOL/CDRY/DDTE20240313",
    };
    static const char *const of_widest[LAST_SLOT + 1] = {
        [POOL_FIELD_SEME] = "SEME567890123456", [POOL_FIELD_23G] = "NEWM", [POOL_FIELD_MAST] = "MAST567890123456",
        [POOL_FIELD_PREV] = "PREV567890123456", [POOL_FIELD_LIST] = "LIST567890123456", [POOL_FIELD_TRAD] = "20240229235959",
        [POOL_FIELD_SETT] = "20240229", [POOL_FIELD_DEAL] = "12345678901234,", [POOL_FIELD_MONEY] = "1234567890123,4",
        [POOL_FIELD_BUSE] = "SELL", [POOL_FIELD_PROC] = "MDFC", [POOL_FIELD_BUYR] = "BUYC", [POOL_FIELD_SELL] = "SELC",
        [POOL_FIELD_PAR] = "1,0000000000001", [POOL_FIELD_CUSIP] = "01F070641", [POOL_FIELD_POOL] = "POOL56789",
        [POOL_FIELD_NARRATIVE] = "TDSVPOOL/CDRY/DDTE99991231",
    };
    static const char *const of_DK[LAST_SLOT + 1] = {
        [POOL_FIELD_SEME] = "DK1", [POOL_FIELD_23G] = "NEWM", [POOL_FIELD_TRAD] = "20240229000000", [POOL_FIELD_SETT] = "20240313",
        [POOL_FIELD_DEAL] = "000,00", [POOL_FIELD_BUSE] = "BUYI", [POOL_FIELD_PROC] = "TDDK", [POOL_FIELD_BUYR] = "0017",
        [POOL_FIELD_SELL] = "0017", [POOL_FIELD_SELL_REFERENCE] = "7096000247", [POOL_FIELD_PAR] = "0,5",
        [POOL_FIELD_CUSIP] = "01F070633", [POOL_FIELD_NARRATIVE] = "TDSVPOOL/DDTE00010101/DKRS0A1B",
    };
    heading("fields: where the page says they stand in P; each value of P, of an MDFC with every field and of a TDDK");
    page_places();
    values_are(P, of_P);
    values_are(WIDEST, of_widest);
    values_are(DK, of_DK);
    whole_wants(WIDEST, sizeof WIDEST - 1, MT515_ACCEPTED, 0, "the widest MDFC");
    whole_wants(DK, sizeof DK - 1, MT515_ACCEPTED, 0, "the TDDK");
}

/* ---------------------------------------------------------------- plain form */

static void rooms(void)
{
    static const struct change turned[MOST_CHANGES] = {
        LINE(10, ":20C::LIST//LIST567890123456"), LINE(13, ":20C::MAST//MAST567890123456"), LINE(16, ":20C::PREV//PREV567890123456"),
        LINE(28, ":95R::SELL/DTCY/PARTSELC"), LINE(31, ":95R::BUYR/DTCY/PARTBUYC"),
    };
    char made[LONGEST_MADE];
    heading("plain form: P, the widest, also with its blocks out of order, and a TDDK, with every room from 0 to one past the length");
    want(sizeof P_PLAIN - 1 == 574, "P's plain form has 574 bytes", sizeof P_PLAIN - 1);
    want(sizeof WIDEST - 1 == 752 && POOL_LONGEST == 752, "the widest has 752 bytes", sizeof WIDEST - 1);
    every_room(P, P_PLAIN, "plain of P: number, line and length");
    with_crlf(made, P);
    every_room(made, P_PLAIN, "plain of P with CR LF: number, line and length");
    every_room(P_PLAIN, P_PLAIN, "plain of P's plain form: number, line and length");
    every_room(WIDEST, WIDEST, "plain of the widest: number, line and length");
    changed(made, WIDEST, turned);
    want(strcmp(made, WIDEST) != 0, "the widest is out of order", 0);
    every_room(made, WIDEST, "plain of the widest out of order: number, line and length");
    every_room(DK, DK_PLAIN, "plain of a TDDK: number, line and length");
}

/* A change to P, and the change that it makes to P's plain form. */
static void plain_cases(void)
{
    static const struct { const char *what; struct change of_P[MOST_CHANGES], of_plain[MOST_CHANGES]; } cases[] = {
        { "19A USD0,: P's own", { MONEY("USD0,") }, { { 0 } } },
        { "19A USD00000000000000,", { MONEY("USD00000000000000,") }, { { 0 } } },
        { "no 19A: none is added", { GONE(17, 17) }, { GONE(17, 17) } },
        { "19A USD0012,500", { MONEY("USD0012,500") }, { { 17, 17, ":19A::SETT//USD12,5\r\n" } } },
        { "19A USD0,010", { MONEY("USD0,010") }, { { 17, 17, ":19A::SETT//USD0,01\r\n" } } },
        { "no FIA", { GONE(29, 31) }, { GONE(29, 31) } },
        { "noughts in a pool stay", { LINE(30, ":13B::POOL/DTCY/000012300") }, { { 30, 30, ":13B::POOL/DTCY/000012300\r\n" } } },
        { "and in DDTE", { NARRATIVE("TDSVPOOL/DDTE00010101") }, { { 32, 32, ":70E::TPRO//DTCY/TDSVPOOL/DDTE00010101\r\n" } } },
        { "LIST before PREV before MAST",
          { KIND("MDFC"), LINE(10, ":20C::LIST//3"),
            LINE(11, ":16S:LINK\n:16R:LINK\n:20C::PREV//2\n:16S:LINK\n:16R:LINK\n:20C::MAST//1\n:16S:LINK") },
          { { 19, 19, ":22F::PROC/DTCY/MDFC\r\n" }, { 10, 10, ":20C::MAST//1\r\n" },
            { 11, 11, ":16S:LINK\r\n:16R:LINK\r\n:20C::PREV//2\r\n:16S:LINK\r\n:16R:LINK\r\n:20C::LIST//3\r\n:16S:LINK\r\n" } } },
    };
    char message[LONGEST_MADE], plain[LONGEST_MADE];
    struct buffer out;
    heading("plain form: what becomes of the amounts, of 19A and of the blocks");
    for (size_t i = 0; i < COUNT(cases); i++) {
        size_t length = changed(message, P, cases[i].of_P), wanted = changed(plain, P_PLAIN, cases[i].of_plain);
        struct written w = plain_of(message, length, &out, BUFFER);
        want(w.number == MT515_ACCEPTED && w.line == 0 && w.length == wanted, cases[i].what, w.length);
        want(memcmp(out.bytes, plain, wanted) == 0, cases[i].what, i);
    }
}

/* The widest of each kind is its own plain form, and has as many bytes as the page says. */
static void widest_by_kind(void)
{
    static const struct { const char *kind; size_t length; struct change changes[MOST_CHANGES]; } kinds[] = {
        { "INST", 648, { { 25, 25, ":22F::PROC/DTCY/INST\r\n" }, GONE(12, 17) } },
        { "CANC", 752, { { 25, 25, ":22F::PROC/DTCY/CANC\r\n" }, { 7, 7, ":23G:CANC\r\n" } } },
        { "MDFC", 752, { { 0 } } },
        { "TDDK", 682, { { 25, 25, ":22F::PROC/DTCY/TDDK\r\n" }, GONE(12, 17),
          { 28, 28, ":95R::BUYR/DTCY/PARTBUYC\r\n:20C::PROC//PROC567890123456\r\n" },
          { 38, 38, ":70E::TPRO//DTCY/TDSVPOOL/DDTE99991231/DKRSE004\r\n" } } },
        { "CDRQ", 700, { { 25, 25, ":22F::PROC/DTCY/CDRQ\r\n" }, GONE(12, 14) } },
        { "CDRL", 700, { { 25, 25, ":22F::PROC/DTCY/CDRL\r\n" }, GONE(12, 14) } },
    };
    char message[LONGEST_MADE];
    struct buffer out;
    heading("plain form: the widest of each kind");
    for (size_t i = 0; i < COUNT(kinds); i++) {
        size_t length = changed(message, WIDEST, kinds[i].changes);
        want(length == kinds[i].length, "the widest of a kind: its length", length);
        whole_wants(message, length, MT515_ACCEPTED, 0, kinds[i].kind);
        struct written w = plain_of(message, length, &out, length);
        want(w.number == MT515_ACCEPTED && w.length == length && memcmp(out.bytes, message, length) == 0, kinds[i].kind, w.length);
        w = plain_of(message, length, &out, length - 1);
        want(w.number == MT515_ROOM && w.line == 0, kinds[i].kind, w.number);
    }
}

/* ---------------------------------------------------------------- batch */

/* Messages of the pool, accepted and refused, an MT515 among them, and at the end a piece without an end. */
static void batch(void)
{
    static const struct change zero[MOST_CHANGES] = { PAR("0,") }, early[MOST_CHANGES] = { LINE(15, ":98A::SETT//20240228") };
    char par_zero[LONGEST_MADE], settled_early[LONGEST_MADE], bytes[LENDABLE];
    changed(par_zero, P, zero);
    changed(settled_early, P, early);
    const struct { const char *text; uint8_t number; size_t line; } pieces[] = {
        { P, 0, 0 }, { P_PLAIN, 0, 0 }, { "X\n-\n", 4, 2 }, { B, 4, 3 }, { par_zero, 16, 0 }, { DK, 0, 0 }, { "-\n", 4, 1 },
        { settled_early, 17, 0 }, { WIDEST, 0, 0 }, { "\t\n-\r\n", 2, 1 }, { P, 0, 0 }, { "\nY-", 3, 2 },
    };
    enum { PIECES = COUNT(pieces) };
    size_t start[PIECES + 1] = { 0 };
    for (size_t i = 0; i < PIECES; i++) {
        memcpy(bytes + start[i], pieces[i].text, strlen(pieces[i].text));
        start[i + 1] = start[i] + strlen(pieces[i].text);
    }
    size_t end = start[PIECES];

    heading("batch: twelve pieces, an MT515 among them; one by one, inside a line, at and past the end");
    for (size_t i = 0; i < PIECES; i++) {
        next_wants(bytes, end, start[i], (struct next_answer){ MT515_MESSAGE, pieces[i].number, pieces[i].line, start[i + 1] });
        message_wants(bytes + start[i], start[i + 1] - start[i], pieces[i].number, pieces[i].line, "a piece by itself");
    }
    /* the last of a batch of two */
    next_wants(bytes, start[2], start[1], (struct next_answer){ MT515_MESSAGE, 0, 0, start[2] });

    /* without its blank password P's sender is one */
    next_wants(bytes, end, 1, (struct next_answer){ MT515_MESSAGE, 4, 2, start[1] });
    /* inside the sender, and at the last `-` of P, which is then a message by itself */
    next_wants(bytes, end, 2, (struct next_answer){ MT515_MESSAGE, 4, 2, start[1] });
    next_wants(bytes, end, start[1] - 2, (struct next_answer){ MT515_MESSAGE, 4, 1, start[1] });
    /* between `-` and its CR LF: the ending is a blank password, X the sender, and `-` comes third */
    next_wants(bytes, end, start[2] - 2, (struct next_answer){ MT515_MESSAGE, 4, 3, start[3] });
    /* a batch that is cut inside its first message */
    next_wants(bytes, start[1] - 1, 0, (struct next_answer){ MT515_MESSAGE, 3, 34, start[1] - 1 });
    next_wants(bytes, end, end - 1, (struct next_answer){ MT515_MESSAGE, 3, 1, end });
    behind_batch(bytes, end);
}

int main(void)
{
    numbering();
    worked_cases();
    refuses();
    left_out();
    texts();
    words_amounts_dates();
    fields();
    rooms();
    plain_cases();
    widest_by_kind();
    batch();
    return verdict("the entries of the pool answer as the page of request A1 says");
}

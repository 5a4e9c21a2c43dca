/* mt509.c: calls every entry of include/mt509.h as a C program does, and holds the answers against what the page of request A3
 * prints: R, its fields and its plain form, the thirty statuses, the widest messages, and all its worked cases for reading. What is
 * lent stands between guard bytes, and a message ends just before a page that may not be touched. Says what it tried; the last
 * line says how it went. */
#define _DEFAULT_SOURCE
#include "mt509.h"
#include "pool.h"

#define ENTRY(name) mt509_##name
enum { LINKS = 7, MOST_REASONS = 10, FIELDS = MT509_FIELDS, LAST_SLOT = MT509_FIELD_TEXT(MOST_REASONS), LONGEST = MT509_LONGEST };
#include "entries.h"

/* ---------------------------------------------------------------- messages */

/* The message R of request A3. */
static const char R[] =
    "\n"
    "MBSCTRRS\n"
    "509/000/GSCC\n"
    "0017\n"
    ":16R:GENL\n"
    ":20C::SEME//RTTM0005\n"
    ":23G:INST\n"
    ":98C::PREP//20240229093001\n"
    ":16R:LINK\n"
    ":20C::RELA//0008\n"
    ":16S:LINK\n"
    ":16R:LINK\n"
    ":20C::MAST//0017\n"
    ":16S:LINK\n"
    ":16R:LINK\n"
    ":20C::LIST//000001-1306\n"
    ":16S:LINK\n"
    ":16R:STAT\n"
    ":25D::IPRC//REJT\n"
    ":16R:REAS\n"
    ":24B::REJT/GSCC/E001\n"
    ":70D::REAS//GSCC/MDRJ\n"
    ":16S:REAS\n"
    ":16R:REAS\n"
    ":24B::REJT/GSCC/E016\n"
    ":16S:REAS\n"
    ":16S:STAT\n"
    ":16S:GENL\n"
    "-\n";

/* R by the two rules: CR LF, and MAST before RELA. */
static const char R_PLAIN[] =
    "\r\n"
    "MBSCTRRS\r\n"
    "509/000/GSCC\r\n"
    "0017\r\n"
    ":16R:GENL\r\n"
    ":20C::SEME//RTTM0005\r\n"
    ":23G:INST\r\n"
    ":98C::PREP//20240229093001\r\n"
    ":16R:LINK\r\n"
    ":20C::MAST//0017\r\n"
    ":16S:LINK\r\n"
    ":16R:LINK\r\n"
    ":20C::RELA//0008\r\n"
    ":16S:LINK\r\n"
    ":16R:LINK\r\n"
    ":20C::LIST//000001-1306\r\n"
    ":16S:LINK\r\n"
    ":16R:STAT\r\n"
    ":25D::IPRC//REJT\r\n"
    ":16R:REAS\r\n"
    ":24B::REJT/GSCC/E001\r\n"
    ":70D::REAS//GSCC/MDRJ\r\n"
    ":16S:REAS\r\n"
    ":16R:REAS\r\n"
    ":24B::REJT/GSCC/E016\r\n"
    ":16S:REAS\r\n"
    ":16S:STAT\r\n"
    ":16S:GENL\r\n"
    "-\r\n";

#define WIDE_REAS(code, text) ":16R:REAS\r\n:24B::REJT/GSCC/" code "\r\n:70D::REAS//" text "\r\n:16S:REAS\r\n"

/* An IPRC//REJT with every field at its widest: 1,476 bytes, in plain form. */
static const char WIDEST[] =
    "PASSWORD1234\r\n"
    "MBSCTRRS\r\n"
    "509/000/GSCC\r\n"
    "RECEIVER\r\n"
    ":16R:GENL\r\n"
    ":20C::SEME//SEME567890123456\r\n"
    ":23G:INST\r\n"
    ":98C::PREP//99991231235959\r\n"
    ":16R:LINK\r\n"
    ":20C::MAST//MAST567890123456\r\n"
    ":16S:LINK\r\n"
    ":16R:LINK\r\n"
    ":20C::PREV//PREV-67890-23456\r\n"
    ":16S:LINK\r\n"
    ":16R:LINK\r\n"
    ":20C::RELA//RELA567890123456\r\n"
    ":16S:LINK\r\n"
    ":16R:LINK\r\n"
    ":20C::LIST//LIST-67890-23456\r\n"
    ":16S:LINK\r\n"
    ":16R:LINK\r\n"
    ":20C::BASK//BASK-67890-23456\r\n"
    ":16S:LINK\r\n"
    ":16R:LINK\r\n"
    ":20C::PROG//PROG-67890-23456\r\n"
    ":16S:LINK\r\n"
    ":16R:LINK\r\n"
    ":20C::COMM//COMM-67890-23456\r\n"
    ":16S:LINK\r\n"
    ":16R:STAT\r\n"
    ":25D::IPRC//REJT\r\n"
    WIDE_REAS("E001", " the first: a blank before  and in ")
    WIDE_REAS("E002", "the second: :16S:REAS is text here,")
    WIDE_REAS("E003", "the third: lower case, UPPER, 01234")
    WIDE_REAS("E004", "the fourth: !\"#$%&'()*+,-./:;<=>?@~")
    WIDE_REAS("E005", "the fifth: [\\]^_`{|}~ and so on: ~~")
    WIDE_REAS("E006", "-----------------------------------")
    WIDE_REAS("E007", "                                   ")
    WIDE_REAS("E008", "///////////////////////////////////")
    WIDE_REAS("E009", "GSCC/MDRJ of the ninth, as 000 says")
    WIDE_REAS("E010", "the tenth, and there is none behind")
    ":16S:STAT\r\n"
    ":16S:GENL\r\n"
    "-\r\n";

/* The least there is: no password, no PREP, no LINK and no reason. */
static const char LEAST[] =
    "\n"
    "MBSCTRRS\n"
    "509/000/GSCC\n"
    "A\n"
    ":16R:GENL\n"
    ":20C::SEME//1\n"
    ":23G:INST\n"
    ":16R:STAT\n"
    ":25D::MTCH//MACH\n"
    ":16S:STAT\n"
    ":16S:GENL\n"
    "-\n";

static const char LEAST_PLAIN[] =
    "\r\n"
    "MBSCTRRS\r\n"
    "509/000/GSCC\r\n"
    "A\r\n"
    ":16R:GENL\r\n"
    ":20C::SEME//1\r\n"
    ":23G:INST\r\n"
    ":16R:STAT\r\n"
    ":25D::MTCH//MACH\r\n"
    ":16S:STAT\r\n"
    ":16S:GENL\r\n"
    "-\r\n";

/* ---------------------------------------------------------------- the other types */

/* The readings of the MT515 in both profiles: `MBSCTRRS` is a good sender, so what they refuse is the line behind it. */
static void others_refuse(const void *message, size_t length)
{
    uint8_t record[MT515_RECORD];
    size_t starts[POOL_FIELDS], ends[POOL_FIELDS], line;
    uint8_t number = mt515_read(lend(message, length), length, record, &line);
    want(number == MT515_HEADER && line == 3, "the MT515's reading of an MT509", number);
    number = pool_read(lend(message, length), length, starts, ends, &line);
    want(number == MT515_HEADER && line == 3, "the pool's reading of an MT509", number);
}

/* ---------------------------------------------------------------- where the fields of an accepted message stand */

/* What stands before a value in its line; of the reasons the first alone, since all ten have the same. */
static const char *const before[] = {
    [MT509_FIELD_SEME] = ":20C::SEME//",
    [MT509_FIELD_23G] = ":23G:",
    [MT509_FIELD_PREP] = ":98C::PREP//",
    [MT509_FIELD_MAST] = ":20C::MAST//",
    [MT509_FIELD_PREV] = ":20C::PREV//",
    [MT509_FIELD_RELA] = ":20C::RELA//",
    [MT509_FIELD_LIST] = ":20C::LIST//",
    [MT509_FIELD_BASK] = ":20C::BASK//",
    [MT509_FIELD_PROG] = ":20C::PROG//",
    [MT509_FIELD_COMM] = ":20C::COMM//",
    [MT509_FIELD_STATUS] = ":25D::",
    [MT509_FIELD_CODE(1)] = ":24B::REJT/GSCC/",
    [MT509_FIELD_TEXT(1)] = ":70D::REAS//",
};

static const char *next_line(const char *at) { return strchr(at, '\n') + 1; }

/* The value of a slot: told by what its line begins with, of a reason by which 24B it is; a 70D is on the line behind its 24B. Empty
 * where there is none. */
static struct span value_of(const char *message, size_t slot)
{
    bool of_reason = slot >= MT509_FIELD_CODE(1), text = of_reason && slot % 2 == 1;
    size_t key = !of_reason ? slot : text ? MT509_FIELD_TEXT(1) : MT509_FIELD_CODE(1);
    size_t times = of_reason ? (slot - 10) / 2 : 1;
    const char *at = message;
    for (; *at; at = next_line(at))
        if (begins(at, before[text ? MT509_FIELD_CODE(1) : key]) && --times == 0)
            break;
    if (*at && text)
        at = next_line(at);
    if (!begins(at, before[key]))
        return (struct span){ 0, 0 };
    return rest_of_line(message, (size_t)(at - message) + strlen(before[key]));
}

/* What is read of an accepted message: every slot, password and receiver; and nothing at index 0. */
static void places_are(const char *message, const struct read_answer *a, const char *what)
{
    struct span password = rest_of_line(message, 0), receiver = rest_of_line(message, line_start(message, 4));
    want(a->starts[0] == 0 && a->ends[0] == 0, "read: index 0", a->ends[0]);
    for (size_t slot = 1; slot <= LAST_SLOT; slot++) {
        struct span value = value_of(message, slot);
        want(a->starts[slot] == value.from && a->ends[slot] == value.to, what, slot);
    }
    want(a->starts[MT509_FIELD_PASSWORD] == 0 && a->ends[MT509_FIELD_PASSWORD] == password.to, "read: the password", password.to);
    want(a->starts[MT509_FIELD_RECEIVER] == receiver.from, "read: where the receiver begins", receiver.from);
    want(a->ends[MT509_FIELD_RECEIVER] == receiver.to, "read: where the receiver ends", receiver.to);
}

/* ---------------------------------------------------------------- worked cases */

#define FUNCTION(word) LINE(7, ":23G:" word)
#define PREP(value) LINE(8, ":98C::PREP//" value)
#define STATUS(value) LINE(19, ":25D::" value)
#define CODE(value) LINE(21, ":24B::REJT" value)
#define TEXT(value) LINE(22, ":70D::REAS" value)
#define LINK(line) ":16R:LINK\n:20C::" line "\n:16S:LINK\n"
#define REAS(code) ":16R:REAS\n:24B::REJT/GSCC/" code "\n:16S:REAS\n"
#define SEVEN_REAS REAS("E017") REAS("E018") REAS("E019") REAS("E020") REAS("E021") REAS("E022") REAS("E023")
#define BEHIND_REAS(more) { 26, 26, ":16S:REAS\n" more }
#define TEN BEHIND_REAS(SEVEN_REAS REAS("E024"))
#define ELEVEN BEHIND_REAS(SEVEN_REAS REAS("E024") REAS("E025"))
#define NO_LINK GONE(9, 17)
#define NO_REAS GONE(20, 26)
#define WITH_35 "//Of 35, blanks and  lower case, ~ {}"

/* The first table of the page's section 12, in its order. */
static const struct worked of_page[] = {
    { "R", 0, 0, { { 0 } } },
    { "line 2 GSCCTRRS", 4, 2, { LINE(2, "GSCCTRRS") } },
    { "line 3 515", 4, 3, { LINE(3, "515/000/GSCC") } },
    { "line 4 of 9", 4, 4, { LINE(4, "ABCDEFGH9") } },
    { "a second RELA", 8, 19, { { 17, 17, ":16S:LINK\n" LINK("RELA//0008") } } },
    { "INDX", 8, 10, { LINE(10, ":20C::INDX//1") } },
    { "no LINK", 0, 0, { NO_LINK } },
    { "LINK behind STAT", 8, 25, { GONE(9, 11), { 27, 27, ":16S:STAT\n" LINK("RELA//0008") } } },
    { "no STAT", 9, 18, { GONE(18, 27) } },
    { "no 25D", 9, 19, { GONE(19, 19) } },
    { "25D XPRC", 8, 19, { STATUS("XPRC//REJT") } },
    { "25D XPRC, PREP no date", 8, 19, { STATUS("XPRC//REJT"), PREP("20240230093001") } },
    { "25D REJX", 10, 19, { STATUS("IPRC//REJX") } },
    { "25D with two slashes", 10, 19, { STATUS("IPRC//GSCC/MODA"), NO_REAS } },
    { "25D MTCH//PACK", 10, 19, { STATUS("MTCH//PACK") } },
    { "a second 25D", 8, 20, { { 19, 19, ":25D::IPRC//REJT\n:25D::IPRC//REJT\n" } } },
    { "a second STAT", 8, 28, { { 27, 27, ":16S:STAT\n:16R:STAT\n:25D::IPRC//REJT\n:16S:STAT\n" } } },
    { "ten REAS", 0, 0, { TEN } },
    { "eleven REAS", 22, 51, { ELEVEN } },
    { "eleven REAS, 24B of three", 22, 51, { ELEVEN, CODE("/GSCC/E01") } },
    { "eleven REAS, no 24B", 9, 25, { ELEVEN, GONE(25, 25) } },
    { "REAS outside STAT", 8, 25, { GONE(24, 26), { 27, 27, ":16S:STAT\n" REAS("E016") } } },
    { "lines 21 and 22 exchanged", 9, 21, { LINE(21, ":70D::REAS//GSCC/MDRJ"), LINE(22, ":24B::REJT/GSCC/E001") } },
    { "no 24B", 9, 21, { GONE(21, 21) } },
    { "70D twice", 8, 23, { { 22, 22, ":70D::REAS//GSCC/MDRJ\n:70D::REAS//GSCC/MDRJ\n" } } },
    { "24B with two slashes", 10, 21, { CODE("//E001") } },
    { "24B ZZZ9", 0, 0, { CODE("/GSCC/ZZZ9") } },
    { "70D DKRJ", 0, 0, { TEXT("//DKRJ") } },
    { "70D of 35", 0, 0, { TEXT(WITH_35) } },
    { "70D of 36", 10, 22, { TEXT(WITH_35 "6") } },
    { "70D of none", 10, 22, { TEXT("//") } },
    { "a hyphen in MAST", 10, 13, { LINE(13, ":20C::MAST//00-17") } },
    { "a hyphen for LIST", 0, 0, { LINE(16, ":20C::LIST//-") } },
    { "CAST", 13, 0, { FUNCTION("CAST") } },
    { "CAST, CPRC//REJT", 0, 0, { FUNCTION("CAST"), STATUS("CPRC//REJT") } },
    { "CAST/COPY, CPRC//REJT", 15, 0, { FUNCTION("CAST/COPY"), STATUS("CPRC//REJT") } },
    { "CAST/COPY, CPRC//CAND, no REAS", 0, 0, { FUNCTION("CAST/COPY"), STATUS("CPRC//CAND"), NO_REAS } },
    { "CAST/COPY", 13, 0, { FUNCTION("CAST/COPY") } },
    { "no REAS", 14, 0, { NO_REAS } },
    { "IPRC//PACK", 15, 0, { STATUS("IPRC//PACK") } },
    { "IPRC//PACK, no REAS", 0, 0, { STATUS("IPRC//PACK"), NO_REAS } },
    { "no PREP", 0, 0, { GONE(8, 8) } },
    { "PREP no day", 12, 8, { PREP("20240230093001") } },
    { "lines 5 to 28 removed", 9, 5, { GONE(5, 28) } },
};

/* What else the page's sections 1 to 6 say of lines and their order: which line is at fault, and which fault decides. */
static const struct worked of_sections[] = {
    { "lines 2 and 4 exchanged", 4, 2, { LINE(2, "0017"), LINE(4, "MBSCTRRS") } },
    { "line 2 the pool's", 4, 2, { LINE(2, "MBSCPNET") } },
    { "line 3 with DTCY", 4, 3, { LINE(3, "509/000/DTCY") } },
    { "lines 3 and 4 wrong", 4, 3, { LINE(3, "509/001/GSCC"), LINE(4, "") } },
    { "22F", 8, 8, { { 7, 7, ":23G:INST\n:22F::TRTR/GSCC/CASH\n" } } },
    { "PREP behind LINK", 8, 17, { GONE(8, 8), { 17, 17, ":16S:LINK\n:98C::PREP//20240229093001\n" } } },
    { "PREP twice", 8, 9, { { 8, 8, ":98C::PREP//20240229093001\n:98C::PREP//20240229093001\n" } } },
    { "SEME and 23G exchanged", 9, 6, { LINE(6, ":23G:INST"), LINE(7, ":20C::SEME//RTTM0005") } },
    { "two references in a LINK", 8, 11, { { 10, 10, ":20C::RELA//0008\n:20C::BASK//1\n" } } },
    { "a LINK in a LINK", 8, 10, { { 10, 10, LINK("BASK//1") ":20C::RELA//0008\n" } } },
    { "SEME in a LINK", 8, 10, { LINE(10, ":20C::SEME//0008") } },
    { "13B in a LINK", 8, 10, { LINE(10, ":13B::LINK//515") } },
    { "MAST twice, of no width", 8, 13, { LINE(10, ":20C::MAST//0008"), LINE(13, ":20C::MAST") } },
    { "LINK before 23G", 9, 7, { { 7, 7, LINK("BASK//1") ":23G:INST\n" } } },
    { "LINK in STAT", 8, 20, { { 19, 19, ":25D::IPRC//REJT\n" LINK("BASK//1") } } },
    { "25D behind REAS", 9, 19, { GONE(19, 19), BEHIND_REAS(":25D::IPRC//REJT\n") } },
    { "25D outside STAT", 8, 18, { { 18, 19, ":25D::IPRC//REJT\n:16R:STAT\n" } } },
    { "25D with one colon", 8, 19, { LINE(19, ":25D:IPRC//REJT") } },
    { "25D with half a qualifier", 8, 19, { STATUS("IPR") } },
    { "25D in lower case", 8, 19, { STATUS("iprc//REJT") } },
    { "25D of another qualifier behind", 8, 20, { { 19, 19, ":25D::IPRC//REJT\n:25D::CPRC//REJT\n" } } },
    { "25D of another qualifier before", 8, 20, { { 19, 19, ":25D::MTCH//MACH\n:25D::IPRC//REJT\n" } } },
    { "24B in STAT", 8, 20, { { 19, 19, ":25D::IPRC//REJT\n:24B::REJT/GSCC/E001\n" } } },
    { "24B twice", 8, 22, { { 21, 21, ":24B::REJT/GSCC/E001\n:24B::REJT/GSCC/E001\n" } } },
    { "24B RJCT", 8, 21, { LINE(21, ":24B::RJCT/GSCC/E001") } },
    { "70E for 70D", 8, 22, { LINE(22, ":70E::REAS//GSCC/MDRJ") } },
    { "70D NARR", 8, 22, { LINE(22, ":70D::NARR//GSCC/MDRJ") } },
    { "70D alone", 9, 25, { LINE(25, ":70D::REAS//GSCC/MDRJ") } },
    { "REAS in REAS", 8, 22, { { 21, 21, ":24B::REJT/GSCC/E001\n" REAS("E002") } } },
    { "REAS before 25D", 9, 19, { { 19, 19, REAS("E000") ":25D::IPRC//REJT\n" } } },
    { "REAS in GENL", 8, 18, { { 18, 18, REAS("E000") ":16R:STAT\n" } } },
    { "an unknown block", 8, 27, { BEHIND_REAS(":16R:XXXX\n:16S:XXXX\n") } },
    { "a second GENL", 8, 29, { { 28, 28, ":16S:GENL\n:16R:GENL\n:16S:GENL\n" } } },

    /* 22 is for an eleventh REAS in STAT, and nowhere else; the first line of 8, 9 and 22 decides, and all three go before values */
    { "twelve REAS", 22, 51, { BEHIND_REAS(SEVEN_REAS REAS("E024") REAS("E025") REAS("E026")) } },
    { "an eleventh REAS, empty", 22, 51, { BEHIND_REAS(SEVEN_REAS REAS("E024") ":16R:REAS\n:16S:REAS\n") } },
    { "a tenth REAS, empty", 9, 49, { BEHIND_REAS(SEVEN_REAS ":16R:REAS\n:16S:REAS\n" REAS("E025")) } },
    { "eleven REAS, INDX", 8, 10, { ELEVEN, LINE(10, ":20C::INDX//1") } },
    { "eleven REAS, no 23G", 9, 7, { ELEVEN, GONE(7, 7) } },
    { "eleven REAS, no 25D", 9, 19, { ELEVEN, GONE(19, 19) } },
    { "eleven REAS, LINK behind STAT", 22, 51, { ELEVEN, { 27, 27, ":16S:STAT\n" LINK("BASK//1") } } },
    { "eleven REAS, PREP no day", 22, 51, { ELEVEN, PREP("20240230093001") } },
    { "eleven REAS, CAST", 22, 51, { ELEVEN, FUNCTION("CAST") } },
    { "eleven REAS, IPRC//PACK", 22, 51, { ELEVEN, STATUS("IPRC//PACK") } },
    { "eleven REAS, a line of no shape", 5, 54, { ELEVEN, { 27, 27, "X\n:16S:STAT\n" } } },
    { "eleven REAS, line 2", 4, 2, { ELEVEN, LINE(2, "X") } },
    { "an eleventh REAS left open", 6, 53, { BEHIND_REAS(SEVEN_REAS REAS("E024") ":16R:REAS\n:24B::REJT/GSCC/E025\n") } },
    { "ten REAS, one behind STAT", 8, 52, { TEN, { 27, 27, ":16S:STAT\n" REAS("E025") } } },
    { "ten REAS, one in the tenth", 8, 50,
      { BEHIND_REAS(SEVEN_REAS ":16R:REAS\n:24B::REJT/GSCC/E024\n" REAS("E025") ":16S:REAS\n") } },
    { "ten REAS, 25D", 8, 51, { BEHIND_REAS(SEVEN_REAS REAS("E024") ":25D::IPRC//REJT\n") } },
    { "ten REAS, REAS1", 8, 51, { BEHIND_REAS(SEVEN_REAS REAS("E024") ":16R:REAS1\n:16S:REAS1\n") } },
    { "ten REAS, a blank behind REAS", 5, 51, { BEHIND_REAS(SEVEN_REAS REAS("E024") ":16R:REAS \n:16S:REAS \n") } },

    /* values: the first line decides, and all go before the rules, which go 13, 14, 15 */
    { "8 before a value", 8, 25, { PREP(""), LINE(25, ":24B::XXXX/GSCC/E016") } },
    { "SEME and PREP", 10, 6, { LINE(6, ":20C::SEME//"), PREP("") } },
    { "PREP and RELA", 12, 8, { PREP(""), LINE(10, ":20C::RELA//") } },
    { "24B before 13", 10, 25, { FUNCTION("CAST"), LINE(25, ":24B::REJT/GSCC/E16") } },
    { "13 before 14", 13, 0, { FUNCTION("CAST"), NO_REAS } },
    { "13 before 15", 13, 0, { FUNCTION("CAST"), STATUS("IPRC//PACK") } },
    { "14 before 15", 14, 0, { FUNCTION("CAST/COPY"), STATUS("CPRC//REJT"), NO_REAS } },
};

/* Of B and P line 2 is the sender; of an MT515 that MBSCTRRS sends, line 3 tells. */
static void worked_cases(void)
{
    static const struct change sent[MOST_CHANGES] = { LINE(2, "MBSCTRRS") };
    char made[LONGEST_MADE];
    heading("the worked cases of the page, with LF and with CR LF, by every entry");
    want(COUNT(of_page) == 44, "the rows of the page's table", COUNT(of_page));
    cases_want(R, of_page, COUNT(of_page));
    heading("the page's other sentences on lines and their order, likewise; messages of the MT515");
    cases_want(R, of_sections, COUNT(of_sections));
    message_wants(B, sizeof B - 1, MT515_HEADER, 2, "B");
    message_wants(P, sizeof P - 1, MT515_HEADER, 2, "P");
    message_wants(made, changed(made, B, sent), MT515_HEADER, 3, "B that MBSCTRRS sends");
    message_wants(made, changed(made, P, sent), MT515_HEADER, 3, "P that MBSCTRRS sends");
}

/* The numbers that the page works no case of: 1 to 3 and 5 to 7; and the least and the greatest length. */
static void refuses(void)
{
    static const struct worked cases[] = {
        { "a tab", MT515_BYTE, 4, { LINE(4, "0017\t") } },
        { "two CRs", MT515_BYTE, 22, { LINE(22, ":70D::REAS//GSCC/MDRJ\r\r") } },
        { "- early", MT515_END, 17, { LINE(17, "-") } },
        { "more behind -", MT515_END, 29, { { 29, 29, "-\nX\n" } } },
        { "- without its ending", MT515_END, 29, { { 29, 29, "-" } } },
        { "password in lower case", MT515_HEADER, 1, { LINE(1, "lower") } },
        { "password filled with blanks", MT515_HEADER, 1, { LINE(1, "PASSWORD    ") } },
        { "receiver blank", MT515_HEADER, 4, { LINE(4, "") } },
        { "receiver filled with blanks", MT515_HEADER, 4, { LINE(4, "0017    ") } },
        { "no receiver", MT515_HEADER, 4, { GONE(4, 4) } },
        { "no tag", MT515_SHAPE, 22, { LINE(22, "70D::REAS//GSCC/MDRJ") } },
        { "a second line of 70D", MT515_SHAPE, 23, { { 22, 22, ":70D::REAS//GSCC/MDRJ\nGSCC/MDRJ\n" } } },
        { "23G of nothing", MT515_SHAPE, 7, { LINE(7, ":23G:") } },
        { "LINK not closed", MT515_CLOSE, 27, { GONE(11, 11) } },
        { "REAS not closed", MT515_CLOSE, 26, { GONE(26, 26) } },
        { "STAT for LINK", MT515_CLOSE, 11, { LINE(9, ":16R:STAT") } },
        { "GENL not closed", MT515_CLOSE, 28, { GONE(28, 28) } },
        { "nine levels", MT515_DEPTH, 13, { { 5, 5, ":16R:GENL\n:16R:A\n:16R:B\n:16R:C\n:16R:D\n:16R:E\n:16R:F\n:16R:G\n:16R:H\n" } } },
    };
    char message[LONGEST_MADE];
    heading("refused: the other numbers; nothing, 4,096 bytes and one more");
    for (size_t i = 0; i < COUNT(cases); i++)
        message_wants(message, changed(message, R, cases[i].changes), cases[i].number, cases[i].line, cases[i].what);

    memset(message, 'X', sizeof message);
    message_wants(message, 0, MT515_LENGTH, 0, "nothing");
    message_wants(message, 1, MT515_END, 1, "X");
    message_wants(message, 4096, MT515_END, 1, "4,096 bytes");
    message_wants(message, 4097, MT515_LENGTH, 0, "4,097 bytes");
    message_wants("-\n", 2, MT515_HEADER, 1, "- alone");
}

/* R without one line that must be there, or without a block: 9 at the line that comes in its place. */
static void left_out(void)
{
    static const struct { size_t first, last, at; } gaps[] = {
        { 6, 6, 6 }, { 7, 7, 7 }, { 10, 10, 10 }, { 13, 13, 13 }, { 16, 16, 16 }, { 19, 19, 19 }, { 21, 21, 21 }, { 21, 22, 21 },
        { 25, 25, 25 }, { 19, 26, 19 }, { 18, 27, 18 }, { 6, 27, 6 }, { 5, 28, 5 },
    };
    char message[LONGEST_MADE];
    heading("left out: each line and each block that must be there");
    for (size_t i = 0; i < COUNT(gaps); i++) {
        const struct change gone[MOST_CHANGES] = { GONE(gaps[i].first, gaps[i].last) };
        message_wants(message, changed(message, R, gone), MT515_PASSED_OVER, gaps[i].at, "a line is left out");
    }
}

/* ---------------------------------------------------------------- statuses */

static const char *const statuses[] = {
    "IPRC//PACK", "IPRC//REJT", "IPRC/GSCC/MODA", "IPRC/GSCC/MODP", "IPRC/GSCC/PAMS", "IPRC/GSCC/YPPR", "IPRC/GSCC/PADK",
    "IPRC/GSCC/DPPR", "IPRC/GSCC/DELE", "IPRC/GSCC/DEPS", "IPRC/GSCC/DESA", "IPRC/GSCC/TUNB", "IPRC/GSCC/TBAL", "IPRC/GSCC/DNAL",
    "CPRC//PACK", "CPRC//REJT", "CPRC//CAND", "CPRC/GSCC/PACS", "CPRC/GSCC/XPPR", "CPRC/GSCC/UPBP", "CPRC/GSCC/UPBR",
    "CPRC/GSCC/UPBC", "CPRC/GSCC/VPBP", "CPRC/GSCC/VPBR", "CPRC/GSCC/VPBC", "CPRC/GSCC/CDNA",
    "MTCH//MACH", "MTCH/GSCC/MAPL", "MTCH/GSCC/MAPS", "MTCH/GSCC/MAFM",
};

static bool is_status(const char *value)
{
    for (size_t i = 0; i < COUNT(statuses); i++)
        if (strcmp(value, statuses[i]) == 0)
            return true;
    return false;
}

/* 13, 14 and 15 as the page's section 5 has them; 0 where none holds. */
static uint8_t rule(const char *status, const char *function, bool reasons)
{
    bool cancel = begins(status, "CPRC"), reject = strcmp(status + 4, "//REJT") == 0;
    if (begins(function, "CAST") != cancel)
        return MT515_AGAINST_KIND;
    if (reject && !reasons)
        return MT515_KIND_MUST;
    if (!reject && reasons)
        return MT515_KIND_MAY_NOT;
    return strcmp(function, "CAST/COPY") == 0 && strcmp(status, "CPRC//CAND") != 0 ? MT515_KIND_MAY_NOT : MT515_ACCEPTED;
}

/* R with another status and function, with its reasons or without. */
static void status_wants(const char *status, const char *function, bool reasons, uint8_t number, size_t line)
{
    char message[LONGEST_MADE], of_status[64], of_function[64];
    const struct change changes[MOST_CHANGES] = {
        { 19, 19, of_status }, { 7, 7, of_function }, { reasons ? 0 : 20, reasons ? 0 : 26, "" },
    };
    snprintf(of_status, sizeof of_status, ":25D::%s\n", status);
    snprintf(of_function, sizeof of_function, ":23G:%s\n", function);
    whole_wants(message, changed(message, R, changes), number, line, status);
}

/* Each status with each function, with reasons and without; and each word with each qualifier and every way to write the issuer,
 * which makes a status of the page or gets 10. */
static void by_status(void)
{
    static const char *const functions[] = { "INST", "CAST", "CAST/COPY" };
    static const char *const qualifiers[] = { "IPRC", "CPRC", "MTCH" };
    static const char *const issuers[] = { "//", "/GSCC/", "//GSCC/", "/", "/DTCY/", "///", "" };
    unsigned accepted = 0;
    heading("statuses: each with each 23G, with reasons and without; each word with each qualifier and issuer");
    want(COUNT(statuses) == 30, "how many statuses there are", COUNT(statuses));
    for (size_t i = 0; i < COUNT(statuses); i++)
        for (size_t f = 0; f < COUNT(functions); f++)
            for (unsigned reasons = 0; reasons <= 1; reasons++) {
                uint8_t number = rule(statuses[i], functions[f], reasons);
                status_wants(statuses[i], functions[f], reasons, number, 0);
                accepted += number == MT515_ACCEPTED;
            }
    want(accepted == 31, "each status once, and a copy of CPRC//CAND", accepted);

    for (size_t i = 0; i < COUNT(statuses); i++)
        for (size_t q = 0; q < COUNT(qualifiers); q++)
            for (size_t k = 0; k < COUNT(issuers); k++) {
                char value[32];
                snprintf(value, sizeof value, "%s%s%s", qualifiers[q], issuers[k], statuses[i] + strlen(statuses[i]) - 4);
                if (is_status(value))
                    status_wants(value, "INST", true, rule(value, "INST", true), 0);
                else
                    status_wants(value, "INST", true, MT515_VALUE, 19);
            }
}

/* ---------------------------------------------------------------- values at their edges */

/* A line of R where values are tried, what stands before and behind them, and the line that a refusal names. */
struct spot { size_t line; const char *before, *behind; size_t at; };

#define SPOT(line, before) { line, before, "\n", line }

/* R with a value in a spot, and where it stands. Its bytes are put in last: one of them may be 0. */
static size_t with_value(char out[LONGEST_MADE], const struct spot *spot, const char *value, size_t width, size_t *place)
{
    char text[1000];
    const struct change changes[MOST_CHANGES] = { { spot->line, spot->line, text } };
    snprintf(text, sizeof text, "%s%*s%s", spot->before, (int)width, "", spot->behind);
    size_t length = changed(out, R, changes);
    const char *last = strrchr(spot->before, '\n');
    *place = line_start(out, spot->at) + strlen(last ? last + 1 : spot->before);
    memcpy(out + *place, value, width);
    return length;
}

static void value_wants(const struct spot *spot, const char *value, size_t width, uint8_t number)
{
    char message[LONGEST_MADE];
    size_t place, length = with_value(message, spot, value, width, &place);
    whole_wants(message, length, number, number == MT515_ACCEPTED ? 0 : spot->at, spot->before);
    if (number == MT515_ACCEPTED && width > 0) {
        struct buffer out;
        struct written w = plain_of(message, length, &out, BUFFER);
        bool found = false;
        for (size_t i = 0; i + width <= w.length && w.length <= BUFFER; i++)
            found |= memcmp(out.bytes + i, value, width) == 0;
        want(found, "plain: a value is not in it", width);
    }
}

/* Upper-case letters and digits; these and the hyphen; all that a message may have in a line. */
enum class { C, C_OR_HYPHEN, X };

static bool in_class(enum class class, uint8_t byte)
{
    if (class == X)
        return byte >= 0x20 && byte <= 0x7E;
    return (byte >= '0' && byte <= '9') || (byte >= 'A' && byte <= 'Z') || (class == C_OR_HYPHEN && byte == '-');
}

struct text { size_t least, most; enum class class; struct spot spot; };

static const struct text texts[] = {
    { 0, 12, C, SPOT(1, "") }, { 1, 8, C, SPOT(4, "") }, { 1, 16, C, SPOT(6, ":20C::SEME//") },
    { 1, 16, C, SPOT(13, ":20C::MAST//") }, { 1, 16, C_OR_HYPHEN, SPOT(10, ":20C::PREV//") }, { 1, 16, C, SPOT(10, ":20C::RELA//") },
    { 1, 16, C_OR_HYPHEN, SPOT(16, ":20C::LIST//") }, { 1, 16, C_OR_HYPHEN, SPOT(10, ":20C::BASK//") },
    { 1, 16, C_OR_HYPHEN, SPOT(13, ":20C::PROG//") }, { 1, 16, C_OR_HYPHEN, SPOT(16, ":20C::COMM//") },
    { 4, 4, C, SPOT(21, ":24B::REJT/GSCC/") }, { 4, 4, C, SPOT(25, ":24B::REJT/GSCC/") },
    { 1, 35, X, SPOT(22, ":70D::REAS//") },
    { 1, 35, X, { 25, ":24B::REJT/GSCC/E016\n:70D::REAS//", "\n", 26 } },
    { 4, 4, C, { 26, ":16S:REAS\n" SEVEN_REAS ":16R:REAS\n:24B::REJT/GSCC/", "\n:16S:REAS\n", 49 } },
    { 1, 35, X, { 26, ":16S:REAS\n" SEVEN_REAS ":16R:REAS\n:24B::REJT/GSCC/E024\n:70D::REAS//", "\n:16S:REAS\n", 50 } },
};

/* What a value of a text gets that is noughts but for one byte: 2 where no message may have the byte; else 10, in the header 4,
 * where width or class is wrong. */
static uint8_t text_gets(const struct text *text, size_t width, uint8_t byte)
{
    if (!in_class(X, byte))
        return MT515_BYTE;
    if (width >= text->least && width <= text->most && in_class(text->class, byte))
        return MT515_ACCEPTED;
    return text->spot.line <= 4 ? MT515_HEADER : MT515_VALUE;
}

/* Each text with every width to four past its widest, ending in bytes about the edges of the classes. A `-` alone would end the
 * message in its header, and a CR before the LF is no byte of the value. */
static void widths(const struct text *text)
{
    static const uint8_t edges[] = {
        0x1F, ' ', '!', ',', '-', '.', '/', '0', '9', ':', '@', 'A', 'Z', '[', '`', 'a', 'z', '{', 0x7E, 0x7F,
    };
    char value[64];
    for (size_t width = 0; width <= text->most + 4; width++) {
        memset(value, '0', sizeof value);
        value_wants(&text->spot, value, width, text_gets(text, width, '0'));
        bool at_edge = width > 0 && (width <= 1 || width == text->most || width == text->most + 1);
        for (size_t i = 0; at_edge && i < COUNT(edges); i++) {
            if (edges[i] == '-' && width == 1 && text->spot.line <= 4)
                continue;
            value[width - 1] = (char)edges[i];
            value_wants(&text->spot, value, width, text_gets(text, width, edges[i]));
        }
    }
}

/* Every byte but LF, first in a value of the greatest width: a CR there has no LF behind it. */
static void bytes(const struct text *text)
{
    char value[64];
    memset(value, '0', sizeof value);
    for (unsigned byte = 0; byte <= 255; byte++)
        if (byte != '\n') {
            value[0] = (char)byte;
            value_wants(&text->spot, value, text->most, text_gets(text, text->most, (uint8_t)byte));
        }
}

/* Every value in every spot: the same number. */
static void values_want(const struct spot *spots, size_t spot_count, const char *const *values, size_t value_count, uint8_t number)
{
    for (size_t i = 0; i < spot_count; i++)
        for (size_t k = 0; k < value_count; k++)
            value_wants(&spots[i], values[k], strlen(values[k]), number);
}

static void values(void)
{
    static const struct spot function[] = { SPOT(7, ":23G:") }, prep[] = { SPOT(8, ":98C::PREP//") };
    static const struct spot fixed[] = {
        SPOT(6, ":20C::SEME"), SPOT(8, ":98C::PREP"), SPOT(10, ":20C::RELA"), SPOT(13, ":20C::MAST"), SPOT(16, ":20C::LIST"),
        SPOT(10, ":20C::PREV"), SPOT(10, ":20C::BASK"), SPOT(10, ":20C::PROG"), SPOT(10, ":20C::COMM"), SPOT(21, ":24B::REJT"),
        SPOT(22, ":70D::REAS"), SPOT(25, ":24B::REJT"), SPOT(19, ":25D::IPRC"), SPOT(19, ":25D::CPRC"), SPOT(19, ":25D::MTCH"),
    };
    static const char *const odd_functions[] = {
        "NEWM", "CANC", "COPY", "INST/COPY", "CAST/", "CAST/COP", "CAST/COPYY", "CAST/copy", "CAST COPY", "CASTCOPY", "INS", "INSTX",
        "inst", "INST ", " INST", ":INST", "//INST",
    };
    static const char *const odd_fixed[] = {
        "", "/", "/E001", "E001", " //E001", ":E001", "/DTCY/E001", "/gscc/E001", "/GSCCE001", "/GSCC//E00",
    };
    static const char *const odd_times[] = {
        "", "0", "2024022909300", "202402290930011", "20240229", "20230229093001", "19000229093001", "20240230093001", "20240431093001",
        "20241301093001", "20240001093001", "20240300093001", "00000101000000", "20240229240000", "20240229236000", "20240229235960",
        "2024022909300A", " 20240229093001", "20240229093001 ", "2024022909:001", "/20240229093001",
    };
    static const char *const good_times[] = {
        "00010101000000", "20000229000000", "20240229235959", "20231231093001", "99991231235959",
    };
    heading("values: each text with every width to four past its widest, and with every byte in it");
    want(strlen(WITH_35) == 37, "the text of 35", strlen(WITH_35));
    for (size_t i = 0; i < COUNT(texts); i++) {
        widths(&texts[i]);
        bytes(&texts[i]);
    }
    heading("values: 23G, date and time, and what stands before a value, good ones and odd ones");
    values_want(function, 1, odd_functions, COUNT(odd_functions), MT515_VALUE);
    values_want(fixed, COUNT(fixed), odd_fixed, COUNT(odd_fixed), MT515_VALUE);
    values_want(prep, 1, odd_times, COUNT(odd_times), MT515_DATE);
    values_want(prep, 1, good_times, COUNT(good_times), MT515_ACCEPTED);
}

/* ---------------------------------------------------------------- LINKs and reasons */

static const char *const links[LINKS] = { "MAST", "PREV", "RELA", "LIST", "BASK", "PROG", "COMM" };

/* A message of R's lines with other LINKs: those of a set, a bit each, from a first one on in steps. */
static size_t linked(char out[LONGEST_MADE], const char *message, const char *ending, unsigned set, size_t first, size_t step)
{
    size_t length = line_start(message, 9);
    memcpy(out, message, length);
    for (size_t n = 0; n < LINKS; n++) {
        size_t k = (first + n * step) % LINKS;
        if (set >> k & 1)
            length += (size_t)sprintf(out + length, ":16R:LINK%s:20C::%s//OF%s%s:16S:LINK%s", ending, links[k], links[k], ending,
                                      ending);
    }
    strcpy(out + length, message + line_start(message, 18));
    return strlen(out);
}

/* Each set of LINKs, none and all of them too, in 42 orders: it is accepted, and its plain form has them in the page's order. */
static void linked_in_any_order(void)
{
    char message[LONGEST_MADE], plain[LONGEST_MADE];
    struct buffer out;
    heading("LINK: each set of the seven in 42 orders, and the one order of the plain form");
    for (unsigned set = 0; set < 1 << LINKS; set++) {
        size_t wanted = linked(plain, R_PLAIN, "\r\n", set, 0, 1);
        for (size_t first = 0; first < LINKS; first++)
            for (size_t step = 1; step < LINKS; step++) {
                size_t length = linked(message, R, "\n", set, first, step);
                struct read_answer a = read_message(message, length);
                want(a.number == MT515_ACCEPTED && a.line == 0, "LINKs: number and line", set);
                places_are(message, &a, "LINKs: a place");
                struct written w = plain_of(message, length, &out, BUFFER);
                want(w.number == MT515_ACCEPTED && w.line == 0 && w.length == wanted, "LINKs: the plain form's length", set);
                want(memcmp(out.bytes, plain, wanted) == 0, "LINKs: the plain form", set);
            }
    }
}

/* R with so many REAS, those of a set with a 70D: a bit each. */
static size_t with_reasons(char out[LONGEST_MADE], size_t count, uint64_t with_text)
{
    size_t length = line_start(R, 20);
    memcpy(out, R, length);
    for (size_t k = 1; k <= count; k++) {
        length += (size_t)sprintf(out + length, ":16R:REAS\n:24B::REJT/GSCC/C%03zu\n", k);
        if (with_text >> (k - 1) & 1)
            length += (size_t)sprintf(out + length, ":70D::REAS//text %zu\n", k);
        length += (size_t)sprintf(out + length, ":16S:REAS\n");
    }
    strcpy(out + length, R + line_start(R, 27));
    return strlen(out);
}

/* So many lines have the first ten of them. */
static size_t lines_of_ten(uint64_t with_text)
{
    size_t lines = 3 * MOST_REASONS;
    for (size_t k = 0; k < MOST_REASONS; k++)
        lines += with_text >> k & 1;
    return lines;
}

/* One to ten are accepted, with a 70D in all, in every other, in one alone or in none; none is 14, and from eleven on it is 22 at the
 * eleventh. */
static void reasons(void)
{
    static const uint64_t of_all[] = { 0, UINT64_MAX, 0x5555, 0xAAAA, 1, 2, 4, 8, 16, 32, 64, 128, 256, 512, 1024 };
    char message[LONGEST_MADE];
    heading("REAS: none to forty, with a 70D in some; the eleventh is 22");
    for (size_t i = 0; i < COUNT(of_all); i++)
        for (size_t count = 0; count <= 40; count += count < 13 ? 1 : 9) {
            size_t length = with_reasons(message, count, of_all[i]);
            if (count == 0)
                whole_wants(message, length, MT515_KIND_MUST, 0, "REAS: none");
            else if (count <= MOST_REASONS)
                whole_wants(message, length, MT515_ACCEPTED, 0, "REAS: one to ten");
            else
                whole_wants(message, length, MT509_SURPLUS, 20 + lines_of_ten(of_all[i]), "REAS: more than ten");
        }
}

/* ---------------------------------------------------------------- fields */

/* The page tells of R with CR LF where its fields stand. */
static void page_places(void)
{
    static const struct { size_t slot, offset, count; } told[] = {
        { 1, 55, 8 }, { 4, 167, 4 }, { 6, 127, 4 }, { 7, 207, 11 }, { 11, 248, 10 }, { 12, 287, 4 }, { 13, 305, 9 }, { 14, 354, 4 },
        { 15, 0, 0 }, { 31, 0, 0 }, { 32, 0, 0 },
    };
    char crlf[LONGEST_MADE];
    size_t length = with_crlf(crlf, R);
    struct read_answer a = read_message(crlf, length);
    want(length == 396, "R with CR LF has 396 bytes", length);
    for (size_t i = 0; i < COUNT(told); i++) {
        struct field_answer f = field_of(crlf, length, told[i].slot);
        want(f.number == MT515_ACCEPTED && f.offset == told[i].offset && f.count == told[i].count, "R: a field", told[i].slot);
        want(a.starts[told[i].slot] == told[i].offset, "R: where it begins", told[i].slot);
        want(a.ends[told[i].slot] == told[i].offset + told[i].count, "R: where it ends", told[i].slot);
    }
    want(a.starts[32] == 0 && a.ends[32] == 0, "R: the password is blank", a.ends[32]);
    want(a.starts[33] == 26 && a.ends[33] == 30, "R: the receiver", a.starts[33]);
}

/* In the header the fields are numbered as on the page, and there is one more than the last, for index 0. */
static void numbering(void)
{
    static const size_t numbers[] = {
        MT509_FIELD_SEME, MT509_FIELD_23G, MT509_FIELD_PREP, MT509_FIELD_MAST, MT509_FIELD_PREV, MT509_FIELD_RELA, MT509_FIELD_LIST,
        MT509_FIELD_BASK, MT509_FIELD_PROG, MT509_FIELD_COMM, MT509_FIELD_STATUS,
    };
    heading("the header: the numbers of the fields");
    for (size_t i = 0; i < COUNT(numbers); i++)
        want(numbers[i] == i + 1, "a field's number", i + 1);
    for (size_t k = 1; k <= MOST_REASONS; k++) {
        want(MT509_FIELD_CODE(k) == 10 + 2 * k, "the number of a code", k);
        want(MT509_FIELD_TEXT(k) == 11 + 2 * k, "the number of a text", k);
    }
    want(MT509_FIELD_PASSWORD == 32 && MT509_FIELD_RECEIVER == 33, "the numbers of password and receiver", MT509_FIELD_PASSWORD);
    want(MT509_FIELDS == 34, "how many fields are lent", MT509_FIELDS);
    want(MT509_SURPLUS == 22, "the number of an eleventh REAS", MT509_SURPLUS);
}

static void fields(void)
{
    static const char *const of_R[LAST_SLOT + 1] = {
        [MT509_FIELD_SEME] = "RTTM0005", [MT509_FIELD_23G] = "INST", [MT509_FIELD_PREP] = "20240229093001", [MT509_FIELD_MAST] = "0017",
        [MT509_FIELD_RELA] = "0008", [MT509_FIELD_LIST] = "000001-1306", [MT509_FIELD_STATUS] = "IPRC//REJT",
        [MT509_FIELD_CODE(1)] = "E001", [MT509_FIELD_TEXT(1)] = "GSCC/MDRJ", [MT509_FIELD_CODE(2)] = "E016",
    };
    static const char *const of_widest[LAST_SLOT + 1] = {
        [MT509_FIELD_SEME] = "SEME567890123456", [MT509_FIELD_23G] = "INST", [MT509_FIELD_PREP] = "99991231235959",
        [MT509_FIELD_MAST] = "MAST567890123456", [MT509_FIELD_PREV] = "PREV-67890-23456", [MT509_FIELD_RELA] = "RELA567890123456",
        [MT509_FIELD_LIST] = "LIST-67890-23456", [MT509_FIELD_BASK] = "BASK-67890-23456", [MT509_FIELD_PROG] = "PROG-67890-23456",
        [MT509_FIELD_COMM] = "COMM-67890-23456", [MT509_FIELD_STATUS] = "IPRC//REJT",
        [MT509_FIELD_CODE(1)] = "E001", [MT509_FIELD_TEXT(1)] = " the first: a blank before  and in ",
        [MT509_FIELD_CODE(2)] = "E002", [MT509_FIELD_TEXT(2)] = "the second: :16S:REAS is text here,",
        [MT509_FIELD_CODE(3)] = "E003", [MT509_FIELD_TEXT(3)] = "the third: lower case, UPPER, 01234",
        [MT509_FIELD_CODE(4)] = "E004", [MT509_FIELD_TEXT(4)] = "the fourth: !\"#$%&'()*+,-./:;<=>?@~",
        [MT509_FIELD_CODE(5)] = "E005", [MT509_FIELD_TEXT(5)] = "the fifth: [\\]^_`{|}~ and so on: ~~",
        [MT509_FIELD_CODE(6)] = "E006", [MT509_FIELD_TEXT(6)] = "-----------------------------------",
        [MT509_FIELD_CODE(7)] = "E007", [MT509_FIELD_TEXT(7)] = "                                   ",
        [MT509_FIELD_CODE(8)] = "E008", [MT509_FIELD_TEXT(8)] = "///////////////////////////////////",
        [MT509_FIELD_CODE(9)] = "E009", [MT509_FIELD_TEXT(9)] = "GSCC/MDRJ of the ninth, as 000 says",
        [MT509_FIELD_CODE(10)] = "E010", [MT509_FIELD_TEXT(10)] = "the tenth, and there is none behind",
    };
    static const char *const of_least[LAST_SLOT + 1] = {
        [MT509_FIELD_SEME] = "1", [MT509_FIELD_23G] = "INST", [MT509_FIELD_STATUS] = "MTCH//MACH",
    };
    heading("fields: where the page says they stand in R; each value of R, of the widest REJT and of one with no more than must be");
    page_places();
    values_are(R, of_R);
    values_are(WIDEST, of_widest);
    values_are(LEAST, of_least);
    whole_wants(WIDEST, sizeof WIDEST - 1, MT515_ACCEPTED, 0, "the widest REJT");
    whole_wants(LEAST, sizeof LEAST - 1, MT515_ACCEPTED, 0, "the least");
}

/* ---------------------------------------------------------------- plain form */

static void rooms(void)
{
    static const struct change turned[MOST_CHANGES] = {
        { 10, 10, ":20C::COMM//COMM-67890-23456\n" }, { 13, 13, ":20C::RELA//RELA567890123456\n" },
        { 16, 16, ":20C::PREV//PREV-67890-23456\r\n" }, { 28, 28, ":20C::MAST//MAST567890123456\r\n" },
    };
    char made[LONGEST_MADE];
    heading("plain form: R, the widest, also with its blocks out of order, and the least, with every room to one past the length");
    want(sizeof R_PLAIN - 1 == 396, "R's plain form has 396 bytes", sizeof R_PLAIN - 1);
    want(sizeof WIDEST - 1 == 1476 && MT509_LONGEST == 1476, "the widest has 1,476 bytes", sizeof WIDEST - 1);
    every_room(R, R_PLAIN, "plain of R: number, line and length");
    with_crlf(made, R);
    every_room(made, R_PLAIN, "plain of R with CR LF: number, line and length");
    every_room(R_PLAIN, R_PLAIN, "plain of R's plain form: number, line and length");
    every_room(WIDEST, WIDEST, "plain of the widest: number, line and length");
    changed(made, WIDEST, turned);
    want(strcmp(made, WIDEST) != 0, "the widest is out of order", 0);
    every_room(made, WIDEST, "plain of the widest out of order: number, line and length");
    every_room(LEAST, LEAST_PLAIN, "plain of the least: number, line and length");
}

/* A change to R, and the change that it makes to R's plain form. Lines from 18 on are the same in both. */
static void plain_cases(void)
{
    static const struct { const char *what; struct change of_R[MOST_CHANGES], of_plain[MOST_CHANGES]; } cases[] = {
        { "endings by turns", { { 3, 3, "509/000/GSCC\r\n" }, { 13, 13, ":20C::MAST//0017\r\n" }, { 29, 29, "-\r\n" } }, { { 0 } } },
        { "a password", { LINE(1, "PASSWORD") }, { { 1, 1, "PASSWORD\r\n" } } },
        { "no PREP: none is added", { GONE(8, 8) }, { GONE(8, 8) } },
        { "no LINK", { NO_LINK }, { NO_LINK } },
        { "blanks and noughts in a 70D stay", { TEXT("//  00 A  ") }, { { 22, 22, ":70D::REAS//  00 A  \r\n" } } },
        { "a 70D of one blank", { TEXT("// ") }, { { 22, 22, ":70D::REAS// \r\n" } } },
        { "a 70D like a line", { TEXT("//:16R:REAS") }, { { 22, 22, ":70D::REAS//:16R:REAS\r\n" } } },
        { "no 70D: none is added", { GONE(22, 22) }, { GONE(22, 22) } },
        { "REAS keep their order", { CODE("/GSCC/E016"), LINE(25, ":24B::REJT/GSCC/E001") },
          { { 21, 21, ":24B::REJT/GSCC/E016\r\n" }, { 25, 25, ":24B::REJT/GSCC/E001\r\n" } } },
        { "two REAS that are alike", { LINE(25, ":24B::REJT/GSCC/E001\n:70D::REAS//GSCC/MDRJ") },
          { { 25, 25, ":24B::REJT/GSCC/E001\r\n:70D::REAS//GSCC/MDRJ\r\n" } } },
        { "a cancel", { FUNCTION("CAST"), STATUS("CPRC//REJT") }, { { 7, 7, ":23G:CAST\r\n" }, { 19, 19, ":25D::CPRC//REJT\r\n" } } },
        { "a copy", { FUNCTION("CAST/COPY"), STATUS("CPRC//CAND"), NO_REAS },
          { { 7, 7, ":23G:CAST/COPY\r\n" }, { 19, 19, ":25D::CPRC//CAND\r\n" }, NO_REAS } },
        { "an issuer", { STATUS("IPRC/GSCC/MODA"), NO_REAS }, { { 19, 19, ":25D::IPRC/GSCC/MODA\r\n" }, NO_REAS } },
    };
    char message[LONGEST_MADE], plain[LONGEST_MADE];
    struct buffer out;
    heading("plain form: what becomes of the endings, and that all else stays");
    for (size_t i = 0; i < COUNT(cases); i++) {
        size_t length = changed(message, R, cases[i].of_R), wanted = changed(plain, R_PLAIN, cases[i].of_plain);
        struct written w = plain_of(message, length, &out, BUFFER);
        want(w.number == MT515_ACCEPTED && w.line == 0 && w.length == wanted, cases[i].what, w.length);
        want(memcmp(out.bytes, plain, wanted) == 0, cases[i].what, i);
    }
}

/* The widest of each status is its own plain form: 1,476 bytes of a reject, 551 of a copy, 550 with an issuer, else 546. Of all but
 * the rejects it is 15 with ten reasons, and of all 13 with the other function. An eleventh REAS behind the widest is 22. */
static void widest_by_status(void)
{
    static const struct change eleven[MOST_CHANGES] = {
        { 71, 71, ":16S:REAS\r\n" WIDE_REAS("E011", "the eleventh is one more than stand") },
    };
    char message[LONGEST_MADE], of_status[64];
    struct buffer out;
    heading("plain form: the widest of each status");
    for (size_t i = 0; i <= COUNT(statuses); i++) {
        const char *status = i < COUNT(statuses) ? statuses[i] : "CPRC//CAND";
        bool copy = i == COUNT(statuses), reject = strcmp(status + 4, "//REJT") == 0;
        size_t wanted = reject ? 1476 : copy ? 551 : begins(status + 4, "/GSCC") ? 550 : 546;
        bool cancel = begins(status, "CPRC");
        struct change changes[MOST_CHANGES] = {
            { 31, 31, of_status }, { 7, 7, copy ? ":23G:CAST/COPY\r\n" : cancel ? ":23G:CAST\r\n" : ":23G:INST\r\n" },
            { reject ? 0 : 32, reject ? 0 : 71, "" },
        };
        snprintf(of_status, sizeof of_status, ":25D::%s\r\n", status);
        size_t length = changed(message, WIDEST, changes);
        want(length == wanted, "the widest of a status: its length", length);
        whole_wants(message, length, MT515_ACCEPTED, 0, status);
        struct written w = plain_of(message, length, &out, length);
        want(w.number == MT515_ACCEPTED && w.length == length && memcmp(out.bytes, message, length) == 0, status, w.length);
        w = plain_of(message, length, &out, length - 1);
        want(w.number == MT515_ROOM && w.line == 0, status, w.number);

        changes[2] = (struct change){ 0, 0, "" };
        length = changed(message, WIDEST, changes);
        whole_wants(message, length, reject ? MT515_ACCEPTED : MT515_KIND_MAY_NOT, 0, status);
        changes[1].text = cancel ? ":23G:INST\r\n" : ":23G:CAST\r\n";
        length = changed(message, WIDEST, changes);
        whole_wants(message, length, MT515_AGAINST_KIND, 0, status);
    }
    whole_wants(message, changed(message, WIDEST, eleven), MT509_SURPLUS, 72, "an eleventh behind the widest");
}

/* ---------------------------------------------------------------- batch */

/* Answers, accepted and refused, messages of the MT515 among them, and at the end a piece without an end. */
static void batch(void)
{
    static const struct change eleventh[MOST_CHANGES] = { ELEVEN }, none[MOST_CHANGES] = { NO_REAS };
    static const struct change pack[MOST_CHANGES] = { STATUS("IPRC//PACK") }, sent[MOST_CHANGES] = { LINE(2, "MBSCTRRS") };
    char surplus[LONGEST_MADE], no_reason[LONGEST_MADE], reasoned[LONGEST_MADE], sent_back[LONGEST_MADE], bytes[LENDABLE];
    changed(surplus, R, eleventh);
    changed(no_reason, R, none);
    changed(reasoned, R, pack);
    changed(sent_back, B, sent);
    const struct { const char *text; uint8_t number; size_t line; } pieces[] = {
        { R, 0, 0 }, { R_PLAIN, 0, 0 }, { "X\n-\n", 4, 2 }, { B, 4, 2 }, { surplus, MT509_SURPLUS, 51 }, { sent_back, 4, 3 },
        { no_reason, 14, 0 }, { LEAST, 0, 0 }, { "-\n", 4, 1 }, { reasoned, 15, 0 }, { P, 4, 2 }, { WIDEST, 0, 0 },
        { "\t\n-\r\n", 2, 1 }, { R, 0, 0 }, { "\nY-", 3, 2 },
    };
    enum { PIECES = COUNT(pieces) };
    size_t start[PIECES + 1] = { 0 };
    for (size_t i = 0; i < PIECES; i++) {
        memcpy(bytes + start[i], pieces[i].text, strlen(pieces[i].text));
        start[i + 1] = start[i] + strlen(pieces[i].text);
    }
    size_t end = start[PIECES];

    heading("batch: fifteen pieces, three MT515 among them; one by one, inside a line, at and past the end");
    for (size_t i = 0; i < PIECES; i++) {
        next_wants(bytes, end, start[i], (struct next_answer){ MT515_MESSAGE, pieces[i].number, pieces[i].line, start[i + 1] });
        message_wants(bytes + start[i], start[i + 1] - start[i], pieces[i].number, pieces[i].line, "a piece by itself");
    }
    /* the last of a batch of two */
    next_wants(bytes, start[2], start[1], (struct next_answer){ MT515_MESSAGE, 0, 0, start[2] });

    /* without its blank password R's line 2 is one; inside that line; at a line that no message begins with */
    next_wants(bytes, end, 1, (struct next_answer){ MT515_MESSAGE, 4, 2, start[1] });
    next_wants(bytes, end, 2, (struct next_answer){ MT515_MESSAGE, 4, 2, start[1] });
    next_wants(bytes, end, line_start(R, 20), (struct next_answer){ MT515_MESSAGE, 4, 1, start[1] });
    /* between CR and LF of a blank password, which the LF ends as well */
    next_wants(bytes, end, start[1] + 1, (struct next_answer){ MT515_MESSAGE, 0, 0, start[2] });
    /* at the last `-` of R, which is then a message by itself */
    next_wants(bytes, end, start[1] - 2, (struct next_answer){ MT515_MESSAGE, 4, 1, start[1] });
    /* between `-` and its CR LF: the ending is a blank password, and X is not what line 2 must be */
    next_wants(bytes, end, start[2] - 2, (struct next_answer){ MT515_MESSAGE, 4, 2, start[3] });
    /* a batch that is cut inside its first message */
    next_wants(bytes, start[1] - 1, 0, (struct next_answer){ MT515_MESSAGE, 3, 29, start[1] - 1 });
    next_wants(bytes, end, end - 1, (struct next_answer){ MT515_MESSAGE, 3, 1, end });
    behind_batch(bytes, end);
}

int main(void)
{
    numbering();
    worked_cases();
    refuses();
    left_out();
    by_status();
    values();
    linked_in_any_order();
    reasons();
    fields();
    rooms();
    plain_cases();
    widest_by_status();
    batch();
    return verdict("the entries of the MT509 answer as the page of request A3 says");
}

/* gateway.c: calls every entry of include/mt515.h as a C program does, and holds the answers against what document 01 prints.
 * What is lent stands between guard bytes, and a message ends just before a page that may not be touched. Says what it tried;
 * the last line says how it went. */
#define _DEFAULT_SOURCE
#include "lent.h"
#include "mt515.h"

/* ---------------------------------------------------------------- messages */

/* B by the four rules: CR LF, the buyer's block first, no needless noughts in the price and in the par. */
static const char B_PLAIN[] =
    "\r\n"
    "0017\r\n"
    "515/000/GSCC\r\n"
    "MBSCTRRS\r\n"
    ":16R:GENL\r\n"
    ":20C::SEME//0008\r\n"
    ":23G:NEWM\r\n"
    ":22F::TRTR/GSCC/CASH\r\n"
    ":16R:LINK\r\n"
    ":20C::MAST//0017\r\n"
    ":16S:LINK\r\n"
    ":16S:GENL\r\n"
    ":16R:CONFDET\r\n"
    ":98C::TRAD//20240229093000\r\n"
    ":98A::SETT//20240313\r\n"
    ":90A::DEAL//PRCT/99,5\r\n"
    ":22H::BUSE//BUYI\r\n"
    ":22F::PROC/GSCC/INST\r\n"
    ":22H::PAYM//APMT\r\n"
    ":16R:CONFPRTY\r\n"
    ":95R::BUYR/GSCC/PART0017\r\n"
    ":16S:CONFPRTY\r\n"
    ":16R:CONFPRTY\r\n"
    ":95R::SELL/GSCC/PART0015\r\n"
    ":16S:CONFPRTY\r\n"
    ":36B::CONF//FAMT/1000000,\r\n"
    ":35B:/US/01F070633\r\n"
    ":70E::TPRO//GSCC/TDSVSTIP\r\n"
    ":16S:CONFDET\r\n"
    "-\r\n";

/* The record of B, by hand. */
static const uint8_t B_RECORD[MT515_RECORD] = {
    0, 0, 2, 255,                                                            /* INST, BUYI, STIP, no GUPP */
    0, 0, 0, 0, 0, 0, 0, 0, 0, 0, 0, 0, 0, 0, 0, 0, 0, 0, 0, 0, 0,           /* password: blank */
    4, '0', '0', '1', '7', 0, 0, 0, 0, 0, 0, 0, 0, 0, 0, 0, 0, 0, 0, 0, 0,   /* sender */
    4, '0', '0', '0', '8', 0, 0, 0, 0, 0, 0, 0, 0, 0, 0, 0, 0, 0, 0, 0, 0,   /* SEME */
    4, '0', '0', '1', '7', 0, 0, 0, 0, 0, 0, 0, 0, 0, 0, 0, 0, 0, 0, 0, 0,   /* MAST */
    0, 0, 0, 0, 0, 0, 0, 0, 0, 0, 0, 0, 0, 0, 0, 0, 0, 0, 0, 0, 0,           /* PREV */
    0, 0, 0, 0, 0, 0, 0, 0, 0, 0, 0, 0, 0, 0, 0, 0, 0, 0, 0, 0, 0,           /* LIST */
    4, '0', '0', '1', '7', 0, 0, 0, 0, 0, 0, 0, 0, 0, 0, 0, 0, 0, 0, 0, 0,   /* buyer */
    0, 0, 0, 0, 0, 0, 0, 0, 0, 0, 0, 0, 0, 0, 0, 0, 0, 0, 0, 0, 0,           /* its reference */
    0, 0, 0, 0, 0, 0, 0, 0, 0, 0, 0, 0, 0, 0, 0, 0, 0, 0, 0, 0, 0,           /* its TDID */
    4, '0', '0', '1', '5', 0, 0, 0, 0, 0, 0, 0, 0, 0, 0, 0, 0, 0, 0, 0, 0,   /* seller */
    0, 0, 0, 0, 0, 0, 0, 0, 0, 0, 0, 0, 0, 0, 0, 0, 0, 0, 0, 0, 0,           /* its reference */
    0, 0, 0, 0, 0, 0, 0, 0, 0, 0, 0, 0, 0, 0, 0, 0, 0, 0, 0, 0, 0,           /* its TDID */
    9, '0', '1', 'F', '0', '7', '0', '6', '3', '3', 0, 0, 0, 0, 0, 0, 0, 0, 0, 0, 0,   /* CUSIP */
    0, 0, 0, 0, 0, 0, 0, 0, 0, 0, 0, 0, 0, 0, 0, 0, 0, 0, 0, 0, 0,           /* pool */
    0, 0, 0, 0, 0, 0, 0, 0, 0, 0, 0, 0, 0, 0, 0, 0, 0, 0, 0, 0, 0,           /* DKRS */
    0, 0, 0, 0, 0, 0, 0, 0,                                                  /* PREP: absent */
    0x88, 0x4E, 0xAA, 0x8B, 0x68, 0x12, 0, 0,                                /* trade: 20240229093000 */
    0xB9, 0xD7, 0x34, 0x01, 0, 0, 0, 0,                                      /* settlement: 20240313 */
    0xE3, 0x03, 0, 0, 0, 0, 0, 0,                                            /* price: 995 .. */
    1, 0, 0, 0, 0, 0, 0, 0,                                                  /* .. with one decimal */
    0x40, 0x42, 0x0F, 0, 0, 0, 0, 0,                                         /* par: 1000000 .. */
    0, 0, 0, 0, 0, 0, 0, 0                                                   /* .. with none */
};

/* An MDFC with every field at its widest: 822 bytes, in plain form. */
static const char WIDEST[] =
    "PASSWORD1234\r\n"
    "SENDER12\r\n"
    "515/000/GSCC\r\n"
    "MBSCTRRS\r\n"
    ":16R:GENL\r\n"
    ":20C::SEME//SEME567890123456\r\n"
    ":23G:NEWM\r\n"
    ":98C::PREP//20240229235959\r\n"
    ":22F::TRTR/GSCC/CASH\r\n"
    ":16R:LINK\r\n"
    ":20C::MAST//MAST567890123456\r\n"
    ":16S:LINK\r\n"
    ":16R:LINK\r\n"
    ":20C::PREV//PREV567890123456\r\n"
    ":16S:LINK\r\n"
    ":16R:LINK\r\n"
    ":20C::LIST//LIST567890123456\r\n"
    ":16S:LINK\r\n"
    ":16S:GENL\r\n"
    ":16R:CONFDET\r\n"
    ":98C::TRAD//20240229093000\r\n"
    ":98A::SETT//20240229\r\n"
    ":90A::DEAL//PRCT/12345678901234,\r\n"
    ":22H::BUSE//SELL\r\n"
    ":22F::PROC/GSCC/MDFC\r\n"
    ":22H::PAYM//APMT\r\n"
    ":16R:CONFPRTY\r\n"
    ":95R::BUYR/GSCC/PARTBUYC\r\n"
    ":70C::PACO//GSCC/TDIDBUYER678901234567890\r\n"
    ":16S:CONFPRTY\r\n"
    ":16R:CONFPRTY\r\n"
    ":95R::SELL/GSCC/PARTSELC\r\n"
    ":70C::PACO//GSCC/TDIDSELLER78901234567890\r\n"
    ":16S:CONFPRTY\r\n"
    ":36B::CONF//FAMT/1,0000000000001\r\n"
    ":35B:/US/CUSIP6789\r\n"
    ":16R:FIA\r\n"
    ":13B::POOL/GSCC/POOL56789\r\n"
    ":16S:FIA\r\n"
    ":70E::TPRO//GSCC/TDSVTFTD/GUPP0\r\n"
    ":16S:CONFDET\r\n"
    "-\r\n";

/* A TDDK of the buyer, with the contra reference in the seller's block and the seller's block first. */
static const char DK[] =
    "PW\n"
    "0015\n"
    "515/000/GSCC\n"
    "MBSCTRRS\n"
    ":16R:GENL\n"
    ":20C::SEME//DK1\n"
    ":23G:NEWM\n"
    ":22F::TRTR/GSCC/CASH\n"
    ":16S:GENL\n"
    ":16R:CONFDET\n"
    ":98C::TRAD//20240229093000\n"
    ":98A::SETT//20240313\n"
    ":90A::DEAL//PRCT/0,\n"
    ":22H::BUSE//BUYI\n"
    ":22F::PROC/GSCC/TDDK\n"
    ":22H::PAYM//APMT\n"
    ":16R:CONFPRTY\n"
    ":95R::SELL/GSCC/PART0017\n"
    ":20C::PROC//CONTRA1\n"
    ":70C::PACO//GSCC/TDIDS1\n"
    ":16S:CONFPRTY\n"
    ":16R:CONFPRTY\n"
    ":95R::BUYR/GSCC/PART0017\n"
    ":16S:CONFPRTY\n"
    ":36B::CONF//FAMT/0,5\n"
    ":35B:/US/01F070633\n"
    ":70E::TPRO//GSCC/TDSVSBOD/DKRS0A1B\n"
    ":16S:CONFDET\n"
    "-\n";

/* ---------------------------------------------------------------- the entries, each called between guards */

struct record { uint8_t before[GUARD], bytes[MT515_RECORD], behind[GUARD]; };
struct places { uint8_t before[GUARD]; size_t of[MT515_FIELDS]; uint8_t behind[GUARD]; };

struct read_answer { uint8_t number; size_t line; uint8_t record[MT515_RECORD]; };

static struct read_answer read_message(const void *message, size_t length)
{
    struct record record;
    struct number line;
    struct read_answer answer;
    const uint8_t *lent = lend(message, length);
    MARKED(record);
    MARKED(line);
    answer.number = mt515_read(lent, length, record.bytes, &line.value);
    GUARDED(record, length);
    GUARDED(line, length);
    want(stands(lent, message, length), "read changed the message", length);
    answer.line = line.value;
    memcpy(answer.record, record.bytes, MT515_RECORD);
    return answer;
}

struct field_answer { uint8_t number; size_t offset, count; };

static struct field_answer field_of(const void *message, size_t length, size_t slot)
{
    struct number offset, count;
    const uint8_t *lent = lend(message, length);
    MARKED(offset);
    MARKED(count);
    uint8_t number = mt515_field(lent, length, slot, &offset.value, &count.value);
    GUARDED(offset, slot);
    GUARDED(count, slot);
    want(stands(lent, message, length), "field changed the message", slot);
    return (struct field_answer){ number, offset.value, count.value };
}

struct places_answer { uint8_t number; size_t line, starts[MT515_FIELDS], ends[MT515_FIELDS]; };

static struct places_answer places_of(const void *message, size_t length)
{
    struct places starts, ends;
    struct number line;
    struct places_answer answer;
    const uint8_t *lent = lend(message, length);
    MARKED(starts);
    MARKED(ends);
    MARKED(line);
    answer.number = mt515_places(lent, length, starts.of, ends.of, &line.value);
    GUARDED(starts, length);
    GUARDED(ends, length);
    GUARDED(line, length);
    want(stands(lent, message, length), "places changed the message", length);
    answer.line = line.value;
    memcpy(answer.starts, starts.of, sizeof answer.starts);
    memcpy(answer.ends, ends.of, sizeof answer.ends);
    return answer;
}

static struct written plain_of(const void *message, size_t length, struct buffer *out, size_t room)
{
    struct number line, written;
    const uint8_t *lent = lend(message, length);
    MARKED(*out);
    MARKED(line);
    MARKED(written);
    uint8_t number = mt515_plain(lent, length, out->bytes, room, &line.value, &written.value);
    GUARDED(*out, room);
    GUARDED(line, room);
    GUARDED(written, room);
    want(stands(lent, message, length), "plain changed the message", room);
    struct written w = { number, line.value, written.value };
    untouched(out, w, room);
    return w;
}

static struct written write_record(const uint8_t bytes[MT515_RECORD], struct buffer *out, size_t room)
{
    struct number written;
    const uint8_t *lent = lend(bytes, MT515_RECORD);
    MARKED(*out);
    MARKED(written);
    uint8_t number = mt515_write(lent, out->bytes, room, &written.value);
    GUARDED(*out, room);
    GUARDED(written, room);
    want(stands(lent, bytes, MT515_RECORD), "write changed the record", room);
    struct written w = { number, 0, written.value };
    untouched(out, w, room);
    return w;
}

struct next_answer { uint8_t found, number; size_t line, next; uint8_t record[MT515_RECORD]; };

static struct next_answer next_of(const void *batch, size_t length, size_t position)
{
    struct record record;
    struct number line, next;
    struct byte number;
    struct next_answer answer;
    const uint8_t *lent = lend(batch, length);
    MARKED(record);
    MARKED(line);
    MARKED(next);
    MARKED(number);
    answer.found = mt515_next(lent, length, position, record.bytes, &line.value, &next.value, &number.value);
    GUARDED(record, position);
    GUARDED(line, position);
    GUARDED(next, position);
    GUARDED(number, position);
    want(stands(lent, batch, length), "next changed the batch", position);
    answer.number = number.value;
    answer.line = line.value;
    answer.next = next.value;
    memcpy(answer.record, record.bytes, MT515_RECORD);
    return answer;
}

/* ---------------------------------------------------------------- changes to B */

/* B with one line, counted from 1, replaced by other text, which brings its own endings. */
static size_t changed(char *out, size_t line, const char *text)
{
    size_t from = line_start(B, line), to = line_start(B, line + 1), wide = strlen(text);
    memcpy(out, B, from);
    memcpy(out + from, text, wide);
    memcpy(out + from + wide, B + to, sizeof B - to);
    return from + wide + sizeof B - 1 - to;
}

/* ---------------------------------------------------------------- reading */

static void blank(uint8_t record[MT515_RECORD])
{
    memset(record, 0, MT515_RECORD);
    record[3] = 255;
}

static void read_wants(const void *message, size_t length, uint8_t number, size_t line, const char *what)
{
    uint8_t none[MT515_RECORD];
    blank(none);
    struct read_answer a = read_message(message, length);
    want(a.number == number, what, a.number);
    want(a.line == line, what, a.line);
    want(number == MT515_ACCEPTED || memcmp(a.record, none, MT515_RECORD) == 0, "no blank record beside a refusal", length);

    struct buffer out;
    struct written w = plain_of(message, length, &out, BUFFER);
    want(w.number == number && w.line == line, "plain answers another number or line", length);
    struct field_answer f = field_of(message, length, MT515_SLOT_SEME);
    want(f.number == number && (number == MT515_ACCEPTED) == (f.count > 0), "field answers another number, or a place", length);
    want(number == MT515_ACCEPTED || f.offset == 0, "an offset beside a refusal", length);
    struct places_answer p = places_of(message, length);
    want(p.number == number && p.line == line, "places answers another number or line", length);
    for (size_t i = 0; number != MT515_ACCEPTED && i < MT515_FIELDS; i++)
        want(p.starts[i] == 0 && p.ends[i] == 0, "a place beside a refusal", i);
}

static void reads_B(void)
{
    heading("B: accepted; its 375 bytes, one by one, against the table");
    struct read_answer a = read_message(B, sizeof B - 1);
    want(a.number == MT515_ACCEPTED && a.line == 0, "B is not accepted", a.number);
    for (size_t i = 0; i < MT515_RECORD; i++)
        want(a.record[i] == B_RECORD[i], "a byte of B's record", i);

    heading("B in its plain form: the same record");
    a = read_message(B_PLAIN, sizeof B_PLAIN - 1);
    want(a.number == MT515_ACCEPTED && a.line == 0 && memcmp(a.record, B_RECORD, MT515_RECORD) == 0, "B's plain form", a.number);
}

/* The least and the greatest length, and a message for each number of a refusal that has one. */
static void refuses(void)
{
    static const struct { size_t line; const char *text; uint8_t number; size_t at; } changes[] = {
        { 2, "0017\t\n", MT515_BYTE, 2 }, { 6, ":20C::SEME//0008\r\r\n", MT515_BYTE, 6 }, { 12, "-\n", MT515_END, 12 },
        { 30, "-\nX\n", MT515_END, 30 }, { 30, "-", MT515_END, 30 }, { 30, "--\n", MT515_END, 30 }, { 30, "-\r", MT515_BYTE, 30 },
        { 1, "lower\n", MT515_HEADER, 1 }, { 2, "\n", MT515_HEADER, 2 }, { 3, "515/000/GSC\n", MT515_HEADER, 3 },
        { 4, "MBSCTRRSS\n", MT515_HEADER, 4 }, { 7, "23G:NEWM\n", MT515_SHAPE, 7 }, { 9, ":16R:Link\n", MT515_SHAPE, 9 },
        { 11, "", MT515_CLOSE, 11 }, { 29, "", MT515_CLOSE, 29 }, { 9, ":16R:LINKS\n", MT515_CLOSE, 11 },
        { 5, ":16R:GENL\n:16R:A\n:16R:B\n:16R:C\n:16R:D\n:16R:E\n:16R:F\n:16R:G\n:16R:H\n", MT515_DEPTH, 13 },
        { 11, ":16S:LINK\n:16R:LINK\n:20C::MAST//0018\n:16S:LINK\n", MT515_NO_SLOT, 13 }, { 6, ":20C::ABCD//1\n", MT515_NO_SLOT, 6 },
        { 27, "", MT515_PASSED_OVER, 27 }, { 14, "", MT515_PASSED_OVER, 14 }, { 7, ":23G:NEW M\n", MT515_VALUE, 7 },
        { 6, ":20C::SEME//ABCDEFGHIJKLMNOPQ\n", MT515_VALUE, 6 }, { 28, ":70E::TPRO//GSCC/TDSVSTOP\n", MT515_VALUE, 28 },
        { 16, ":90A::DEAL//PRCT/,\n", MT515_AMOUNT, 16 }, { 26, ":36B::CONF//FAMT/123456789012345,\n", MT515_AMOUNT, 26 },
        { 14, ":98C::TRAD//20230229093000\n", MT515_DATE, 14 }, { 15, ":98A::SETT//19000229\n", MT515_DATE, 15 },
        { 7, ":23G:CANC\n", MT515_AGAINST_KIND, 0 }, { 18, ":22F::PROC/GSCC/TDDK\n", MT515_KIND_MUST, 0 },
        { 28, ":70E::TPRO//GSCC/TDSVSTIP/DKRS0001\n", MT515_KIND_MAY_NOT, 0 },
        { 26, ":36B::CONF//FAMT/0,000\n", MT515_PAR_ZERO, 0 }, { 15, ":98A::SETT//20240228\n", MT515_SETTLES_BEFORE, 0 },
        { 15, ":98A::SETT//20240229\n", MT515_ACCEPTED, 0 }, { 16, ":90A::DEAL//PRCT/0,\n", MT515_ACCEPTED, 0 },
    };
    char message[LENDABLE];
    heading("refused: a message for each number from 1 to 17, read, in plain form and by field");
    for (size_t i = 0; i < sizeof changes / sizeof changes[0]; i++)
        read_wants(message, changed(message, changes[i].line, changes[i].text), changes[i].number, changes[i].at, changes[i].text);

    memset(message, 'X', sizeof message);
    read_wants(message, 0, MT515_LENGTH, 0, "nothing");
    read_wants(message, 1, MT515_END, 1, "X");
    read_wants(message, 4096, MT515_END, 1, "4,096 bytes");
    read_wants(message, 4097, MT515_LENGTH, 0, "4,097 bytes");
    read_wants("-\n", 2, MT515_HEADER, 1, "- alone");
}

/* ---------------------------------------------------------------- one field */

/* A value by its line and by what stands before it in that line; line 0 where the message has none. */
struct place { size_t line; const char *before, *value; };

static void fields_of(const char *message, const struct place places[22])
{
    static const size_t none[] = { 0, 22, 23, 255, 256, 257, 4294967297u, SIZE_MAX - 20, SIZE_MAX };
    size_t length = strlen(message);
    for (size_t slot = 1; slot <= 21; slot++) {
        struct field_answer f = field_of(message, length, slot);
        const struct place *p = &places[slot];
        size_t offset = p->line == 0 ? 0 : line_start(message, p->line) + strlen(p->before);
        size_t count = p->line == 0 ? 0 : strlen(p->value);
        want(f.number == MT515_ACCEPTED, "field: the number", slot);
        want(f.offset == offset && f.count == count, "field: offset and count", slot);
        want(count == 0 || memcmp(message + offset, p->value, count) == 0, "field: the table is wrong", slot);
    }
    for (size_t i = 0; i < sizeof none / sizeof none[0]; i++) {
        struct field_answer f = field_of(message, length, none[i]);
        want(f.number == MT515_ACCEPTED && f.offset == 0 && f.count == 0, "a number that names no slot", none[i]);
    }
}

static void fields(void)
{
    static const struct place of_B[22] = {
        [MT515_SLOT_SEME] = { 6, ":20C::SEME//", "0008" }, [MT515_SLOT_23G] = { 7, ":23G:", "NEWM" },
        [MT515_SLOT_MAST] = { 10, ":20C::MAST//", "0017" }, [MT515_SLOT_TRAD] = { 14, ":98C::TRAD//", "20240229093000" },
        [MT515_SLOT_SETT] = { 15, ":98A::SETT//", "20240313" }, [MT515_SLOT_DEAL] = { 16, ":90A::DEAL//PRCT/", "99,50" },
        [MT515_SLOT_BUSE] = { 17, ":22H::BUSE//", "BUYI" }, [MT515_SLOT_PROC] = { 18, ":22F::PROC/GSCC/", "INST" },
        [MT515_SLOT_BUYR] = { 24, ":95R::BUYR/GSCC/PART", "0017" }, [MT515_SLOT_SELL] = { 21, ":95R::SELL/GSCC/PART", "0015" },
        [MT515_SLOT_PAR] = { 26, ":36B::CONF//FAMT/", "0001000000," }, [MT515_SLOT_CUSIP] = { 27, ":35B:/US/", "01F070633" },
        [MT515_SLOT_NARRATIVE] = { 28, ":70E::TPRO//GSCC/", "TDSVSTIP" },
    };
    static const struct place of_widest[22] = {
        [MT515_SLOT_SEME] = { 6, ":20C::SEME//", "SEME567890123456" }, [MT515_SLOT_23G] = { 7, ":23G:", "NEWM" },
        [MT515_SLOT_PREP] = { 8, ":98C::PREP//", "20240229235959" }, [MT515_SLOT_MAST] = { 11, ":20C::MAST//", "MAST567890123456" },
        [MT515_SLOT_PREV] = { 14, ":20C::PREV//", "PREV567890123456" }, [MT515_SLOT_LIST] = { 17, ":20C::LIST//", "LIST567890123456" },
        [MT515_SLOT_TRAD] = { 21, ":98C::TRAD//", "20240229093000" }, [MT515_SLOT_SETT] = { 22, ":98A::SETT//", "20240229" },
        [MT515_SLOT_DEAL] = { 23, ":90A::DEAL//PRCT/", "12345678901234," }, [MT515_SLOT_BUSE] = { 24, ":22H::BUSE//", "SELL" },
        [MT515_SLOT_PROC] = { 25, ":22F::PROC/GSCC/", "MDFC" }, [MT515_SLOT_BUYR] = { 28, ":95R::BUYR/GSCC/PART", "BUYC" },
        [MT515_SLOT_BUYR_TDID] = { 29, ":70C::PACO//GSCC/TDID", "BUYER678901234567890" },
        [MT515_SLOT_SELL] = { 32, ":95R::SELL/GSCC/PART", "SELC" },
        [MT515_SLOT_SELL_TDID] = { 33, ":70C::PACO//GSCC/TDID", "SELLER78901234567890" },
        [MT515_SLOT_PAR] = { 35, ":36B::CONF//FAMT/", "1,0000000000001" }, [MT515_SLOT_CUSIP] = { 36, ":35B:/US/", "CUSIP6789" },
        [MT515_SLOT_POOL] = { 38, ":13B::POOL/GSCC/", "POOL56789" },
        [MT515_SLOT_NARRATIVE] = { 40, ":70E::TPRO//GSCC/", "TDSVTFTD/GUPP0" },
    };
    static const struct place of_DK[22] = {
        [MT515_SLOT_SEME] = { 6, ":20C::SEME//", "DK1" }, [MT515_SLOT_23G] = { 7, ":23G:", "NEWM" },
        [MT515_SLOT_TRAD] = { 11, ":98C::TRAD//", "20240229093000" }, [MT515_SLOT_SETT] = { 12, ":98A::SETT//", "20240313" },
        [MT515_SLOT_DEAL] = { 13, ":90A::DEAL//PRCT/", "0," }, [MT515_SLOT_BUSE] = { 14, ":22H::BUSE//", "BUYI" },
        [MT515_SLOT_PROC] = { 15, ":22F::PROC/GSCC/", "TDDK" }, [MT515_SLOT_BUYR] = { 23, ":95R::BUYR/GSCC/PART", "0017" },
        [MT515_SLOT_SELL] = { 18, ":95R::SELL/GSCC/PART", "0017" }, [MT515_SLOT_SELL_REFERENCE] = { 19, ":20C::PROC//", "CONTRA1" },
        [MT515_SLOT_SELL_TDID] = { 20, ":70C::PACO//GSCC/TDID", "S1" }, [MT515_SLOT_PAR] = { 25, ":36B::CONF//FAMT/", "0,5" },
        [MT515_SLOT_CUSIP] = { 26, ":35B:/US/", "01F070633" }, [MT515_SLOT_NARRATIVE] = { 27, ":70E::TPRO//GSCC/", "TDSVSBOD/DKRS0A1B" },
    };
    heading("fields: every slot of B, of an MDFC with every field and of a TDDK; numbers that name no slot");
    fields_of(B, of_B);
    fields_of(WIDEST, of_widest);
    fields_of(DK, of_DK);
}

/* ---------------------------------------------------------------- all fields */

/* Each slot stands where mt515_field says, and the password and the sender are the first two lines. */
static void places_are(const char *message, const char *password, const char *sender)
{
    struct places_answer p = places_of(message, strlen(message));
    size_t second = line_start(message, 2);
    want(p.number == MT515_ACCEPTED && p.line == 0, "places: number and line", p.number);
    want(p.starts[0] == 0 && p.ends[0] == 0, "places: index 0", p.ends[0]);
    for (size_t slot = 1; slot <= MT515_SLOT_NARRATIVE; slot++) {
        struct field_answer f = field_of(message, strlen(message), slot);
        want(p.starts[slot] == f.offset && p.ends[slot] == f.offset + f.count, "places: a slot", slot);
    }
    want(p.starts[MT515_FIELD_PASSWORD] == 0, "places: the password's start", p.starts[MT515_FIELD_PASSWORD]);
    want(p.ends[MT515_FIELD_PASSWORD] == strlen(password), "places: the password's end", p.ends[MT515_FIELD_PASSWORD]);
    want(memcmp(message, password, strlen(password)) == 0, "places: the password's table is wrong", 0);
    want(p.starts[MT515_FIELD_SENDER] == second, "places: the sender's start", p.starts[MT515_FIELD_SENDER]);
    want(p.ends[MT515_FIELD_SENDER] == second + strlen(sender), "places: the sender's end", p.ends[MT515_FIELD_SENDER]);
    want(memcmp(message + second, sender, strlen(sender)) == 0, "places: the sender's table is wrong", 0);
}

static void all_fields(void)
{
    heading("all fields of B, of its plain form, of an MDFC with every field and of a TDDK, with password and sender");
    want(MT515_FIELDS == MT515_FIELD_SENDER + 1, "the header: how many fields", MT515_FIELDS);
    places_are(B, "", "0017");
    places_are(B_PLAIN, "", "0017");
    places_are(WIDEST, "PASSWORD1234", "SENDER12");
    places_are(DK, "PW", "0015");
}

/* ---------------------------------------------------------------- plain form and writing, with every room */

static void every_room(const char *message, const char *plain)
{
    size_t length = strlen(plain);
    struct buffer out;
    struct read_answer a = read_message(message, strlen(message));
    want(a.number == MT515_ACCEPTED, "not accepted", a.number);
    for (size_t room = 0; room <= length + 1; room++) {
        uint8_t number = room < length ? MT515_ROOM : MT515_ACCEPTED;
        struct written w = plain_of(message, strlen(message), &out, room);
        want(w.number == number && w.line == 0 && w.length == (number ? 0 : length), "plain: number, line and length", room);
        want(number || memcmp(out.bytes, plain, length) == 0, "plain: the bytes", room);
        w = write_record(a.record, &out, room);
        want(w.number == number && w.length == (number ? 0 : length), "write: number and length", room);
        want(number || memcmp(out.bytes, plain, length) == 0, "write: the bytes", room);
    }
}

static void rooms(void)
{
    heading("plain form and writing: B and the widest, 822 bytes, with every room from 0 to one past the length");
    want(sizeof WIDEST - 1 == MT515_LONGEST, "the widest has 822 bytes", sizeof WIDEST - 1);
    every_room(B, B_PLAIN);
    every_room(WIDEST, WIDEST);
}

/* ---------------------------------------------------------------- records that are refused */

static void write_wants(const uint8_t record[MT515_RECORD], uint8_t number, const char *what, size_t at)
{
    struct buffer out;
    struct written w = write_record(record, &out, MT515_LONGEST);
    want(w.number == number, what, at);
    w = write_record(record, &out, 0);
    want(w.number == (number ? number : MT515_ROOM), "19 comes last", at);
}

enum { FIRST_TEXT = 4, TEXTS = 15, TEXT = 21, FIRST_NUMBER = FIRST_TEXT + TEXTS * TEXT, NUMBERS = 7 };

/* The places of the header are those of the table above. */
static void places(void)
{
    static const size_t texts[TEXTS] = {
        MT515_AT_PASSWORD, MT515_AT_SENDER, MT515_AT_SEME, MT515_AT_MAST, MT515_AT_PREV, MT515_AT_LIST, MT515_AT_BUYR,
        MT515_AT_BUYR_REFERENCE, MT515_AT_BUYR_TDID, MT515_AT_SELL, MT515_AT_SELL_REFERENCE, MT515_AT_SELL_TDID, MT515_AT_CUSIP,
        MT515_AT_POOL, MT515_AT_DKRS
    };
    static const size_t numbers[NUMBERS] = {
        MT515_AT_PREP, MT515_AT_TRAD, MT515_AT_SETT, MT515_AT_PRICE, MT515_AT_PRICE_DECIMALS, MT515_AT_PAR, MT515_AT_PAR_DECIMALS
    };
    heading("the header: where the places of a record begin");
    want(MT515_AT_KIND == 0 && MT515_AT_SIDE == 1 && MT515_AT_SERVICE == 2 && MT515_AT_GUPP == 3, "a code's place", 0);
    for (size_t i = 0; i < TEXTS; i++)
        want(texts[i] == FIRST_TEXT + i * TEXT, "a text's place", i);
    for (size_t i = 0; i < NUMBERS; i++)
        want(numbers[i] == FIRST_NUMBER + i * 8, "a number's place", i);
    want(FIRST_NUMBER + NUMBERS * 8 == MT515_RECORD, "the record's length", MT515_RECORD);
}

static void put_number(uint8_t record[MT515_RECORD], size_t which, uint64_t value)
{
    for (size_t i = 0; i < 8; i++)
        record[FIRST_NUMBER + which * 8 + i] = (uint8_t)(value >> 8 * i);
}

/* A text of so many letters, with zero bytes behind. */
static void put_text(uint8_t record[MT515_RECORD], size_t which, size_t length)
{
    uint8_t *at = record + FIRST_TEXT + which * TEXT;
    memset(at, 0, TEXT);
    at[0] = (uint8_t)length;
    memset(at + 1, 'Z', length < 20 ? length : 20);
}

/* Each text at and past its edges. What only the kind forbids (INST: PREV, LIST, references, DKRS) is 15. */
static void text_places(void)
{
    static const struct { size_t least, most; bool optional; uint8_t present; } widths[TEXTS] = {
        { 0, 12, true, 0 }, { 1, 8, false, 0 }, { 1, 16, false, 0 }, { 1, 16, true, 0 }, { 1, 16, true, MT515_KIND_MAY_NOT },
        { 1, 16, true, MT515_KIND_MAY_NOT }, { 4, 4, false, 0 }, { 1, 16, true, MT515_KIND_MAY_NOT }, { 1, 20, true, 0 },
        { 4, 4, false, 0 }, { 1, 16, true, MT515_KIND_MAY_NOT }, { 1, 20, true, 0 }, { 9, 9, false, 0 }, { 1, 9, true, 0 },
        { 4, 4, true, MT515_KIND_MAY_NOT }
    };
    for (size_t text = 0; text < TEXTS; text++)
        for (size_t length = 0; length <= 255; length++) {
            uint8_t r[MT515_RECORD], *at = r + FIRST_TEXT + text * TEXT;
            bool fits = length >= widths[text].least && length <= widths[text].most;
            uint8_t number = fits ? widths[text].present : MT515_RECORD_FIELD;
            if (length == 0)
                number = text == 3 ? MT515_KIND_MUST : widths[text].optional ? MT515_ACCEPTED : MT515_RECORD_FIELD;
            memcpy(r, B_RECORD, sizeof r);
            put_text(r, text, length);
            write_wants(r, number, "the length of a text", text * 1000 + length);
            if (!fits || length == 0)
                continue;
            at[length] = 'z';
            write_wants(r, MT515_RECORD_FIELD, "a text with a lower-case letter", text * 1000 + length);
            at[length] = 0;
            write_wants(r, MT515_RECORD_FIELD, "a text with a zero byte within", text * 1000 + length);
            put_text(r, text, length);
            at[20] |= 1;
            if (length < 20)
                write_wants(r, MT515_RECORD_FIELD, "a byte behind a text", text * 1000 + length);
        }
}

/* Kind, side, service and GUPP, each with all 256 bytes. */
static void code_places(void)
{
    static const uint8_t last[] = { 3, 1, 2, 9 };
    for (size_t place = 0; place < 4; place++)
        for (size_t value = 0; value <= 255; value++) {
            uint8_t r[MT515_RECORD];
            memcpy(r, B_RECORD, sizeof r);
            r[place] = (uint8_t)value;
            uint8_t number = value <= last[place] || (place == 3 && value == 255) ? MT515_ACCEPTED : MT515_RECORD_FIELD;
            if (place == 0 && value == 3)
                number = MT515_KIND_MUST;      /* a TDDK without contra reference and DKRS */
            write_wants(r, number, "kind, side, service or GUPP", place * 1000 + value);
        }
}

static void number_places(void)
{
    static const struct { size_t which; uint64_t value; uint8_t number; } cases[] = {
        { 0, 1, 18 }, { 0, 10101000000, 0 }, { 0, 10101235959, 0 }, { 0, 10101240000, 18 }, { 0, 99991231235959, 0 },
        { 0, 99991231235960, 18 }, { 0, 100000101000000, 18 }, { 0, 20240229236000, 18 }, { 0, 20230229000000, 18 }, { 0, UINT64_MAX, 18 },
        { 1, 0, 18 }, { 1, 10101000000, 0 }, { 1, 20240313235959, 0 }, { 1, 20240314000000, 17 }, { 1, 20240230000000, 18 },
        { 1, 20240229093060, 18 }, { 1, 20240229, 18 }, { 1, 100000101000000, 18 }, { 1, UINT64_MAX, 18 },
        { 2, 0, 18 }, { 2, 20240229, 0 }, { 2, 20240228, 17 }, { 2, 20240230, 18 }, { 2, 99991231, 0 }, { 2, 100000101, 18 },
        { 2, 20240313000000, 18 }, { 2, 20240313 + (1ull << 32), 18 }, { 2, UINT64_MAX, 18 },
        { 3, 0, 18 }, { 3, 1, 0 }, { 3, 990, 18 }, { 3, 99999999999999, 0 }, { 3, 100000000000001, 18 }, { 3, UINT64_MAX, 18 },
        { 4, 0, 0 }, { 4, 13, 0 }, { 4, 14, 18 }, { 4, 255, 18 }, { 4, 257, 18 }, { 4, (1ull << 32) + 1, 18 }, { 4, UINT64_MAX, 18 },
        { 5, 0, 16 }, { 5, 1, 0 }, { 5, 99999999999999, 0 }, { 5, 100000000000000, 18 }, { 5, UINT64_MAX, 18 },
        { 6, 1, 18 }, { 6, 256, 18 }, { 6, 1ull << 32, 18 }, { 6, UINT64_MAX, 18 },
    };
    for (size_t i = 0; i < sizeof cases / sizeof cases[0]; i++) {
        uint8_t r[MT515_RECORD];
        memcpy(r, B_RECORD, sizeof r);
        put_number(r, cases[i].which, cases[i].value);
        write_wants(r, cases[i].number, "a number of a record", i);
    }
}

static void records(void)
{
    uint8_t r[MT515_RECORD];
    heading("records: kind, side, service and GUPP with every byte; each text with every length; each number at its edges");
    code_places();
    text_places();
    number_places();

    heading("records: each byte of B's but GUPP and the numbers set to 255 (18); the blank record (18)");
    for (size_t i = 0; i < FIRST_NUMBER; i++) {
        memcpy(r, B_RECORD, sizeof r);
        r[i] = 255;
        write_wants(r, i == 3 ? MT515_ACCEPTED : MT515_RECORD_FIELD, "a byte of 255", i);
    }
    blank(r);
    write_wants(r, MT515_RECORD_FIELD, "the blank record", 0);
    for (unsigned value = 0; value <= 255; value++) {
        memset(r, (int)value, sizeof r);
        write_wants(r, MT515_RECORD_FIELD, "a record of one byte throughout", value);
    }
}

/* ---------------------------------------------------------------- batch */

static void next_wants(const char *batch, size_t position, struct next_answer wanted)
{
    struct next_answer a = next_of(batch, strlen(batch), position);
    want(a.found == wanted.found && a.number == wanted.number, "next: what is found, and its number", position);
    want(a.line == wanted.line && a.next == wanted.next, "next: line and position", position);
    want(memcmp(a.record, wanted.record, MT515_RECORD) == 0, "next: the record", position);
}

/* B, then B's plain form, then X and -, then a piece without an end. */
static void batch(void)
{
    char bytes[4 * PAGE / 2];
    size_t first = sizeof B - 1, second = first + sizeof B_PLAIN - 1, third = second + 4, end = third + 3;
    struct next_answer good = { MT515_MESSAGE, 0, 0, first, { 0 } }, bad = { MT515_MESSAGE, 4, 2, third, { 0 } };
    snprintf(bytes, sizeof bytes, "%s%sX\n-\n\nY-", B, B_PLAIN);
    memcpy(good.record, B_RECORD, MT515_RECORD);
    blank(bad.record);

    heading("batch: B, its plain form, a refused message and a piece without an end; inside a line; at and past the end");
    next_wants(bytes, 0, good);
    good.next = second;
    next_wants(bytes, first, good);
    next_wants(bytes, second, bad);
    bad.next = first;
    next_wants(bytes, 1, bad);                     /* without its blank password B's sender is one */
    bad = (struct next_answer){ MT515_MESSAGE, 3, 2, end, { [3] = 255 } };
    next_wants(bytes, third, bad);
    bad.line = 1;
    next_wants(bytes, third + 1, bad);
    next_wants(bytes, end - 1, bad);

    static const size_t beyond[] = { 1, 2, 100, 4294967296u, SIZE_MAX / 2 };
    bad = (struct next_answer){ MT515_DONE, 0, 0, end, { [3] = 255 } };
    next_wants(bytes, end, bad);
    for (size_t i = 0; i < sizeof beyond / sizeof beyond[0]; i++)
        next_wants(bytes, end + beyond[i], (struct next_answer){ MT515_BEYOND, MT515_PAST, 0, end + beyond[i], { [3] = 255 } });
    next_wants(bytes, SIZE_MAX, (struct next_answer){ MT515_BEYOND, MT515_PAST, 0, SIZE_MAX, { [3] = 255 } });
    next_wants("", 0, (struct next_answer){ MT515_DONE, 0, 0, 0, { [3] = 255 } });
    next_wants("", 1, (struct next_answer){ MT515_BEYOND, MT515_PAST, 0, 1, { [3] = 255 } });
}

/* ---------------------------------------------------------------- the other profile */

static void refuses_pool(void)
{
    heading("P, which the entries of pool.h accept: 4 at 3, read, in plain form, every slot, all fields and in a batch");
    read_wants(P, sizeof P - 1, MT515_HEADER, 3, "P");
    for (size_t slot = 1; slot <= MT515_SLOT_NARRATIVE; slot++) {
        struct field_answer f = field_of(P, sizeof P - 1, slot);
        want(f.number == MT515_HEADER && f.offset == 0 && f.count == 0, "P: a slot", slot);
    }
    next_wants(P, 0, (struct next_answer){ MT515_MESSAGE, MT515_HEADER, 3, sizeof P - 1, { [3] = 255 } });
}

int main(void)
{
    places();
    reads_B();
    refuses();
    fields();
    all_fields();
    rooms();
    records();
    batch();
    refuses_pool();
    return verdict("the C entries answer as document 01 says");
}

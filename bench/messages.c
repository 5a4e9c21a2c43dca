/* messages.c: see messages.h. A message is put down line by line, in the order of document 01's table, one of the pool in that of
 * request A1's. What both have is written as the MT515 has it. */
#include "messages.h"

#include <stdbool.h>
#include <string.h>

/* The last two are the pool's alone. */
enum kind { INST, CANC, MDFC, TDDK, CDRQ, CDRL };

/* What is being written, and how. */
struct pen {
    uint8_t *at;
    uint64_t state;                  /* of the random numbers */
    bool pool;                       /* whether it is a message of the pool */
    enum kind kind;
    bool wide, crlf, turned;
};

/* ---------------------------------------------------------------- bytes */

/* A random number below a limit (xorshift64*). */
static unsigned below(struct pen *pen, unsigned limit)
{
    pen->state ^= pen->state >> 12;
    pen->state ^= pen->state << 25;
    pen->state ^= pen->state >> 27;
    return (unsigned)((pen->state * 0x2545F4914F6CDD1Du) >> 33) % limit;
}

/* A message of the pool has DTCY where the MT515 has GSCC. */
static void put(struct pen *pen, const char *text)
{
    size_t length = strlen(text);
    const char *house = pen->pool ? strstr(text, "GSCC") : NULL;
    memcpy(pen->at, text, length);
    if (house)
        memcpy(pen->at + (house - text), "DTCY", 4);
    pen->at += length;
}

/* So many characters of a list. */
static void put_from(struct pen *pen, const char *list, unsigned characters, size_t count)
{
    for (size_t i = 0; i < count; i++)
        *pen->at++ = (uint8_t)list[below(pen, characters)];
}

static void put_c(struct pen *pen, size_t count)
{
    put_from(pen, "ABCDEFGHIJKLMNOPQRSTUVWXYZ0123456789", 36, count);
}

static void put_digits(struct pen *pen, size_t count)
{
    put_from(pen, "0123456789", 10, count);
}

/* A two-digit number from low to high. */
static void put_part(struct pen *pen, unsigned low, unsigned high)
{
    unsigned part = low + below(pen, high - low + 1);
    *pen->at++ = (uint8_t)('0' + part / 10);
    *pen->at++ = (uint8_t)('0' + part % 10);
}

static void put_time(struct pen *pen)
{
    put_part(pen, 0, 23);
    put_part(pen, 0, 59);
    put_part(pen, 0, 59);
}

static void end_line(struct pen *pen)
{
    put(pen, pen->crlf ? "\r\n" : "\n");
}

/* ---------------------------------------------------------------- lines */

static void line(struct pen *pen, const char *text)
{
    put(pen, text);
    end_line(pen);
}

/* A line whose value is a text: its width where the message is small, and where it is wide. */
static void text_line(struct pen *pen, const char *fixed, size_t small, size_t wide)
{
    put(pen, fixed);
    put_c(pen, pen->wide ? wide : small);
    end_line(pen);
}

static void moment_line(struct pen *pen, const char *fixed_and_date)
{
    put(pen, fixed_and_date);
    put_time(pen);
    end_line(pen);
}

/* An amount above zero, with a needless nought or two where it is small. */
static void amount_line(struct pen *pen, const char *fixed, size_t wholes, size_t decimals)
{
    put(pen, fixed);
    put(pen, pen->wide ? "1" : "01");
    put_digits(pen, wholes - 1);
    put(pen, ",");
    put_digits(pen, decimals);
    put(pen, pen->wide || decimals == 0 ? "" : "0");
    end_line(pen);
}

static void header(struct pen *pen)
{
    text_line(pen, "", 0, 12);
    text_line(pen, "", 4, 8);
    line(pen, "515/000/GSCC");
    line(pen, pen->pool ? "MBSCPNET" : "MBSCTRRS");
}

static void link_block(struct pen *pen, const char *fixed)
{
    line(pen, ":16R:LINK");
    text_line(pen, fixed, 8, 16);
    line(pen, ":16S:LINK");
}

/* By kind: m for must, o for may, which a wide message has. */
static void links(struct pen *pen)
{
    static const char *const fixed[] = { ":20C::MAST//", ":20C::PREV//", ":20C::LIST//" };
    static const char *const ours[] = { "mmm-", "--o-", "-oo-" }, *const pools[] = { "mmmomm", "-oo---", "-oo-oo" };
    for (int i = 0; i < 3; i++) {
        int link = pen->turned ? 2 - i : i;
        char rule = (pen->pool ? pools : ours)[link][pen->kind];
        if (rule == 'm' || (rule == 'o' && pen->wide))
            link_block(pen, fixed[link]);
    }
}

static void general(struct pen *pen)
{
    line(pen, ":16R:GENL");
    text_line(pen, ":20C::SEME//", 8, 16);
    line(pen, pen->kind == CANC ? ":23G:CANC" : ":23G:NEWM");
    if (pen->wide && !pen->pool)
        moment_line(pen, ":98C::PREP//20240301");
    line(pen, ":22F::TRTR/GSCC/CASH");
    links(pen);
    line(pen, ":16S:GENL");
}

/* The trades are our purchases, so the seller is the other side. */
static void party(struct pen *pen, bool seller)
{
    line(pen, ":16R:CONFPRTY");
    text_line(pen, seller ? ":95R::SELL/GSCC/PART" : ":95R::BUYR/GSCC/PART", 4, 4);
    if (seller && pen->kind == TDDK)
        text_line(pen, ":20C::PROC//", 10, 16);
    if (pen->wide && !pen->pool)
        text_line(pen, ":70C::PACO//GSCC/TDID", 0, 20);
    line(pen, ":16S:CONFPRTY");
}

static void pool_block(struct pen *pen)
{
    line(pen, ":16R:FIA");
    text_line(pen, ":13B::POOL/GSCC/", 0, 9);
    line(pen, ":16S:FIA");
}

static void put_service(struct pen *pen)
{
    put(pen, below(pen, 2) ? "TFTD" : "STIP");
    if (pen->wide && pen->kind != TDDK) {
        put(pen, "/GUPP");
        put_digits(pen, 1);
    }
}

static void put_pool_service(struct pen *pen)
{
    put(pen, "POOL");
    if (pen->wide && pen->kind != TDDK)
        put(pen, "/CDRY");
    if (pen->wide) {
        put(pen, "/DDTE202403");
        put_part(pen, 1, 31);
    }
}

static void narrative(struct pen *pen)
{
    put(pen, ":70E::TPRO//GSCC/TDSV");
    if (pen->pool)
        put_pool_service(pen);
    else
        put_service(pen);
    if (pen->kind == TDDK) {
        put(pen, "/DKRS");
        put_c(pen, 4);
    }
    end_line(pen);
}

static void details(struct pen *pen)
{
    static const char *const kind_lines[] = {
        ":22F::PROC/GSCC/INST", ":22F::PROC/GSCC/CANC", ":22F::PROC/GSCC/MDFC", ":22F::PROC/GSCC/TDDK", ":22F::PROC/GSCC/CDRQ",
        ":22F::PROC/GSCC/CDRL" };
    line(pen, ":16R:CONFDET");
    moment_line(pen, ":98C::TRAD//20240229");
    put(pen, ":98A::SETT//202403");
    put_part(pen, 1, 31);
    end_line(pen);
    amount_line(pen, ":90A::DEAL//PRCT/", pen->wide ? 1 : 2, pen->wide ? 13 : 3);
    if (pen->wide && pen->pool)
        amount_line(pen, ":19A::SETT//USD", 12, 2);
    line(pen, ":22H::BUSE//BUYI");
    line(pen, kind_lines[pen->kind]);
    line(pen, ":22H::PAYM//APMT");
    party(pen, pen->turned);
    party(pen, !pen->turned);
    amount_line(pen, ":36B::CONF//FAMT/", pen->wide ? 14 : 7, 0);
    text_line(pen, ":35B:/US/", 9, 9);
    if (pen->wide)
        pool_block(pen);
    narrative(pen);
    line(pen, ":16S:CONFDET");
}

/* What message number so many is like. */
static void turn(struct pen *pen, size_t number)
{
    size_t kinds = pen->pool ? 6 : 4;
    pen->kind = (enum kind)(number % kinds);
    pen->wide = number / kinds % 2 == 1;
    pen->crlf = number / kinds / 2 % 2 == 1;
    pen->turned = number / kinds / 4 % 2 == 1;
}

static void make(struct messages *messages, uint64_t seed, bool pool)
{
    struct pen pen = { .at = messages->batch, .state = seed * 2 + 1, .pool = pool };
    for (size_t i = 0; i < MESSAGES; i++) {
        messages->start[i] = (size_t)(pen.at - messages->batch);
        turn(&pen, i);
        header(&pen);
        general(&pen);
        details(&pen);
        line(&pen, "-");
    }
    messages->start[MESSAGES] = (size_t)(pen.at - messages->batch);
}

void make_messages(struct messages *messages, uint64_t seed) { make(messages, seed, false); }
void make_pool_messages(struct messages *messages, uint64_t seed) { make(messages, seed, true); }

/* ---------------------------------------------------------------- faults
 * Each is put into the message that runs from `from` to where the pen stands. No fault makes it longer. */

/* A line, with its ending. */
struct span {
    uint8_t *from, *to;
};

/* The line that a byte stands in. */
static struct span line_of(uint8_t *from, uint8_t *byte)
{
    struct span line = { byte, byte };
    while (line.from > from && line.from[-1] != '\n')
        line.from--;
    while (*line.to++ != '\n')
        continue;
    return line;
}

/* Any byte but those of the last line, which is `-`. */
static uint8_t *any_byte(struct pen *pen, uint8_t *from)
{
    return from + below(pen, (unsigned)(pen->at - from - (pen->crlf ? 3 : 2)));
}

static bool begins(const uint8_t *at, const char *text) { return memcmp(at, text, strlen(text)) == 0; }

static void wrong_byte(struct pen *pen, uint8_t *from)
{
    uint8_t *byte = any_byte(pen, from);
    *byte = (uint8_t)(0x80 + below(pen, 0x80));
}

/* Where the message may do without the line, the one behind it goes, which is never such a line. */
static void missing_line(struct pen *pen, uint8_t *from)
{
    struct span gone = line_of(from, any_byte(pen, from));
    while (begins(gone.from, ":98C::PREP") || begins(gone.from, ":70C:"))
        gone = line_of(from, gone.to);
    memmove(gone.from, gone.to, (size_t)(pen->at - gone.to));
    pen->at -= gone.to - gone.from;
}

/* The last byte of a line that is a field; no value may have this one. */
static void bad_value(struct pen *pen, uint8_t *from)
{
    struct span field = line_of(from, any_byte(pen, from));
    while (!begins(field.from, ":") || begins(field.from, ":16"))
        field = line_of(from, any_byte(pen, from));
    field.to[pen->crlf ? -3 : -2] = '*';
}

static void exchanged_lines(struct pen *pen, uint8_t *from)
{
    uint8_t kept[64];
    struct span first = line_of(from, any_byte(pen, from)), second = line_of(from, first.to);
    size_t width = (size_t)(first.to - first.from), of_second = (size_t)(second.to - second.from);
    memcpy(kept, first.from, width);
    memmove(first.from, second.from, of_second);
    memcpy(first.from + of_second, kept, width);
}

/* What stands behind a text that the message has. */
static uint8_t *behind(uint8_t *from, const char *text)
{
    while (!begins(from, text))
        from++;
    return from + strlen(text);
}

/* Another kind (a field is missing, or 23G is against it), 23G against the kind, par zero, settled before the trade. */
static void broken_rule(struct pen *pen, uint8_t *from)
{
    switch (below(pen, 4)) {
    case 0: memcpy(behind(from, ":22F::PROC/GSCC/"), pen->kind == TDDK ? "INST" : "TDDK", 4); return;
    case 1: memcpy(behind(from, ":23G:"), pen->kind == CANC ? "NEWM" : "CANC", 4); return;
    case 2: from = behind(from, ":36B::CONF//FAMT/"); memset(from, '0', strcspn((char *)from, ",")); return;
    default: memcpy(behind(from, ":98A::SETT//"), "20240228", 8); return;
    }
}

void make_refused(struct messages *refused, const struct messages *messages, uint64_t seed)
{
    static void (*const faults[])(struct pen *pen, uint8_t *from) = { wrong_byte, missing_line, bad_value, exchanged_lines, broken_rule };
    struct pen pen = { .at = refused->batch, .state = seed * 2 + 1 };
    for (size_t i = 0; i < MESSAGES; i++) {
        size_t length = messages->start[i + 1] - messages->start[i];
        uint8_t *from = pen.at;
        refused->start[i] = (size_t)(from - refused->batch);
        turn(&pen, i);
        memcpy(from, messages->batch + messages->start[i], length);
        pen.at += length;
        faults[i % 5](&pen, from);
    }
    refused->start[MESSAGES] = (size_t)(pen.at - refused->batch);
}

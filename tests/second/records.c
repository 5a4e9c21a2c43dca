/* records.c - writing: what a record must be, the order of refusals, and that a refused write changes no byte; then the batch at
 * its ends. The same of the pool, beginning with P of request A1, and of the MT509, beginning with R of request A3, which come
 * from files; and generated records of the MT509, of which it is known what they get. Prints only what fails.
 * usage: records FILE FILE */
#include "bytes.h"
#include "cases.h"

#include <string.h>

static int failures;

static void demand(int holds, const char *what)
{
    if (!holds) {
        failures++;
        printf("records: %s\n", what);
    }
}

static void text(struct text *t, const char *s)
{
    memset(t, 0, sizeof *t);
    t->length = strlen(s);
    memcpy(t->bytes, s, t->length);
}

/* ---------------------------------------------------------------- writing, our own profile */

/* Every field at its widest, of the kind asked for. */
static struct record widest(int kind)
{
    struct record r;
    second_blank(&r);
    r.kind = kind;
    text(&r.password, "ABCDEFGHIJKL");
    text(&r.sender, "ABCDEFGH");
    text(&r.reference, "ABCDEFGHIJKLMNOP");
    r.prep_present = 1;
    r.prep = (struct moment){ { 2024, 2, 29 }, { 9, 30, 0 } };
    if (kind != KIND_TDDK)
        text(&r.mast, "ABCDEFGHIJKLMNOP");
    if (kind == KIND_MDFC)
        text(&r.prev, "ABCDEFGHIJKLMNOP");
    if (kind == KIND_MDFC || kind == KIND_CANC)
        text(&r.list, "ABCDEFGHIJKLMNOP");
    r.trade = r.prep;
    r.settlement = r.trade.date;
    r.price.amount = (struct amount){ 99999999999999u, 0 };
    r.side = SIDE_BUYI;
    text(&r.buyer.code, "0017");
    text(&r.seller.code, "0015");
    text(&r.buyer.tdid, "ABCDEFGHIJKLMNOPQRST");
    text(&r.seller.tdid, "ABCDEFGHIJKLMNOPQRST");
    if (kind == KIND_TDDK)
        text(&r.seller.contra, "ABCDEFGHIJKLMNOP");
    r.par.amount = (struct amount){ 1, 13 };
    text(&r.identifier, "01F070633");
    text(&r.pool, "ABCDEFGHI");
    r.word = WORD_STIP;
    if (kind == KIND_TDDK)
        text(&r.dkrs, "ABCD");
    else
        r.gupp_present = 1;
    return r;
}

/* A record that may be written is the same after it was 375 bytes. */
static void through_bytes(const struct record *r)
{
    uint8_t bytes[RECORD_BYTES];
    struct record again;
    second_to_bytes(r, bytes);
    second_from_bytes(bytes, &again);
    demand(memcmp(r, &again, sizeof again) == 0, "the record's bytes give another record");
}

/* Writes a record of so many bytes, and reads what was written. */
static struct written put_by(const struct profile *by, const void *r, size_t size, size_t room)
{
    uint8_t buffer[LONGEST_OF_MT509 + 100];
    memset(buffer, 0x5A, sizeof buffer);
    struct written w = second_write_by(by, r, buffer, room);
    size_t from = w.number == ACCEPTED ? w.length : 0;
    demand(w.line == 0 && (w.number == ACCEPTED || w.length == 0), "line or length beside a refusal");
    for (size_t i = from; i < sizeof buffer; i++)
        demand(buffer[i] == 0x5A, "a byte changed that must stand");
    if (w.number == ACCEPTED) {
        union any_record again;
        demand(second_read_by(by, buffer, w.length, &again).number == ACCEPTED && memcmp(&again, r, size) == 0,
               "what was written reads as another record");
    }
    return w;
}

static struct written put(const struct record *r, size_t room)
{
    struct written w = put_by(&second_mt515, r, sizeof *r, room);
    if (w.number == ACCEPTED)
        through_bytes(r);
    return w;
}

#define GETS(number_wanted, change) do { struct record r = widest(kind); change; \
    demand(put(&r, 0).number == ((number_wanted) == 0 ? SHORT_BUFFER : (number_wanted)), #number_wanted " (no room): " #change); \
    demand(put(&r, LONGEST_WRITTEN).number == (number_wanted), #number_wanted ": " #change); } while (0)

static void writing(void)
{
    static const size_t lengths[] = { 718, 770, 822, 699 };
    for (int kind = KIND_INST; kind <= KIND_TDDK; kind++) {
        struct record w = widest(kind);
        demand(put(&w, 822).length == lengths[kind], "widest length by kind");
        demand(put(&w, lengths[kind]).number == ACCEPTED, "exact room");
        demand(put(&w, lengths[kind] - 1).number == SHORT_BUFFER, "one byte short");

        GETS(0, text(&r.password, ""));
        GETS(0, text(&r.pool, ""));
        GETS(0, r.price.amount.digits = 0);
        GETS(18, second_blank(&r));
        GETS(18, r.kind = 4);
        GETS(18, r.kind = -1);
        GETS(18, r.side = 2);
        GETS(18, r.word = 3);
        GETS(18, text(&r.password, "ABCDEFGHIJKLM"));
        GETS(18, text(&r.sender, ""));
        GETS(18, text(&r.sender, "ABCDEFGHI"));
        GETS(18, text(&r.reference, ""));
        GETS(18, text(&r.reference, "ABCDEFGHIJKLMNOPQ"));
        GETS(18, text(&r.reference, "a"));
        GETS(18, r.reference.length = 15);
        GETS(18, r.reference.length = 21);
        GETS(18, r.reference.length = (size_t)-1);
        GETS(18, r.sender.bytes[19] = 1);
        GETS(18, text(&r.mast, "A B"));
        GETS(18, r.prev.bytes[3] = 0x80);
        GETS(18, text(&r.list, "-"));
        GETS(18, text(&r.buyer.code, "001"));
        GETS(18, text(&r.buyer.code, "00170"));
        GETS(18, text(&r.seller.code, ""));
        GETS(18, text(&r.identifier, "01F07063"));
        GETS(18, text(&r.identifier, ""));
        GETS(18, text(&r.pool, "ABCDEFGHIJ"));
        GETS(18, text(&r.dkrs, "ABC"));
        GETS(18, r.prep_present = 0);
        GETS(18, r.prep_present = 2);
        GETS(18, r.prep.time.hour = 24);
        GETS(18, r.prep.date.year = 0);
        GETS(18, r.trade.date.day = 30);
        GETS(18, r.trade.time.minute = 60);
        GETS(18, r.trade.time.second = 60);
        GETS(18, r.settlement.month = 0);
        GETS(18, r.settlement.year = 10000);
        GETS(18, (r.gupp_present = 0, r.gupp = 1));
        GETS(18, (r.gupp_present = 1, r.gupp = 10));
        GETS(18, r.gupp_present = 2);
        GETS(18, (r.price.amount = (struct amount){ 0, 1 }));
        GETS(18, (r.price.amount = (struct amount){ 10, 1 }));
        GETS(18, (r.par.amount = (struct amount){ 1, 14 }));
        GETS(18, (r.par.amount = (struct amount){ 100000000000000u, 0 }));
        GETS(0, (r.par.amount = (struct amount){ 99999999999999u, 13 }));
        GETS(0, (r.par.amount = (struct amount){ 10, 0 }));
        GETS(16, (r.par.amount = (struct amount){ 0, 0 }));
        GETS(17, r.settlement.day = 28);
        GETS(17, (r.settlement = (struct date){ 2023, 12, 31 }));
        GETS(16, (r.settlement.day = 28, r.par.amount.digits = 0, r.par.amount.decimals = 0));
        GETS(18, (r.settlement.day = 30, r.par.amount.digits = 0, r.par.amount.decimals = 0));
        GETS(15, text(&r.buyer.contra, "A"));
        GETS(kind == KIND_TDDK ? 14 : 15, (r.side = SIDE_SELL, text(&r.seller.contra, "A")));
        if (kind == KIND_TDDK) {
            GETS(14, text(&r.seller.contra, ""));
            GETS(14, text(&r.dkrs, ""));
            GETS(14, (text(&r.dkrs, ""), r.gupp_present = 1));
            GETS(15, r.gupp_present = 1);
            GETS(15, text(&r.mast, "A"));
        } else {
            GETS(14, text(&r.mast, ""));
            GETS(14, (text(&r.mast, ""), text(&r.dkrs, "ABCD"), r.settlement.day = 1));
            GETS(15, text(&r.dkrs, "ABCD"));
            GETS(15, text(&r.seller.contra, "A"));
            GETS(0, r.gupp_present = 0);
            GETS(0, r.gupp = 9);
        }
        GETS(kind == KIND_MDFC ? 0 : 15, text(&r.prev, "A"));
        GETS(kind == KIND_MDFC || kind == KIND_CANC ? 0 : 15, text(&r.list, "A"));
    }
}

/* ---------------------------------------------------------------- the batch at its ends, by each */

static void batch_ends(const struct profile *by)
{
    union any_record record, blank;
    static const uint8_t batch[] = "X\n-\n-\r\r\n-\r\n\nX";
    static const struct { size_t from; int state, number; size_t line, to; } steps[] = {
        { 0, NEXT_MESSAGE, 4, 2, 4 }, { 1, NEXT_MESSAGE, 4, 2, 4 }, { 2, NEXT_MESSAGE, 4, 1, 4 }, { 3, NEXT_MESSAGE, 2, 2, 11 },
        { 4, NEXT_MESSAGE, 2, 1, 11 }, { 8, NEXT_MESSAGE, 4, 1, 11 }, { 9, NEXT_MESSAGE, 3, 3, 13 }, { 11, NEXT_MESSAGE, 3, 2, 13 },
        { 12, NEXT_MESSAGE, 3, 1, 13 }, { 13, NEXT_DONE, 0, 0, 13 }, { 14, NEXT_PAST, 21, 0, 14 }, { (size_t)-1, NEXT_PAST, 21, 0, (size_t)-1 } };
    for (size_t i = 0; i < sizeof steps / sizeof steps[0]; i++) {
        memset(&record, 0x5A, sizeof record);
        memset(&blank, 0x5A, sizeof blank);
        second_blank_by(by, &blank);
        struct next n = second_next_by(by, batch, sizeof batch - 1, steps[i].from, &record);
        demand(n.state == steps[i].state && n.answer.number == steps[i].number && n.answer.line == steps[i].line && n.position == steps[i].to
               && memcmp(&record, &blank, sizeof blank) == 0, "batch step");
        if (n.position != steps[i].to || n.answer.number != steps[i].number || n.answer.line != steps[i].line)
            printf("  from %zu: %d at %zu, to %zu\n", steps[i].from, n.answer.number, n.answer.line, n.position);
    }
    demand(second_next_by(by, NULL, 0, 0, &record).state == NEXT_DONE, "empty batch");
}

/* ---------------------------------------------------------------- P of request A1 */

static char p[1000];             /* with LF endings, and ended by a zero byte */

/* Its record, as the page says it. */
static struct pool_record record_of_p(void)
{
    struct pool_record r;
    second_blank_by(&second_pool, &r);
    r.kind = KIND_INST;
    text(&r.sender, "0017");
    text(&r.reference, "0008");
    text(&r.mast, "0017");
    r.trade = (struct moment){ { 2024, 2, 29 }, { 0, 0, 0 } };
    r.settlement = (struct date){ 2024, 3, 13 };
    r.price.amount = (struct amount){ 995, 1 };
    r.money_present = 1;
    r.side = SIDE_BUYI;
    text(&r.buyer.code, "0017");
    text(&r.seller.code, "0015");
    r.par.amount = (struct amount){ 1000000, 0 };
    text(&r.identifier, "01F070633");
    text(&r.pool, "123456");
    r.cdry = 1;
    r.ddte_present = 1;
    r.ddte = (struct date){ 2024, 3, 13 };
    return r;
}

/* Whether P, with one text in it for another, has this record. */
static int reads_as(const char *old, const char *new, const struct pool_record *record)
{
    char changed[sizeof p + 100];
    struct pool_record read;
    const char *at = strstr(p, old);
    if (!at)
        return 0;
    int length = snprintf(changed, sizeof changed, "%.*s%s%s", (int)(at - p), p, new, at + strlen(old));
    struct answer answer = second_read_by(&second_pool, (const uint8_t *)changed, (size_t)length, &read);
    return answer.number == ACCEPTED && answer.line == 0 && memcmp(&read, record, sizeof read) == 0;
}

static struct written pool_put(const struct pool_record *r, size_t room)
{
    return put_by(&second_pool, r, sizeof *r, room);
}

/* A record of the pool, changed, gets a number; without room it is 19 where it would be 0. */
#define POOL_GETS(number_wanted, record, change) do { struct pool_record r = (record); change; \
    demand(pool_put(&r, 0).number == ((number_wanted) == 0 ? SHORT_BUFFER : (number_wanted)), #number_wanted " (no room): " #change); \
    demand(pool_put(&r, LONGEST_OF_POOL).number == (number_wanted), #number_wanted ": " #change); } while (0)

static void of_p(void)
{
    struct pool_record r = record_of_p();
    demand(reads_as("", "", &r), "the record of P");
    demand(reads_as("USD0,00", "USD0,", &r), "P with USD0, has the record of P");
    demand(pool_put(&r, LONGEST_OF_POOL).length == 574, "P has 574 bytes");
    demand(pool_put(&r, 574).number == ACCEPTED, "room 574");
    demand(pool_put(&r, 573).number == SHORT_BUFFER, "room 573");

    r.money_present = 0;
    demand(reads_as(":19A::SETT//USD0,00\n", "", &r), "P without its 19A line");
    demand(pool_put(&r, LONGEST_OF_POOL).length == 574 - (sizeof ":19A::SETT//USD0,\r\n" - 1), "money absent: no 19A line");
    r = record_of_p();
    r.money.amount = (struct amount){ 125, 1 };
    demand(reads_as("USD0,00", "USD0012,500", &r), "P with USD0012,500");

    POOL_GETS(0, record_of_p(), (void)r);
    POOL_GETS(18, record_of_p(), (r.money.amount = (struct amount){ 10, 1 }));
    POOL_GETS(18, record_of_p(), (r.ddte = (struct date){ 2023, 2, 29 }));
    POOL_GETS(0, record_of_p(), r.kind = KIND_CDRQ);
    POOL_GETS(15, record_of_p(), (r.kind = KIND_CDRQ, text(&r.prev, "1")));
    POOL_GETS(14, record_of_p(), text(&r.mast, ""));
    POOL_GETS(18, record_of_p(), second_blank_by(&second_pool, &r));
}

/* ---------------------------------------------------------------- writing, the pool */

/* Every field at its widest, of the kind asked for. */
static struct pool_record pool_widest(int kind)
{
    struct pool_record r = record_of_p();
    r.kind = kind;
    text(&r.password, "ABCDEFGHIJKL");
    text(&r.sender, "ABCDEFGH");
    text(&r.reference, "ABCDEFGHIJKLMNOP");
    text(&r.mast, "ABCDEFGHIJKLMNOP");
    if (kind == KIND_CANC || kind == KIND_MDFC)
        text(&r.prev, "ABCDEFGHIJKLMNOP");
    if (kind != KIND_INST && kind != KIND_TDDK)
        text(&r.list, "ABCDEFGHIJKLMNOP");
    r.settlement = r.trade.date;
    r.price.amount = (struct amount){ 99999999999999u, 0 };
    r.money.amount = (struct amount){ 99999999999999u, 13 };
    r.par.amount = (struct amount){ 1, 13 };
    text(&r.pool, "ABCDEFGHI");
    if (kind == KIND_TDDK) {
        text(&r.seller.contra, "ABCDEFGHIJKLMNOP");
        text(&r.dkrs, "ABCD");
        r.cdry = 0;
    }
    return r;
}

/* What is 18 in every kind, in the places that the pool alone has; and some of the others. */
static void pool_places(int kind)
{
    POOL_GETS(0, pool_widest(kind), text(&r.password, ""));
    POOL_GETS(0, pool_widest(kind), text(&r.pool, ""));
    POOL_GETS(0, pool_widest(kind), r.price.amount.digits = 0);
    POOL_GETS(0, pool_widest(kind), (r.money.amount = (struct amount){ 0, 0 }));
    POOL_GETS(0, pool_widest(kind), (r.money_present = 0, r.money.amount = (struct amount){ 0, 0 }));
    POOL_GETS(0, pool_widest(kind), (r.ddte_present = 0, r.ddte = (struct date){ 0, 0, 0 }));
    POOL_GETS(0, pool_widest(kind), (r.ddte = (struct date){ 1, 1, 1 }));
    POOL_GETS(18, pool_widest(kind), r.kind = -1);
    POOL_GETS(18, pool_widest(kind), r.kind = 6);
    POOL_GETS(18, pool_widest(kind), r.side = 2);
    POOL_GETS(18, pool_widest(kind), text(&r.sender, ""));
    POOL_GETS(18, pool_widest(kind), r.reference.length = 15);
    POOL_GETS(18, pool_widest(kind), text(&r.mast, "a"));
    POOL_GETS(18, pool_widest(kind), text(&r.buyer.code, "001"));
    POOL_GETS(18, pool_widest(kind), text(&r.seller.contra, "ABCDEFGHIJKLMNOPQ"));
    POOL_GETS(18, pool_widest(kind), text(&r.identifier, ""));
    POOL_GETS(18, pool_widest(kind), text(&r.pool, "ABCDEFGHIJ"));
    POOL_GETS(18, pool_widest(kind), text(&r.dkrs, "ABCDE"));
    POOL_GETS(18, pool_widest(kind), r.trade.time.hour = 24);
    POOL_GETS(18, pool_widest(kind), r.settlement.month = 13);
    POOL_GETS(18, pool_widest(kind), r.money_present = 0);
    POOL_GETS(18, pool_widest(kind), (r.money_present = 0, r.money.amount = (struct amount){ 0, 1 }));
    POOL_GETS(18, pool_widest(kind), r.money_present = 2);
    POOL_GETS(18, pool_widest(kind), (r.money.amount = (struct amount){ 0, 1 }));
    POOL_GETS(18, pool_widest(kind), (r.money.amount = (struct amount){ 1, 14 }));
    POOL_GETS(18, pool_widest(kind), (r.money.amount = (struct amount){ 100000000000000u, 0 }));
    POOL_GETS(18, pool_widest(kind), r.cdry = 2);
    POOL_GETS(18, pool_widest(kind), r.ddte_present = 0);
    POOL_GETS(18, pool_widest(kind), r.ddte_present = 2);
    POOL_GETS(18, pool_widest(kind), (r.ddte = (struct date){ 0, 0, 0 }));
    POOL_GETS(16, pool_widest(kind), (r.par.amount = (struct amount){ 0, 0 }, r.settlement.day = 28));
    POOL_GETS(17, pool_widest(kind), r.settlement.day = 28);
}

/* The table of kinds, row by row. */
static void pool_kinds(int kind)
{
    int dk = kind == KIND_TDDK, former = kind == KIND_CANC || kind == KIND_MDFC, listed = kind != KIND_INST && !dk;
    POOL_GETS(dk ? 0 : 14, pool_widest(kind), text(&r.mast, ""));
    POOL_GETS(former ? 0 : 15, pool_widest(kind), text(&r.prev, "A"));
    POOL_GETS(listed ? 0 : 15, pool_widest(kind), text(&r.list, "A"));
    POOL_GETS(dk ? 14 : 0, pool_widest(kind), text(&r.seller.contra, ""));
    POOL_GETS(dk ? 0 : 15, pool_widest(kind), text(&r.seller.contra, "A"));
    POOL_GETS(15, pool_widest(kind), text(&r.buyer.contra, "A"));
    POOL_GETS(dk ? 14 : 0, pool_widest(kind), r.side = SIDE_SELL);
    POOL_GETS(dk ? 0 : 15, pool_widest(kind), (r.side = SIDE_SELL, text(&r.seller.contra, ""), text(&r.buyer.contra, "A")));
    POOL_GETS(dk ? 15 : 0, pool_widest(kind), r.cdry = 1);
    POOL_GETS(0, pool_widest(kind), r.cdry = 0);
    POOL_GETS(dk ? 14 : 0, pool_widest(kind), text(&r.dkrs, ""));
    POOL_GETS(dk ? 0 : 15, pool_widest(kind), text(&r.dkrs, "E004"));
    POOL_GETS(15, pool_widest(kind), (r.cdry = 1, text(&r.dkrs, "E004")));    /* a narrative of 40: 15 comes before 20 */
    POOL_GETS(dk ? 14 : 15, pool_widest(kind), (text(&r.seller.contra, dk ? "" : "A"), r.par.amount = (struct amount){ 0, 0 }));
}

static void pool_writing(void)
{
    static const size_t lengths[] = { 648, 752, 752, 682, 700, 700 };
    for (int kind = KIND_INST; kind <= KIND_CDRL; kind++) {
        struct pool_record w = pool_widest(kind);
        demand(pool_put(&w, LONGEST_OF_POOL).length == lengths[kind], "widest length by kind, pool");
        demand(pool_put(&w, lengths[kind]).number == ACCEPTED, "exact room, pool");
        demand(pool_put(&w, lengths[kind] - 1).number == SHORT_BUFFER, "one byte short, pool");
        pool_places(kind);
        pool_kinds(kind);
    }
}

/* ---------------------------------------------------------------- R of request A3 */

static char r_text[1000];        /* with LF endings, and ended by a zero byte */

static void free_text(struct free_text *t, const char *s)
{
    memset(t, 0, sizeof *t);
    t->length = strlen(s);
    memcpy(t->bytes, s, t->length);
}

enum { PACKED = 0, REJECTED = 1, MODIFIED = 2, CANCEL_REJECTED = 15, CANCEL_PROCESSED = 16, MATCHED = 26 };

/* Its record, as the page says it. */
static struct mt509_record record_of_r(void)
{
    struct mt509_record r;
    second_blank_by(&second_mt509, &r);
    r.status = REJECTED;
    text(&r.receiver, "0017");
    text(&r.reference, "RTTM0005");
    r.prep_present = 1;
    r.prep = (struct moment){ { 2024, 2, 29 }, { 9, 30, 1 } };
    text(&r.mast, "0017");
    text(&r.rela, "0008");
    text(&r.list, "000001-1306");
    text(&r.reasons[0].code, "E001");
    free_text(&r.reasons[0].text, "GSCC/MDRJ");
    text(&r.reasons[1].code, "E016");
    return r;
}

static struct written mt509_put(const struct mt509_record *r, size_t room)
{
    return put_by(&second_mt509, r, sizeof *r, room);
}

/* So many of the reasons, the others gone. */
static void reasons(struct mt509_record *r, size_t kept)
{
    memset(r->reasons + kept, 0, (MOST_REASONS - kept) * sizeof r->reasons[0]);
}

/* A record of the MT509, changed, gets a number; without room it is 19 where it would be 0. */
#define MT509_GETS(number_wanted, record, change) do { struct mt509_record r = (record); change; \
    demand(mt509_put(&r, 0).number == ((number_wanted) == 0 ? SHORT_BUFFER : (number_wanted)), #number_wanted " (no room): " #change); \
    demand(mt509_put(&r, LONGEST_OF_MT509).number == (number_wanted), #number_wanted ": " #change); } while (0)

/* The same with the length that it gets. */
#define MT509_HAS(length_wanted, record, change) do { struct mt509_record r = (record); change; \
    demand(mt509_put(&r, LONGEST_OF_MT509).length == (length_wanted), #length_wanted " bytes: " #change); \
    demand(mt509_put(&r, (length_wanted)).number == ACCEPTED, "exact room: " #change); \
    demand(mt509_put(&r, (length_wanted) - 1).number == SHORT_BUFFER, "one byte short: " #change); } while (0)

/* Every field at its widest, of a status. */
static struct mt509_record mt509_widest(int status)
{
    struct mt509_record r = record_of_r();
    r.status = status;
    r.copy = status == CANCEL_PROCESSED;
    text(&r.password, "ABCDEFGHIJKL");
    text(&r.receiver, "ABCDEFGH");
    text(&r.reference, "ABCDEFGHIJKLMNOP");
    text(&r.mast, "ABCDEFGHIJKLMNOP");
    text(&r.rela, "ABCDEFGHIJKLMNOP");
    text(&r.prev, "-BCDEFGHIJKLMNOP");
    text(&r.list, "ABCDEFGHIJKLMNO-");
    text(&r.bask, "----------------");
    text(&r.prog, "ABCDEFGH-JKLMNOP");
    text(&r.comm, "0123456789-BCDEF");
    for (size_t k = 0; k < MOST_REASONS; k++) {
        text(&r.reasons[k].code, "E001");
        free_text(&r.reasons[k].text, " Free text of 35 ~{}[]:/,- letters ");
    }
    if (status != REJECTED && status != CANCEL_REJECTED)
        reasons(&r, 0);
    return r;
}

/* Its fields with CR LF, as the page prints them, each by itself; the password and the receiver among all. */
static void fields_of_r(void)
{
    static const struct { size_t slot, offset, count; } printed[] = {
        { 1, 55, 8 }, { 4, 167, 4 }, { 6, 127, 4 }, { 7, 207, 11 }, { 11, 248, 10 }, { 12, 287, 4 }, { 13, 305, 9 }, { 14, 354, 4 },
        { 15, 0, 0 }, { 31, 0, 0 }, { 32, 0, 0 }, { 33, 0, 0 }, { (size_t)-1, 0, 0 } };
    uint8_t message[sizeof r_text];
    size_t length = 0;
    struct stretch all[MOST_FIELDS + 3];
    for (const char *at = r_text; *at; at++) {
        if (*at == '\n')
            message[length++] = '\r';
        message[length++] = (uint8_t)*at;
    }
    demand(length == 396, "R with CR LF has 396 bytes");
    for (size_t i = 0; i < sizeof printed / sizeof printed[0]; i++) {
        struct stretch s = second_field_by(&second_mt509, message, length, printed[i].slot);
        demand(s.offset == printed[i].offset && s.length == printed[i].count, "a field of R");
    }
    second_fields_by(&second_mt509, message, length, all);
    demand(all[32].offset == 0 && all[32].length == 0, "the password of R");
    demand(all[33].offset == 26 && all[33].length == 4, "the receiver of R");
}

/* The second table of section 12, row by row. */
static void of_r(void)
{
    struct mt509_record r = record_of_r(), read;
    struct answer answer = second_read_by(&second_mt509, (const uint8_t *)r_text, strlen(r_text), &read);
    demand(answer.number == ACCEPTED && answer.line == 0 && memcmp(&read, &r, sizeof r) == 0, "the record of R");
    demand(mt509_put(&r, 396).number == ACCEPTED && mt509_put(&r, 396).length == 396, "room 396");
    demand(mt509_put(&r, 395).number == SHORT_BUFFER, "room 395");
    MT509_HAS(1476, mt509_widest(REJECTED), (void)r);
    MT509_GETS(18, record_of_r(), text(&r.receiver, ""));
    MT509_GETS(18, record_of_r(), r.prep.date.day = 30);
    MT509_GETS(18, record_of_r(), text(&r.mast, "00-17"));
    MT509_HAS(437, record_of_r(), text(&r.prev, "00-17"));
    MT509_GETS(18, record_of_r(), (text(&r.reasons[0].code, ""), free_text(&r.reasons[0].text, "")));
    MT509_GETS(18, record_of_r(), (text(&r.reasons[1].code, ""), free_text(&r.reasons[1].text, "X")));
    MT509_HAS(390, record_of_r(), free_text(&r.reasons[0].text, "~ ~"));
    MT509_GETS(18, record_of_r(), free_text(&r.reasons[0].text, "\x7F"));
    MT509_GETS(14, record_of_r(), reasons(&r, 0));
    MT509_GETS(14, record_of_r(), (reasons(&r, 0), r.copy = 1));
    MT509_GETS(15, record_of_r(), r.copy = 1);
    MT509_GETS(15, record_of_r(), r.status = PACKED);
    MT509_GETS(18, record_of_r(), (r.status = PACKED, text(&r.reasons[1].code, "E16")));
    MT509_GETS(18, record_of_r(), second_blank_by(&second_mt509, &r));
}

/* ---------------------------------------------------------------- writing, the MT509 */

/* A text of the record at its edges: of c, or of c and hyphens. */
static void mt509_text(size_t at, size_t least, size_t most, bool hyphens)
{
    struct mt509_record w = mt509_widest(REJECTED);
    struct text *t = (struct text *)((uint8_t *)&w + at);
    char made[WIDEST_TEXT + 1] = "ABCDEFGHIJKLMNOPQRST";
    for (size_t wide = 0; wide <= WIDEST_TEXT; wide++) {
        char old = made[wide];
        made[wide] = 0;
        text(t, made);
        made[wide] = old;
        demand(mt509_put(&w, LONGEST_OF_MT509).number == (wide < least || wide > most ? BAD_RECORD : ACCEPTED), "a width of a text");
    }
    text(t, "ABCD");
    for (unsigned b = 0; b < 256; b++) {
        t->bytes[2] = (uint8_t)b;
        bool good = (b >= 'A' && b <= 'Z') || (b >= '0' && b <= '9') || (hyphens && b == '-');
        demand(mt509_put(&w, LONGEST_OF_MT509).number == (good ? ACCEPTED : BAD_RECORD), "a byte of a text");
    }
    text(t, "ABCD");
    t->bytes[WIDEST_TEXT - 1] = 1;
    demand(mt509_put(&w, LONGEST_OF_MT509).number == BAD_RECORD, "a byte behind a text");
    text(t, "ABCD");
    t->length = (size_t)-1;
    demand(mt509_put(&w, LONGEST_OF_MT509).number == BAD_RECORD, "a text as long as can be");
}

static void mt509_places(void)
{
    mt509_text(offsetof(struct mt509_record, password), 0, 12, false);
    mt509_text(offsetof(struct mt509_record, receiver), 1, 8, false);
    mt509_text(offsetof(struct mt509_record, reference), 1, 16, false);
    mt509_text(offsetof(struct mt509_record, mast), 0, 16, false);
    mt509_text(offsetof(struct mt509_record, rela), 0, 16, false);
    mt509_text(offsetof(struct mt509_record, prev), 0, 16, true);
    mt509_text(offsetof(struct mt509_record, list), 0, 16, true);
    mt509_text(offsetof(struct mt509_record, bask), 0, 16, true);
    mt509_text(offsetof(struct mt509_record, prog), 0, 16, true);
    mt509_text(offsetof(struct mt509_record, comm), 0, 16, true);
    for (size_t k = 0; k < MOST_REASONS; k++)
        mt509_text(offsetof(struct mt509_record, reasons) + k * sizeof(struct reason), 4, 4, false);
}

/* The free text of each reason at its edges; and what reasons may stand. */
static void mt509_reasons(void)
{
    for (size_t k = 0; k < MOST_REASONS; k++) {
        for (unsigned b = 0; b < 256; b++)
            MT509_GETS(b >= 0x20 && b <= 0x7E ? 0 : 18, mt509_widest(REJECTED), r.reasons[k].text.bytes[b % 35] = (uint8_t)b);
        MT509_GETS(18, mt509_widest(REJECTED), r.reasons[k].text.length = 36);
        MT509_GETS(18, mt509_widest(REJECTED), r.reasons[k].text.length = 34);
        MT509_GETS(18, mt509_widest(REJECTED), r.reasons[k].text.length = (size_t)-1);
        MT509_GETS(0, mt509_widest(REJECTED), free_text(&r.reasons[k].text, ""));
        MT509_GETS(0, mt509_widest(REJECTED), free_text(&r.reasons[k].text, " "));
        MT509_GETS(18, mt509_widest(REJECTED), text(&r.reasons[k].code, ""));
        MT509_GETS(k == 9 ? 0 : 18, mt509_widest(REJECTED), (text(&r.reasons[k].code, ""), free_text(&r.reasons[k].text, "")));
        MT509_GETS(k == 0 ? 14 : 0, mt509_widest(REJECTED), reasons(&r, k));
        MT509_GETS(18, mt509_widest(REJECTED), (reasons(&r, k), free_text(&r.reasons[k].text, "X")));
    }
    MT509_HAS(1476, mt509_widest(CANCEL_REJECTED), (void)r);
    MT509_HAS(551, mt509_widest(CANCEL_PROCESSED), (void)r);
    MT509_HAS(546, mt509_widest(CANCEL_PROCESSED), r.copy = 0);
    MT509_HAS(546, mt509_widest(MATCHED), (void)r);
    MT509_HAS(550, mt509_widest(MODIFIED), (void)r);
}

/* 18 in every status, and 14 and 15 by status. */
static void mt509_statuses(void)
{
    for (int status = 0; status < STATUSES; status++) {
        int reject = status == REJECTED || status == CANCEL_REJECTED;
        MT509_GETS(0, mt509_widest(status), (void)r);
        MT509_GETS(0, mt509_widest(status), text(&r.password, ""));
        MT509_GETS(0, mt509_widest(status), (r.prep_present = 0, memset(&r.prep, 0, sizeof r.prep)));
        MT509_GETS(18, mt509_widest(status), r.prep_present = 0);
        MT509_GETS(18, mt509_widest(status), r.prep_present = 2);
        MT509_GETS(18, mt509_widest(status), r.prep.time.hour = 24);
        MT509_GETS(18, mt509_widest(status), r.prep.time.second = 60);
        MT509_GETS(18, mt509_widest(status), r.prep.date.year = 0);
        MT509_GETS(18, mt509_widest(status), r.prep.date.year = 10000);
        MT509_GETS(18, mt509_widest(status), r.copy = 2);
        MT509_GETS(18, mt509_widest(status), r.copy = -1);
        MT509_GETS(18, mt509_widest(status), r.status = STATUSES);
        MT509_GETS(18, mt509_widest(status), r.status = -1);
        MT509_GETS(reject ? 14 : 0, mt509_widest(status), reasons(&r, 0));
        MT509_GETS(reject ? 0 : 15, mt509_widest(status), text(&r.reasons[0].code, "E001"));
        MT509_GETS(status == CANCEL_PROCESSED ? 0 : 15, mt509_widest(status), r.copy = 1);
        MT509_GETS(reject ? 14 : status == CANCEL_PROCESSED ? 0 : 15, mt509_widest(status), (r.copy = 1, reasons(&r, 0)));
        MT509_GETS(18, mt509_widest(status), (r.copy = 1, text(&r.reasons[0].code, "E01")));
    }
}

/* Records made by chance, of which it is known what they get. */
static void mt509_generated(void)
{
    unsigned long seen[32] = { 0 };
    for (uint64_t i = 0; i < 20000; i++) {
        struct chance chance;
        struct mt509_record r;
        chance_start(&chance, 1, i);
        int wanted = make_mt509_record(&chance, &r);
        struct written w = mt509_put(&r, LONGEST_OF_MT509);
        seen[w.number]++;
        demand(w.number == wanted, "a generated record gets another number");
        if (w.number != wanted)
            printf("  record %llu: %d, wanted %d\n", (unsigned long long)i, w.number, wanted);
    }
    demand(seen[0] > 2000 && seen[14] > 200 && seen[15] > 200 && seen[18] > 2000, "a number came up too seldom");
}

/* What comes up among the accepted messages that are made by chance. */
static struct { unsigned long statuses[STATUSES], reasons[MOST_REASONS + 1], references[7], copies, texts, moments; } came_up;

static void count_record(const struct mt509_record *r)
{
    const struct text *references[] = { &r->mast, &r->prev, &r->rela, &r->list, &r->bask, &r->prog, &r->comm };
    size_t reasons = 0;
    for (size_t k = 0; k < MOST_REASONS; k++) {
        reasons += r->reasons[k].code.length > 0;
        came_up.texts += r->reasons[k].text.length > 0;
    }
    for (size_t i = 0; i < 7; i++)
        came_up.references[i] += references[i]->length > 0;
    came_up.statuses[r->status]++;
    came_up.reasons[reasons]++;
    came_up.copies += r->copy == 1;
    came_up.moments += r->prep_present == 1;
}

static void often(const unsigned long *counts, size_t many, const char *what)
{
    for (size_t i = 0; i < many; i++)
        demand(counts[i] >= 10, what);
}

/* Messages made by chance: of an accepted one, what is written of its record is its plain form, which has the same record and is
 * its own plain form. */
static void mt509_messages(void)
{
    static struct bytes message;
    uint8_t plain[LONGEST_OF_MT509], again[LONGEST_OF_MT509];
    for (uint64_t i = 0; i < 6000; i++) {
        struct chance chance;
        struct mt509_record r, second;
        chance_start(&chance, 2, i);
        make_message(&chance, ANSWERS, &message);
        if (second_read_by(&second_mt509, message.at, message.length, &r).number != ACCEPTED)
            continue;
        count_record(&r);
        struct written p = second_plain_by(&second_mt509, message.at, message.length, plain, sizeof plain);
        struct written w = second_write_by(&second_mt509, &r, again, sizeof again);
        demand(p.number == ACCEPTED && w.number == ACCEPTED && w.length == p.length && memcmp(plain, again, p.length) == 0,
               "write and plain form of a generated message differ");
        demand(second_read_by(&second_mt509, plain, p.length, &second).number == ACCEPTED && memcmp(&second, &r, sizeof r) == 0,
               "the plain form of a generated message reads as another record");
        w = second_plain_by(&second_mt509, plain, p.length, again, sizeof again);
        demand(w.length == p.length && memcmp(plain, again, p.length) == 0, "the plain form of a plain form differs");
    }
    often(came_up.statuses, STATUSES, "a status came up too seldom");
    often(came_up.reasons, MOST_REASONS + 1, "a count of reasons came up too seldom");
    often(came_up.references, 7, "a reference came up too seldom");
    often(&came_up.copies, 1, "a copy came up too seldom");
    often(&came_up.texts, 1, "a reason's text came up too seldom");
    often(&came_up.moments, 1, "PREP came up too seldom");
}

/* The text of a file, ended by a zero byte. */
static int take(const char *name, char *into, size_t room)
{
    FILE *file = fopen(name, "rb");
    if (!file)
        return 0;
    into[fread(into, 1, room - 1, file)] = 0;
    fclose(file);
    return 1;
}

int main(int count, char **words)
{
    if (count != 3 || !take(words[1], p, sizeof p) || !take(words[2], r_text, sizeof r_text)) {
        fputs("usage: records FILE FILE, which have P and R\n", stderr);
        return 2;
    }
    writing();
    batch_ends(&second_mt515);
    of_p();
    pool_writing();
    batch_ends(&second_pool);
    fields_of_r();
    of_r();
    mt509_places();
    mt509_reasons();
    mt509_statuses();
    mt509_generated();
    mt509_messages();
    batch_ends(&second_mt509);
    return failures > 0;
}

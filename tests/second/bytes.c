/* bytes.c: see bytes.h. */
#include "bytes.h"

#include <string.h>

/* The texts, in the order of the bytes. */
static struct text *text_at(struct record *r, size_t i)
{
    struct text *texts[TEXTS] = {
        &r->password, &r->sender, &r->reference, &r->mast, &r->prev, &r->list, &r->buyer.code, &r->buyer.contra,
        &r->buyer.tdid, &r->seller.code, &r->seller.contra, &r->seller.tdid, &r->identifier, &r->pool, &r->dkrs
    };
    return texts[i];
}

static uint64_t date_number(const struct date *d)
{
    return d->year * (uint64_t)10000 + d->month * 100 + d->day;
}

static uint64_t moment_number(const struct moment *m)
{
    return date_number(&m->date) * 1000000 + m->time.hour * 10000 + m->time.minute * 100 + m->time.second;
}

/* A year past 9999 is none, however far. */
static struct date number_date(uint64_t n)
{
    unsigned year = n / 10000 > 9999 ? 10000 : (unsigned)(n / 10000);
    return (struct date){ year, (unsigned)(n / 100 % 100), (unsigned)(n % 100) };
}

static struct moment number_moment(uint64_t n)
{
    return (struct moment){ number_date(n / 1000000),
                            { (unsigned)(n / 10000 % 100), (unsigned)(n / 100 % 100), (unsigned)(n % 100) } };
}

/* More than 255 decimals are too many, however many. */
static struct amount number_amount(uint64_t digits, uint64_t decimals)
{
    return (struct amount){ digits, decimals > 255 ? 255 : (unsigned)decimals };
}

static void put_number(uint8_t *at, uint64_t n)
{
    for (int i = 0; i < 8; i++)
        at[i] = (uint8_t)(n >> 8 * i);
}

static uint64_t get_number(const uint8_t *at)
{
    uint64_t n = 0;
    for (int i = 7; i >= 0; i--)
        n = n << 8 | at[i];
    return n;
}

void second_to_bytes(const struct record *record, uint8_t bytes[RECORD_BYTES])
{
    struct record r = *record;
    const uint64_t numbers[NUMBERS] = {
        r.prep_present ? moment_number(&r.prep) : 0, moment_number(&r.trade), date_number(&r.settlement),
        r.price.amount.digits, r.price.amount.decimals, r.par.amount.digits, r.par.amount.decimals
    };
    bytes[0] = (uint8_t)r.kind;
    bytes[1] = (uint8_t)r.side;
    bytes[2] = (uint8_t)r.word;
    bytes[3] = r.gupp_present ? (uint8_t)r.gupp : NO_GUPP;
    for (size_t i = 0; i < TEXTS; i++) {
        uint8_t *at = bytes + FIRST_TEXT + i * TEXT_BYTES;
        at[0] = (uint8_t)text_at(&r, i)->length;
        memcpy(at + 1, text_at(&r, i)->bytes, WIDEST_TEXT);
    }
    for (size_t i = 0; i < NUMBERS; i++)
        put_number(bytes + FIRST_NUMBER + i * 8, numbers[i]);
}

void second_from_bytes(const uint8_t bytes[RECORD_BYTES], struct record *record)
{
    uint64_t numbers[NUMBERS];
    for (size_t i = 0; i < NUMBERS; i++)
        numbers[i] = get_number(bytes + FIRST_NUMBER + i * 8);
    second_blank(record);
    record->kind = bytes[0];
    record->side = bytes[1];
    record->word = bytes[2];
    record->gupp_present = bytes[3] != NO_GUPP;
    record->gupp = record->gupp_present ? bytes[3] : 0;
    for (size_t i = 0; i < TEXTS; i++) {
        const uint8_t *at = bytes + FIRST_TEXT + i * TEXT_BYTES;
        text_at(record, i)->length = at[0];
        memcpy(text_at(record, i)->bytes, at + 1, WIDEST_TEXT);
    }
    record->prep_present = numbers[0] != 0;
    record->prep = number_moment(numbers[0]);
    record->trade = number_moment(numbers[1]);
    record->settlement = number_date(numbers[2]);
    record->price.amount = number_amount(numbers[3], numbers[4]);
    record->par.amount = number_amount(numbers[5], numbers[6]);
}

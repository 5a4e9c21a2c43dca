/* count.c: reads one message with the project and the second program, and then calls an entry of one of them so many times, so that
 * `bench/count` can tell what a call costs from the instructions of two runs. The message comes from standard input.
 * Usage: count ENTRY TIMES, TIMES being one digit */
#include "pool.h"
#include "second.h"

#include <string.h>

static uint8_t message[4096], out[MT515_LONGEST], record[MT515_RECORD];
static struct record second_record;
static size_t length;

/* Each answers the number, or whether there is no answer: 0 of the message B, in the pool of the message P. */

static int first_read(void)
{
    size_t line;
    return mt515_read(message, length, record, &line);
}

static int first_plain(void)
{
    size_t line, written;
    return mt515_plain(message, length, out, sizeof out, &line, &written);
}

/* The field that stands last, for which the search goes through the whole message. */
static int first_field(void)
{
    size_t offset, count;
    return mt515_field(message, length, MT515_SLOT_NARRATIVE, &offset, &count);
}

static int first_next(void)
{
    size_t line, next;
    uint8_t number;
    mt515_next(message, length, 0, record, &line, &next, &number);
    return number;
}

/* The record of the message, which was read before. */
static int first_write(void)
{
    size_t written;
    return mt515_write(record, out, sizeof out, &written);
}

static int first_pool_read(void)
{
    size_t starts[POOL_FIELDS], ends[POOL_FIELDS], line;
    return pool_read(message, length, starts, ends, &line);
}

static int first_pool_plain(void)
{
    size_t line, written;
    return pool_plain(message, length, out, sizeof out, &line, &written);
}

static int second_program_read(void) { return second_read(message, length, &second_record).number; }
static int second_program_plain(void) { return second_plain(message, length, out, sizeof out).number; }
static int second_program_field(void) { return second_field(message, length, MT515_SLOT_NARRATIVE).length == 0; }
static int second_program_write(void) { return second_write(&second_record, out, sizeof out).number; }
static int second_program_next(void) { return second_next(message, length, 0, &second_record).answer.number; }
static int second_program_pool_plain(void) { return second_plain_by(&second_pool, message, length, out, sizeof out).number; }

/* Where all fields stand, as pool_read tells it. */
static int second_program_pool_read(void)
{
    struct stretch fields[MOST_FIELDS + 3];
    second_fields_by(&second_pool, message, length, fields);
    return fields[POOL_FIELD_SEME].length == 0;
}

static const struct {
    const char *name;
    int (*call)(void);
} entries[] = {
    { "mt515_read", first_read }, { "mt515_plain", first_plain }, { "mt515_field", first_field }, { "mt515_next", first_next },
    { "mt515_write", first_write },
    { "second_read", second_program_read }, { "second_plain", second_program_plain }, { "second_field", second_program_field },
    { "second_next", second_program_next }, { "second_write", second_program_write },
    { "pool_read", first_pool_read }, { "pool_plain", first_pool_plain },
    { "second_pool_read", second_program_pool_read }, { "second_pool_plain", second_program_pool_plain },
};

int main(int count, char **words)
{
    size_t which = 0, all = sizeof entries / sizeof entries[0];
    while (count == 3 && which < all && strcmp(words[1], entries[which].name) != 0)
        which++;
    if (count != 3 || which == all) {
        fputs("usage: count ENTRY TIMES\n", stderr);
        return 2;
    }
    length = fread(message, 1, sizeof message, stdin);
    int refused = strstr(words[1], "pool_") ? first_pool_read() | second_program_pool_read() : first_read() | second_program_read();
    for (int times = words[2][0] - '0'; times > 0; times--)
        refused |= entries[which].call();
    if (refused)
        fputs("the message is refused\n", stderr);
    return refused != 0;
}

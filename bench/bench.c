/* bench.c: the time of each C entry of the project, beside the second program, on the same messages in one run. Answers of the two
 * are compared first, and their sums again in each measured run. `bench/run` builds and runs it.
 * Usage: bench [RUNS [SEED]] */
#define _POSIX_C_SOURCE 199309L

#include "messages.h"
#include "pool.h"
#include "second.h"

#include <stdlib.h>
#include <string.h>
#include <time.h>

enum { MOST_RUNS = 1001 };

static struct messages messages, refused, pool;
static uint8_t records[MESSAGES][MT515_RECORD];     /* of the messages, for writing */
static struct record second_records[MESSAGES];
static uint8_t out[MT515_LONGEST], second_out[MT515_LONGEST];

static const uint8_t *message_in(const struct messages *in, size_t i) { return in->batch + in->start[i]; }
static size_t length_in(const struct messages *in, size_t i) { return in->start[i + 1] - in->start[i]; }
static const uint8_t *message(size_t i) { return message_in(&messages, i); }
static size_t length_of(size_t i) { return length_in(&messages, i); }

/* ---------------------------------------------------------------- the same answers */

static void demand(int holds, size_t i, const char *what)
{
    if (holds)
        return;
    printf("message %zu: the two programs differ in %s\n", i, what);
    exit(1);
}

static void compare_fields(size_t i)
{
    for (unsigned slot = 0; slot <= FIELDS + 1; slot++) {
        size_t offset, count;
        mt515_field(message(i), length_of(i), slot, &offset, &count);
        struct stretch s = second_field(message(i), length_of(i), slot);
        demand(offset == s.offset && count == s.length, i, "a field");
    }
}

/* Reads a message with both, keeps the records, and compares; records by what is written of them. */
static void compare(size_t i)
{
    size_t line, written;
    uint8_t number = mt515_read(message(i), length_of(i), records[i], &line);
    struct answer a = second_read(message(i), length_of(i), &second_records[i]);
    demand(number == ACCEPTED && a.number == ACCEPTED && line == a.line, i, "reading");

    number = mt515_plain(message(i), length_of(i), out, sizeof out, &line, &written);
    struct written w = second_plain(message(i), length_of(i), second_out, sizeof second_out);
    demand(number == w.number && written == w.length && memcmp(out, second_out, written) == 0, i, "the plain form");

    number = mt515_write(records[i], out, sizeof out, &written);
    w = second_write(&second_records[i], second_out, sizeof second_out);
    demand(number == w.number && written == w.length && memcmp(out, second_out, written) == 0, i, "writing");
    compare_fields(i);
}

/* Of a refused message, number and line; it is one that both refuse. */
static void compare_refused(size_t i)
{
    uint8_t record[MT515_RECORD];
    struct record second_record;
    size_t line;
    uint8_t number = mt515_read(message_in(&refused, i), length_in(&refused, i), record, &line);
    struct answer a = second_read(message_in(&refused, i), length_in(&refused, i), &second_record);
    demand(number == a.number && line == a.line, i, "a refused read");
    if (number == ACCEPTED) {
        printf("message %zu was to be refused, and is accepted\n", i);
        exit(1);
    }
}

/* Of a message of the pool: number and line, where all fields stand, each field by itself, the plain form. */
static void compare_pool(size_t i)
{
    const uint8_t *at = message_in(&pool, i);
    size_t length = length_in(&pool, i), starts[POOL_FIELDS], ends[POOL_FIELDS], line, written;
    struct pool_record record;
    struct stretch fields[MOST_FIELDS + 3];
    uint8_t number = pool_read(at, length, starts, ends, &line);
    struct answer a = second_read_by(&second_pool, at, length, &record);
    demand(number == ACCEPTED && a.number == ACCEPTED && line == a.line, i, "reading, in the pool");

    second_fields_by(&second_pool, at, length, fields);
    for (size_t f = 0; f < POOL_FIELDS; f++)
        demand(starts[f] == fields[f].offset && ends[f] == fields[f].offset + fields[f].length, i, "a place, in the pool");
    for (size_t slot = 0; slot <= FIELDS_OF_POOL + 1; slot++) {
        size_t offset, count;
        number = pool_field(at, length, slot, &offset, &count);
        struct stretch s = second_field_by(&second_pool, at, length, slot);
        demand(number == ACCEPTED && offset == s.offset && count == s.length, i, "a field, in the pool");
    }

    number = pool_plain(at, length, out, sizeof out, &line, &written);
    struct written w = second_plain_by(&second_pool, at, length, second_out, sizeof second_out);
    demand(number == w.number && written == w.length && memcmp(out, second_out, written) == 0, i, "the plain form, in the pool");
}

/* ---------------------------------------------------------------- what is measured */

/* Adds an answer to a sum in which the order counts, so that no call can be left out. */
static uint64_t add(uint64_t sum, uint64_t a, uint64_t b)
{
    return sum * 31 + a * 1000 + b;
}

static uint64_t read_all(const struct messages *in, uint64_t sum)
{
    uint8_t record[MT515_RECORD];
    for (size_t i = 0; i < MESSAGES; i++) {
        size_t line;
        uint8_t number = mt515_read(message_in(in, i), length_in(in, i), record, &line);
        sum = add(sum, number + line, record[MT515_AT_KIND]);
    }
    return sum;
}

static uint64_t second_read_all(const struct messages *in, uint64_t sum)
{
    struct record record;
    for (size_t i = 0; i < MESSAGES; i++) {
        struct answer a = second_read(message_in(in, i), length_in(in, i), &record);
        sum = add(sum, (uint64_t)a.number + a.line, (uint64_t)record.kind);
    }
    return sum;
}

static uint64_t first_read(size_t step) { return read_all(&messages, step); }
static uint64_t second_program_read(size_t step) { return second_read_all(&messages, step); }
static uint64_t first_refused(size_t step) { return read_all(&refused, step); }
static uint64_t second_program_refused(size_t step) { return second_read_all(&refused, step); }

static uint64_t first_plain(size_t step)
{
    uint64_t sum = step;
    for (size_t i = 0; i < MESSAGES; i++) {
        size_t line, written;
        uint8_t number = mt515_plain(message(i), length_of(i), out, sizeof out, &line, &written);
        sum = add(sum, number + line + written, out[written / 2]);
    }
    return sum;
}

static uint64_t second_program_plain(size_t step)
{
    uint64_t sum = step;
    for (size_t i = 0; i < MESSAGES; i++) {
        struct written w = second_plain(message(i), length_of(i), out, sizeof out);
        sum = add(sum, (uint64_t)w.number + w.line + w.length, out[w.length / 2]);
    }
    return sum;
}

/* The slots take turns. */
static uint64_t first_field(size_t step)
{
    uint64_t sum = step;
    for (size_t i = 0; i < MESSAGES; i++) {
        size_t offset, count;
        mt515_field(message(i), length_of(i), i % FIELDS + 1, &offset, &count);
        sum = add(sum, offset, count);
    }
    return sum;
}

static uint64_t second_program_field(size_t step)
{
    uint64_t sum = step;
    for (size_t i = 0; i < MESSAGES; i++) {
        struct stretch s = second_field(message(i), length_of(i), (unsigned)(i % FIELDS + 1));
        sum = add(sum, s.offset, s.length);
    }
    return sum;
}

static uint64_t first_write(size_t step)
{
    uint64_t sum = step;
    for (size_t i = 0; i < MESSAGES; i++) {
        size_t written;
        uint8_t number = mt515_write(records[i], out, sizeof out, &written);
        sum = add(sum, number + written, out[written / 2]);
    }
    return sum;
}

static uint64_t second_program_write(size_t step)
{
    uint64_t sum = step;
    for (size_t i = 0; i < MESSAGES; i++) {
        struct written w = second_write(&second_records[i], out, sizeof out);
        sum = add(sum, (uint64_t)w.number + w.length, out[w.length / 2]);
    }
    return sum;
}

/* All messages, in batches of so many. */
static uint64_t first_next(size_t step)
{
    uint64_t sum = step;
    uint8_t record[MT515_RECORD], number;
    for (size_t i = 0; i < MESSAGES; i += step) {
        size_t length = messages.start[i + step] - messages.start[i], position = 0, line;
        while (mt515_next(message(i), length, position, record, &line, &position, &number) == MT515_MESSAGE)
            sum = add(sum, number + line + position, record[MT515_AT_KIND]);
    }
    return sum;
}

static uint64_t second_program_next(size_t step)
{
    uint64_t sum = step;
    struct record record;
    for (size_t i = 0; i < MESSAGES; i += step) {
        size_t length = messages.start[i + step] - messages.start[i];
        struct next n = second_next(message(i), length, 0, &record);
        for (; n.state == NEXT_MESSAGE; n = second_next(message(i), length, n.position, &record))
            sum = add(sum, (uint64_t)n.answer.number + n.answer.line + n.position, (uint64_t)record.kind);
    }
    return sum;
}

/* Where all fields of the pool's messages stand; the sum has those that stand first and last, and one that some do not have. */
static uint64_t first_pool_read(size_t step)
{
    uint64_t sum = step;
    for (size_t i = 0; i < MESSAGES; i++) {
        size_t starts[POOL_FIELDS], ends[POOL_FIELDS], line;
        uint8_t number = pool_read(message_in(&pool, i), length_in(&pool, i), starts, ends, &line);
        sum = add(sum, number + line + starts[POOL_FIELD_SENDER] + starts[POOL_FIELD_MAST], ends[POOL_FIELD_NARRATIVE]);
    }
    return sum;
}

static uint64_t second_program_pool_read(size_t step)
{
    uint64_t sum = step;
    for (size_t i = 0; i < MESSAGES; i++) {
        struct stretch f[MOST_FIELDS + 3];
        second_fields_by(&second_pool, message_in(&pool, i), length_in(&pool, i), f);
        sum = add(sum, f[POOL_FIELD_SENDER].offset + f[POOL_FIELD_MAST].offset, f[POOL_FIELD_NARRATIVE].offset + f[POOL_FIELD_NARRATIVE].length);
    }
    return sum;
}

static uint64_t first_pool_plain(size_t step)
{
    uint64_t sum = step;
    for (size_t i = 0; i < MESSAGES; i++) {
        size_t line, written;
        uint8_t number = pool_plain(message_in(&pool, i), length_in(&pool, i), out, sizeof out, &line, &written);
        sum = add(sum, number + line + written, out[written / 2]);
    }
    return sum;
}

static uint64_t second_program_pool_plain(size_t step)
{
    uint64_t sum = step;
    for (size_t i = 0; i < MESSAGES; i++) {
        struct written w = second_plain_by(&second_pool, message_in(&pool, i), length_in(&pool, i), out, sizeof out);
        sum = add(sum, (uint64_t)w.number + w.line + w.length, out[w.length / 2]);
    }
    return sum;
}

/* The limit: every byte looked at once, by the C library's search for LF. */
static uint64_t sweep(size_t step)
{
    uint64_t lines = step;
    const uint8_t *at = messages.batch, *end = messages.batch + messages.start[MESSAGES];
    while ((at = memchr(at, '\n', (size_t)(end - at))) != NULL) {
        at++;
        lines++;
    }
    return lines;
}

/* ---------------------------------------------------------------- measuring */

typedef uint64_t work(size_t step);

/* What is measured, with the times of all runs; the last has no second. */
static struct row {
    const char *name;
    work *first, *second;
    size_t step;
    const struct messages *in;      /* where they are not the MT515's accepted ones */
    uint64_t sum;
    double times[MOST_RUNS], second_times[MOST_RUNS];
} rows[] = {
    { .name = "reading", .first = first_read, .second = second_program_read },
    { .name = "a refused read", .first = first_refused, .second = second_program_refused, .in = &refused },
    { .name = "plain form", .first = first_plain, .second = second_program_plain },
    { .name = "one field", .first = first_field, .second = second_program_field },
    { .name = "writing", .first = first_write, .second = second_program_write },
    { .name = "batches of 1", .first = first_next, .second = second_program_next, .step = 1 },
    { .name = "batches of 10", .first = first_next, .second = second_program_next, .step = 10 },
    { .name = "batches of 100", .first = first_next, .second = second_program_next, .step = 100 },
    { .name = "one batch of 1,000", .first = first_next, .second = second_program_next, .step = 1000 },
    { .name = "pool: reading", .first = first_pool_read, .second = second_program_pool_read, .in = &pool },
    { .name = "pool: plain form", .first = first_pool_plain, .second = second_program_pool_plain, .in = &pool },
    { .name = "memchr for LF, the limit", .first = sweep },
};

enum { ROWS = sizeof rows / sizeof rows[0] };

/* The processor's time for this program, in nanoseconds: what others do meanwhile does not count. */
static double now(void)
{
    struct timespec t;
    clock_gettime(CLOCK_PROCESS_CPUTIME_ID, &t);
    return (double)t.tv_sec * 1e9 + (double)t.tv_nsec;
}

/* One run over all messages; it must give the row's sum. */
static double timed(work *run, const struct row *row)
{
    double from = now();
    uint64_t sum = run(row->step);
    double to = now();
    demand(sum == row->sum, 0, row->name);
    return to - from;
}

/* The two in turn: which is first changes from run to run. */
static void measure(struct row *row, size_t run)
{
    if (row->second == NULL) {
        row->times[run] = timed(row->first, row);
    } else if (run % 2 == 0) {
        row->times[run] = timed(row->first, row);
        row->second_times[run] = timed(row->second, row);
    } else {
        row->second_times[run] = timed(row->second, row);
        row->times[run] = timed(row->first, row);
    }
}

static int by_size(const void *a, const void *b)
{
    double x = *(const double *)a, y = *(const double *)b;
    return (x > y) - (x < y);
}

/* Of all runs, in nanoseconds a message. */
static double median(double *times, size_t runs)
{
    qsort(times, runs, sizeof *times, by_size);
    return times[runs / 2] / MESSAGES;
}

static double megabytes_a_second(const struct row *row, double nanoseconds)
{
    const struct messages *in = row->in ? row->in : &messages;
    return (double)in->start[MESSAGES] / MESSAGES / nanoseconds * 1e3;
}

static void print_row(struct row *row, size_t runs)
{
    double first = median(row->times, runs);
    printf("%-26s %8.0f %8.0f", row->name, first, megabytes_a_second(row, first));
    if (row->second) {
        double second = median(row->second_times, runs);
        printf(" %10.0f %8.0f %9.2f", second, megabytes_a_second(row, second), first / second);
    }
    putchar('\n');
}

int main(int count, char **words)
{
    size_t runs = count > 1 ? strtoul(words[1], NULL, 10) : 101;
    unsigned long long seed = count > 2 ? strtoull(words[2], NULL, 10) : 1;
    if (runs < 1 || runs > MOST_RUNS || count > 3) {
        fprintf(stderr, "usage: bench [RUNS, at most %d [SEED]]\n", MOST_RUNS);
        return 2;
    }
    make_messages(&messages, seed);
    make_refused(&refused, &messages, seed);
    make_pool_messages(&pool, seed);
    for (size_t i = 0; i < MESSAGES; i++) {
        compare(i);
        compare_refused(i);
        compare_pool(i);
    }
    for (size_t i = 0; i < ROWS; i++)
        rows[i].sum = rows[i].first(rows[i].step);
    for (size_t run = 0; run < runs; run++)
        for (size_t i = 0; i < ROWS; i++)
            measure(&rows[i], run);

    printf("%d messages, %zu bytes, and %d of the pool, %zu bytes, seed %llu: the answers are alike\n", MESSAGES,
           messages.start[MESSAGES], MESSAGES, pool.start[MESSAGES], seed);
    printf("median of %zu runs over all messages, the programs in turn; caches warm, buffers not cleared between calls\n\n", runs);
    printf("%-26s %17s %19s\n", "", "the project", "second program");
    printf("%-26s %8s %8s %10s %8s %9s\n", "", "ns/msg", "MB/s", "ns/msg", "MB/s", "ratio");
    for (size_t i = 0; i < ROWS; i++)
        print_row(&rows[i], runs);
    return 0;
}

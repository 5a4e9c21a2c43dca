/* answers.c: a C program that reads the answers that come back, which are MT509. It takes a batch apart and prints a row for each
 * message: its count, the number and line of its reading, its status as `IPRC/REJT`, MAST, LIST and RELA as they stand in it, and
 * its reason codes with commas between them; `-` for what is absent or refused.
 *
 * answers <BATCH
 */
#include "mt509.h"

#include <stdio.h>
#include <stdlib.h>

/* The references that a row shows of a message. */
static const size_t shown[] = { MT509_FIELD_MAST, MT509_FIELD_LIST, MT509_FIELD_RELA };

enum { MOST_REASONS = 10, WORD = 4 };

/* A stretch of the message; where it is empty the field is not there. */
static void print_stretch(const uint8_t *message, size_t from, size_t to)
{
    if (from < to)
        printf(" %.*s", (int)(to - from), (const char *)message + from);
    else
        fputs(" -", stdout);
}

/* A status begins with its qualifier and ends with its word; what stands between them is an issuer or nothing. */
static void print_status(const uint8_t *message, size_t from, size_t to)
{
    print_stretch(message, from, from < to ? from + WORD : to);
    if (from < to)
        printf("/%.*s", WORD, (const char *)message + to - WORD);
}

/* The reasons stand without a gap, so the first that is not there ends them. */
static void print_reasons(const uint8_t *message, const size_t starts[MT509_FIELDS], const size_t ends[MT509_FIELDS])
{
    print_stretch(message, starts[MT509_FIELD_CODE(1)], ends[MT509_FIELD_CODE(1)]);
    for (size_t k = 2; k <= MOST_REASONS && ends[MT509_FIELD_CODE(k)] > 0; k++)
        printf(",%.*s", WORD, (const char *)message + starts[MT509_FIELD_CODE(k)]);
}

/* One call for all fields. One that the message does not have, and every one of a refused message, begins and ends at 0. */
static void print_fields(const uint8_t *message, size_t length)
{
    size_t starts[MT509_FIELDS], ends[MT509_FIELDS], line;
    mt509_read(message, length, starts, ends, &line);
    print_status(message, starts[MT509_FIELD_STATUS], ends[MT509_FIELD_STATUS]);
    for (size_t i = 0; i < sizeof shown / sizeof shown[0]; i++)
        print_stretch(message, starts[shown[i]], ends[shown[i]]);
    print_reasons(message, starts, ends);
    putchar('\n');
}

/* From message to message, until the end of the batch. */
static void print_rows(const uint8_t *batch, size_t length)
{
    size_t line, next, count = 0;
    uint8_t number;
    puts("MSG CODE LINE STATUS MAST LIST RELA REASONS");
    for (size_t at = 0; mt509_next(batch, length, at, &line, &next, &number) == MT515_MESSAGE; at = next) {
        printf("%zu %u %zu", ++count, number, line);
        print_fields(batch + at, next - at);
    }
}

/* All bytes of a file, and how many they are; a null pointer where there is no memory for them. */
static uint8_t *read_all(FILE *file, size_t *length)
{
    uint8_t *bytes = NULL;
    size_t room = 0;
    *length = 0;
    do {
        uint8_t *more = realloc(bytes, room += 65536);
        if (!more) {
            free(bytes);
            return NULL;
        }
        bytes = more;
        *length += fread(bytes + *length, 1, room - *length, file);
    } while (*length == room);
    return bytes;
}

int main(void)
{
    size_t length;
    uint8_t *batch = read_all(stdin, &length);
    if (!batch || ferror(stdin)) {
        perror("answers");
        free(batch);
        return 2;
    }
    print_rows(batch, length);
    free(batch);
    return fflush(stdout) == 0 ? 0 : 2;
}

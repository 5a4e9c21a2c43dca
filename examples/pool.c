/* pool.c: a C program that reads messages of the pool netting members. It takes a batch apart and prints a row for each message: its
 * count, the number and line of its reading, kind, MAST, buyer, seller and money, as they stand in it; `-` for what is absent or
 * refused.
 *
 * pool <BATCH
 */
#include "pool.h"

#include <stdio.h>
#include <stdlib.h>

/* What a row shows of a message. */
static const size_t shown[] = { POOL_FIELD_PROC, POOL_FIELD_MAST, POOL_FIELD_BUYR, POOL_FIELD_SELL, POOL_FIELD_MONEY };

/* One call for all fields. One that the message does not have, and every one of a refused message, begins and ends at 0. */
static void print_fields(const uint8_t *message, size_t length)
{
    size_t starts[POOL_FIELDS], ends[POOL_FIELDS], line;
    pool_read(message, length, starts, ends, &line);
    for (size_t i = 0; i < sizeof shown / sizeof shown[0]; i++) {
        size_t from = starts[shown[i]], to = ends[shown[i]];
        if (from < to)
            printf(" %.*s", (int)(to - from), (const char *)message + from);
        else
            fputs(" -", stdout);
    }
    putchar('\n');
}

/* From message to message, until the end of the batch. */
static void print_rows(const uint8_t *batch, size_t length)
{
    size_t line, next, count = 0;
    uint8_t number;
    puts("MSG CODE LINE KIND MAST BUYR SELL MONEY");
    for (size_t at = 0; pool_next(batch, length, at, &line, &next, &number) == MT515_MESSAGE; at = next) {
        printf("%zu %u %zu", ++count, number, line);
        print_fields(batch + at, next - at);
    }
}

/* All bytes of a file, and how many they are; a null pointer where there is no memory for them. */
static uint8_t *read_all(FILE *file, size_t *length)
{
    uint8_t *bytes = NULL;
    size_t room = 0;
    *length = 0;
    do {
        uint8_t *more = realloc(bytes, room += 65536);
        if (!more) {
            free(bytes);
            return NULL;
        }
        bytes = more;
        *length += fread(bytes + *length, 1, room - *length, file);
    } while (*length == room);
    return bytes;
}

int main(void)
{
    size_t length;
    uint8_t *batch = read_all(stdin, &length);
    if (!batch || ferror(stdin)) {
        perror("pool");
        free(batch);
        return 2;
    }
    print_rows(batch, length);
    free(batch);
    return fflush(stdout) == 0 ? 0 : 2;
}

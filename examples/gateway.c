/* gateway.c: a C program that uses the library. It takes a batch apart, prints of each message the number, the line, and if it
 * is accepted its sender and its fields, and writes the plain forms, one after another, to another file.
 *
 * gateway BATCH PLAIN
 */
#include "mt515.h"

#include <stdbool.h>
#include <stdio.h>
#include <stdlib.h>

/* What to call the slots. */
static const char *const names[] = {
    [MT515_SLOT_SEME] = "SEME",
    [MT515_SLOT_23G] = "23G",
    [MT515_SLOT_PREP] = "PREP",
    [MT515_SLOT_MAST] = "MAST",
    [MT515_SLOT_PREV] = "PREV",
    [MT515_SLOT_LIST] = "LIST",
    [MT515_SLOT_TRAD] = "TRAD",
    [MT515_SLOT_SETT] = "SETT",
    [MT515_SLOT_DEAL] = "price",
    [MT515_SLOT_BUSE] = "BUSE",
    [MT515_SLOT_PROC] = "kind",
    [MT515_SLOT_BUYR] = "buyer",
    [MT515_SLOT_BUYR_REFERENCE] = "its reference",
    [MT515_SLOT_BUYR_TDID] = "its TDID",
    [MT515_SLOT_SELL] = "seller",
    [MT515_SLOT_SELL_REFERENCE] = "its reference",
    [MT515_SLOT_SELL_TDID] = "its TDID",
    [MT515_SLOT_PAR] = "par",
    [MT515_SLOT_CUSIP] = "CUSIP",
    [MT515_SLOT_POOL] = "pool",
    [MT515_SLOT_NARRATIVE] = "narrative",
};

static void print_line(const char *name, const uint8_t *value, size_t length)
{
    printf("    %-14s %.*s\n", name, (int)length, (const char *)value);
}

/* A text of the record: its length, and then its bytes. */
static void print_text(const char *name, const uint8_t *text)
{
    print_line(name, text + 1, text[0]);
}

/* The fields that the message has, each where it stands in the message. */
static void print_fields(const uint8_t *message, size_t length)
{
    for (size_t slot = MT515_SLOT_SEME; slot <= MT515_SLOT_NARRATIVE; slot++) {
        size_t offset, count;
        mt515_field(message, length, slot, &offset, &count);
        if (count > 0)
            print_line(names[slot], message + offset, count);
    }
}

/* A buffer of MT515_LONGEST bytes is room for every plain form; of a refused message no byte is written. */
static bool write_plain(const uint8_t *message, size_t length, FILE *file)
{
    uint8_t plain[MT515_LONGEST];
    size_t line, written;
    mt515_plain(message, length, plain, sizeof plain, &line, &written);
    return fwrite(plain, 1, written, file) == written;
}

/* From message to message, until the end of the batch. */
static bool take_apart(const uint8_t *batch, size_t length, FILE *file)
{
    uint8_t record[MT515_RECORD], number;
    size_t line, next, count = 0;
    bool good = true;

    for (size_t at = 0; mt515_next(batch, length, at, record, &line, &next, &number) == MT515_MESSAGE; at = next) {
        printf("message %zu: number %u, line %zu\n", ++count, number, line);
        if (number == MT515_ACCEPTED) {
            print_text("sender", record + MT515_AT_SENDER);
            print_fields(batch + at, next - at);
            good = write_plain(batch + at, next - at, file) && good;
        }
    }
    return good;
}

/* The bytes of a file, and how many they are; a null pointer where they cannot be had. */
static uint8_t *read_file(const char *name, size_t *length)
{
    FILE *file = fopen(name, "rb");
    uint8_t *bytes = NULL;
    if (file && fseek(file, 0, SEEK_END) == 0) {
        long size = ftell(file);
        rewind(file);
        if (size >= 0 && (bytes = malloc((size_t)size + 1)))
            *length = fread(bytes, 1, (size_t)size, file);
    }
    if (file)
        fclose(file);
    return bytes;
}

int main(int count, char **words)
{
    if (count != 3) {
        fputs("usage: gateway BATCH PLAIN\n", stderr);
        return 2;
    }
    size_t length;
    uint8_t *batch = read_file(words[1], &length);
    if (!batch) {
        perror(words[1]);
        return 2;
    }
    FILE *plain = fopen(words[2], "wb");
    bool good = plain && take_apart(batch, length, plain);
    if (plain && fclose(plain) != 0)
        good = false;
    if (!good)
        perror(words[2]);
    free(batch);
    return good ? 0 : 2;
}

/* differ.c: holds the static library, called through include/mt515.h, include/pool.h and include/mt509.h,
 * against the second program.
 *
 * differ SEED COUNT [FROM]
 *     tries COUNT generated cases of a seed, from number FROM on. A case is a message; every tenth is a record too, and every
 *     hundredth a batch; and every fourth is a message of each further type too, and of those every hundredth a batch. Where a
 *     number of the desk came up too seldom to say anything it ends with status 1.
 * differ -f FILE..
 *     tries messages from files, each under a line `# name`, as make.py, pool.py and mt509.py write them, by every type.
 *
 * The further types are the pool's profile and the MT509. All that an entry answers is compared: numbers, lines, places, and every
 * byte of what it is lent, with some bytes before and behind. Every message is given to the readers of the other types too, and no
 * two may accept one. On the first difference it prints the case with both answers and the bytes given, and ends with status 1. */
#define _DEFAULT_SOURCE
#include "cases.h"
#include "mt515.h"
#include "pool.h"
#include "mt509.h"
_Static_assert(MT509_FIELDS == FIELDS_OF_MT509 + 3 && MT509_LONGEST == LONGEST_OF_MT509, "the header and the page count alike");

#include <stdbool.h>
#include <stdlib.h>
#include <string.h>
#include <sys/mman.h>

enum {
    TENTH = 10, HUNDREDTH = 100,     /* of the messages so many are followed by a record, and by a batch */
    FOURTH = 4,                      /* and so many by a message of each further type */
    SELDOM = 400,                    /* a number that comes up in fewer than one of so many cases came up too seldom */
    GUARD = 16,                      /* bytes before and behind what is lent */
    MARK = 0xA5,
    AMPLE = 100,                     /* room beyond the longest message */
    MOST_ROOM = LONGEST_OF_MT509 + AMPLE,
    NUMBERS_OF_DESK = 23
};

/* ---------------------------------------------------------------- the case that is tried */

static struct {
    uint64_t seed, number;
    const char *name;                /* of a message from a file, which has no seed and number */
    size_t slot, room, position;     /* what an entry is called with, beside the bytes */
    const uint8_t *bytes;
    size_t length;
} now;

/* How often each number came up, by entry; with reading once more of the messages damaged by lines alone, of the pool's messages
 * whose 70E line decides, of the MT509 whose STAT block decides, and of the messages of the other types. */
enum {
    READ, FIELD, PLACES, PLAIN, WRITE, NEXT, LINES, OTHERS,
    POOL_READ, POOL_FIELD, POOL_PLAIN, POOL_NEXT, POOL_LINES, POOL_TAIL, POOL_OTHERS,
    MT509_READ, MT509_FIELD, MT509_PLAIN, MT509_NEXT, MT509_LINES, MT509_STAT, MT509_OTHERS,
    COUNTED
};
static uint64_t came_up[COUNTED][NUMBERS_OF_DESK];

/* The numbers that must come up, a bit each: with reading 0 to 17, with a plain form 19 too, with writing 0 and 14 to 19, with the
 * batch 21; with the messages damaged by lines, which are made for these, 0, 5, 6, 8, 9 and 10. 20 does not come up. */
enum {
    OF_READING = (1 << 18) - 1,
    OF_PLAIN = OF_READING | 1 << 19,
    OF_WRITING = 1 | 63 << 14,
    OF_NEXT = OF_READING | 1 << 21,
    OF_LINES = 1 | 1 << 5 | 1 << 6 | 7 << 8,
    OF_TAIL = 1 << 10 | 1 << 12,
    OF_OTHERS = 1 << 4,
    OF_ANSWERS = ((1 << 16) - 1 - (1 << 11)) | 1 << 22,    /* an MT509 has no amount, and no rule beyond 15 */
    OF_STAT = 7 << 8 | 1 << 22
};

static const struct {
    const char *entry, *what;        /* what: of which messages, where it is not all */
    unsigned must;
    uint64_t share;                  /* they are looked for in one of so many cases */
} counted[COUNTED] = {
    [READ] = { "mt515_read", "", OF_READING, 1 },
    [FIELD] = { "mt515_field", "", OF_READING, 1 },
    [PLACES] = { "mt515_places", "", OF_READING, 1 },
    [PLAIN] = { "mt515_plain", "", OF_PLAIN, 1 },
    [WRITE] = { "mt515_write", "", OF_WRITING, TENTH },
    [NEXT] = { "mt515_next", "", OF_NEXT, 1 },
    [LINES] = { "mt515_read", ", lines", OF_LINES, 1 },
    [OTHERS] = { "mt515_read", ", others'", OF_OTHERS, FOURTH },
    [POOL_READ] = { "pool_read", "", OF_READING, FOURTH },
    [POOL_FIELD] = { "pool_field", "", OF_READING, FOURTH },
    [POOL_PLAIN] = { "pool_plain", "", OF_PLAIN, FOURTH },
    [POOL_NEXT] = { "pool_next", "", OF_NEXT, FOURTH },
    [POOL_LINES] = { "pool_read", ", lines", OF_LINES, 2 * FOURTH },
    [POOL_TAIL] = { "pool_read", ", 70E", OF_TAIL, 2 * FOURTH },
    [POOL_OTHERS] = { "pool_read", ", others'", OF_OTHERS, 1 },
    [MT509_READ] = { "mt509_read", "", OF_ANSWERS, FOURTH },
    [MT509_FIELD] = { "mt509_field", "", OF_ANSWERS, FOURTH },
    [MT509_PLAIN] = { "mt509_plain", "", OF_ANSWERS | 1 << 19, FOURTH },
    [MT509_NEXT] = { "mt509_next", "", OF_ANSWERS | 1 << 21, FOURTH },
    [MT509_LINES] = { "mt509_read", ", lines", OF_LINES, 2 * FOURTH },
    [MT509_STAT] = { "mt509_read", ", 24B, 25D, 70D, REAS", OF_STAT, 2 * FOURTH },
    [MT509_OTHERS] = { "mt509_read", ", others'", OF_OTHERS, 1 },
};

/* What the types have alike: a profile of the second program, and the entries of the library that go by it. */
static const struct tested {
    const char *name;
    enum sort sort;
    const struct profile *second;
    size_t longest, room;            /* the longest message, and the most room that is tried */
    size_t fields;                   /* slots; behind them the password, and behind that the sender or receiver */
    uint8_t (*places)(const uint8_t *message, size_t length, size_t *starts, size_t *ends, size_t *line);
    uint8_t (*field)(const uint8_t *message, size_t length, size_t slot, size_t *offset, size_t *count);
    uint8_t (*plain)(const uint8_t *message, size_t length, uint8_t *out, size_t room, size_t *line, size_t *written);
    uint8_t (*next)(const uint8_t *batch, size_t length, size_t position, size_t *line, size_t *next, uint8_t *number);
    int counts_places, counts_field, counts_plain, counts_next, counts_lines, counts_others;
} ours = { "our own profile", OURS, &second_mt515, LONGEST_WRITTEN, LONGEST_WRITTEN + AMPLE, FIELDS,
           mt515_places, mt515_field, mt515_plain, NULL, PLACES, FIELD, PLAIN, NEXT, LINES, OTHERS },
  pools = { "the pool", POOLS, &second_pool, LONGEST_OF_POOL, LONGEST_WRITTEN + AMPLE, FIELDS_OF_POOL,
            pool_read, pool_field, pool_plain, pool_next, POOL_READ, POOL_FIELD, POOL_PLAIN, POOL_NEXT, POOL_LINES, POOL_OTHERS };

static const struct tested answers = {
    "the MT509", ANSWERS, &second_mt509, LONGEST_OF_MT509, LONGEST_OF_MT509 + AMPLE, FIELDS_OF_MT509,
    mt509_read, mt509_field, mt509_plain, mt509_next, MT509_READ, MT509_FIELD, MT509_PLAIN, MT509_NEXT, MT509_LINES, MT509_OTHERS
};

/* Our own, which has entries for its record too, and then the further ones. */
static const struct tested *const types[] = {
    &ours, &pools,
    &answers,
};
enum { TYPES = sizeof types / sizeof types[0], PLACES_TOLD = MOST_FIELDS + 3 };

/* What an entry answers, and all that it is lent; marked beforehand, so that what it does not answer keeps the mark. */
struct told {
    uint8_t found, between, number, behind;
    size_t line;
    size_t offset, count;            /* of a field */
    size_t before, starts[PLACES_TOLD], between_places, ends[PLACES_TOLD], after;    /* of all fields, between guards */
    size_t written;
    size_t next;
    uint8_t lent[GUARD + MOST_ROOM + GUARD];    /* the record, or the buffer, between guards */
};

static uint8_t *marked(struct told *told)
{
    memset(told, MARK, sizeof *told);
    return told->lent + GUARD;
}

/* ---------------------------------------------------------------- a difference */

static void print_bytes(const char *what, const uint8_t *bytes, size_t length)
{
    printf("%s, %zu bytes: \"", what, length);
    for (size_t i = 0; i < length; i++)
        if (bytes[i] == '\n')
            printf("\\n%s", i + 1 < length ? "\"\n  \"" : "");
        else if (bytes[i] == '\r')
            printf("\\r");
        else if (bytes[i] < 0x20 || bytes[i] > 0x7E || bytes[i] == '"' || bytes[i] == '\\')
            printf("\\%03o", bytes[i]);
        else
            putchar(bytes[i]);
    puts("\"");
}

/* A number, unless it keeps the mark. */
static void print_number(const char *name, size_t value)
{
    size_t mark;
    memset(&mark, MARK, sizeof mark);
    if (value != mark)
        printf(" %s %zu", name, value);
}

static void print_byte(const char *name, uint8_t value)
{
    if (value != MARK)
        printf(" %s %u", name, value);
}

static void print_told(const char *who, const struct told *t)
{
    printf("%s:", who);
    print_byte("found", t->found);
    print_byte("number", t->number);
    print_number("line", t->line);
    print_number("offset", t->offset);
    print_number("count", t->count);
    print_number("written", t->written);
    print_number("next", t->next);
    puts("");
}

static void print_case(void)
{
    if (now.name)
        printf("the message %s", now.name);
    else
        printf("seed %llu, case %llu", (unsigned long long)now.seed, (unsigned long long)now.number);
}

/* Whether an entry's name ends so: what it is asked is the same for every type. */
static bool asks(int entry, const char *end)
{
    const char *name = counted[entry].entry;
    return strcmp(name + strlen(name) - strlen(end), end) == 0;
}

/* What was asked: the entry, and what it was given beside the bytes. */
static void print_asked(int entry)
{
    printf("%s", counted[entry].entry);
    if (asks(entry, "_field"))
        printf(", slot %zu", now.slot);
    if (asks(entry, "_plain") || asks(entry, "_write"))
        printf(", room %zu", now.room);
    if (asks(entry, "_next"))
        printf(", position %zu", now.position);
    puts("");
}

/* Something is wrong with the case, beside a difference. */
static void fail(const char *what)
{
    printf("FAILED: ");
    print_case();
    printf(": %s\n", what);
    print_bytes("given", now.bytes, now.length);
    exit(1);
}

static void print_difference(int entry, const struct told *library, const struct told *second)
{
    size_t lent = entry == READ || entry == NEXT ? RECORD_BYTES : now.room;
    printf("THEY DIFFER: ");
    print_case();
    puts("");
    print_asked(entry);
    print_told("the library       ", library);
    print_told("the second program", second);
    for (size_t f = 0; f < PLACES_TOLD; f++)
        if (library->starts[f] != second->starts[f] || library->ends[f] != second->ends[f])
            printf("field %zu: %zu to %zu, %zu to %zu\n", f, library->starts[f], library->ends[f], second->starts[f],
                   second->ends[f]);
    for (size_t i = 0; i < sizeof library->lent; i++)
        if (library->lent[i] != second->lent[i]) {
            printf("what is lent differs first at byte %td: %u, %u\n", (ptrdiff_t)i - GUARD, library->lent[i], second->lent[i]);
            print_bytes("the library       ", library->lent + GUARD, lent);
            print_bytes("the second program", second->lent + GUARD, lent);
            break;
        }
    print_bytes("given", now.bytes, now.length);
}

/* Everything is compared: the numbers and all bytes lent. */
static void compare(int entry, const struct told *library, const struct told *second)
{
    came_up[entry][second->number]++;
    if (memcmp(library, second, sizeof *library) == 0)
        return;
    print_difference(entry, library, second);
    exit(1);
}

/* ---------------------------------------------------------------- the entries, each asked of both */

/* Our own record of a message; counted as reading, or as reading what is another profile's. */
static void ask_read(const uint8_t *message, size_t length, int entry)
{
    static struct told library, second;
    struct record record;
    uint8_t *lent = marked(&library);
    library.number = mt515_read(message, length, lent, &library.line);

    lent = marked(&second);
    struct answer answer = second_read(message, length, &record);
    second.number = (uint8_t)answer.number;
    second.line = answer.line;
    second_to_bytes(&record, lent);
    compare(entry, &library, &second);
}

/* All fields, which is the reading of the further types. */
static void ask_places(const struct tested *by, const uint8_t *message, size_t length, int entry)
{
    static struct told library, second;
    struct stretch fields[MOST_FIELDS + 3];
    marked(&library);
    library.number = by->places(message, length, library.starts, library.ends, &library.line);

    marked(&second);
    struct answer answer = second_fields_by(by->second, message, length, fields);
    second.number = (uint8_t)answer.number;
    second.line = answer.line;
    for (size_t f = 0; f < by->fields + 3; f++) {
        second.starts[f] = fields[f].offset;
        second.ends[f] = fields[f].offset + fields[f].length;
    }
    compare(entry, &library, &second);
}

/* One slot, or a number that names none. */
static void ask_field(const struct tested *by, const uint8_t *message, size_t length, size_t slot, uint8_t number,
                      struct stretch stretch)
{
    static struct told library, second;
    now.slot = slot;
    marked(&library);
    library.number = by->field(message, length, slot, &library.offset, &library.count);

    marked(&second);
    second.number = number;
    second.offset = stretch.offset;
    second.count = stretch.length;
    compare(by->counts_field, &library, &second);
}

/* Every slot, and the numbers of the password and the sender, which are no slots; of a refused message, where each is answered
 * alike, mostly three, since each costs a reading. */
static void ask_fields(struct chance *chance, const struct tested *by, const uint8_t *message, size_t length, uint8_t number)
{
    static const size_t none[] = { 23, 64, 255, 256, 257, 268, 65537, 4294967297u, 4294967308u, SIZE_MAX, SIZE_MAX - 20 };
    static const size_t none_of_answers[] = { 34, 35, 64, 255, 256, 257, 267, 278, 65537, 4294967297u, 4294967308u, SIZE_MAX, SIZE_MAX - 30 };
    struct stretch fields[MOST_FIELDS + 3];
    second_fields_by(by->second, message, length, fields);
    for (size_t f = by->fields + 1; f < MOST_FIELDS + 3; f++)
        fields[f] = fields[0];
    if (number == ACCEPTED || below(chance, 8) == 0)
        for (size_t slot = 0; slot < by->fields + 3; slot++)
            ask_field(by, message, length, slot, number, fields[slot]);
    else
        for (size_t times = 0; times < 3; times++) {
            size_t slot = below(chance, by->fields + 3);
            ask_field(by, message, length, slot, number, fields[slot]);
        }
    size_t beyond = below(chance, 4) == 0 ? by->fields + 3
                  : by->sort == ANSWERS ? none_of_answers[below(chance, sizeof none_of_answers / sizeof none_of_answers[0])]
                  : none[below(chance, sizeof none / sizeof none[0])];
    ask_field(by, message, length, beyond, number, fields[0]);
}

static size_t ask_plain(const struct tested *by, const uint8_t *message, size_t length, size_t room)
{
    static struct told library, second;
    now.room = room;
    uint8_t *lent = marked(&library);
    library.number = by->plain(message, length, lent, room, &library.line, &library.written);

    lent = marked(&second);
    struct written written = second_plain_by(by->second, message, length, lent, room);
    second.number = (uint8_t)written.number;
    second.line = written.line;
    second.written = written.length;
    compare(by->counts_plain, &library, &second);
    now.room = 0;
    return written.length;
}

static size_t ask_write(const uint8_t record[RECORD_BYTES], size_t room)
{
    static struct told library, second;
    struct record read;
    now.room = room;
    uint8_t *lent = marked(&library);
    library.number = mt515_write(record, lent, room, &library.written);

    lent = marked(&second);
    second_from_bytes(record, &read);
    struct written written = second_write(&read, lent, room);
    second.number = (uint8_t)written.number;
    second.written = written.length;
    compare(WRITE, &library, &second);
    now.room = 0;
    return written.length;
}

/* Answers the next position, or the one given where there is no message. */
static size_t ask_next(const struct tested *by, const uint8_t *batch, size_t length, size_t position)
{
    static struct told library, second;
    union any_record record;
    now.position = position;
    uint8_t *lent = marked(&library);
    if (by == &ours)
        library.found = mt515_next(batch, length, position, lent, &library.line, &library.next, &library.number);
    else
        library.found = by->next(batch, length, position, &library.line, &library.next, &library.number);

    lent = marked(&second);
    struct next next = second_next_by(by->second, batch, length, position, &record);
    second.found = (uint8_t)next.state;
    second.number = (uint8_t)next.answer.number;
    second.line = next.answer.line;
    second.next = next.position;
    if (by == &ours)
        second_to_bytes(&record.mt515, lent);
    compare(by->counts_next, &library, &second);
    now.position = 0;
    return next.position;
}

/* ---------------------------------------------------------------- rooms */

/* Some room about a length: none, too little, just enough, more. */
static size_t a_room(struct chance *chance, const struct tested *by, size_t length)
{
    switch (below(chance, 5)) {
    case 0: return 0;
    case 1: return length > 0 ? length - 1 : 0;
    case 2: return length;
    case 3: return below(chance, length + 1);
    default: return below(chance, by->room);
    }
}

typedef size_t in_room(const struct tested *by, const uint8_t *bytes, size_t length, size_t room);

static size_t write_in_room(const struct tested *by, const uint8_t *bytes, size_t length, size_t room)
{
    (void)by;
    (void)length;
    return ask_write(bytes, room);
}

/* Ample room; just enough, and one byte less; one about the length; and now and then every one from 0 to one past the length. */
static void ask_rooms(struct chance *chance, const struct tested *by, in_room *ask, const uint8_t *bytes, size_t length)
{
    size_t written = ask(by, bytes, length, by->room);
    if (written > 0) {
        ask(by, bytes, length, written);
        ask(by, bytes, length, written - 1);
    }
    ask(by, bytes, length, a_room(chance, by, written));
    if (below(chance, 500) == 0)
        for (size_t room = 0; room <= written + 1; room++)
            ask(by, bytes, length, room);
}

/* ---------------------------------------------------------------- cases */

/* The bytes, copied so that they end just before a page that may not be touched. */
static const uint8_t *lend(const uint8_t *bytes, size_t length)
{
    enum { PAGE = 4096 };
    static uint8_t *fence;
    if (!fence) {
        uint8_t *pages = mmap(NULL, LONGEST_CASE + PAGE, PROT_READ | PROT_WRITE, MAP_PRIVATE | MAP_ANONYMOUS, -1, 0);
        if (pages == MAP_FAILED || mprotect(pages + LONGEST_CASE, PAGE, PROT_NONE) != 0) {
            puts("no pages to lend");
            exit(2);
        }
        fence = pages + LONGEST_CASE;
    }
    memcpy(fence - length, bytes, length);
    now.bytes = bytes;
    now.length = length;
    return fence - length;
}

static void still(const uint8_t *lent, const uint8_t *bytes, size_t length, const char *what)
{
    if (memcmp(lent, bytes, length) != 0)
        fail(what);
}

/* Whether a line, counted from 1, begins so. */
static bool line_begins(const struct bytes *message, size_t line, const char *words)
{
    size_t at = 0;
    for (; line > 1 && at < message->length; at++)
        line -= message->at[at] == '\n';
    return at + strlen(words) <= message->length && memcmp(message->at + at, words, strlen(words)) == 0;
}

/* The readers of the other types; that two accept one message must not be. */
static void ask_others(const struct tested *by, const uint8_t *message, size_t length, int number)
{
    union any_record record;
    for (size_t k = 0; k < TYPES; k++) {
        if (types[k] == by)
            continue;
        if (types[k] == &ours)
            ask_read(message, length, OTHERS);
        else
            ask_places(types[k], message, length, types[k]->counts_others);
        if (number == ACCEPTED && second_read_by(types[k]->second, message, length, &record).number == ACCEPTED)
            fail("two types accept the message");
    }
}

/* A message that the second program has written of a record of a further type, which no entry of the library is asked to write: it
 * is one more message to read. */
static void ask_written(const struct tested *by, const struct bytes *written)
{
    const uint8_t *lent = lend(written->at, written->length);
    ask_places(by, lent, written->length, by->counts_places);
    if (ask_plain(by, lent, written->length, written->length) != written->length)
        fail("what was written is not its own plain form");
    still(lent, written->at, written->length, "the written message was changed");
}

/* What is written of a message's record is the plain form of the message. */
static void try_written(const struct tested *by, const union any_record *record, const struct bytes *message)
{
    static struct bytes written;
    uint8_t plain[MOST_ROOM];
    struct written w = second_write_by(by->second, record, written.at, by->longest);
    struct written p = second_plain_by(by->second, message->at, message->length, plain, by->longest);
    if (w.number != ACCEPTED || w.length != p.length || memcmp(written.at, plain, p.length) != 0)
        fail("the second program writes something else than the plain form");
    written.length = w.length;
    ask_written(by, &written);
}

/* Whether the line is one of STAT and what stands in it. */
static bool of_stat(const struct bytes *message, size_t line)
{
    return line_begins(message, line, ":25D:") || line_begins(message, line, ":24B:") || line_begins(message, line, ":70D:")
        || line_begins(message, line, ":16R:REAS") || line_begins(message, line, ":16S:REAS") || line_begins(message, line, ":16S:STAT");
}

/* Answers the number of the read. */
static int try_message(struct chance *chance, const struct tested *by, const struct bytes *message)
{
    union any_record record;
    const uint8_t *lent = lend(message->at, message->length);
    struct answer answer = second_read_by(by->second, lent, message->length, &record);

    if (by == &ours)
        ask_read(lent, message->length, READ);
    ask_places(by, lent, message->length, by->counts_places);
    ask_fields(chance, by, lent, message->length, (uint8_t)answer.number);
    if (answer.number == ACCEPTED)
        ask_rooms(chance, by, ask_plain, lent, message->length);
    else
        ask_plain(by, lent, message->length, a_room(chance, by, by->room - 1));
    ask_next(by, lent, message->length, 0);
    ask_next(by, lent, message->length, below(chance, message->length + 4));
    ask_others(by, lent, message->length, answer.number);
    still(lent, message->at, message->length, "the message was changed");

    if (by == &pools && answer.line > 0 && line_begins(message, answer.line, ":70E::TPRO"))
        came_up[POOL_TAIL][answer.number]++;
    if (by == &answers && answer.line > 0 && of_stat(message, answer.line))
        came_up[MT509_STAT][answer.number]++;
    if (by != &ours && answer.number == ACCEPTED)
        try_written(by, &record, message);
    return answer.number;
}

static void try_record(struct chance *chance)
{
    uint8_t record[RECORD_BYTES];
    make_record(chance, record);
    const uint8_t *lent = lend(record, RECORD_BYTES);
    ask_rooms(chance, &ours, write_in_room, lent, RECORD_BYTES);
    still(lent, record, RECORD_BYTES, "the record was changed");
}

/* A record of the MT509; where it can be written, what is written is read by both. */
static void try_mt509_record(struct chance *chance, const struct tested *by)
{
    static struct bytes written;
    struct mt509_record record, again;
    int wanted = make_mt509_record(chance, &record);
    struct written w = second_write_by(by->second, &record, written.at, by->longest);
    written.length = w.length;
    now.bytes = written.at;
    now.length = written.length;
    if (w.number != wanted)
        fail("a record is not answered as it was made for");
    if (w.number != ACCEPTED)
        return;
    if (second_read_by(by->second, written.at, written.length, &again).number != ACCEPTED || memcmp(&again, &record, sizeof record) != 0)
        fail("what was written reads as another record");
    ask_written(by, &written);
}

/* From message to message; then from some positions, or from every one, to past the end. */
static void try_batch(struct chance *chance, const struct tested *by)
{
    static struct bytes batch;
    make_batch(chance, by->sort, &batch);
    const uint8_t *lent = lend(batch.at, batch.length);
    size_t position = 0;
    while (position < batch.length)
        position = ask_next(by, lent, batch.length, position);
    ask_next(by, lent, batch.length, SIZE_MAX - below(chance, 3));
    if (below(chance, 8) == 0)
        for (position = 0; position <= batch.length + 2; position++)
            ask_next(by, lent, batch.length, position);
    else
        for (size_t times = 0; times < 20; times++)
            ask_next(by, lent, batch.length, below(chance, batch.length + 3));
    still(lent, batch.at, batch.length, "the batch was changed");
}

static void try_generated(struct chance *chance, const struct tested *by)
{
    static struct bytes message;
    bool by_lines = make_message(chance, by->sort, &message);
    int answer = try_message(chance, by, &message);
    if (by_lines)
        came_up[by->counts_lines][answer]++;
}

static void try_case(uint64_t seed, uint64_t number)
{
    struct chance chance;
    now.seed = seed;
    now.number = number;
    chance_start(&chance, seed, number);
    try_generated(&chance, &ours);
    if (number % TENTH == 0)
        try_record(&chance);
    if (number % HUNDREDTH == 0)
        try_batch(&chance, &ours);
    for (size_t k = 1; k < TYPES && number % FOURTH == 0; k++) {
        try_generated(&chance, types[k]);
        if (number % (FOURTH * HUNDREDTH) == 0)
            try_batch(&chance, types[k]);
        if (types[k]->sort == ANSWERS && number % (FOURTH * TENTH) == 0)
            try_mt509_record(&chance, types[k]);
    }
}

/* ---------------------------------------------------------------- whether it reached everything */

static bool reached(uint64_t count)
{
    bool all = true;
    for (int entry = 0; entry < COUNTED; entry++) {
        uint64_t least = count / counted[entry].share / SELDOM;
        printf("%s%s:", counted[entry].entry, counted[entry].what);
        for (int n = 0; n < NUMBERS_OF_DESK; n++) {
            if (came_up[entry][n] > 0)
                printf(" %d:%llu", n, (unsigned long long)came_up[entry][n]);
            if ((counted[entry].must >> n & 1) && came_up[entry][n] < least) {
                printf(" (too seldom: %d)", n);
                all = false;
            }
        }
        puts("");
    }
    return all;
}

/* How many of the cases have a number that can be divided so. */
static unsigned long long every(uint64_t nth, uint64_t count, uint64_t from)
{
    return (from + count + nth - 1) / nth - (from + nth - 1) / nth;
}

static int try_cases(uint64_t seed, uint64_t count, uint64_t from)
{
    for (uint64_t i = 0; i < count; i++) {
        try_case(seed, from + i);
        if ((i + 1) % 50000 == 0) {
            printf("seed %llu: %llu of %llu cases alike\n", (unsigned long long)seed, (unsigned long long)(i + 1), (unsigned long long)count);
            fflush(stdout);
        }
    }
    if (!reached(count)) {
        puts("FAILED: a number came up too seldom");
        return 1;
    }
    printf("ok, %llu messages, %llu records and %llu batches", every(1, count, from), every(TENTH, count, from),
           every(HUNDREDTH, count, from));
    for (size_t k = 1; k < TYPES; k++)
        printf(", and %llu messages and %llu batches of %s", every(FOURTH, count, from), every(FOURTH * HUNDREDTH, count, from),
               types[k]->name);
    puts(", are answered alike");
    return 0;
}

/* ---------------------------------------------------------------- messages from a file */

/* A line `# name` stands before each message. */
static bool names_a_message(const char *line) { return line[0] == '#' && line[1] == ' '; }

/* A line, with zero bytes in it where the file has some, and its length; 0 at the end. */
static size_t take_line(FILE *file, char *line, size_t room)
{
    size_t length = 0;
    int byte = 0;
    while (length < room && byte != '\n' && (byte = getc(file)) != EOF)
        line[length++] = (char)byte;
    return length;
}

static size_t try_file(FILE *file)
{
    static struct bytes message;
    static char line[LONGEST_CASE + 1], name[LONGEST_CASE + 1];
    struct chance chance;
    size_t length = take_line(file, line, LONGEST_CASE), tried = 0;
    while (length > 1 && names_a_message(line)) {
        memcpy(name, line + 2, length);
        name[length - 3] = 0;
        now.name = name;
        message.length = 0;
        while ((length = take_line(file, line, LONGEST_CASE)) > 0 && !(length > 1 && names_a_message(line))) {
            if (message.length + length > LONGEST_CASE)
                return 0;
            memcpy(message.at + message.length, line, length);
            message.length += length;
        }
        chance_start(&chance, message.length, tried++);
        for (size_t k = 0; k < TYPES; k++)
            try_message(&chance, types[k], &message);
    }
    return tried;
}

static int try_files(char **names)
{
    size_t tried = 0;
    for (; *names; names++) {
        FILE *file = fopen(*names, "rb");
        size_t of_file = file ? try_file(file) : 0;
        if (of_file == 0) {
            printf("FAILED: no messages in %s\n", *names);
            return 1;
        }
        tried += of_file;
        fclose(file);
    }
    printf("ok, %zu messages from files are answered alike, by %d types\n", tried, TYPES);
    return 0;
}

int main(int count, char **words)
{
    if (count > 2 && strcmp(words[1], "-f") == 0)
        return try_files(words + 2);
    if (count < 3 || count > 4) {
        fputs("usage: differ SEED COUNT [FROM], or differ -f FILE..\n", stderr);
        return 2;
    }
    return try_cases(strtoull(words[1], NULL, 10), strtoull(words[2], NULL, 10), count == 4 ? strtoull(words[3], NULL, 10) : 0);
}

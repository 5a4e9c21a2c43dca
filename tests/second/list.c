/* list.c - the second program on the command line.
 *
 *   list            messages under lines `# name`; one line each:
 *                   name number line kind MAST buyer seller price par
 *                   or of an MT509: name number line status MAST LIST RELA reasons
 *   list --lister   the desk's lister, or the list of answers: standard input is a batch
 *   list --plain    each message's plain form under its name line, nothing where it is refused
 *   list --fields   name, then offset:length for every field
 *   list --twice    as without, and each message is put through everything else:
 *                   plain form, plain form of the plain form, write, field, batch, and
 *                   buffers one byte short; prints only what does not agree
 *
 * By our own profile; with --pool before all else by the pool's, which has no lister; with --mt509 as MT509.
 */
#include "second.h"

#include <string.h>

static uint8_t input[1 << 22];

/* ---------------------------------------------------------------- printing */

static void print_text(const struct text *text)
{
    if (text->length == 0)
        fputs(" -", stdout);
    else
        printf(" %.*s", (int)text->length, (const char *)text->bytes);
}

static void print_amount(const struct amount *amount)
{
    char text[WIDEST_AMOUNT + 8];
    second_amount_text(amount, text);
    printf(" %s", text);
}

static void print_trade(struct answer answer, int kind, const struct text *mast, const struct text *buyer, const struct text *seller,
                        const struct amount *price, const struct amount *par)
{
    if (answer.number != ACCEPTED) {
        fputs(" - - - - - -", stdout);
        return;
    }
    printf(" %s", second_kind_text(kind));
    print_text(mast);
    print_text(buyer);
    print_text(seller);
    print_amount(price);
    print_amount(par);
}

static void our_columns(struct answer answer, const union any_record *record)
{
    const struct record *r = &record->mt515;
    print_trade(answer, r->kind, &r->mast, &r->buyer.code, &r->seller.code, &r->price.amount, &r->par.amount);
}

static void pool_columns(struct answer answer, const union any_record *record)
{
    const struct pool_record *r = &record->pool;
    print_trade(answer, r->kind, &r->mast, &r->buyer.code, &r->seller.code, &r->price.amount, &r->par.amount);
}

static void mt509_columns(struct answer answer, const union any_record *record)
{
    second_answers_columns(stdout, answer, &record->mt509);
}

/* By which type or profile, and what is known of it here. */
static const struct known {
    const char *option;
    const struct profile *profile;
    void (*columns)(struct answer answer, const union any_record *record);    /* printed behind a message's number and line */
    void (*lister)(FILE *out, const uint8_t *input, size_t length);
    unsigned fields;
    size_t longest;
    unsigned amounts[3];         /* fields that the plain form may change */
} known[] = {
    { "", &second_mt515, our_columns, second_lister, FIELDS, LONGEST_WRITTEN, { 9, 18, 0 } },
    { "--pool", &second_pool, pool_columns, NULL, FIELDS_OF_POOL, LONGEST_OF_POOL, { 8, 9, 16 } },
    { "--mt509", &second_mt509, mt509_columns, second_answers, FIELDS_OF_MT509, LONGEST_OF_MT509, { 0, 0, 0 } },
};

static const struct known *by = &known[0];

static void print_message(const uint8_t *name, size_t wide, const uint8_t *message, size_t length)
{
    union any_record record;
    struct answer answer = second_read_by(by->profile, message, length, &record);
    printf("%.*s %d %zu", (int)wide, (const char *)name, answer.number, answer.line);
    by->columns(answer, &record);
    putchar('\n');
}

static void print_plain(const uint8_t *name, size_t wide, const uint8_t *message, size_t length)
{
    uint8_t plain[LONGEST_OF_MT509];
    struct written p = second_plain_by(by->profile, message, length, plain, by->longest);
    printf("# %.*s\n", (int)wide, (const char *)name);
    fwrite(plain, 1, p.length, stdout);
}

static void print_fields(const uint8_t *name, size_t wide, const uint8_t *message, size_t length)
{
    printf("%.*s", (int)wide, (const char *)name);
    for (unsigned f = 1; f <= by->fields; f++) {
        struct stretch s = second_field_by(by->profile, message, length, f);
        printf(" %zu:%zu", s.offset, s.length);
    }
    putchar('\n');
}

/* ---------------------------------------------------------------- --twice */

static int disagreements;

static void demand(int holds, const uint8_t *name, size_t wide, const char *what)
{
    if (holds)
        return;
    disagreements++;
    printf("%.*s: %s\n", (int)wide, (const char *)name, what);
}

static int only(const uint8_t *bytes, size_t from, size_t to, uint8_t value)
{
    for (size_t i = from; i < to; i++)
        if (bytes[i] != value)
            return 0;
    return 1;
}

/* Whether two records agree in every byte. */
static int same(const union any_record *a, const union any_record *b) { return memcmp(a, b, sizeof *a) == 0; }

/* A record whose every byte is set, and wrongly, so that all of it can be compared when it was read into. */
static union any_record *set_wrong(union any_record *record) { return memset(record, 0x5A, sizeof *record); }

static struct answer read_all(const uint8_t *message, size_t length, union any_record *record)
{
    return second_read_by(by->profile, message, length, set_wrong(record));
}

static void refused_twice(const uint8_t *name, size_t wide, const uint8_t *message, size_t length)
{
    for (unsigned f = 0; f <= by->fields + 3; f++) {
        struct stretch s = second_field_by(by->profile, message, length, f);
        demand(s.offset == 0 && s.length == 0, name, wide, "field of a refused message");
    }
}

/* The fields of a message and of its plain form, each by itself and all at once. */
static void fields_twice(const uint8_t *name, size_t wide, const uint8_t *message, size_t length,
                         const uint8_t *plain, size_t plain_length)
{
    struct stretch all[MOST_FIELDS + 3];
    second_fields_by(by->profile, message, length, all);
    for (unsigned f = 0; f <= by->fields + 3; f++) {
        struct stretch a = second_field_by(by->profile, message, length, f);
        struct stretch b = second_field_by(by->profile, plain, plain_length, f);
        struct stretch of_all = all[f <= by->fields ? f : 0];
        demand(a.offset == of_all.offset && a.length == of_all.length, name, wide, "field differs among all");
        demand(a.offset + a.length < length && (a.length > 0 || a.offset == 0), name, wide, "field outside the message");
        demand((a.length > 0) == (b.length > 0), name, wide, "field absent in one form only");
        if (f != by->amounts[0] && f != by->amounts[1] && f != by->amounts[2])
            demand(a.length == b.length && memcmp(message + a.offset, plain + b.offset, a.length) == 0, name, wide,
                   "field differs in the plain form");
    }
}

static void print_twice(const uint8_t *name, size_t wide, const uint8_t *message, size_t length)
{
    enum { ROOM = LONGEST_OF_MT509 + 100 };
    union any_record record, again, blank;
    uint8_t plain[ROOM], second[ROOM];
    struct answer answer = read_all(message, length, &record);
    second_blank_by(by->profile, set_wrong(&blank));
    memset(plain, 0xA5, ROOM);
    memset(second, 0xA5, ROOM);
    struct written p = second_plain_by(by->profile, message, length, plain, ROOM);
    demand(p.number == answer.number && p.line == answer.line, name, wide, "plain form answers another number or line");

    if (answer.number != ACCEPTED) {
        demand(same(&record, &blank), name, wide, "no blank record beside a refusal");
        demand(p.length == 0 && only(plain, 0, ROOM, 0xA5), name, wide, "refused plain form changed a byte");
        refused_twice(name, wide, message, length);
        return;
    }
    demand(p.length <= by->longest && only(plain, p.length, ROOM, 0xA5), name, wide,
           "plain form too long or bytes after it changed");

    struct written w = second_write_by(by->profile, &record, second, by->longest);
    demand(w.number == ACCEPTED && w.length == p.length && memcmp(plain, second, ROOM) == 0, name, wide, "write and plain form differ");
    demand(read_all(plain, p.length, &again).number == ACCEPTED && same(&again, &record), name, wide,
           "plain form reads as another record");
    struct written pp = second_plain_by(by->profile, plain, p.length, second, p.length);
    demand(pp.length == p.length && memcmp(plain, second, ROOM) == 0, name, wide, "plain form of the plain form differs");

    memset(second, 0x5A, ROOM);
    w = second_write_by(by->profile, &record, second, p.length - 1);
    demand(w.number == SHORT_BUFFER && w.length == 0 && only(second, 0, ROOM, 0x5A), name, wide, "short write");
    w = second_plain_by(by->profile, message, length, second, p.length - 1);
    demand(w.number == SHORT_BUFFER && w.line == 0 && w.length == 0 && only(second, 0, ROOM, 0x5A), name, wide, "short plain form");

    fields_twice(name, wide, message, length, plain, p.length);
    struct next n = second_next_by(by->profile, message, length, 0, set_wrong(&again));
    demand(n.state == NEXT_MESSAGE && n.answer.number == ACCEPTED && n.position == length && same(&again, &record), name, wide,
           "batch of one");
}

/* ---------------------------------------------------------------- input */

/* The end of the line that begins at start: its LF, or the end of the input. */
static size_t line_end(size_t start, size_t length)
{
    while (start < length && input[start] != '\n')
        start++;
    return start;
}

static int names_a_message(size_t start, size_t length)
{
    return start + 1 < length && input[start] == '#' && input[start + 1] == ' ';
}

typedef void print(const uint8_t *name, size_t wide, const uint8_t *message, size_t length);

int main(int count, char **words)
{
    for (size_t k = 1; k < sizeof known / sizeof known[0]; k++)
        if (count > 1 && by == &known[0] && strcmp(words[1], known[k].option) == 0) {
            by = &known[k];
            count--;
            words++;
        }
    const char *option = count > 1 ? words[1] : "";
    int lister = strcmp(option, "--lister") == 0;
    print *print_one = strcmp(option, "--twice") == 0 ? print_twice
                     : strcmp(option, "--plain") == 0 ? print_plain
                     : strcmp(option, "--fields") == 0 ? print_fields
                     : print_message;
    if (count > 2 || (count == 2 && !lister && print_one == print_message) || (lister && !by->lister)) {
        fputs("usage: list [--pool | --mt509] [--lister | --plain | --fields | --twice] < input\n", stderr);
        return 2;
    }
    size_t length = fread(input, 1, sizeof input, stdin);
    if (lister) {
        by->lister(stdout, input, length);
        return 0;
    }
    if (length == sizeof input) {
        fputs("list: input too long\n", stderr);
        return 2;
    }
    if (length > 0 && !names_a_message(0, length)) {
        fputs("list: the first line is no name\n", stderr);
        return 2;
    }
    size_t at = 0;
    while (at < length) {
        size_t name = at + 2, name_end = line_end(at, length);
        size_t from = name_end < length ? name_end + 1 : length, to = from;
        while (to < length && !names_a_message(to, length)) {
            to = line_end(to, length);
            if (to < length)
                to++;
        }
        size_t wide = name_end - name;
        if (wide > 0 && input[name + wide - 1] == '\r')
            wide--;
        print_one(input + name, wide, input + from, to - from);
        at = to;
    }
    return disagreements > 0;
}

/* engine.c - what the message types of the second program share: bytes, lines, nesting, the walk
 * over a layout, values, kinds, plain form, writing, batch and fields. The tables of a type, or of
 * one of the MT515's profiles, come in as data (struct profile). The parts stand in the order of
 * document 01. */
#include "second.h"

#include <stdbool.h>
#include <string.h>

/* ---------------------------------------------------------------- characters */

/* "c" means an upper-case letter or a digit. */
static bool is_digit(uint8_t b) { return b >= '0' && b <= '9'; }
static bool is_upper(uint8_t b) { return b >= 'A' && b <= 'Z'; }
static bool is_c(uint8_t b) { return is_digit(b) || is_upper(b); }
static bool is_c_or_hyphen(uint8_t b) { return is_c(b) || b == '-'; }
static bool is_printable(uint8_t b) { return b >= 0x20 && b <= 0x7E; }

typedef bool byte_class(uint8_t b);

static bool all_of(const uint8_t *at, size_t length, byte_class *class)
{
    for (size_t i = 0; i < length; i++)
        if (!class(at[i]))
            return false;
    return true;
}

static bool all_c(const uint8_t *at, size_t length) { return all_of(at, length, is_c); }
static bool all_digits(const uint8_t *at, size_t length) { return all_of(at, length, is_digit); }

static bool is_exactly(const uint8_t *at, size_t length, const char *text)
{
    return length == strlen(text) && memcmp(at, text, length) == 0;
}

static bool begins_with(const uint8_t *at, size_t length, const char *text)
{
    size_t n = strlen(text);
    return length >= n && memcmp(at, text, n) == 0;
}

static unsigned number_of_digits(const uint8_t *at, size_t length)
{
    unsigned n = 0;
    for (size_t i = 0; i < length; i++)
        n = n * 10 + (unsigned)(at[i] - '0');
    return n;
}

/* ---------------------------------------------------------------- a profile */

/* Every type has some of these blocks. */
enum { TOP, GENL, LINK, CONFDET, CONFPRTY, FIA, STAT, REAS, NO_BLOCK };

/* What a value is made of. */
enum form { NO_VALUE, TEXT, FREE_TEXT, FUNCTION, WORD, AMOUNT, DATE, MOMENT, NARRATIVE };

#define ANY_NUMBER ((size_t)-1)

enum { SPELLINGS = 7, DEEPEST_SLOT = 4 };    /* LINK of an MT509; REAS in STAT in GENL */

struct slot {
    int block;               /* the block in which the slot stands */
    const char *fits[SPELLINGS];    /* tag and qualifier; the whole line where whole is set */
    bool whole;              /* 16R, 16S and the last line */
    size_t least, most;      /* how often: M is least 1, O is least 0 */
    int opens;               /* the block this line opens */
    bool closes;             /* this line closes its block */
    unsigned field;          /* number of the slot where it has a value (see field_number) */
    const char *fixed;       /* the text between the qualifier and the value */
    enum form form;
    size_t narrowest, widest;
    size_t kept;             /* how much of what it fits by is of the value: the qualifier of 25D */
    int over;                /* the number of one more than most, where that is not 8 */
};

#define OPEN(in, line, few, many, into) \
    { .block = in, .fits = { line }, .whole = true, .least = few, .most = many, .opens = into, .fixed = "" }
#define CLOSE(in, line) \
    { .block = in, .fits = { line }, .whole = true, .least = 1, .most = 1, .opens = NO_BLOCK, .closes = true, .fixed = "" }
#define LINE(in, line, few, number, before, of, narrow, wide) \
    { .block = in, .fits = { line }, .least = few, .most = 1, .opens = NO_BLOCK, .field = number, .fixed = before, .form = of, \
      .narrowest = narrow, .widest = wide }
/* A line that must be there, with one of several qualifiers, each of them once in a message. */
#define CHOICE(in, number, before, narrow, wide, ...) \
    { .block = in, .fits = { __VA_ARGS__ }, .least = 1, .most = 1, .opens = NO_BLOCK, .field = number, .fixed = before, .form = TEXT, \
      .narrowest = narrow, .widest = wide }

/* Where the value of a field goes in the record: the offset of a member of the type that
 * its form asks for. */
struct place {
    size_t at;
    size_t present;              /* of the member that says that it is there; 0 where there is none */
    const char *const *words;    /* of a code word: the list, ended by NULL */
    bool hyphens;                /* of a text: it may have them, beside c */
};

/* A row of the table of kinds: a letter for each kind, M must, O may, - never. */
enum subject { A_TEXT, A_FLAG, OTHER_SIDES_CONTRA, OWN_SIDES_CONTRA };

struct rule {
    enum subject subject;
    size_t at;                   /* the offset of the text or of the flag */
    const char *kinds;
};

/* A text being put together. */
struct page {
    size_t length;
    uint8_t bytes[2 * LONGEST_READ];   /* a message whose every LF became CR LF */
};

struct profile {
    const char *header[3];       /* its second, third and fourth line; NULL for the member's, which is the sender's or the receiver's */
    const struct slot *slots;    /* those of a block together, the last one closing it */
    size_t slot_count;
    unsigned fields;             /* slots with a value */
    unsigned block_fields;       /* of them in one party's block, or in one REAS */
    const struct place *places;  /* by field; then of the password and of the member */
    const char *const *functions;   /* the words of 23G, ended by NULL */
    const struct rule *rules;
    size_t rule_count;
    size_t record_size;
    size_t kind, side, contra[2], trade, settlement, par;    /* offsets in the record of an MT515; contra: the buyer's, the seller's */
    void (*hold_function)(int function, void *record);       /* what the record holds of 23G; NULL where it holds nothing */
    bool (*function_stands)(const struct profile *by, int function, const void *record);    /* number 13, where this is false */
    int (*judge)(const struct profile *by, const void *record);              /* 14 to 17, which reading and writing share */
    int (*read_narrative)(const uint8_t *at, size_t length, void *record);   /* what follows the fixed text: 0, 10 or 12 */
    bool (*record_stands)(const void *record);                               /* number 18, where this is false */
    size_t (*put_message)(struct page *page, const void *record);            /* in plain form; answers the narrative's length */
};

/* A member of a record, by its offset. */
static void *member(void *record, size_t at) { return (uint8_t *)record + at; }
static const void *held(const void *record, size_t at) { return (const uint8_t *)record + at; }
static int int_held(const void *record, size_t at) { return *(const int *)held(record, at); }

static size_t first_slot(const struct profile *by, int block)
{
    size_t s = 0;
    while (by->slots[s].block != block)
        s++;
    return s;
}

/* Which of the slot's spellings the line has, or -1. */
static int fitting(const struct slot *slot, const uint8_t *at, size_t length)
{
    for (int a = 0; a < SPELLINGS && slot->fits[a]; a++)
        if (slot->whole ? is_exactly(at, length, slot->fits[a]) : begins_with(at, length, slot->fits[a]))
            return a;
    return -1;
}

/* ---------------------------------------------------------------- a message being read */

struct line {
    size_t start, length;        /* the content, without its ending */
    bool ended;
    const struct slot *slot;     /* set by the layout pass */
    int spelling;
    unsigned field;              /* from 1, or 0 */
};

struct reading {
    const struct profile *by;
    const uint8_t *message;
    size_t length;
    size_t count;
    struct line lines[LONGEST_READ];
    int function;                /* 23G: its place among the functions */
    void *record;                /* of the profile's type */
};

static const struct answer passed = { ACCEPTED, 0 };

static struct answer refused(int number, size_t line)
{
    return (struct answer){ number, line };
}

static const uint8_t *content(const struct reading *r, size_t i)
{
    return r->message + r->lines[i].start;
}

static bool line_is(const struct reading *r, size_t i, const char *text)
{
    return is_exactly(content(r, i), r->lines[i].length, text);
}

static bool line_begins(const struct reading *r, size_t i, const char *text)
{
    return begins_with(content(r, i), r->lines[i].length, text);
}

/* Number 1. */
static struct answer pass_length(size_t length)
{
    return length == 0 || length > LONGEST_READ ? refused(BAD_LENGTH, 0) : passed;
}

/* Number 2: 20 to 7E, LF, and CR only just before LF. */
static struct answer pass_bytes(const uint8_t *message, size_t length)
{
    size_t line = 1;
    for (size_t i = 0; i < length; i++) {
        uint8_t b = message[i];
        if (b == '\n')
            line++;
        else if (b == '\r') {
            if (i + 1 == length || message[i + 1] != '\n')
                return refused(BAD_BYTE, line);
        } else if (b < 0x20 || b > 0x7E)
            return refused(BAD_BYTE, line);
    }
    return passed;
}

/* "A line ends at LF; a CR just before that LF belongs to the ending." */
static void cut_lines(struct reading *r)
{
    size_t start = 0;
    r->count = 0;
    while (start < r->length) {
        size_t end = start;
        while (end < r->length && r->message[end] != '\n')
            end++;
        struct line *line = &r->lines[r->count++];
        line->start = start;
        line->length = end - start;
        line->ended = end < r->length;
        line->slot = NULL;
        line->spelling = 0;
        line->field = 0;
        if (line->ended && line->length > 0 && r->message[end - 1] == '\r')
            line->length--;
        start = end + 1;
    }
}

/* Number 3: no `-` before the end, and the last line an ended `-`. */
static struct answer pass_end(const struct reading *r)
{
    for (size_t i = 0; i + 1 < r->count; i++)
        if (line_is(r, i, "-"))
            return refused(BAD_END, i + 1);
    if (!line_is(r, r->count - 1, "-") || !r->lines[r->count - 1].ended)
        return refused(BAD_END, r->count);
    return passed;
}

/* Which line of the header is the member's, counted from 0. */
static size_t member_line(const struct profile *by)
{
    size_t i = 1;
    while (by->header[i - 1])
        i++;
    return i;
}

/* Number 4: password, the member's line, and two fixed ones. A message too short for the
 * four lines meets its `-` here, which is none of them. */
static struct answer pass_header(const struct reading *r)
{
    for (size_t i = 0; i < 4; i++) {
        const uint8_t *at = content(r, i);
        size_t length = r->lines[i].length;
        bool good = i == 0 ? length <= 12 && all_c(at, length)
                  : i == member_line(r->by) ? length >= 1 && length <= 8 && all_c(at, length)
                  : is_exactly(at, length, r->by->header[i - 1]);
        if (!good)
            return refused(BAD_HEADER, i + 1);
    }
    return passed;
}

/* A colon, two digits, one upper-case letter, a colon, and at least one character. */
static bool has_tag_shape(const uint8_t *at, size_t length)
{
    return length >= 6 && at[0] == ':' && is_digit(at[1]) && is_digit(at[2]) && is_upper(at[3]) && at[4] == ':';
}

/* Numbers 5, 6, 7 in one pass: shape, block names, nesting for every name. */
static struct answer pass_blocks(const struct reading *r)
{
    size_t open[DEEPEST];        /* the opening lines of the blocks now open */
    size_t depth = 0;
    size_t last = r->count - 1;

    for (size_t i = 4; i < last; i++) {
        const uint8_t *at = content(r, i);
        size_t length = r->lines[i].length;
        if (!has_tag_shape(at, length))
            return refused(BAD_SHAPE, i + 1);
        bool opens = begins_with(at, length, ":16R:");
        bool closes = begins_with(at, length, ":16S:");
        if (!opens && !closes)
            continue;
        const uint8_t *name = at + 5;
        size_t wide = length - 5;
        if (wide > 16 || !all_c(name, wide))
            return refused(BAD_SHAPE, i + 1);
        if (opens) {
            if (depth == DEEPEST)
                return refused(TOO_DEEP, i + 1);
            open[depth++] = i;
        } else {
            if (depth == 0)
                return refused(BAD_CLOSE, i + 1);
            size_t opener = open[--depth];
            if (r->lines[opener].length != length || memcmp(content(r, opener) + 5, name, wide) != 0)
                return refused(BAD_CLOSE, i + 1);
        }
    }
    return depth > 0 ? refused(BAD_CLOSE, last + 1) : passed;
}

/* Slots with a value, numbered from 1 in the table's order; those of LINK each, the buyer's before
 * the seller's, those of a REAS before those of the next. */
static unsigned field_number(const struct profile *by, const struct slot *slot, int spelling, size_t which)
{
    if (slot->field == 0)
        return 0;
    if (slot->block == LINK)
        return slot->field + (unsigned)spelling;
    if (slot->block == CONFPRTY || slot->block == REAS)
        return slot->field + by->block_fields * (unsigned)which;
    return slot->field;
}

/* Numbers 8, 9, 22 in one pass, from line 5 to the `-` line. */
static struct answer pass_layout(struct reading *r)
{
    const struct slot *slots = r->by->slots;
    struct { size_t slot; size_t times; } level[DEEPEST_SLOT];
    size_t depth = 0;
    bool met[NO_BLOCK][SPELLINGS] = { { false } };    /* the spellings of a slot that has several, by its block */
    size_t which = 0;                                 /* of the blocks of one name: a party by its 95R, a REAS by its place */

    level[0].slot = first_slot(r->by, TOP);
    level[0].times = 0;

    for (size_t i = 4; i < r->count; i++) {
        const uint8_t *at = content(r, i);
        size_t length = r->lines[i].length;
        size_t here = level[depth].slot;
        int block = slots[here].block;

        /* from here on: the slot used last if it can take another, else the one after it */
        bool full = level[depth].times == slots[here].most;
        size_t s = full ? here + 1 : here;
        int spelling = -1;
        for (; s < r->by->slot_count && slots[s].block == block; s++) {
            spelling = fitting(&slots[s], at, length);
            if (spelling >= 0)
                break;
        }
        if (spelling < 0)
            return refused(full && slots[here].over > 0 && fitting(&slots[here], at, length) >= 0 ? slots[here].over : NO_SLOT, i + 1);

        /* each LINK and 95R qualifier at most once; a second 25D has found no slot */
        if (slots[s].fits[1] != NULL) {
            if (met[block][spelling])
                return refused(NO_SLOT, i + 1);
            met[block][spelling] = true;
            if (block == CONFPRTY)
                which = (size_t)spelling;
        }

        /* a mandatory slot passed over */
        for (size_t k = here; k < s; k++)
            if ((k == here ? level[depth].times : 0) < slots[k].least)
                return refused(PASSED_OVER, i + 1);

        level[depth].times = s == here ? level[depth].times + 1 : 1;
        level[depth].slot = s;
        r->lines[i].slot = &slots[s];
        r->lines[i].spelling = spelling;
        r->lines[i].field = field_number(r->by, &slots[s], spelling, which);

        if (slots[s].opens != NO_BLOCK) {
            if (slots[s].opens == REAS)
                which = level[depth].times - 1;
            depth++;
            level[depth].slot = first_slot(r->by, slots[s].opens);
            level[depth].times = 0;
        } else if (slots[s].closes)
            depth--;
    }
    return passed;
}

/* ---------------------------------------------------------------- values */

static void set_text(struct text *text, const uint8_t *at, size_t length)
{
    memset(text, 0, sizeof *text);
    memcpy(text->bytes, at, length);
    text->length = length;
}

static void set_free_text(struct free_text *text, const uint8_t *at, size_t length)
{
    memset(text, 0, sizeof *text);
    memcpy(text->bytes, at, length);
    text->length = length;
}

/* A code word: its place in the list, or -1. */
static int word_in(const uint8_t *at, size_t length, const char *const *list)
{
    for (int w = 0; list[w]; w++)
        if (is_exactly(at, length, list[w]))
            return w;
    return -1;
}

static const char *const trade_functions[] = { "NEWM", "CANC", NULL };
static const char *const side_words[] = { "BUYI", "SELL", NULL };

/* Amounts: 1 to 15 characters, digits and exactly one comma, at least one digit before it. */
static bool read_amount(const uint8_t *at, size_t length, struct amount *amount)
{
    size_t commas = 0, comma = 0;
    uint64_t digits = 0;
    if (length < 1 || length > WIDEST_AMOUNT)
        return false;
    for (size_t i = 0; i < length; i++) {
        if (at[i] == ',') {
            commas++;
            comma = i;
        } else if (is_digit(at[i]))
            digits = digits * 10 + (uint64_t)(at[i] - '0');
        else
            return false;
    }
    if (commas != 1 || comma == 0)
        return false;
    unsigned decimals = (unsigned)(length - 1 - comma);
    while (decimals > 0 && digits % 10 == 0) {      /* shortest form */
        digits /= 10;
        decimals--;
    }
    amount->digits = digits;
    amount->decimals = decimals;
    return true;
}

/* Dates: year 0001 to 9999, Gregorian leap years. */
static bool is_date(const struct date *date)
{
    static const unsigned days[] = { 31, 28, 31, 30, 31, 30, 31, 31, 30, 31, 30, 31 };
    if (date->year < 1 || date->year > 9999 || date->month < 1 || date->month > 12)
        return false;
    bool leap = (date->year % 4 == 0 && date->year % 100 != 0) || date->year % 400 == 0;
    unsigned last = days[date->month - 1] + (date->month == 2 && leap ? 1 : 0);
    return date->day >= 1 && date->day <= last;
}

static bool is_daytime(const struct daytime *time)
{
    return time->hour <= 23 && time->minute <= 59 && time->second <= 59;
}

static bool read_date(const uint8_t *at, size_t length, struct date *date)
{
    if (length != 8 || !all_digits(at, 8))
        return false;
    date->year = number_of_digits(at, 4);
    date->month = number_of_digits(at + 4, 2);
    date->day = number_of_digits(at + 6, 2);
    return is_date(date);
}

static bool read_moment(const uint8_t *at, size_t length, struct moment *moment)
{
    if (length != 14 || !all_digits(at, 14) || !read_date(at, 8, &moment->date))
        return false;
    moment->time.hour = number_of_digits(at + 8, 2);
    moment->time.minute = number_of_digits(at + 10, 2);
    moment->time.second = number_of_digits(at + 12, 2);
    return is_daytime(&moment->time);
}

/* Of a narrative: goes past a word where the text begins with it. */
static bool go_past(const uint8_t **at, size_t *length, const char *word)
{
    if (!begins_with(*at, *length, word))
        return false;
    *at += strlen(word);
    *length -= strlen(word);
    return true;
}

/* Of a narrative: perhaps /DKRS and 4 c. */
static bool read_dkrs(const uint8_t **at, size_t *length, struct text *dkrs)
{
    if (!go_past(at, length, "/DKRS"))
        return true;
    if (*length < 4 || !all_c(*at, 4))
        return false;
    set_text(dkrs, *at, 4);
    *at += 4;
    *length -= 4;
    return true;
}

/* One value, put into the record; 0, 10, 11 or 12. */
static int read_value(struct reading *r, const struct line *line, const uint8_t *at, size_t length)
{
    const struct slot *slot = line->slot;
    const struct place *place = &r->by->places[line->field];
    void *value = member(r->record, place->at);
    int word;

    if (place->present > 0)
        *(int *)member(r->record, place->present) = 1;
    switch (slot->form) {
    case TEXT:
        if (length < slot->narrowest || length > slot->widest || !all_of(at, length, place->hyphens ? is_c_or_hyphen : is_c))
            return BAD_VALUE;
        set_text(value, at, length);
        return ACCEPTED;
    case FREE_TEXT:
        if (length < slot->narrowest || length > slot->widest || !all_of(at, length, is_printable))
            return BAD_VALUE;
        set_free_text(value, at, length);
        return ACCEPTED;
    case FUNCTION:
        r->function = word_in(at, length, r->by->functions);
        if (r->function < 0)
            return BAD_VALUE;
        if (r->by->hold_function)
            r->by->hold_function(r->function, r->record);
        return ACCEPTED;
    case WORD:
        word = word_in(at, length, place->words);
        if (word < 0)
            return BAD_VALUE;
        *(int *)value = word;
        return ACCEPTED;
    case AMOUNT:
        return read_amount(at, length, value) ? ACCEPTED : BAD_AMOUNT;
    case DATE:
        return read_date(at, length, value) ? ACCEPTED : BAD_DATE;
    case MOMENT:
        return read_moment(at, length, value) ? ACCEPTED : BAD_DATE;
    case NARRATIVE:
        return r->by->read_narrative(at, length, r->record);
    case NO_VALUE:
        break;
    }
    return length == 0 ? ACCEPTED : BAD_VALUE;
}

/* Where the value of a line begins, counted from the line's start: after tag, qualifier and fixed text. */
static size_t value_start(const struct line *line)
{
    return strlen(line->slot->fits[line->spelling]) - line->slot->kept + strlen(line->slot->fixed);
}

/* Numbers 10, 11, 12 in one pass. */
static struct answer pass_values(struct reading *r)
{
    const struct place *header = &r->by->places[r->by->fields + 1];
    second_blank_by(r->by, r->record);
    set_text(member(r->record, header[0].at), content(r, 0), r->lines[0].length);
    size_t own = member_line(r->by);
    set_text(member(r->record, header[1].at), content(r, own), r->lines[own].length);

    for (size_t i = 4; i < r->count; i++) {
        const struct line *line = &r->lines[i];
        size_t qualified = strlen(line->slot->fits[line->spelling]);
        if (!begins_with(content(r, i) + qualified, line->length - qualified, line->slot->fixed))
            return refused(BAD_VALUE, i + 1);
        size_t start = value_start(line);
        int number = read_value(r, line, content(r, i) + start, line->length - start);
        if (number != ACCEPTED)
            return refused(number, i + 1);
    }
    return passed;
}

/* ---------------------------------------------------------------- kinds of an MT515 */

/* 23G is CANC for CANC and NEWM for the others. */
static bool function_of_kind(const struct profile *by, int function, const void *record)
{
    return (function == 1) == (int_held(record, by->kind) == KIND_CANC);
}

/* Whether a party has a contra reference, 0 the buyer and 1 the seller. */
static bool has_contra(const struct profile *by, const void *record, int party)
{
    const struct text *contra = held(record, by->contra[party]);
    return contra->length > 0;
}

/* Whether that is there which the rule is about. The other side is the seller where BUSE is BUYI. */
static bool is_there(const struct profile *by, const struct rule *rule, const void *record)
{
    int own = int_held(record, by->side) == SIDE_BUYI ? 0 : 1;
    switch (rule->subject) {
    case A_TEXT: return ((const struct text *)held(record, rule->at))->length > 0;
    case A_FLAG: return int_held(record, rule->at) != 0;
    case OTHER_SIDES_CONTRA: return has_contra(by, record, 1 - own);
    case OWN_SIDES_CONTRA: break;
    }
    return has_contra(by, record, own);
}

/* Whether the kind says this of something that is there, or of something that is not. */
static bool kind_says(const struct profile *by, const void *record, char word, bool there)
{
    for (size_t i = 0; i < by->rule_count; i++)
        if (by->rules[i].kinds[int_held(record, by->kind)] == word && is_there(by, &by->rules[i], record) == there)
            return true;
    return false;
}

/* Number 17: dates, not times. */
static bool settles_before_trade(const struct date *s, const struct date *t)
{
    if (s->year != t->year)
        return s->year < t->year;
    if (s->month != t->month)
        return s->month < t->month;
    return s->day < t->day;
}

/* 14 to 17. */
static int kind_number(const struct profile *by, const void *record)
{
    const struct par *par = held(record, by->par);
    const struct moment *trade = held(record, by->trade);
    if (kind_says(by, record, 'M', false))
        return KIND_MUST;
    if (kind_says(by, record, '-', true))
        return KIND_MAY_NOT;
    if (par->amount.digits == 0)
        return PAR_ZERO;
    if (settles_before_trade(held(record, by->settlement), &trade->date))
        return SETTLES_BEFORE_TRADE;
    return ACCEPTED;
}

/* ---------------------------------------------------------------- what the fields say together */

/* Numbers 13 to 17, line 0. */
static struct answer pass_kind(const struct reading *r)
{
    if (!r->by->function_stands(r->by, r->function, r->record))
        return refused(AGAINST_KIND, 0);
    return refused(r->by->judge(r->by, r->record), 0);
}

/* ---------------------------------------------------------------- reading */

/* Every text of length 0, every number zero, every optional field absent,
 * every code word the first of its list: in every record all of that is 0. */
void second_blank_by(const struct profile *by, void *record)
{
    memset(record, 0, by->record_size);
}

/* "Order in reading". */
static struct answer all_passes(struct reading *r, const struct profile *by, const uint8_t *message, size_t length, void *record)
{
    struct answer answer;
    r->by = by;
    r->record = record;
    r->message = message;
    r->length = length;
    r->count = 0;
    r->function = 0;
    if ((answer = pass_length(length)).number != ACCEPTED)
        return answer;
    if ((answer = pass_bytes(message, length)).number != ACCEPTED)
        return answer;
    cut_lines(r);
    if ((answer = pass_end(r)).number != ACCEPTED)
        return answer;
    if ((answer = pass_header(r)).number != ACCEPTED)
        return answer;
    if ((answer = pass_blocks(r)).number != ACCEPTED)
        return answer;
    if ((answer = pass_layout(r)).number != ACCEPTED)
        return answer;
    if ((answer = pass_values(r)).number != ACCEPTED)
        return answer;
    return pass_kind(r);
}

struct answer second_read_by(const struct profile *by, const uint8_t *message, size_t length, void *record)
{
    struct reading r;
    struct answer answer = all_passes(&r, by, message, length, record);
    if (answer.number != ACCEPTED)
        second_blank_by(by, record);
    return answer;
}

/* ---------------------------------------------------------------- a text being put together */

static void put(struct page *page, const void *bytes, size_t length)
{
    memcpy(page->bytes + page->length, bytes, length);
    page->length += length;
}

static void put_words(struct page *page, const char *words) { put(page, words, strlen(words)); }
static void put_end(struct page *page) { put_words(page, "\r\n"); }

static void put_line(struct page *page, const char *words)
{
    put_words(page, words);
    put_end(page);
}

/* Hands the page to the caller's buffer, or 19. */
static struct written hand_over(const struct page *page, uint8_t *buffer, size_t room)
{
    if (room < page->length)
        return (struct written){ SHORT_BUFFER, 0, 0 };
    memcpy(buffer, page->bytes, page->length);
    return (struct written){ ACCEPTED, 0, page->length };
}

/* ---------------------------------------------------------------- plain form, on the text */

/* Fourth rule: needless noughts go, before the first digit of the whole part
 * and at the end of the decimals. */
static void put_plain_amount(struct page *page, const uint8_t *at, size_t length)
{
    size_t comma = 0, first = 0, end = length;
    while (at[comma] != ',')
        comma++;
    while (first + 1 < comma && at[first] == '0')
        first++;
    while (end > comma + 1 && at[end - 1] == '0')
        end--;
    put(page, at + first, end - first);
}

/* First and fourth rule: one line, with CR LF. */
static void put_plain_line(struct page *page, const struct reading *r, size_t i)
{
    const struct line *line = &r->lines[i];
    const uint8_t *at = content(r, i);
    if (line->slot && line->slot->form == AMOUNT) {
        size_t start = value_start(line);
        put(page, at, start);
        put_plain_amount(page, at + start, line->length - start);
    } else
        put(page, at, line->length);
    put_end(page);
}

/* The line after the last of the blocks of one name that stand one after another from line i. */
static size_t after_blocks(const struct reading *r, size_t i, const char *open, const char *close)
{
    while (line_is(r, i, open)) {
        while (!line_is(r, i, close))
            i++;
        i++;
    }
    return i;
}

/* Of the blocks between two lines, the one whose first field begins so; nothing where there is none. */
static void put_plain_block(struct page *page, const struct reading *r, size_t from, size_t to,
                            const char *close, const char *field)
{
    for (size_t i = from; i < to; i++)
        if (line_begins(r, i, field)) {
            for (size_t k = i - 1; ; k++) {
                put_plain_line(page, r, k);
                if (line_is(r, k, close))
                    return;
            }
        }
}

/* All blocks of one name that stand from a line on, in the order of the qualifiers that their first field may have. Answers the
 * line after them. */
static size_t put_plain_blocks(struct page *page, const struct reading *r, size_t i, const char *open, const char *close, int block)
{
    const struct slot *first = &r->by->slots[first_slot(r->by, block)];
    size_t to = after_blocks(r, i, open, close);
    for (size_t a = 0; a < SPELLINGS && first->fits[a]; a++)
        put_plain_block(page, r, i, to, close, first->fits[a]);
    return to;
}

/* The four rules on an accepted text; second rule LINK, third rule the parties. */
static void put_plain_form(struct page *page, const struct reading *r)
{
    size_t i = 0;
    while (i < r->count) {
        if (line_is(r, i, ":16R:LINK"))
            i = put_plain_blocks(page, r, i, ":16R:LINK", ":16S:LINK", LINK);
        else if (line_is(r, i, ":16R:CONFPRTY"))
            i = put_plain_blocks(page, r, i, ":16R:CONFPRTY", ":16S:CONFPRTY", CONFPRTY);
        else
            put_plain_line(page, r, i++);
    }
}

/* The read's number and line, or 19 after all of those. */
struct written second_plain_by(const struct profile *by, const uint8_t *message, size_t length, uint8_t *buffer, size_t room)
{
    struct reading r;
    struct page page;
    union any_record record;
    struct answer answer = all_passes(&r, by, message, length, &record);
    if (answer.number != ACCEPTED)
        return (struct written){ answer.number, answer.line, 0 };
    page.length = 0;
    put_plain_form(&page, &r);
    return hand_over(&page, buffer, room);
}

/* ---------------------------------------------------------------- writing a record */

/* The bytes of a text in its room: their count, their class, and zero bytes after. */
static bool bytes_stand(const uint8_t *bytes, size_t room, size_t length, size_t narrowest, size_t widest, byte_class *class)
{
    if (length < narrowest || length > widest || !all_of(bytes, length, class))
        return false;
    for (size_t i = length; i < room; i++)
        if (bytes[i] != 0)
            return false;
    return true;
}

/* A text of the record, of c. */
static bool text_stands(const struct text *text, size_t narrowest, size_t widest)
{
    return bytes_stand(text->bytes, WIDEST_TEXT, text->length, narrowest, widest, is_c);
}

static bool optional_text_stands(const struct text *text, size_t narrowest, size_t widest)
{
    return text_stands(text, 0, 0) || text_stands(text, narrowest, widest);
}

static bool moment_stands(const struct moment *moment)
{
    return is_date(&moment->date) && is_daytime(&moment->time);
}

/* What is absent has one form only: all zero. */
static bool date_is_zero(const struct date *date)
{
    return date->year == 0 && date->month == 0 && date->day == 0;
}

static bool moment_is_zero(const struct moment *moment)
{
    return date_is_zero(&moment->date) && moment->time.hour == 0 && moment->time.minute == 0 && moment->time.second == 0;
}

/* A date and time that may be absent. */
static bool optional_moment_stands(int present, const struct moment *moment)
{
    return present == 0 ? moment_is_zero(moment) : present == 1 && moment_stands(moment);
}

/* Shortest form, and a text of at most 15 characters. */
static bool amount_stands(const struct amount *amount)
{
    if (amount->digits >= 100000000000000u || amount->decimals > 13)
        return false;
    return amount->decimals == 0 || amount->digits % 10 != 0;
}

static void put_text_line(struct page *page, const char *before, const struct text *text)
{
    put_words(page, before);
    put(page, text->bytes, text->length);
    put_end(page);
}

/* Nothing where the text is absent. */
static void put_optional_line(struct page *page, const char *before, const struct text *text)
{
    if (text->length > 0)
        put_text_line(page, before, text);
}

/* A number of at most 20 digits, with noughts in front up to the width. */
static void put_number(struct page *page, uint64_t number, size_t width)
{
    uint8_t digits[20];
    size_t at = sizeof digits;
    while (number > 0 || sizeof digits - at < width) {
        digits[--at] = (uint8_t)('0' + number % 10);
        number /= 10;
    }
    put(page, digits + at, sizeof digits - at);
}

static void put_date(struct page *page, const struct date *date)
{
    put_number(page, date->year, 4);
    put_number(page, date->month, 2);
    put_number(page, date->day, 2);
}

static void put_date_line(struct page *page, const char *before, const struct date *date)
{
    put_words(page, before);
    put_date(page, date);
    put_end(page);
}

static void put_moment_line(struct page *page, const char *before, const struct moment *moment)
{
    put_words(page, before);
    put_date(page, &moment->date);
    put_number(page, moment->time.hour, 2);
    put_number(page, moment->time.minute, 2);
    put_number(page, moment->time.second, 2);
    put_end(page);
}

/* Shortest form: the whole part (at least one digit), a comma, the decimals. */
void second_amount_text(const struct amount *amount, char out[WIDEST_AMOUNT + 8])
{
    char digits[24];
    int count = snprintf(digits, sizeof digits, "%0*llu", (int)amount->decimals + 1,
                         (unsigned long long)amount->digits);
    int whole = count - (int)amount->decimals;
    memcpy(out, digits, (size_t)whole);
    out[whole] = ',';
    memcpy(out + whole + 1, digits + whole, (size_t)amount->decimals);
    out[count + 1] = 0;
}

static void put_amount_line(struct page *page, const char *before, const struct amount *amount)
{
    char text[WIDEST_AMOUNT + 8];
    second_amount_text(amount, text);
    put_words(page, before);
    put_line(page, text);
}

static void put_link(struct page *page, const char *before, const struct text *reference)
{
    if (reference->length == 0)
        return;
    put_line(page, ":16R:LINK");
    put_text_line(page, before, reference);
    put_line(page, ":16S:LINK");
}

static void put_dkrs(struct page *page, const struct text *dkrs)
{
    if (dkrs->length > 0) {
        put_words(page, "/DKRS");
        put(page, dkrs->bytes, dkrs->length);
    }
}

/* "Order in writing: 18, 14, 15, 16, 17, 20, 19." */
struct written second_write_by(const struct profile *by, const void *record, uint8_t *buffer, size_t room)
{
    struct page page;
    if (!by->record_stands(record))
        return (struct written){ BAD_RECORD, 0, 0 };
    int number = by->judge(by, record);
    if (number != ACCEPTED)
        return (struct written){ number, 0, 0 };
    page.length = 0;
    if (by->put_message(&page, record) > 35)
        return (struct written){ LONG_NARRATIVE, 0, 0 };
    return hand_over(&page, buffer, room);
}

/* ---------------------------------------------------------------- batch */

/* A piece runs through the first line that is `-`, or to the end where there is none. */
static size_t piece_end(const uint8_t *batch, size_t length, size_t position)
{
    size_t start = position;
    while (start < length) {
        size_t end = start;
        while (end < length && batch[end] != '\n')
            end++;
        if (end == length)
            return length;
        size_t wide = end - start;
        if (wide > 0 && batch[end - 1] == '\r')
            wide--;
        if (wide == 1 && batch[start] == '-')
            return end + 1;
        start = end + 1;
    }
    return length;
}

struct next second_next_by(const struct profile *by, const uint8_t *batch, size_t length, size_t position, void *record)
{
    if (position > length) {
        second_blank_by(by, record);
        return (struct next){ NEXT_PAST, refused(PAST_THE_END, 0), position };
    }
    if (position == length) {
        second_blank_by(by, record);
        return (struct next){ NEXT_DONE, passed, position };
    }
    size_t end = piece_end(batch, length, position);
    struct answer answer = second_read_by(by, batch + position, end - position, record);
    return (struct next){ NEXT_MESSAGE, answer, end };
}

/* ---------------------------------------------------------------- fields */

/* For each the stretch of the caller's own message, or the empty one at its start. */
struct answer second_fields_by(const struct profile *by, const uint8_t *message, size_t length, struct stretch fields[MOST_FIELDS + 3])
{
    struct reading r;
    union any_record record;
    struct answer answer = all_passes(&r, by, message, length, &record);
    for (unsigned f = 0; f < MOST_FIELDS + 3; f++)
        fields[f] = (struct stretch){ 0, 0 };
    if (answer.number != ACCEPTED)
        return answer;
    for (size_t i = 4; i < r.count; i++)
        if (r.lines[i].field > 0) {
            size_t start = value_start(&r.lines[i]);
            fields[r.lines[i].field] = (struct stretch){ r.lines[i].start + start, r.lines[i].length - start };
        }
    fields[by->fields + 1] = (struct stretch){ 0, r.lines[0].length };
    fields[by->fields + 2] = (struct stretch){ r.lines[member_line(by)].start, r.lines[member_line(by)].length };
    return answer;
}

struct stretch second_field_by(const struct profile *by, const uint8_t *message, size_t length, size_t field)
{
    struct stretch fields[MOST_FIELDS + 3];
    second_fields_by(by, message, length, fields);
    return fields[field <= by->fields ? field : 0];
}

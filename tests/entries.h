/* entries.h: what the tests of a further message type share: its four entries, each called between guards; changes to a message; and what
 * must hold of every message, whatever the type. A test that includes it has said before what ENTRY(read) and its like are, how many
 * FIELDS are lent, which is the LAST_SLOT and how long the LONGEST plain form is. */
#ifndef ENTRIES_H
#define ENTRIES_H

#include "lent.h"
#include "mt515.h"

#define COUNT(list) (sizeof (list) / sizeof (list)[0])

/* ---------------------------------------------------------------- the entries, each called between guards */

struct places { uint8_t before[GUARD]; size_t of[FIELDS]; uint8_t behind[GUARD]; };

struct read_answer { uint8_t number; size_t line, starts[FIELDS], ends[FIELDS]; };

static inline struct read_answer read_message(const void *message, size_t length)
{
    struct places starts, ends;
    struct number line;
    struct read_answer answer;
    const uint8_t *lent = lend(message, length);
    MARKED(starts);
    MARKED(ends);
    MARKED(line);
    answer.number = ENTRY(read)(lent, length, starts.of, ends.of, &line.value);
    GUARDED(starts, length);
    GUARDED(ends, length);
    GUARDED(line, length);
    want(stands(lent, message, length), "read changed the message", length);
    answer.line = line.value;
    memcpy(answer.starts, starts.of, sizeof answer.starts);
    memcpy(answer.ends, ends.of, sizeof answer.ends);
    return answer;
}

struct field_answer { uint8_t number; size_t offset, count; };

static inline struct field_answer field_of(const void *message, size_t length, size_t slot)
{
    struct number offset, count;
    const uint8_t *lent = lend(message, length);
    MARKED(offset);
    MARKED(count);
    uint8_t number = ENTRY(field)(lent, length, slot, &offset.value, &count.value);
    GUARDED(offset, slot);
    GUARDED(count, slot);
    want(stands(lent, message, length), "field changed the message", slot);
    return (struct field_answer){ number, offset.value, count.value };
}

static inline struct written plain_of(const void *message, size_t length, struct buffer *out, size_t room)
{
    struct number line, written;
    const uint8_t *lent = lend(message, length);
    MARKED(*out);
    MARKED(line);
    MARKED(written);
    uint8_t number = ENTRY(plain)(lent, length, out->bytes, room, &line.value, &written.value);
    GUARDED(*out, room);
    GUARDED(line, room);
    GUARDED(written, room);
    want(stands(lent, message, length), "plain changed the message", room);
    struct written w = { number, line.value, written.value };
    untouched(out, w, room);
    return w;
}

struct next_answer { uint8_t found, number; size_t line, next; };

static inline struct next_answer next_of(const void *batch, size_t length, size_t position)
{
    struct number line, next;
    struct byte number;
    const uint8_t *lent = lend(batch, length);
    MARKED(line);
    MARKED(next);
    MARKED(number);
    uint8_t found = ENTRY(next)(lent, length, position, &line.value, &next.value, &number.value);
    GUARDED(line, position);
    GUARDED(next, position);
    GUARDED(number, position);
    want(stands(lent, batch, length), "next changed the batch", position);
    return (struct next_answer){ found, number.value, line.value, next.value };
}

/* ---------------------------------------------------------------- changes to a message */

/* Lines from a first to a last, counted from 1 before any change, and what stands there instead, with its own endings. */
struct change { size_t first, last; const char *text; };

enum { MOST_CHANGES = 9, LONGEST_MADE = 2 * PAGE };

/* A message with some changes, as a string. */
static inline size_t changed(char out[LONGEST_MADE], const char *message, const struct change changes[MOST_CHANGES])
{
    size_t length = 0, line = 1;
    for (const char *at = message, *end; *at; at = end, line++) {
        end = strchr(at, '\n') + 1;
        const char *text = at;
        size_t wide = (size_t)(end - at);
        for (size_t i = 0; i < MOST_CHANGES; i++)
            if (line >= changes[i].first && line <= changes[i].last) {
                text = changes[i].text;
                wide = line == changes[i].first ? strlen(text) : 0;
            }
        memcpy(out + length, text, wide);
        length += wide;
    }
    out[length] = 0;
    return length;
}

/* A message that has LF endings, with CR LF. */
static inline size_t with_crlf(char out[LONGEST_MADE], const char *message)
{
    size_t length = 0;
    for (; *message; message++) {
        if (*message == '\n')
            out[length++] = '\r';
        out[length++] = *message;
    }
    out[length] = 0;
    return length;
}

#define LINE(number, text) { number, number, text "\n" }
#define GONE(first, last) { first, last, "" }

/* A changed message, and what it gets. */
struct worked { const char *what; uint8_t number; size_t line; struct change changes[MOST_CHANGES]; };

/* ---------------------------------------------------------------- a line, and the value in it */

struct span { size_t from, to; };

/* From a place to the end of its line. */
static inline struct span rest_of_line(const char *message, size_t from)
{
    return (struct span){ from, from + strcspn(message + from, "\r\n") };
}

static inline bool begins(const char *line, const char *text) { return strncmp(line, text, strlen(text)) == 0; }

/* ---------------------------------------------------------------- one message, by every entry */

/* What a test says of its own type: where the fields of an accepted message stand, and that the other types refuse it. */
static void places_are(const char *message, const struct read_answer *a, const char *what);
static void others_refuse(const void *message, size_t length);

/* Every number to some past the last slot, and some far beyond, against what was read: those just behind the slots are fields of the
 * header, to the read alone. */
static inline void fields_are_what_is_read(const void *message, size_t length, const struct read_answer *a)
{
    static const size_t none[] = { 255, 256, 257, 256 + LAST_SLOT, 65537, 4294967297u, SIZE_MAX - LAST_SLOT + 1, SIZE_MAX };
    for (size_t slot = 0; slot <= LAST_SLOT + 9; slot++) {
        struct field_answer f = field_of(message, length, slot);
        bool named = slot >= 1 && slot <= LAST_SLOT;
        want(f.number == a->number, "field: the number", slot);
        want(f.offset == (named ? a->starts[slot] : 0), "field: the offset", slot);
        want(f.count == (named ? a->ends[slot] - a->starts[slot] : 0), "field: the count", slot);
    }
    for (size_t i = 0; i < COUNT(none); i++) {
        struct field_answer f = field_of(message, length, none[i]);
        want(f.number == a->number && f.offset == 0 && f.count == 0, "a number that names no slot", none[i]);
    }
}

/* An accepted message has a plain form, which is its own plain form in turn; without room it gets 19. */
static inline void has_plain_form(const char *message, size_t length)
{
    struct buffer once, twice;
    struct written w = plain_of(message, length, &once, BUFFER);
    want(w.length > 0 && w.length <= LONGEST, "plain: its length", w.length);
    if (w.length > LONGEST)
        return;
    struct written again = plain_of(once.bytes, w.length, &twice, w.length);
    want(again.number == MT515_ACCEPTED && again.length == w.length, "plain: not accepted in its turn", again.number);
    want(memcmp(once.bytes, twice.bytes, w.length) == 0, "plain: not its own plain form", w.length);
    w = plain_of(message, length, &once, 0);
    want(w.number == MT515_ROOM && w.line == 0, "plain: no room", w.number);
}

/* Number and line of a message. Beside a refusal nothing stands anywhere; 19 comes after all else. */
static inline void message_wants(const void *message, size_t length, uint8_t number, size_t line, const char *what)
{
    struct read_answer a = read_message(message, length);
    want(a.number == number, what, a.number);
    want(a.line == line, what, a.line);
    for (size_t i = 0; number != MT515_ACCEPTED && i < FIELDS; i++)
        want(a.starts[i] == 0 && a.ends[i] == 0, "a place beside a refusal", i);
    fields_are_what_is_read(message, length, &a);

    struct buffer out;
    struct written w = plain_of(message, length, &out, BUFFER);
    want(w.number == number && w.line == line, "plain answers another number or line", length);
    if (number != MT515_ACCEPTED) {
        w = plain_of(message, length, &out, 0);
        want(w.number == number && w.line == line, "plain without room answers another number or line", length);
    }
}

/* The same of a message whose only `-` line is the last: it is also a batch of one, and if its header is the type's the
 * entries of the other types refuse it. */
static inline void whole_wants(const char *message, size_t length, uint8_t number, size_t line, const char *what)
{
    message_wants(message, length, number, line, what);
    struct next_answer n = next_of(message, length, 0);
    want(n.found == MT515_MESSAGE && n.number == number && n.line == line, "next answers another number or line", length);
    want(n.next == length, "next ends elsewhere", n.next);
    if (number == MT515_ACCEPTED) {
        struct read_answer a = read_message(message, length);
        places_are(message, &a, what);
        has_plain_form(message, length);
    }
    if (number == MT515_ACCEPTED || number > MT515_HEADER)
        others_refuse(message, length);
}

/* Each case of a message, with LF and with CR LF. */
static inline void cases_want(const char *message, const struct worked *cases, size_t count)
{
    char lf[LONGEST_MADE], crlf[LONGEST_MADE];
    for (size_t i = 0; i < count; i++) {
        size_t length = changed(lf, message, cases[i].changes);
        whole_wants(lf, length, cases[i].number, cases[i].line, cases[i].what);
        length = with_crlf(crlf, lf);
        whole_wants(crlf, length, cases[i].number, cases[i].line, cases[i].what);
    }
}

/* ---------------------------------------------------------------- fields, plain form, batch */

/* What each slot of a message says; nothing where the message does not have it. */
static inline void values_are(const char *message, const char *const values[LAST_SLOT + 1])
{
    struct read_answer a = read_message(message, strlen(message));
    want(a.number == MT515_ACCEPTED && a.line == 0, "fields: number and line", a.number);
    for (size_t slot = 1; slot <= LAST_SLOT; slot++) {
        const char *value = values[slot] ? values[slot] : "";
        size_t wide = strlen(value), from = a.starts[slot];
        want(a.ends[slot] == from + wide && from <= strlen(message) && begins(message + from, value), "a value", slot);
    }
}

/* With every room from 0 to one past the length. */
static inline void every_room(const char *message, const char *plain, const char *what)
{
    size_t length = strlen(plain);
    struct buffer out;
    for (size_t room = 0; room <= length + 1; room++) {
        uint8_t number = room < length ? MT515_ROOM : MT515_ACCEPTED;
        struct written w = plain_of(message, strlen(message), &out, room);
        want(w.number == number && w.line == 0 && w.length == (number ? 0 : length), what, room);
        for (size_t i = 0; number == MT515_ACCEPTED && i < length; i++)
            want(out.bytes[i] == (uint8_t)plain[i], "plain: a byte", i);
    }
}

static inline void next_wants(const char *batch, size_t length, size_t position, struct next_answer wanted)
{
    struct next_answer a = next_of(batch, length, position);
    want(a.found == wanted.found, "next: what is found", position);
    want(a.number == wanted.number && a.line == wanted.line, "next: number and line", position);
    want(a.next == wanted.next, "next: the position", position);
}

/* At the end of a batch, past it, and of one that is nothing. */
static inline void behind_batch(const char *bytes, size_t end)
{
    static const size_t beyond[] = { 1, 2, 100, 4294967296u, SIZE_MAX / 2 };
    next_wants(bytes, end, end, (struct next_answer){ MT515_DONE, 0, 0, end });
    for (size_t i = 0; i < COUNT(beyond); i++)
        next_wants(bytes, end, end + beyond[i], (struct next_answer){ MT515_BEYOND, MT515_PAST, 0, end + beyond[i] });
    next_wants(bytes, end, SIZE_MAX, (struct next_answer){ MT515_BEYOND, MT515_PAST, 0, SIZE_MAX });
    next_wants("", 0, 0, (struct next_answer){ MT515_DONE, 0, 0, 0 });
    next_wants("", 0, 1, (struct next_answer){ MT515_BEYOND, MT515_PAST, 0, 1 });
}

#endif

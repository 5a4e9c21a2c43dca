/* pool.h: the MT515 of the pool netting members for a C program: read one, take one field of it or all, put it into its plain
 * form, take a batch apart.
 *
 * It is a second profile beside that of mt515.h, with field numbers of its own, and the caller chooses between the two by the
 * entry he calls. No message is accepted by both: one that either accepts gets 4 at line 3 from the other.
 *
 * What mt515.h says first of its entries holds of these too: what may be passed, what a caller owes, that every answer is written
 * in every case, and where the archive is. The numbers that an entry answers are those of mt515.h, from MT515_ACCEPTED to
 * MT515_PAST, and so is what pool_next finds at a position: MT515_MESSAGE, MT515_DONE or MT515_BEYOND. */
#ifndef POOL_H
#define POOL_H

#include "mt515.h"

/* The bytes of the longest plain form that there is. */
#define POOL_LONGEST 752

/* The slots that have a value, as pool_field numbers them. */
#define POOL_FIELD_SEME 1
#define POOL_FIELD_23G 2
#define POOL_FIELD_MAST 3
#define POOL_FIELD_PREV 4
#define POOL_FIELD_LIST 5
#define POOL_FIELD_TRAD 6
#define POOL_FIELD_SETT 7
#define POOL_FIELD_DEAL 8
#define POOL_FIELD_MONEY 9              /* what follows `USD` in 19A */
#define POOL_FIELD_BUSE 10
#define POOL_FIELD_PROC 11
#define POOL_FIELD_BUYR 12
#define POOL_FIELD_BUYR_REFERENCE 13
#define POOL_FIELD_SELL 14
#define POOL_FIELD_SELL_REFERENCE 15
#define POOL_FIELD_PAR 16
#define POOL_FIELD_CUSIP 17
#define POOL_FIELD_POOL 18
#define POOL_FIELD_NARRATIVE 19         /* what follows `DTCY/` in 70E */

/* What pool_read tells of a message: the slots above by their numbers, and two of its header. The places of so many fields are
 * lent, from 0 on. */
#define POOL_FIELD_PASSWORD 20
#define POOL_FIELD_SENDER 21
#define POOL_FIELDS 22

/* Reads a message, and tells where all its fields stand. Answers 0, with `*line` 0; or the number of the refusal, with its line
 * in `*line` (counted from 1; 0 where the number has none). `starts[f]` and `ends[f]`: where in `message` the value of field f
 * begins and where it ends, for a slot the very stretch that pool_field gives; both 0 where the message has no such field, with a
 * blank password too, at index 0, and everywhere beside a refusal. */
uint8_t pool_read(const uint8_t *message, size_t length, size_t starts[POOL_FIELDS], size_t ends[POOL_FIELDS], size_t *line);

/* One field of a message: where in `message` the value of a slot begins, and how many bytes it has. Answers the number of the
 * read. A refused message, a number that names no slot (0, or 20 and more) and a slot that the message does not have give 0 and
 * 0; a value that is there is never empty. */
uint8_t pool_field(const uint8_t *message, size_t length, size_t slot, size_t *offset, size_t *count);

/* Writes the plain form of a message into `out`, which has `room` bytes. Answers 0, with `*line` 0 and the length in
 * `*written`, and the bytes of `out` after it keep their values; or the number and line of the read's refusal, or else 19 with
 * line 0 where the room is too little, with `*written` 0 and no byte of `out` changed. POOL_LONGEST bytes are always enough. */
uint8_t pool_plain(const uint8_t *message, size_t length, uint8_t *out, size_t room, size_t *line, size_t *written);

/* Takes the message of a batch that begins at a position. Answers
 *   MT515_MESSAGE  its number in `*number`, its line (counted inside the message) as pool_read gives it, and in `*next` the
 *                  position just after it, also after a refusal: it is `batch + position` up to `*next`, for the other entries;
 *   MT515_DONE     the position is the end of the batch: `*number` and `*line` 0;
 *   MT515_BEYOND   the position is past the end: `*number` 21, `*line` 0;
 * the last two with the position itself in `*next`. */
uint8_t pool_next(const uint8_t *batch, size_t length, size_t position, size_t *line, size_t *next, uint8_t *number);

#endif

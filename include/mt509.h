/* mt509.h: the MT509, the answers that come back, for a C program: read one, take one field of it or all, put it into its plain form,
 * take a batch apart.
 *
 * What mt515.h says first of its entries holds of these too: what may be passed, what a caller owes, that every answer is written
 * in every case, and where the archive is. The numbers that an entry answers are those of mt515.h and 22 for an eleventh REAS, and
 * what mt509_next finds at a position is as there: MT515_MESSAGE, MT515_DONE or MT515_BEYOND. */
#ifndef MT509_H
#define MT509_H

#include "mt515.h"

/* The number of an eleventh REAS, at its first line. */
#define MT509_SURPLUS 22

/* The bytes of the longest plain form that there is. */
#define MT509_LONGEST 1476

/* The slots that have a value, as mt509_field numbers them. */
#define MT509_FIELD_SEME 1
#define MT509_FIELD_23G 2
#define MT509_FIELD_PREP 3
#define MT509_FIELD_MAST 4
#define MT509_FIELD_PREV 5
#define MT509_FIELD_RELA 6
#define MT509_FIELD_LIST 7
#define MT509_FIELD_BASK 8
#define MT509_FIELD_PROG 9
#define MT509_FIELD_COMM 10
#define MT509_FIELD_STATUS 11               /* 25D from its qualifier on: `IPRC//REJT` */
#define MT509_FIELD_CODE(k) (10 + 2 * (k)) /* 24B of the k-th reason, k from 1 to 10 */
#define MT509_FIELD_TEXT(k) (11 + 2 * (k)) /* and its 70D */

/* What mt509_read tells of a message: the slots above by their numbers, and two of its header. The places of so many fields are
 * lent, from 0 on. */
#define MT509_FIELD_PASSWORD 32
#define MT509_FIELD_RECEIVER 33
#define MT509_FIELDS 34

/* Reads a message, and tells where all its fields stand. Answers 0, with `*line` 0; or the number of the refusal, with its line
 * in `*line` (counted from 1; 0 where the number has none). `starts[f]` and `ends[f]`: where in `message` the value of field f
 * begins and where it ends, for a slot the very stretch that mt509_field gives; both 0 where the message has no such field, with a
 * blank password too, at index 0, and everywhere beside a refusal. */
uint8_t mt509_read(const uint8_t *message, size_t length, size_t starts[MT509_FIELDS], size_t ends[MT509_FIELDS], size_t *line);

/* One field of a message: where in `message` the value of a slot begins, and how many bytes it has. Answers the number of the
 * read. A refused message, a number that names no slot (0, or 32 and more) and a slot that the message does not have give 0 and
 * 0; a value that is there is never empty. */
uint8_t mt509_field(const uint8_t *message, size_t length, size_t slot, size_t *offset, size_t *count);

/* Writes the plain form of a message into `out`, which has `room` bytes. Answers 0, with `*line` 0 and the length in
 * `*written`, and the bytes of `out` after it keep their values; or the number and line of the read's refusal, or else 19 with
 * line 0 where the room is too little, with `*written` 0 and no byte of `out` changed. MT509_LONGEST bytes are always enough. */
uint8_t mt509_plain(const uint8_t *message, size_t length, uint8_t *out, size_t room, size_t *line, size_t *written);

/* Takes the message of a batch that begins at a position. Answers
 *   MT515_MESSAGE  its number in `*number`, its line (counted inside the message) as mt509_read gives it, and in `*next` the
 *                  position just after it, also after a refusal: it is `batch + position` up to `*next`, for the other entries;
 *   MT515_DONE     the position is the end of the batch: `*number` and `*line` 0;
 *   MT515_BEYOND   the position is past the end: `*number` 21, `*line` 0;
 * the last two with the position itself in `*next`. */
uint8_t mt509_next(const uint8_t *batch, size_t length, size_t position, size_t *line, size_t *next, uint8_t *number);

#endif

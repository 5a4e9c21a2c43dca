/* mt515.h: the MT515 for a C program: read one, take one field of it or all, put it into its plain form, write a record as one,
 * take a batch apart.
 *
 * Every entry may be called with any bytes and any numbers, also from several threads at once: none keeps anything between
 * calls, none takes memory, and each always returns. What they answer is proved for every input (docs/PROMISES.md). A caller
 * owes what C always asks, and no more: each pointer is to as many bytes as its length says, what an entry writes to overlaps
 * nothing else that it is passed, and no pointer is null, not even one to 0 bytes. Every answer is written in every case.
 *
 * The archive is for x86-64: bin/archive proves and makes it, and prints where it is. examples/gateway.c is a program
 * that uses it, and bin/cc-x86 compiles and links such a program on x86-64 and on Arm. */
#ifndef MT515_H
#define MT515_H

#include <stddef.h>
#include <stdint.h>

/* The bytes of a record, and of the longest message that is ever written. */
#define MT515_RECORD 375
#define MT515_LONGEST 822

/* The numbers that an entry answers: 0, or why a message, a record or a position is refused. */
#define MT515_ACCEPTED 0
#define MT515_LENGTH 1          /* empty, or over 4,096 bytes */
#define MT515_BYTE 2            /* a byte other than 20 to 7E hex and line endings, or CR without LF */
#define MT515_END 3             /* `-` before the end, or the last line is not an ended `-` */
#define MT515_HEADER 4          /* a header line is wrong */
#define MT515_SHAPE 5           /* a line is not of the tag shape, or a block's name is bad */
#define MT515_CLOSE 6           /* a close does not match, or a block is open at the end */
#define MT515_DEPTH 7           /* a ninth level is opened */
#define MT515_NO_SLOT 8         /* a line fits no slot from here on in its block, or a LINK or 95R qualifier comes twice */
#define MT515_PASSED_OVER 9     /* a line fits a later slot, but a mandatory one was passed over */
#define MT515_VALUE 10          /* fixed text wrong; or width, characters or code word */
#define MT515_AMOUNT 11         /* an amount is wrong in any way */
#define MT515_DATE 12           /* a date or time is wrong in any way */
#define MT515_AGAINST_KIND 13   /* 23G goes against the kind */
#define MT515_KIND_MUST 14      /* a field is absent that the kind must have */
#define MT515_KIND_MAY_NOT 15   /* a field is there that the kind may not have */
#define MT515_PAR_ZERO 16       /* par is zero */
#define MT515_SETTLES_BEFORE 17 /* settles before the trade date */
#define MT515_RECORD_FIELD 18   /* a field of a record is no value of its place */
#define MT515_ROOM 19           /* the buffer is shorter than the message */
#define MT515_NARRATIVE 20      /* the narrative is over 35 characters: kept for its place in the order, it does not come up */
#define MT515_PAST 21           /* the position is past the end of the batch */

/* What mt515_next finds at a position. */
#define MT515_MESSAGE 0
#define MT515_DONE 1
#define MT515_BEYOND 2

/* The slots that have a value, as mt515_field numbers them. */
#define MT515_SLOT_SEME 1
#define MT515_SLOT_23G 2
#define MT515_SLOT_PREP 3
#define MT515_SLOT_MAST 4
#define MT515_SLOT_PREV 5
#define MT515_SLOT_LIST 6
#define MT515_SLOT_TRAD 7
#define MT515_SLOT_SETT 8
#define MT515_SLOT_DEAL 9
#define MT515_SLOT_BUSE 10
#define MT515_SLOT_PROC 11
#define MT515_SLOT_BUYR 12
#define MT515_SLOT_BUYR_REFERENCE 13
#define MT515_SLOT_BUYR_TDID 14
#define MT515_SLOT_SELL 15
#define MT515_SLOT_SELL_REFERENCE 16
#define MT515_SLOT_SELL_TDID 17
#define MT515_SLOT_PAR 18
#define MT515_SLOT_CUSIP 19
#define MT515_SLOT_POOL 20
#define MT515_SLOT_NARRATIVE 21

/* What mt515_places tells of a message: the slots above by their numbers, and two of its header. The places of so many fields are
 * lent, from 0 on. */
#define MT515_FIELD_PASSWORD 22
#define MT515_FIELD_SENDER 23
#define MT515_FIELDS 24

/* A record as 375 bytes: where each of its places begins. Four codes of one byte: */
#define MT515_AT_KIND 0             /* 0 INST, 1 CANC, 2 MDFC, 3 TDDK */
#define MT515_AT_SIDE 1             /* 0 BUYI, 1 SELL */
#define MT515_AT_SERVICE 2          /* 0 SBOD, 1 TFTD, 2 STIP */
#define MT515_AT_GUPP 3             /* the digit, 0 to 9; 255 where GUPP is absent */
/* Fifteen texts of 21 bytes, each a length, the text, and zero bytes behind it; length 0 is absent (a blank password): */
#define MT515_AT_PASSWORD 4
#define MT515_AT_SENDER 25
#define MT515_AT_SEME 46
#define MT515_AT_MAST 67
#define MT515_AT_PREV 88
#define MT515_AT_LIST 109
#define MT515_AT_BUYR 130
#define MT515_AT_BUYR_REFERENCE 151
#define MT515_AT_BUYR_TDID 172
#define MT515_AT_SELL 193
#define MT515_AT_SELL_REFERENCE 214
#define MT515_AT_SELL_TDID 235
#define MT515_AT_CUSIP 256
#define MT515_AT_POOL 277
#define MT515_AT_DKRS 298
/* Seven numbers of 8 bytes, the least byte first: */
#define MT515_AT_PREP 319           /* YYYYMMDDHHMMSS; 0 where PREP is absent */
#define MT515_AT_TRAD 327           /* YYYYMMDDHHMMSS */
#define MT515_AT_SETT 335           /* YYYYMMDD */
#define MT515_AT_PRICE 343          /* all its digits, 99,5 being 995 .. */
#define MT515_AT_PRICE_DECIMALS 351 /* .. and how many of them are decimals, 1 */
#define MT515_AT_PAR 359
#define MT515_AT_PAR_DECIMALS 367

/* Reads a message. Answers 0, with `*line` 0 and its record in `record`; or the number of the refusal, with its line in
 * `*line` (counted from 1; 0 where the number has none) and the blank record in `record`. */
uint8_t mt515_read(const uint8_t *message, size_t length, uint8_t record[MT515_RECORD], size_t *line);

/* One field of a message: where in `message` the value of a slot begins, and how many bytes it has. Answers the number of the
 * read. A refused message, a number that names no slot and a slot that the message does not have give 0 and 0; a value that is
 * there is never empty. */
uint8_t mt515_field(const uint8_t *message, size_t length, size_t slot, size_t *offset, size_t *count);

/* All fields of a message in one call. Answers the number of the read, with its line in `*line`. `starts[f]` and `ends[f]`: where
 * in `message` the value of field f begins and where it ends, for a slot the very stretch that mt515_field gives; both 0 where the
 * message has no such field, with a blank password too, at index 0, and everywhere beside a refusal. */
uint8_t mt515_places(const uint8_t *message, size_t length, size_t starts[MT515_FIELDS], size_t ends[MT515_FIELDS], size_t *line);

/* Writes the plain form of a message into `out`, which has `room` bytes. Answers 0, with `*line` 0 and the length in
 * `*written`, and the bytes of `out` after it keep their values; or the number and line of the read's refusal, or else 19 with
 * line 0 where the room is too little, with `*written` 0 and no byte of `out` changed. MT515_LONGEST bytes are always enough. */
uint8_t mt515_plain(const uint8_t *message, size_t length, uint8_t *out, size_t room, size_t *line, size_t *written);

/* Writes a record as a message, in plain form, into `out`, which has `room` bytes. Answers 0, with the length in `*written`,
 * and the bytes of `out` after it keep their values; or the first of 18, 14, 15, 16, 17, 20 and 19 that holds, with `*written`
 * 0 and no byte of `out` changed. Any 375 bytes may be passed. */
uint8_t mt515_write(const uint8_t record[MT515_RECORD], uint8_t *out, size_t room, size_t *written);

/* Takes the message of a batch that begins at a position. Answers
 *   MT515_MESSAGE  its number in `*number`, its line (counted inside the message) and record as mt515_read gives them, and in
 *                  `*next` the position just after it, also after a refusal;
 *   MT515_DONE     the position is the end of the batch: `*number` and `*line` 0;
 *   MT515_BEYOND   the position is past the end: `*number` 21, `*line` 0;
 * the last two with the blank record and with the position itself in `*next`. */
uint8_t mt515_next(const uint8_t *batch, size_t length, size_t position, uint8_t record[MT515_RECORD], size_t *line,
                   size_t *next, uint8_t *number);

#endif

/* cases.h: generated messages, records and batches. A seed and a number tell each of them. A message and a batch are of our own
 * profile, of the pool's, or MT509; a record is of our own, or of an MT509. */
#ifndef CASES_H
#define CASES_H

#include <stdbool.h>
#include <stddef.h>
#include <stdint.h>

#include "bytes.h"

enum { LONGEST_CASE = 16384 };

struct chance {
    uint64_t state;
    bool widest;        /* every text and amount of this case is as wide as it may be */
};

struct bytes {
    size_t length;
    uint8_t at[LONGEST_CASE];
};

void chance_start(struct chance *chance, uint64_t seed, uint64_t number);
size_t below(struct chance *chance, size_t count);      /* 0 to count - 1 */

/* Of which type or profile: our own, the pool's, the MT509. */
enum sort { OURS, POOLS, ANSWERS };

/* A message: accepted, a near miss, or damaged. Answers whether it was damaged by lines: some of them odd ones, or gone. */
bool make_message(struct chance *chance, enum sort sort, struct bytes *message);

/* The 375 bytes of a record: writable, at or past an edge of one of its places, or anything. */
void make_record(struct chance *chance, uint8_t record[RECORD_BYTES]);

/* The record of an MT509: writable, or at or past an edge of one of its places or rules. Answers the number that writing it gets. */
int make_mt509_record(struct chance *chance, struct mt509_record *record);

/* Some messages, now and then one of another profile or type, and pieces of messages, one after another. */
void make_batch(struct chance *chance, enum sort sort, struct bytes *batch);

#endif

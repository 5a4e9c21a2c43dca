/* messages.h: messages to measure with, made from a seed. Kinds, widths and line endings take turns: INST, CANC, MDFC, TDDK, in the
 * pool also CDRQ and CDRL; small with what the kind must have, wide with all that it may have, each at its widest; LF, CR LF. In
 * half of them the seller's block stands first and the LINK blocks run backwards, so that the plain form has work to do. */
#ifndef MESSAGES_H
#define MESSAGES_H

#include <stddef.h>
#include <stdint.h>

enum { MESSAGES = 1000, WIDEST_MESSAGE = 822 };

struct messages {
    size_t start[MESSAGES + 1];      /* where each begins in the batch of them all; the last is its end */
    uint8_t batch[MESSAGES * WIDEST_MESSAGE];
};

/* All are accepted, by the MT515's entries, or by those of the pool. */
void make_messages(struct messages *messages, uint64_t seed);
void make_pool_messages(struct messages *messages, uint64_t seed);

/* The same messages with one fault each, by which all are refused. The faults take turns, and stand anywhere in the message: a
 * byte that no message may have; a line left out; a byte that a value may not have; two lines exchanged; a broken rule, whose
 * refusal has line 0. */
void make_refused(struct messages *refused, const struct messages *messages, uint64_t seed);

#endif

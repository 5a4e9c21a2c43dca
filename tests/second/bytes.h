/* bytes.h: the second program's record as the 375 bytes that include/mt515.h lays out, and back. */
#ifndef BYTES_H
#define BYTES_H

#include "second.h"

enum {
    RECORD_BYTES = 375,
    TEXTS = 15,
    TEXT_BYTES = 1 + WIDEST_TEXT,            /* a length and 20 bytes */
    FIRST_TEXT = 4,                          /* after kind, side, service and GUPP, a byte each */
    FIRST_NUMBER = FIRST_TEXT + TEXTS * TEXT_BYTES,
    NUMBERS = 7,                             /* of 8 bytes, the least first */
    NO_GUPP = 255
};

void second_to_bytes(const struct record *record, uint8_t bytes[RECORD_BYTES]);

/* Any 375 bytes. What no number of the record's type can say becomes one that is as wrong. */
void second_from_bytes(const uint8_t bytes[RECORD_BYTES], struct record *record);

#endif

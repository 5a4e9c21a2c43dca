/* second.h - a second program for the MT515 in two profiles and for the MT509, written without
 * sight of the first program's sources: our own MT515 of four kinds, from document 01 and the
 * readings of it, the pool netting members' of six, from the page of request A1, and the
 * answers that come back, from the page of request A3.
 *
 * It shares no code with the first program; it exists to be compared with it.
 * Nothing here takes memory from the heap and nothing keeps state between calls.
 */
#ifndef SECOND_H
#define SECOND_H

#include <stddef.h>
#include <stdint.h>
#include <stdio.h>

enum {
    LONGEST_READ = 4096,      /* number 1: more is refused */
    LONGEST_WRITTEN = 822,    /* an MDFC with every field at its widest */
    LONGEST_OF_POOL = 752,    /* a CANC or MDFC of the pool, likewise */
    LONGEST_OF_MT509 = 1476,  /* a REJT of either, likewise */
    LONGEST_LISTED = 65536,   /* the lister's input */
    DEEPEST = 8,              /* nesting */
    WIDEST_TEXT = 20,         /* TDID */
    WIDEST_FREE_TEXT = 35,    /* 70D of an MT509 */
    WIDEST_AMOUNT = 15,       /* fourteen digits and a comma */
    FIELDS = 21,              /* slots with a value */
    FIELDS_OF_POOL = 19,
    FIELDS_OF_MT509 = 31,
    STATUSES = 30,            /* of 25D */
    MOST_REASONS = 10         /* REAS */
};

/* "Numbers the desk gets back" */
enum {
    ACCEPTED = 0,
    BAD_LENGTH = 1,
    BAD_BYTE = 2,
    BAD_END = 3,
    BAD_HEADER = 4,
    BAD_SHAPE = 5,
    BAD_CLOSE = 6,
    TOO_DEEP = 7,
    NO_SLOT = 8,
    PASSED_OVER = 9,
    BAD_VALUE = 10,
    BAD_AMOUNT = 11,
    BAD_DATE = 12,
    AGAINST_KIND = 13,
    KIND_MUST = 14,
    KIND_MAY_NOT = 15,
    PAR_ZERO = 16,
    SETTLES_BEFORE_TRADE = 17,
    BAD_RECORD = 18,
    SHORT_BUFFER = 19,
    LONG_NARRATIVE = 20,
    PAST_THE_END = 21,
    TOO_MANY_REASONS = 22
};

/* Code words, each list in the document's order; the blank record holds the first of each.
 * The last two kinds are the pool's alone. */
enum { KIND_INST, KIND_CANC, KIND_MDFC, KIND_TDDK, KIND_CDRQ, KIND_CDRL };
enum { SIDE_BUYI, SIDE_SELL };
enum { WORD_SBOD, WORD_TFTD, WORD_STIP };

/* A text is its bytes and its length, with zero bytes after. Length 0 is absent
 * (in the password: blank). */
struct text {
    size_t length;
    uint8_t bytes[WIDEST_TEXT];
};

/* The same, of any printable characters. */
struct free_text {
    size_t length;
    uint8_t bytes[WIDEST_FREE_TEXT];
};

/* All digits as one whole number, and how many of them are decimals. */
struct amount {
    uint64_t digits;
    unsigned decimals;
};

/* Par, price and money have one form and are never taken for another. */
struct par { struct amount amount; };
struct price { struct amount amount; };
struct money { struct amount amount; };

struct date { unsigned year, month, day; };
struct daytime { unsigned hour, minute, second; };
struct moment { struct date date; struct daytime time; };

struct party {
    struct text code;      /* 95R, exactly 4 c */
    struct text contra;    /* 20C PROC, contra reference */
    struct text tdid;      /* 70C PACO */
};

struct record {
    int kind;                    /* 22F PROC; 23G follows from it */
    struct text password;        /* length 0 is the blank password */
    struct text sender;
    struct text reference;       /* SEME */
    int prep_present;            /* 0 or 1 */
    struct moment prep;
    struct text mast, prev, list;
    struct moment trade;
    struct date settlement;
    struct price price;
    int side;                    /* BUSE */
    struct party buyer, seller;
    struct par par;
    struct text identifier;      /* 35B */
    struct text pool;            /* FIA */
    int word;                    /* TDSV */
    int gupp_present;            /* 0 or 1; GUPP 0 is present */
    unsigned gupp;
    struct text dkrs;
};

struct pool_party {
    struct text code;            /* 95R, exactly 4 c */
    struct text contra;          /* 20C PROC, contra reference */
};

struct pool_record {
    int kind;
    struct text password;
    struct text sender;
    struct text reference;
    struct text mast, prev, list;
    struct moment trade;
    struct date settlement;
    struct price price;
    int money_present;           /* 0 or 1; money of zero is present */
    struct money money;          /* 19A */
    int side;
    struct pool_party buyer, seller;
    struct par par;
    struct text identifier;
    struct text pool;
    int cdry;                    /* 0 or 1 */
    int ddte_present;            /* 0 or 1 */
    struct date ddte;
    struct text dkrs;
};

/* One REAS of an MT509; it stands where its code does. */
struct reason {
    struct text code;            /* 24B, exactly 4 c */
    struct free_text text;       /* 70D */
};

struct mt509_record {
    int copy;                    /* 0 or 1; the rest of 23G follows from the status */
    int status;                  /* 25D, by its place in the list */
    struct text password;
    struct text receiver;
    struct text reference;
    int prep_present;            /* 0 or 1 */
    struct moment prep;
    struct text mast, prev, rela, list, bask, prog, comm;
    struct reason reasons[MOST_REASONS];    /* without a gap */
};

/* A number and a line, counted from 1; line 0 where the number has none. */
struct answer { int number; size_t line; };

/* Write and plain form: on refusal length is 0 and no byte of the buffer changes. */
struct written { int number; size_t line; size_t length; };

/* One field: a stretch of the caller's own message; 0 and 0 for none. */
struct stretch { size_t offset; size_t length; };

/* Batch: a message, "done", or number 21. */
enum { NEXT_MESSAGE, NEXT_DONE, NEXT_PAST };
struct next { int state; struct answer answer; size_t position; };

/* The profiles of the MT515, and the MT509. A record is a struct record by the first, a struct
 * pool_record by the second and a struct mt509_record by the third; each has so many fields as
 * its slots with a value, numbered from 1. */
struct profile;
extern const struct profile second_mt515, second_pool, second_mt509;

/* Room for the record, and for the fields, of any. */
union any_record { struct record mt515; struct pool_record pool; struct mt509_record mt509; };
enum { MOST_FIELDS = FIELDS_OF_MT509 };

void second_blank_by(const struct profile *by, void *record);
struct answer second_read_by(const struct profile *by, const uint8_t *message, size_t length, void *record);
struct written second_plain_by(const struct profile *by, const uint8_t *message, size_t length, uint8_t *buffer, size_t room);
struct written second_write_by(const struct profile *by, const void *record, uint8_t *buffer, size_t room);
struct next second_next_by(const struct profile *by, const uint8_t *batch, size_t length, size_t position, void *record);
struct stretch second_field_by(const struct profile *by, const uint8_t *message, size_t length, size_t field);

/* All fields by their numbers: at 0 the empty one; behind the last the password, and behind that the sender, or the receiver of an
 * MT509. Answers as the read. */
struct answer second_fields_by(const struct profile *by, const uint8_t *message, size_t length, struct stretch fields[MOST_FIELDS + 3]);

/* The same of our own profile. */
void second_blank(struct record *record);
struct answer second_read(const uint8_t *message, size_t length, struct record *record);
struct written second_plain(const uint8_t *message, size_t length, uint8_t *buffer, size_t room);
struct written second_write(const struct record *record, uint8_t *buffer, size_t room);
struct next second_next(const uint8_t *batch, size_t length, size_t position, struct record *record);
struct stretch second_field(const uint8_t *message, size_t length, unsigned field);

/* The shortest form of an amount, ended by a zero byte. */
void second_amount_text(const struct amount *amount, char out[WIDEST_AMOUNT + 8]);
const char *second_kind_text(int kind);

/* The words of 25D, ended by NULL: qualifier, issuer and word. */
extern const char *const second_statuses[STATUSES + 1];

/* One line of the lister, and the whole of what it prints. */
void second_lister_line(FILE *out, size_t message, struct answer answer, const struct record *record);
void second_lister(FILE *out, const uint8_t *input, size_t length);

/* Of an MT509 what the list of answers has behind its number and line; and the whole list, with the lister's limits. */
void second_answers_columns(FILE *out, struct answer answer, const struct mt509_record *record);
void second_answers(FILE *out, const uint8_t *input, size_t length);

#endif

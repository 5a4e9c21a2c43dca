/* lent.h: what the tests of the C entries share: counting what is tried; what is lent, which stands between guard bytes, a message
 * ending just before a page that may not be touched; the two sample messages. */
#ifndef LENT_H
#define LENT_H

#include <stdbool.h>
#include <stdint.h>
#include <stdio.h>
#include <stdlib.h>
#include <string.h>
#include <sys/mman.h>

/* ---------------------------------------------------------------- what was tried, and how it went */

static unsigned tried, failed;

static inline void want(bool holds, const char *what, size_t at)
{
    tried++;
    if (holds)
        return;
    failed++;
    if (failed <= 20)
        printf("FAILED: %s (at %zu)\n", what, at);
}

static inline void heading(const char *what)
{
    printf("%s\n", what);
    fflush(stdout);
}

/* The last line, and the status to end with. */
static inline int verdict(const char *what)
{
    if (failed > 0)
        printf("FAILED: %u of %u comparisons\n", failed, tried);
    else
        printf("ok, %s: %u comparisons\n", what, tried);
    return failed > 0;
}

/* ---------------------------------------------------------------- what is lent */

enum { GUARD = 64, MARK = 0xA5, PAGE = 4096, LENDABLE = 3 * PAGE, BUFFER = 1600 };

static inline bool all(const uint8_t *bytes, size_t length, uint8_t value)
{
    for (size_t i = 0; i < length; i++)
        if (bytes[i] != value)
            return false;
    return true;
}

/* A buffer, a number and a byte between guards. */
struct buffer { uint8_t before[GUARD], bytes[BUFFER], behind[GUARD]; };
struct number { uint8_t before[GUARD]; size_t value; uint8_t behind[GUARD]; };
struct byte { uint8_t before[GUARD], value, behind[GUARD]; };

#define MARKED(lent) memset(&(lent), MARK, sizeof (lent))
#define GUARDED(lent, at) \
    want(all((lent).before, GUARD, MARK) && all((lent).behind, GUARD, MARK), "a guard of " #lent " was changed", at)

/* The message, copied so that it ends just before a page that may not be touched, with a guard before it. */
static inline const uint8_t *lend(const void *bytes, size_t length)
{
    static uint8_t *fence;
    if (!fence) {
        uint8_t *pages = mmap(NULL, LENDABLE + PAGE, PROT_READ | PROT_WRITE, MAP_PRIVATE | MAP_ANONYMOUS, -1, 0);
        if (pages == MAP_FAILED || mprotect(pages + LENDABLE, PAGE, PROT_NONE) != 0) {
            puts("no pages to lend");
            exit(2);
        }
        fence = pages + LENDABLE;
    }
    memcpy(fence - length, bytes, length);
    memset(fence - length - GUARD, MARK, GUARD);
    return fence - length;
}

/* Whether it is still what was copied, and its guard too. */
static inline bool stands(const uint8_t *lent, const void *bytes, size_t length)
{
    return memcmp(lent, bytes, length) == 0 && all(lent - GUARD, GUARD, MARK);
}

/* What an entry answers that writes into a buffer. */
struct written { uint8_t number; size_t line, length; };

/* What is lent of a buffer ends at the room: all behind it, and all of it beside a refusal, must stand. */
static inline void untouched(const struct buffer *out, struct written w, size_t room)
{
    size_t from = w.number == 0 ? w.length : 0;
    want(w.number == 0 || w.length == 0, "a length beside a refusal", room);
    want(w.length <= room, "more was written than there is room", room);
    want(from <= BUFFER && all(out->bytes + from, BUFFER - from, MARK), "a byte changed that must stand", room);
}

/* ---------------------------------------------------------------- messages */

/* The place of the first byte of a line of a message, counted from 1. */
static inline size_t line_start(const char *message, size_t line)
{
    const char *at = message;
    while (line-- > 1)
        at = strchr(at, '\n') + 1;
    return (size_t)(at - message);
}

/* The message B of document 01. */
static const char B[] =
    "\n"
    "0017\n"
    "515/000/GSCC\n"
    "MBSCTRRS\n"
    ":16R:GENL\n"
    ":20C::SEME//0008\n"
    ":23G:NEWM\n"
    ":22F::TRTR/GSCC/CASH\n"
    ":16R:LINK\n"
    ":20C::MAST//0017\n"
    ":16S:LINK\n"
    ":16S:GENL\n"
    ":16R:CONFDET\n"
    ":98C::TRAD//20240229093000\n"
    ":98A::SETT//20240313\n"
    ":90A::DEAL//PRCT/99,50\n"
    ":22H::BUSE//BUYI\n"
    ":22F::PROC/GSCC/INST\n"
    ":22H::PAYM//APMT\n"
    ":16R:CONFPRTY\n"
    ":95R::SELL/GSCC/PART0015\n"
    ":16S:CONFPRTY\n"
    ":16R:CONFPRTY\n"
    ":95R::BUYR/GSCC/PART0017\n"
    ":16S:CONFPRTY\n"
    ":36B::CONF//FAMT/0001000000,\n"
    ":35B:/US/01F070633\n"
    ":70E::TPRO//GSCC/TDSVSTIP\n"
    ":16S:CONFDET\n"
    "-\n";

/* The message P of request A1, of the pool netting members. */
static const char P[] =
    "\n"
    "0017\n"
    "515/000/DTCY\n"
    "MBSCPNET\n"
    ":16R:GENL\n"
    ":20C::SEME//0008\n"
    ":23G:NEWM\n"
    ":22F::TRTR/DTCY/CASH\n"
    ":16R:LINK\n"
    ":20C::MAST//0017\n"
    ":16S:LINK\n"
    ":16S:GENL\n"
    ":16R:CONFDET\n"
    ":98C::TRAD//20240229000000\n"
    ":98A::SETT//20240313\n"
    ":90A::DEAL//PRCT/99,50\n"
    ":19A::SETT//USD0,00\n"
    ":22H::BUSE//BUYI\n"
    ":22F::PROC/DTCY/INST\n"
    ":22H::PAYM//APMT\n"
    ":16R:CONFPRTY\n"
    ":95R::SELL/DTCY/PART0015\n"
    ":16S:CONFPRTY\n"
    ":16R:CONFPRTY\n"
    ":95R::BUYR/DTCY/PART0017\n"
    ":16S:CONFPRTY\n"
    ":36B::CONF//FAMT/0001000000,\n"
    ":35B:/US/01F070633\n"
    ":16R:FIA\n"
    ":13B::POOL/DTCY/123456\n"
    ":16S:FIA\n"
    ":70E::TPRO//DTCY/TDSVPOOL/CDRY/DDTE20240313\n"
    ":16S:CONFDET\n"
    "-\n";

#endif

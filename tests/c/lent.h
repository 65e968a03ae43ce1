/* Memory to lend to the library, so that a byte touched outside a slice is seen.
 *
 * Each slice has an arena of its own: pages between two that can neither be read nor written. A slice ends at the upper of
 * these, or starts at the lower one, or lies between; where it does not touch such a page, bytes of a pattern guard it, which
 * are looked at after each call. */
#ifndef PAWDOKU_TESTS_LENT_H
#define PAWDOKU_TESTS_LENT_H

#include <stddef.h>
#include <stdint.h>
#include <stdio.h>
#include <stdlib.h>
#include <string.h>
#include <sys/mman.h>

enum { LENT_PAGE = 4096, LENT_ARENA = 4 * LENT_PAGE, LENT_MOST = 3 * LENT_PAGE, LENT_GUARD = 64 };

/* ---- random numbers: the same for the same seed, everywhere */

static uint64_t random_state;

static uint64_t random_next(void)
{
    uint64_t z = (random_state += 0x9e3779b97f4a7c15u);
    z = (z ^ (z >> 30)) * 0xbf58476d1ce4e5b9u;
    z = (z ^ (z >> 27)) * 0x94d049bb133111ebu;
    return z ^ (z >> 31);
}

/* One of 0 to n - 1. */
static size_t below(size_t n)
{
    return (size_t)(random_next() % n);
}

static int one_in(size_t n)
{
    return below(n) == 0;
}

static uint8_t any_byte(void)
{
    return (uint8_t)random_next();
}

static void spoil(uint8_t *bytes, size_t length)
{
    size_t at = below(length);
    bytes[at] = any_byte();
}

/* ---- slices */

struct lent {
    uint8_t *arena;
    uint8_t *bytes;
    uint8_t *pointer;                  /* to pass: that of an empty slice may be null */
    size_t length;
    size_t before, behind;             /* how many guard bytes stand there */
    uint8_t copy[LENT_MOST];           /* as it was when it was lent */
};

static void lent_make(struct lent *l)
{
    uint8_t *pages = mmap(NULL, LENT_ARENA + 2 * LENT_PAGE, PROT_READ | PROT_WRITE, MAP_PRIVATE | MAP_ANONYMOUS, -1, 0);
    if (pages == MAP_FAILED || mprotect(pages, LENT_PAGE, PROT_NONE) != 0
        || mprotect(pages + LENT_PAGE + LENT_ARENA, LENT_PAGE, PROT_NONE) != 0) {
        fprintf(stderr, "no memory to lend\n");
        exit(2);
    }
    l->arena = pages + LENT_PAGE;
}

static uint8_t guard_byte(size_t i)
{
    return (uint8_t)(0xa5 ^ (7 * i));
}

/* Where the slice stands: at the end, at the start, or between. */
static void lent_stand(struct lent *l, size_t length)
{
    size_t room = LENT_ARENA - length;
    size_t at = 0;
    switch (below(3)) {
    case 0: at = room; break;
    case 1: at = 0; break;
    default: at = LENT_GUARD + below(room - 2 * LENT_GUARD); break;
    }
    l->length = length;
    l->before = at < LENT_GUARD ? at : LENT_GUARD;
    l->behind = room - at < LENT_GUARD ? room - at : LENT_GUARD;
    l->bytes = l->arena + at;
}

static void lent_guard(struct lent *l)
{
    for (size_t i = 0; i < l->before; i++)
        l->bytes[-1 - (ptrdiff_t)i] = guard_byte(i);
    for (size_t i = 0; i < l->behind; i++)
        l->bytes[l->length + i] = guard_byte(i);
}

/* Lends `length` bytes, those of `from`. */
static void lend(struct lent *l, const uint8_t *from, size_t length)
{
    lent_stand(l, length);
    lent_guard(l);
    memcpy(l->bytes, from, length);
    memcpy(l->copy, from, length);
    l->pointer = length == 0 && one_in(2) ? NULL : l->bytes;
}

static int guards_stand(const struct lent *l)
{
    for (size_t i = 0; i < l->before; i++)
        if (l->bytes[-1 - (ptrdiff_t)i] != guard_byte(i))
            return 0;
    for (size_t i = 0; i < l->behind; i++)
        if (l->bytes[l->length + i] != guard_byte(i))
            return 0;
    return 1;
}

/* Whether the bytes from `start` on are those that were lent. */
static int unchanged_from(const struct lent *l, size_t start)
{
    return start >= l->length || memcmp(l->bytes + start, l->copy + start, l->length - start) == 0;
}

static int is_zero(const uint8_t *bytes, size_t length)
{
    return length == 0 || (bytes[0] == 0 && memcmp(bytes, bytes + 1, length - 1) == 0);
}

#endif

/* What all kernels share: the checks of a call in the library's order, and packing. Each kernel takes k and t as arguments and is inlined always, so
   that a call of it with constants is compiled for these. */
#pragma once
#include <stdbool.h>
#include <stddef.h>
#include <stdint.h>
#include "../../include/saxweylur.h"

#define KERNEL static inline __attribute__((always_inline))

enum refusal { MODULUS = 1, LENGTH, BATCH, WIDTH, NARROW, ROOM, COEFFICIENT = 8, SHAPE, SHORT, WORD, RECORD, FULL, NO_TABLE, STALE };

typedef struct { uint64_t p, k, t, n; } setting;

static inline sax_reply answered(uint64_t value) { return (sax_reply){0, 0, value}; }
static inline sax_reply refused(uint64_t number, uint64_t place) { return (sax_reply){number, place, 0}; }

/* The number of a setting's refusal, or 0. */
static inline uint64_t setting_cause(setting s)
{
    if (s.p < 2 || s.p > 65536) return MODULUS;
    if (s.k < 1 || s.k > 8) return LENGTH;
    if (s.n < 1 || s.n > 1048576) return BATCH;
    if (s.t < 1 || s.t > 63) return WIDTH;
    if (UINT64_C(1) << s.t <= s.n * s.k * (s.p - 1) * (s.p - 1)) return NARROW;
    if ((2 * s.k - 1) * s.t >= 64) return ROOM;
    return 0;
}

static inline bool word_cause(setting s, uint64_t word) { return word >> (2 * s.k - 1) * s.t != 0; }

/* The index of the first coefficient that is not below p, or the list's length. */
static inline size_t search_bad(uint64_t p, const uint16_t *xs, size_t len)
{
    for (size_t i = 0; i < len; i++)
        if (xs[i] >= p) return i;
    return len;
}

/* In the better kernels the largest is taken first, which vector instructions do, and the place is searched for only where it is not below p. */
static inline size_t first_bad(uint64_t p, const uint16_t *xs, size_t len)
{
    uint16_t most = 0;
    if (!BETTER) return search_bad(p, xs, len);
    for (size_t i = 0; i < len; i++) most = xs[i] > most ? xs[i] : most;
    return most < p ? len : search_bad(p, xs, len);
}

static inline size_t first_bad_of_two(uint64_t p, const uint16_t *xs, size_t xs_len, const uint16_t *ys, size_t ys_len)
{
    size_t bad = first_bad(p, xs, xs_len);
    return bad < xs_len ? bad : xs_len + first_bad(p, ys, ys_len);
}

KERNEL uint64_t pack(const uint16_t *xs, uint64_t k, uint64_t t)
{
    uint64_t word = 0;
    for (size_t i = k; i-- > 0;) word = word << t | xs[i];
    return word;
}

KERNEL uint64_t field(uint64_t word, size_t i, uint64_t t) { return word >> i * t & ((UINT64_C(1) << t) - 1); }

/* A remainder of 32-bit numbers where the field is one. */
KERNEL uint64_t remainder_of(uint64_t x, uint64_t p, uint64_t t) { return t <= 31 ? (uint32_t)x % (uint32_t)p : x % p; }

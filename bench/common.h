/* What every counted program shares: the inputs, which are the same on each run, and the checksum of a result. */
#pragma once
#include <stdint.h>
#include <stdio.h>
#include <stdlib.h>
#include "marks.h"

/* splitmix64 */
static inline uint64_t next_number(uint64_t *state)
{
    uint64_t z = (*state += 0x9e3779b97f4a7c15u);
    z = (z ^ (z >> 30)) * 0xbf58476d1ce4e5b9u;
    z = (z ^ (z >> 27)) * 0x94d049bb133111ebu;
    return z ^ (z >> 31);
}

/* len coefficients below p; list 1 and list 2 of one p differ */
static inline uint16_t *coefficients(uint64_t p, uint64_t list, size_t len)
{
    uint16_t *xs = (uint16_t *)malloc(len * sizeof *xs);
    uint64_t state = p << 8 | list;
    if (!xs) exit(2);
    for (size_t i = 0; i < len; i++) xs[i] = (uint16_t)(next_number(&state) % p);
    return xs;
}

static inline uint64_t checksum(uint64_t sum, uint64_t value)
{
    return (sum ^ value) * 0x100000001b3u + 1;
}

static inline void print_checksum(uint64_t sum)
{
    printf("%016llx\n", (unsigned long long)sum);
}

/*
 * A first program: a width is chosen, pairs of polynomials are multiplied and added up, a table is
 * built and used, and a refusal is read.
 */
#include "saxweylur.h"

#include <inttypes.h>
#include <stdio.h>

/* Most programs print what was refused and stop; the number says why, the place where. */
static int refused(const char *call, sax_reply r)
{
    if (r.number != SAX_NO_REFUSAL)
        printf("%s: refused with %" PRIu64 ", place %" PRIu64 "\n", call, r.number, r.place);
    return r.number != SAX_NO_REFUSAL;
}

/* Three times the pair 1 + 2x, 2 + 2x, modulo 3, of which a word takes n = 2 products. */
static int add_up(uint64_t p, uint64_t k, uint64_t t, uint64_t n)
{
    const uint16_t xs[] = {1, 2, 1, 2, 1, 2}, ys[] = {2, 2, 2, 2, 2, 2};
    uint16_t sum[3];
    sax_reply r = sax_sum(p, k, t, n, xs, 6, ys, 6, 0, sum, 3);
    if (refused("sum", r))
        return 1;
    printf("sum: %d %d %d, %" PRIu64 " reductions\n", sum[0], sum[1], sum[2], r.value);
    return 0;
}

/* A table is built once and may be kept; each use tests whether it is the setting's. */
static int reduce(uint64_t p, uint64_t k, uint64_t t, uint64_t n)
{
    uint8_t table[SAX_MOST_TABLE_BYTES];
    const uint64_t words[] = {4290, 2145};
    uint64_t reduced[2];
    sax_reply built = sax_build_table(p, k, t, n, table, sizeof table);
    if (refused("build_table", built))
        return 1;
    sax_reply r = sax_reduce_by_table(p, k, t, n, table, (size_t)built.value, words, 2, reduced, 2);
    if (refused("reduce_by_table", r))
        return 1;
    printf("reduced: %" PRIu64 " %" PRIu64 "\n", reduced[0], reduced[1]);
    return 0;
}

int main(void)
{
    const uint64_t p = 3, k = 2, n = 2;
    const uint16_t bad[] = {1, 3};
    sax_reply width = sax_choose(p, k, n);
    if (refused("choose", width))
        return 1;
    printf("width: %" PRIu64 "\n", width.value);
    if (add_up(p, k, width.value, n) || reduce(p, k, width.value, n))
        return 1;

    /* 3 is no coefficient modulo 3: refusal 8, at index 1. */
    sax_reply r = sax_pack(p, k, width.value, n, bad, 2);
    return refused("pack", r) && r.number == SAX_COEFFICIENT && r.place == 1 ? 0 : 1;
}

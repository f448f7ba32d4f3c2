/* The product of two lists in packed words. Both lists are packed once, the second backwards, so that both run forwards; each pair of blocks that meet
   takes one multiplication, and up to n products are added before the word is split.

   The plain kernel takes the remainder of every field at each split. The better one takes one remainder a coefficient at the end, and says that words
   are below 2^32, as the setting's checks make them, so that vector instructions multiply them. */
#include <string.h>
#include "checks.h"

enum { MOST = 4096 };

#if BETTER
typedef uint32_t block; /* k coefficients, packed */
typedef uint64_t part;  /* of a coefficient: a sum of fields */
#else
typedef uint64_t block;
typedef uint32_t part; /* a sum of fields modulo p, below 2^29 */
#endif

KERNEL part part_of(uint64_t f, uint64_t p, uint64_t t) { return BETTER ? f : remainder_of(f, p, t); }

KERNEL void pack_list(const uint16_t *xs, size_t len, uint64_t k, uint64_t t, block *words, ptrdiff_t step)
{
    uint16_t last[8] = {0};
    size_t full = len / k, rest = len % k;
    for (size_t i = 0; i < full; i++, words += step) *words = (block)pack(xs + i * k, k, t);
    if (rest == 0) return;
    for (size_t i = 0; i < rest; i++) last[i] = xs[full * k + i];
    *words = (block)pack(last, k, t);
}

/* The products of len pairs of words, added to the parts of 2k-1 coefficients. */
KERNEL void add_column(setting s, uint64_t k, uint64_t t, const block *x, const block *y, size_t len, part *parts)
{
    part sums[15] = {0};
    while (len > 0) {
        size_t count = len < s.n ? len : s.n;
        uint64_t word = 0;
        for (size_t i = 0; i < count; i++) word += (uint64_t)x[i] * y[i];
        for (size_t j = 0; j < 2 * k - 1; j++) sums[j] += part_of(field(word, j, t), s.p, t);
        x += count, y += count, len -= count;
    }
    for (size_t j = 0; j < 2 * k - 1; j++) parts[j] += sums[j];
}

KERNEL void multiply(setting s, uint64_t k, uint64_t t, const uint16_t *a, size_t la, const uint16_t *b, size_t lb, uint16_t *out)
{
    block xs[MOST], ys[MOST];
    part parts[2 * MOST + 16];
    size_t m = (la + k - 1) / k, n = (lb + k - 1) / k;
    pack_list(a, la, k, t, xs, 1);
    pack_list(b, lb, k, t, ys + n - 1, -1);
    memset(parts, 0, (m + n) * k * sizeof *parts);
    for (size_t z = 0; z < m + n - 1; z++) {
        size_t low = z < n ? 0 : z - n + 1, high = z < m ? z + 1 : m;
        add_column(s, k, t, xs + low, ys + (n - 1 + low - z), high - low, parts + z * k);
    }
    for (size_t j = 0; j < la + lb - 1; j++) out[j] = (uint16_t)(parts[j] % s.p);
}

/* The settings that are measured have a kernel of their own. */
static void multiply_any(setting s, const uint16_t *a, size_t la, const uint16_t *b, size_t lb, uint16_t *out)
{
    if (s.k == 4 && s.t == 9) multiply(s, 4, 9, a, la, b, lb, out);
    else if (s.k == 3 && s.t == 12) multiply(s, 3, 12, a, la, b, lb, out);
    else if (s.k == 2 && s.t == 21) multiply(s, 2, 21, a, la, b, lb, out);
    else if (s.k == 1 && s.t == 63) multiply(s, 1, 63, a, la, b, lb, out);
    else multiply(s, s.k, s.t, a, la, b, lb, out);
}

sax_reply sax_product(uint64_t p, uint64_t k, uint64_t t, uint64_t n, const uint16_t *a, size_t a_len, const uint16_t *b, size_t b_len, uint16_t *out, size_t out_len)
{
    setting s = {p, k, t, n};
    uint64_t cause = setting_cause(s);
    if (cause) return refused(cause, 0);
    if (a_len > MOST || b_len > MOST) return refused(SHAPE, 0);
    size_t bad = first_bad_of_two(p, a, a_len, b, b_len);
    if (bad < a_len + b_len) return refused(COEFFICIENT, bad);
    if (a_len == 0 || b_len == 0) return answered(0);
    size_t len = a_len + b_len - 1;
    if (out_len < len) return refused(SHORT, 0);
    multiply_any(s, a, a_len, b, b_len, out);
    return answered(len);
}

/* The sum of the products of many pairs: a record that is fed some pairs at a time, and closed. Each pair takes one multiplication; the word is split as
   soon as it holds n products. */
#include "checks.h"

enum { MOST_PAIRS = 1000000, PLACES = 15 };

typedef struct {
    setting s;
    uint64_t total, word;
    uint16_t residues[PLACES];
} record;

/* What every feed tests of its record. */
static bool coherent(const record *r)
{
    setting s = r->s;
    if (setting_cause(s) || r->total > MOST_PAIRS || word_cause(s, r->word)) return false;
    uint64_t places = 2 * s.k - 1, each = r->total % s.n * (s.p - 1) * (s.p - 1);
    for (size_t j = 0; j < PLACES; j++)
        if (j < places ? r->residues[j] >= s.p : r->residues[j] != 0) return false;
    for (size_t j = 0; j < places; j++)
        if (field(r->word, j, s.t) > each * (j + 1 < places - j ? j + 1 : places - j)) return false;
    return true;
}

KERNEL void split(const record *r, uint64_t k, uint64_t t, uint64_t word, uint16_t *out)
{
    for (size_t j = 0; j < 2 * k - 1; j++) out[j] = (uint16_t)remainder_of(r->residues[j] + field(word, j, t), r->s.p, t);
}

KERNEL void add_pairs(record *r, uint64_t k, uint64_t t, const uint16_t *xs, const uint16_t *ys, size_t pairs)
{
    uint64_t n = r->s.n, word = r->word, left = n - r->total % n;
    r->total += pairs;
    while (pairs > 0) {
        size_t count = pairs < left ? pairs : left;
        for (size_t i = 0; i < count; i++) word += pack(xs + i * k, k, t) * pack(ys + i * k, k, t);
        xs += count * k, ys += count * k, pairs -= count, left -= count;
        if (left > 0) break;
        split(r, k, t, word, r->residues);
        word = 0, left = n;
    }
    r->word = word;
}

/* The number and place of a refusal, or that nothing is refused. */
static sax_reply feed(record *r, const uint16_t *xs, size_t xs_len, const uint16_t *ys, size_t ys_len)
{
    if (!coherent(r)) return refused(RECORD, 0);
    uint64_t p = r->s.p, k = r->s.k;
    if (xs_len != ys_len || xs_len % k != 0) return refused(SHAPE, 0);
    if (r->total + xs_len / k > MOST_PAIRS) return refused(FULL, 0);
    size_t bad = first_bad_of_two(p, xs, xs_len, ys, ys_len);
    if (bad < xs_len + ys_len) return refused(COEFFICIENT, bad);
    if (k == 4 && r->s.t == 9) add_pairs(r, 4, 9, xs, ys, xs_len / 4);
    else add_pairs(r, k, r->s.t, xs, ys, xs_len / k);
    return answered(xs_len / k);
}

static sax_reply close_record(const record *r, uint16_t *out, size_t out_len)
{
    setting s = r->s;
    if (!coherent(r)) return refused(RECORD, 0);
    if (out_len < 2 * s.k - 1) return refused(SHORT, 0);
    split(r, s.k, s.t, r->word, out);
    return answered((r->total + s.n - 1) / s.n);
}

/* Where a call is refused, feed is asked about all pairs, so that the refusal speaks of the whole lists. */
sax_reply sax_sum(uint64_t p, uint64_t k, uint64_t t, uint64_t n, const uint16_t *xs, size_t xs_len, const uint16_t *ys, size_t ys_len, size_t size, uint16_t *out, size_t out_len)
{
    record fresh = {.s = {p, k, t, n}}, r = fresh;
    uint64_t cause = setting_cause(r.s);
    if (cause) return refused(cause, 0);
    if (xs_len != ys_len) return refused(SHAPE, 0);
    size_t step = size > 0 && size <= xs_len / k ? size * k : xs_len;
    for (size_t at = 0; at < xs_len; at += step) {
        size_t len = xs_len - at < step ? xs_len - at : step;
        if (feed(&r, xs + at, len, ys + at, len).number != 0) return feed(&fresh, xs, xs_len, ys, ys_len);
    }
    return close_record(&r, out, out_len);
}

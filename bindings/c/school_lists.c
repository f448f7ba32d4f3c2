/* The definitions of products, sums and the double lane. */
#include "school.h"

#include <string.h>

/* Coefficient j of the product. At most 4,096 products below 2^32 stay below 2^64. */
static uint16_t product_at(uint64_t p, const uint16_t *a, size_t a_len,
                           const uint16_t *b, size_t b_len, size_t j)
{
    uint64_t total = 0;
    for (size_t i = j < b_len ? 0 : j - b_len + 1; i < a_len && i <= j; i++)
        total += (uint64_t)a[i] * b[j - i];
    return (uint16_t)(total % p);
}

sax_reply school_product(setting s, const uint16_t *a, size_t a_len,
                         const uint16_t *b, size_t b_len, uint16_t *out, size_t out_len)
{
    uint64_t number = school_setting(s);
    if (number != 0)
        return school_refusal(number, 0);
    if (a_len > 4096 || b_len > 4096)
        return school_refusal(9, 0);
    size_t bad = school_first_bad(s.p, a, a_len, b, b_len);
    if (bad < a_len + b_len)
        return school_refusal(8, bad);
    size_t length = a_len == 0 || b_len == 0 ? 0 : a_len + b_len - 1;
    if (out_len < length)
        return school_refusal(10, 0);
    for (size_t j = 0; j < length; j++)
        out[j] = product_at(s.p, a, a_len, b, b_len, j);
    return school_answer(length);
}

/* Adds the product of each pair to sums, of 2k-1 elements; modulo p unless p is 0. */
static void add_pairs(setting s, uint64_t p, const uint16_t *xs, const uint16_t *ys, size_t len,
                      uint64_t *sums)
{
    for (size_t at = 0; at < len; at += (size_t)s.k)
        for (size_t i = 0; i < s.k; i++)
            for (size_t j = 0; j < s.k; j++) {
                uint64_t sum = sums[i + j] + (uint64_t)xs[at + i] * ys[at + j];
                sums[i + j] = p == 0 ? sum : sum % p;
            }
}

/* 9, 13 and 8, with at most `most` pairs. */
static sax_reply check_pairs(setting s, const uint16_t *xs, size_t xs_len,
                             const uint16_t *ys, size_t ys_len, uint64_t most)
{
    if (xs_len != ys_len || xs_len % s.k != 0)
        return school_refusal(9, 0);
    if (xs_len / s.k > most)
        return school_refusal(13, 0);
    size_t bad = school_first_bad(s.p, xs, xs_len, ys, ys_len);
    if (bad < xs_len + ys_len)
        return school_refusal(8, bad);
    return school_answer(0);
}

sax_reply school_sum(setting s, const uint16_t *xs, size_t xs_len,
                     const uint16_t *ys, size_t ys_len, uint16_t *out, size_t out_len)
{
    uint64_t number = school_setting(s), sums[15] = {0};
    if (number != 0)
        return school_refusal(number, 0);
    sax_reply checked = check_pairs(s, xs, xs_len, ys, ys_len, 1000000);
    if (checked.number != 0)
        return checked;
    if (out_len < school_places(s))
        return school_refusal(10, 0);
    add_pairs(s, s.p, xs, ys, xs_len, sums);
    for (size_t j = 0; j < school_places(s); j++)
        out[j] = (uint16_t)sums[j];
    return school_answer((xs_len / s.k + s.n - 1) / s.n);
}

static sax_lane_reply lane_reply(sax_reply r)
{
    sax_lane_reply lane = {r.number, r.place, (double)r.value};
    return lane;
}

static sax_reply check_lane(setting s)
{
    uint64_t number = school_setting(s);
    if (number == 0 && school_places(s) * s.t >= 53)
        number = 16;
    return school_refusal(number, 0);
}

sax_lane_reply school_lane_sum(setting s, const uint16_t *xs, size_t xs_len,
                               const uint16_t *ys, size_t ys_len)
{
    uint64_t sums[15] = {0}, word = 0;
    sax_reply checked = check_lane(s);
    if (checked.number == 0)
        checked = check_pairs(s, xs, xs_len, ys, ys_len, s.n);
    if (checked.number != 0)
        return lane_reply(checked);
    add_pairs(s, 0, xs, ys, xs_len, sums);
    for (size_t j = 0; j < school_places(s); j++)
        word += sums[j] << (j * s.t);
    return lane_reply(school_answer(word));
}

/* The sign is looked at in the bits, since -0.0 compares as 0.0 does. */
static int improper(setting s, double word)
{
    double limit = (double)((uint64_t)1 << (school_places(s) * s.t));
    uint64_t bits;
    memcpy(&bits, &word, sizeof bits);
    if (bits >> 63 != 0 || word != word || word >= limit)
        return 1;
    return (double)(uint64_t)word < word;
}

sax_lane_reply school_lane_reduce(setting s, double word)
{
    sax_reply checked = check_lane(s);
    if (checked.number == 0 && improper(s, word))
        checked = school_refusal(11, 0);
    if (checked.number != 0)
        return lane_reply(checked);
    return lane_reply(school_answer(school_reduced(s, (uint64_t)word)));
}

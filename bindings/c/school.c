/* The definitions of settings and places. */
#include "school.h"

sax_reply school_answer(uint64_t value)
{
    sax_reply r = {0, 0, value};
    return r;
}

sax_reply school_refusal(uint64_t number, uint64_t place)
{
    sax_reply r = {number, place, 0};
    return r;
}

uint64_t school_setting(setting s)
{
    if (s.p < 2 || s.p > 65536)
        return 1;
    if (s.k < 1 || s.k > 8)
        return 2;
    if (s.n < 1 || s.n > 1048576)
        return 3;
    if (s.t < 1 || s.t > 63)
        return 4;
    /* Past 1, 2 and 3 the right side is below 2^55. */
    if ((uint64_t)1 << s.t <= s.n * s.k * (s.p - 1) * (s.p - 1))
        return 5;
    if ((2 * s.k - 1) * s.t >= 64)
        return 6;
    return 0;
}

sax_reply school_choose(uint64_t p, uint64_t k, uint64_t n)
{
    for (uint64_t t = 1; t <= 63; t++) {
        setting s = {p, k, t, n};
        uint64_t number = school_setting(s);
        if (number == 0)
            return school_answer(t);
        if (number <= 3)
            return school_refusal(number, 0);
    }
    return school_refusal(7, 0);
}

uint64_t school_places(setting s)
{
    return 2 * s.k - 1;
}

int school_too_large(setting s, uint64_t word)
{
    return word >> (school_places(s) * s.t) != 0;
}

size_t school_first_bad(uint64_t p, const uint16_t *xs, size_t xs_len,
                        const uint16_t *ys, size_t ys_len)
{
    for (size_t i = 0; i < xs_len; i++)
        if (xs[i] >= p)
            return i;
    for (size_t i = 0; i < ys_len; i++)
        if (ys[i] >= p)
            return xs_len + i;
    return xs_len + ys_len;
}

sax_reply school_pack(setting s, const uint16_t *xs, size_t len)
{
    uint64_t number = school_setting(s), word = 0;
    if (number != 0)
        return school_refusal(number, 0);
    if (len != s.k)
        return school_refusal(9, 0);
    size_t bad = school_first_bad(s.p, xs, len, NULL, 0);
    if (bad < len)
        return school_refusal(8, bad);
    for (size_t i = 0; i < len; i++)
        word += (uint64_t)xs[i] << (i * s.t);
    return school_answer(word);
}

static uint64_t field(setting s, uint64_t word, uint64_t i)
{
    return (word >> (i * s.t)) & (((uint64_t)1 << s.t) - 1);
}

sax_reply school_unpack(setting s, uint64_t word, uint64_t *out, size_t out_len)
{
    uint64_t number = school_setting(s);
    if (number != 0)
        return school_refusal(number, 0);
    if (school_too_large(s, word))
        return school_refusal(11, 0);
    if (out_len < school_places(s))
        return school_refusal(10, 0);
    for (uint64_t i = 0; i < school_places(s); i++)
        out[i] = field(s, word, i);
    return school_answer(school_places(s));
}

uint64_t school_reduced(setting s, uint64_t word)
{
    uint64_t reduced = 0;
    for (uint64_t i = 0; i < school_places(s); i++)
        reduced += field(s, word, i) % s.p << (i * s.t);
    return reduced;
}

sax_reply school_reduce(setting s, uint64_t word)
{
    uint64_t number = school_setting(s);
    if (number != 0)
        return school_refusal(number, 0);
    if (school_too_large(s, word))
        return school_refusal(11, 0);
    return school_answer(school_reduced(s, word));
}

/* Pack, unpack and reduce. */
#include "test.h"

static void examples(void)
{
    setting s = make_setting(3, 2, 4, 1);
    static const uint16_t a[2] = {1, 2}, b[2] = {2, 2};
    meant_value(try_pack(s, a, 2), 33);
    meant_value(try_pack(s, b, 2), 34);
    meant_value(try_unpack(s, 1122, 3), 3);
    meant_value(try_reduce(s, 1122), 258);
}

/* A coefficient p at each index, alone and before another one; and beside a wrong length. */
static void pack_bad(setting s, uint16_t *xs)
{
    if (s.p == 65536)
        return;
    for (size_t i = 0; i < s.k; i++) {
        uint16_t kept = xs[i];
        xs[i] = (uint16_t)s.p;
        meant(try_pack(s, xs, (size_t)s.k), 8, i);
        meant(try_pack(s, xs, (size_t)s.k + 1), 9, 0);
        xs[i] = 65535;
        meant(try_pack(s, xs, (size_t)s.k), 8, i);
        xs[i] = kept;
    }
    xs[0] = xs[s.k - 1] = 65535;
    meant(try_pack(s, xs, (size_t)s.k), 8, 0);
}

static void packs(setting s)
{
    uint16_t xs[9];
    size_t k = (size_t)s.k;
    fill(s.p, 12345, xs, 9);
    try_pack(s, xs, k);
    meant(try_pack(s, xs, k - 1), 9, 0);
    meant(try_pack(s, xs, k + 1), 9, 0);
    pack_bad(s, xs);
    for (size_t i = 0; i < 9; i++)
        xs[i] = (uint16_t)(s.p - 1);
    try_pack(s, xs, k);
}

/* Into a buffer that is too short, just long enough, and longer. */
static void unpacks(setting s, uint64_t word)
{
    size_t places = (size_t)school_places(s);
    meant(try_unpack(s, word, places - 1), 10, 0);
    meant_value(try_unpack(s, word, places), places);
    meant_value(try_unpack(s, word, places + 7), places);
    try_reduce(s, word);
}

static void words(setting s)
{
    uint64_t limit = (uint64_t)1 << (school_places(s) * s.t);
    for (uint64_t c = 1; c <= 5; c++)
        unpacks(s, sample_word(s, 1000 * c + s.p));
    unpacks(s, 0);
    unpacks(s, 1);
    unpacks(s, limit - 1);
    for (int i = 0; i < 3; i++) {
        uint64_t word = i == 0 ? limit : i == 1 ? limit | 1 : UINT64_MAX;
        meant(try_unpack(s, word, 20), 11, 0);
        meant(try_unpack(s, word, 0), 11, 0);
        meant(try_reduce(s, word), 11, 0);
    }
}

void test_places(void)
{
    examples();
    for_settings(packs);
    for_settings(words);
}

/* Choose, and the refusals 1 to 6 of every function that takes a setting. */
#include "test.h"

#define ANY UINT64_MAX

static void choose_examples(void)
{
    meant_value(try_choose(3, 4, 31), 9);
    meant(try_choose(3, 4, 32), 7, 0);
    meant_value(try_choose(929, 2, 1), 21);
    meant(try_choose(929, 2, 2), 7, 0);
    meant_value(try_choose(2, 8, 1), 4);
    meant(try_choose(2, 8, 2), 7, 0);
    meant_value(try_choose(65536, 1, 1), 32);
    meant_value(try_choose(37, 3, 1), 12);
    meant(try_choose(38, 3, 1), 7, 0);
}

static void choose_edges(void)
{
    meant(try_choose(1, 2, 2), 1, 0);
    meant_value(try_choose(2, 2, 2), 3);
    meant_value(try_choose(65536, 1, 1048576), 52);
    meant(try_choose(65537, 1, 1), 1, 0);
    meant(try_choose(3, 0, 2), 2, 0);
    meant(try_choose(2, 9, 1), 2, 0);
    meant(try_choose(3, 2, 0), 3, 0);
    meant(try_choose(3, 1, 1048577), 3, 0);
    meant(try_choose(1, 0, 2), 1, 0);
    meant(try_choose(3, 9, 0), 2, 0);
    meant(try_choose(65536, 8, 0), 3, 0);
    meant(try_choose(UINT64_MAX, 2, 2), 1, 0);
    meant(try_choose(3, UINT64_MAX, 2), 2, 0);
    meant(try_choose(3, 2, UINT64_MAX), 3, 0);
    meant(try_choose(UINT64_MAX, UINT64_MAX, UINT64_MAX), 1, 0);
}

static void choose_many(void)
{
    for (uint64_t p = 0; p < 300; p++)
        for (uint64_t k = 0; k < 10; k++)
            for (uint64_t n = 0; n < 2000000; n = 3 * n + 1)
                try_choose(p * p, k, n);
}

static void expect(sax_reply want, uint64_t number)
{
    if (number != ANY)
        meant(want, number, 0);
}

static void expect_lane(sax_lane_reply want, uint64_t number)
{
    if (number != ANY)
        meant_lane(want, number, 0);
}

/* Every call that takes a setting, with the rest of its arguments as they should be. */
static void good_calls(setting s, uint64_t number)
{
    static const uint16_t zeros[16];
    static const uint64_t words[2] = {0, 1};
    static uint8_t table[SAX_MOST_TABLE_BYTES];
    size_t k = s.k < 8 ? (size_t)s.k : 8, size = 0;
    if (s.p >= 2 && s.p <= 127 && s.t >= 1 && s.t <= 63)
        for (size = 0; size < school_table_size(s.p); size++)
            table[size] = school_table_byte(s.p, s.t, size);
    expect(try_pack(s, zeros, k), number);
    expect(try_unpack(s, 1, 15), number);
    expect(try_reduce(s, 1), number);
    expect(try_build_table(s, SAX_MOST_TABLE_BYTES), number);
    expect(try_reduce_by_table(s, table, size, words, 2, 2), number);
    expect(try_product(s, zeros, 3, zeros, 2, 4), number);
    expect(try_sum(s, zeros, k, zeros, k, 0, 15), number);
    expect_lane(try_lane_sum(s, zeros, k, zeros, k), number);
    expect_lane(try_lane_reduce(s, 1.0), number);
}

/* The same calls, wrong in everything else too: the setting comes first. */
static void bad_calls(setting s, uint64_t number)
{
    static const uint16_t top[4] = {65535, 65535, 65535, 65535};
    static const uint8_t table[3];
    static const uint64_t words[2] = {UINT64_MAX, UINT64_MAX};
    expect(try_pack(s, top, 0), number);
    expect(try_unpack(s, UINT64_MAX, 0), number);
    expect(try_reduce(s, UINT64_MAX), number);
    expect(try_build_table(s, 0), number);
    expect(try_reduce_by_table(s, table, 3, words, 2, 1), number);
    expect(try_product(s, top, 3, top, 2, 0), number);
    expect(try_sum(s, top, 3, top, 4, SIZE_MAX, 0), number);
    expect_lane(try_lane_sum(s, top, 3, top, 4), number);
    expect_lane(try_lane_reduce(s, -0.0), number);
    expect_lane(try_lane_reduce(s, -1.0), number);
}

static void both(uint64_t p, uint64_t k, uint64_t t, uint64_t n, uint64_t number)
{
    good_calls(make_setting(p, k, t, n), number);
    bad_calls(make_setting(p, k, t, n), number);
}

/* Two neighbours in the order at once: the first is given. */
static void orders(void)
{
    both(1, 0, 5, 2, 1);
    both(3, 9, 5, 0, 2);
    both(3, 2, 0, 0, 3);
    both(3, 2, 64, 1048577, 3);
    both(3, 2, 0, 2, 4);
    both(3, 2, 64, 2, 4);
    both(929, 2, 22, 1048576, 5);
    both(2, 8, 8, 1, 6);
    both(0, 0, 0, 0, 1);
    both(UINT64_MAX, 2, 5, 2, 1);
    both(3, UINT64_MAX, 5, 2, 2);
    both(3, 2, 5, UINT64_MAX, 3);
    both(3, 2, UINT64_MAX, 2, 4);
    both(UINT64_MAX, UINT64_MAX, UINT64_MAX, UINT64_MAX, 1);
    both(3, UINT64_MAX, UINT64_MAX, UINT64_MAX, 2);
    both(3, 2, UINT64_MAX, UINT64_MAX, 3);
}

/* Either side of each edge, in all combinations. */
static void grid(void)
{
    static const uint64_t ps[] = {0, 1, 2, 65536, 65537, (uint64_t)1 << 32, UINT64_MAX};
    static const uint64_t ks[] = {0, 1, 8, 9, (uint64_t)1 << 63, UINT64_MAX};
    static const uint64_t ts[] = {0, 1, 4, 5, 52, 63, 64, UINT64_MAX};
    static const uint64_t ns[] = {0, 1, 1048576, 1048577, UINT64_MAX};
    for (size_t p = 0; p < sizeof ps / sizeof *ps; p++)
        for (size_t k = 0; k < sizeof ks / sizeof *ks; k++)
            for (size_t t = 0; t < sizeof ts / sizeof *ts; t++)
                for (size_t n = 0; n < sizeof ns / sizeof *ns; n++)
                    both(ps[p], ks[k], ts[t], ns[n], ANY);
}

/* Around the smallest and the largest width: 5 below, 6 above. */
static void around_width(setting s)
{
    for (uint64_t t = s.t - 1; t <= s.t + 1; t++)
        good_calls(make_setting(s.p, s.k, t, s.n), ANY);
}

/* The largest n of a width, and one more. */
static void around_batch(setting s)
{
    uint64_t most = (((uint64_t)1 << s.t) - 1) / (s.k * (s.p - 1) * (s.p - 1));
    if (most == 0 || most >= 1048576)
        return;
    good_calls(make_setting(s.p, s.k, s.t, most), ANY);
    good_calls(make_setting(s.p, s.k, s.t, most + 1), 5);
}

void test_settings(void)
{
    choose_examples();
    choose_edges();
    choose_many();
    orders();
    grid();
    for_settings(around_width);
    for_settings(around_batch);
}

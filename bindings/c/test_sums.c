/* Sums of products of pairs. */
#include "test.h"

#define PAIRS 1000001
#define SIZES 6

static uint16_t xs[2 * PAIRS + 1], ys[2 * PAIRS + 1];
static const size_t sizes[SIZES] = {0, 1, 2, 3, 64, SIZE_MAX};

static void fill_both(uint64_t p, size_t len)
{
    fill(p, 314, xs, len);
    fill(p, 2718, ys, len);
}

/* The three pairs of document 01. */
static void example(void)
{
    static const uint16_t a[6] = {1, 2, 1, 2, 1, 2}, b[6] = {2, 2, 2, 2, 2, 2};
    for (size_t i = 0; i < SIZES; i++) {
        meant_value(try_sum(make_setting(3, 2, 5, 2), a, 6, b, 6, sizes[i], 3), 2);
        meant(try_sum(make_setting(3, 2, 5, 2), a, 6, b, 5, sizes[i], 3), 9, 0);
    }
}

/* Numbers of pairs around those of a batch, whatever the size of a call. */
static void around_batches(setting s)
{
    size_t k = (size_t)s.k, places = (size_t)school_places(s);
    uint64_t counts[] = {0, 1, 2, s.n - 1, s.n, s.n + 1, 2 * s.n, 10};
    fill_both(s.p, 300 * k);
    for (size_t i = 0; i < sizeof counts / sizeof *counts; i++) {
        if (counts[i] > 300)
            continue;
        size_t len = k * (size_t)counts[i];
        uint64_t reductions = (counts[i] + s.n - 1) / s.n;
        for (size_t j = 0; j < SIZES; j++) {
            meant_value(try_sum(s, xs, len, ys, len, sizes[j], places), reductions);
            meant_value(try_sum(s, xs, len, xs, len, sizes[j], places + 8), reductions);
        }
        meant(try_sum(s, xs, len, ys, len, 2, places - 1), 10, 0);
        meant(try_sum(s, xs, len, ys, len, 0, 0), 10, 0);
    }
}

static void largest(setting s)
{
    size_t len = 200 * (size_t)s.k;
    for (size_t i = 0; i < len; i++)
        xs[i] = ys[i] = (uint16_t)(s.p - 1);
    for (size_t j = 0; j < SIZES; j++)
        try_sum(s, xs, len, ys, len, sizes[j], SAX_MOST_FIELDS);
}

static void shapes(setting s)
{
    size_t k = (size_t)s.k, len = 6 * k;
    fill_both(s.p, len + k);
    for (size_t j = 0; j < SIZES; j++) {
        meant(try_sum(s, xs, len, ys, len + k, sizes[j], 20), 9, 0);
        meant(try_sum(s, xs, len + k, ys, len, sizes[j], 20), 9, 0);
        meant(try_sum(s, xs, 0, ys, k, sizes[j], 20), 9, 0);
        if (k > 1)
            meant(try_sum(s, xs, len - 1, ys, len - 1, sizes[j], 20), 9, 0);
        xs[0] = ys[0] = 65535;
        meant(try_sum(s, xs, len, ys, len - k, sizes[j], 0), 9, 0);
        xs[0] = ys[0] = 0;
    }
}

/* A bad coefficient's place is one in the whole lists, also where the calls are cut before it. */
static void bad(setting s)
{
    size_t len = 7 * (size_t)s.k;
    if (s.p == 65536)
        return;
    fill_both(s.p, len);
    for (size_t j = 0; j < SIZES; j++)
        for (size_t i = 0; i < len; i += 5) {
            uint16_t x = xs[i], y = ys[i];
            ys[i] = (uint16_t)s.p;
            meant(try_sum(s, xs, len, ys, len, sizes[j], 20), 8, len + i);
            meant(try_sum(s, xs, len, ys, len, sizes[j], 0), 8, len + i);
            xs[len - 1] = 65535;
            meant(try_sum(s, xs, len, ys, len, sizes[j], 20), 8, len - 1);
            xs[len - 1] = 0;
            xs[i] = (uint16_t)s.p;
            meant(try_sum(s, xs, len, ys, len, sizes[j], 20), 8, i);
            xs[i] = x;
            ys[i] = y;
        }
}

/* 1,000,000 pairs and one more, which is 13, after 9 and before 8 and 10. */
static void full(setting s, size_t size)
{
    size_t k = (size_t)s.k, len = k * PAIRS;
    uint64_t reductions = (PAIRS - 1 + s.n - 1) / s.n;
    fill_both(s.p, len);
    meant_value(try_sum(s, xs, len - k, ys, len - k, size, 20), reductions);
    meant(try_sum(s, xs, len, ys, len, size, 20), 13, 0);
    meant(try_sum(s, xs, len, ys, len, size, 0), 13, 0);
    meant(try_sum(s, xs, len, ys, len - k, size, 20), 9, 0);
    if (k > 1)
        meant(try_sum(s, xs, len + 1, ys, len + 1, size, 20), 9, 0);
    xs[4] = 65535;
    meant(try_sum(s, xs, len, ys, len, size, 20), 13, 0);
    meant(try_sum(s, xs, len - k, ys, len - k, size, 20), 8, 4);
    xs[4] = 0;
    ys[len - k - 1] = 65535;
    meant(try_sum(s, xs, len - k, ys, len - k, size, 20), 8, 2 * (len - k) - 1);
}

void test_sums(void)
{
    example();
    for_settings(around_batches);
    for_settings(largest);
    for_settings(shapes);
    for_settings(bad);
    full(make_setting(929, 1, 63, 1048576), 0);
    full(make_setting(65521, 1, 50, 31), 1000);
    full(make_setting(3, 2, 5, 2), 999999);
    full(make_setting(3, 2, 21, 4096), 7);
}

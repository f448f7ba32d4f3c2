/* The double lane. */
#include "test.h"

#include <float.h>
#include <math.h>

#define PAIRS 300

static uint16_t xs[8 * PAIRS], ys[8 * PAIRS];

/* Either side of 16, and 16 before all that follows it. With k = 7 a width is below 53 bits or has
   no room, and with k = 8 every accepted one is above. */
static void around_16(uint64_t k, uint64_t t)
{
    static const uint16_t top[3] = {65535, 65535, 65535}, zeros[8];
    setting fits = make_setting(2, k, t, 1), wide = make_setting(2, k, t + 1, 1);
    if (k < 8) {
        meant_lane_value(try_lane_sum(fits, zeros, (size_t)k, zeros, (size_t)k), 0.0);
        meant_lane_value(try_lane_reduce(fits, 3.0), 1.0);
    }
    if (k != 7) {
        meant_lane(try_lane_sum(wide, zeros, (size_t)k, zeros, (size_t)k), 16, 0);
        meant_lane(try_lane_sum(wide, top, 3, top, 2), 16, 0);
        meant_lane(try_lane_reduce(wide, 1.0), 16, 0);
        meant_lane(try_lane_reduce(wide, -1.0), 16, 0);
    }
}

static void widths(void)
{
    for (uint64_t k = 1; k <= 8; k++)
        around_16(k, 52 / (2 * k - 1));
    meant_lane_value(try_lane_reduce(make_setting(3, 4, 7, 7), 131.0), 128.0);
    meant_lane(try_lane_reduce(make_setting(3, 4, 8, 7), 131.0), 16, 0);
}

static void shapes(setting s, size_t k)
{
    meant_lane(try_lane_sum(s, xs, k, ys, 2 * k), 9, 0);
    meant_lane(try_lane_sum(s, xs, 0, ys, k), 9, 0);
    if (k > 1)
        meant_lane(try_lane_sum(s, xs, k + 1, ys, k + 1), 9, 0);
}

/* No pairs, one, n and n + 1; with 9 before 13 and 13 before 8. */
static void counts(setting s)
{
    size_t k = (size_t)s.k, most = s.n < PAIRS - 1 ? (size_t)s.n : PAIRS - 1;
    meant_lane_value(try_lane_sum(s, xs, 0, ys, 0), 0.0);
    try_lane_sum(s, xs, k, ys, k);
    try_lane_sum(s, xs, k * most, ys, k * most);
    try_lane_sum(s, xs, k * most, xs, k * most);
    if (s.n != most)
        return;
    meant_lane(try_lane_sum(s, xs, k * (most + 1), ys, k * (most + 1)), 13, 0);
    meant_lane(try_lane_sum(s, xs, k * (most + 1), ys, k * most), 9, 0);
    uint16_t kept = ys[k * most];
    ys[k * most] = 65535;
    meant_lane(try_lane_sum(s, xs, k * (most + 1), ys, k * (most + 1)), 13, 0);
    ys[k * most] = kept;
}

static void bad(setting s, size_t k)
{
    if (s.p == 65536)
        return;
    for (size_t i = 0; i < k; i++) {
        uint16_t x = xs[i], y = ys[i];
        ys[i] = (uint16_t)s.p;
        meant_lane(try_lane_sum(s, xs, k, ys, k), 8, k + i);
        meant_lane(try_lane_sum(s, xs, k, ys, 0), 9, 0);
        xs[i] = 65535;
        meant_lane(try_lane_sum(s, xs, k, ys, k), 8, i);
        xs[i] = x;
        ys[i] = y;
    }
}

static void sums(setting s)
{
    size_t k = (size_t)s.k;
    fill(s.p, 8, xs, k * PAIRS);
    fill(s.p, 9, ys, k * PAIRS);
    counts(s);
    shapes(s, k);
    bad(s, k);
    for (size_t i = 0; i < k * PAIRS; i++)
        xs[i] = ys[i] = (uint16_t)(s.p - 1);
    counts(s);
}

static void improper(setting s, double limit)
{
    const double words[] = {
        NAN,    -NAN,     INFINITY, -INFINITY,     -0.0,        -1.0,  0.5,     1.5,
        -0.5,   DBL_MIN,  DBL_MAX,  -DBL_MAX,      0x1p-1074,   limit, -limit,  0x1p52,
        0x1p63, 0x1p64,   0x1p1000, limit + 1.0,   limit - 0.5,
    };
    for (size_t i = 0; i < sizeof words / sizeof *words; i++)
        meant_lane(try_lane_reduce(s, words[i]), 11, 0);
}

/* Multiples of p and their neighbours, where a quotient that is off by one would show. */
static void reductions(setting s)
{
    uint64_t limit = (uint64_t)1 << (school_places(s) * s.t);
    for (uint64_t c = 1; c <= 6; c++) {
        uint64_t word = sample_word(s, 500 * c + s.n), multiple = word / s.p * s.p;
        try_lane_reduce(s, (double)word);
        try_lane_reduce(s, (double)multiple);
        try_lane_reduce(s, (double)(multiple == 0 ? 0 : multiple - 1));
    }
    for (uint64_t word = 0; word < 4; word++)
        try_lane_reduce(s, (double)word);
    try_lane_reduce(s, (double)(s.p < limit ? s.p : 0));
    try_lane_reduce(s, (double)(limit - 1));
    try_lane_reduce(s, (double)((limit - 1) / s.p * s.p));
    improper(s, (double)limit);
}

static void lane(setting s)
{
    if (school_places(s) * s.t >= 53)
        s.t = 52 / school_places(s);
    if (school_setting(s) != 0)
        return;
    sums(s);
    reductions(s);
}

/* All numbers up to a few times 49, of which 49 itself takes a correction. */
static void small_words(void)
{
    setting s = make_setting(49, 1, 52, 1);
    for (uint64_t word = 0; word < 500; word++)
        try_lane_reduce(s, (double)word);
}

void test_lane(void)
{
    widths();
    for_settings(lane);
    small_words();
}

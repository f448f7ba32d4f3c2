/* Products of lists. */
#include "test.h"

#define LONG 4096

static uint16_t a[LONG + 1], b[LONG + 1];

static size_t length(size_t a_len, size_t b_len)
{
    return a_len == 0 || b_len == 0 ? 0 : a_len + b_len - 1;
}

/* Into a buffer that is just long enough, longer, and too short. */
static void lengths(setting s, size_t a_len, size_t b_len)
{
    size_t len = length(a_len, b_len);
    meant_value(try_product(s, a, a_len, b, b_len, len), len);
    meant_value(try_product(s, a, a_len, b, b_len, len + 9), len);
    if (len > 0)
        meant(try_product(s, a, a_len, b, b_len, len - 1), 10, 0);
}

static void few(setting s)
{
    size_t k = (size_t)s.k;
    fill(s.p, 4321, a, 40);
    fill(s.p, 987, b, 40);
    for (size_t i = 0; i <= 3; i++)
        for (size_t j = 0; j <= 3; j++)
            lengths(s, i, j);
    lengths(s, k, k);
    lengths(s, k + 1, 2 * k);
    lengths(s, 33, 3 * k + 2);
    lengths(s, 7, 40);
    try_product(s, a, 20, a, 20, 39);
    try_product(s, a, 20, a + 1, 20, 39);
    for (size_t i = 0; i < 40; i++)
        a[i] = b[i] = (uint16_t)(s.p - 1);
    lengths(s, 40, 40);
}

/* A bad coefficient in either list and in both, and beside 9 and 10. */
static void bad(setting s)
{
    if (s.p == 65536)
        return;
    fill(s.p, 55, a, LONG + 1);
    fill(s.p, 66, b, LONG + 1);
    for (size_t i = 0; i < 9; i += 4) {
        b[i] = (uint16_t)s.p;
        meant(try_product(s, a, 5, b, 9, 13), 8, 5 + i);
        meant(try_product(s, a, 0, b, 9, 0), 8, i);
        a[i] = 65535;
        meant(try_product(s, a, 9, b, 9, 17), 8, i);
        meant(try_product(s, a, 9, b, 9, 16), 8, i);
        meant(try_product(s, a, 9, b, 0, 3), 8, i);
        meant(try_product(s, a, LONG + 1, b, 9, 9000), 9, 0);
        meant(try_product(s, a, 9, b, LONG + 1, 9000), 9, 0);
        a[i] = b[i] = 0;
    }
    meant_value(try_product(s, a, 9, b, 9, 17), 17);
    meant(try_product(s, a, LONG + 1, b, 0, 0), 9, 0);
    meant(try_product(s, a, 0, b, LONG + 1, 0), 9, 0);
}

static void long_lists(setting s)
{
    fill(s.p, 11, a, LONG + 1);
    fill(s.p, 22, b, LONG + 1);
    lengths(s, 255, 256);
    lengths(s, 256, 256);
    lengths(s, 257, 256);
    lengths(s, 3, 257);
    lengths(s, LONG, 2);
    lengths(s, 1, LONG);
    meant_value(try_product(s, a, LONG, b, LONG, 2 * LONG), 2 * LONG - 1);
    meant(try_product(s, a, LONG, b, LONG, 2 * LONG - 2), 10, 0);
    meant(try_product(s, a, LONG + 1, b, LONG, 2 * LONG), 9, 0);
    meant(try_product(s, a, LONG, b, LONG + 1, 2 * LONG), 9, 0);
    for (size_t i = 0; i < LONG; i++)
        a[i] = b[i] = (uint16_t)(s.p - 1);
    try_product(s, a, LONG, b, LONG, 2 * LONG);
    if (s.p < 65536) {
        b[LONG - 1] = (uint16_t)s.p;
        meant(try_product(s, a, LONG, b, LONG, 2 * LONG), 8, 2 * LONG - 1);
    }
}

void test_products(void)
{
    for_settings(few);
    for_settings(bad);
    long_lists(make_setting(2, 8, 4, 1));
    long_lists(make_setting(3, 4, 9, 31));
    long_lists(make_setting(929, 2, 21, 1));
    long_lists(make_setting(65536, 1, 52, 1048576));
    long_lists(make_setting(65521, 1, 63, 4096));
}

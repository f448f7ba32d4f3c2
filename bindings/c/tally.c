/* Counts of calls, and the lists and settings that the groups share. */
#include "test.h"

#include <inttypes.h>
#include <stdio.h>

#define PRINTED 10

static uint64_t right_calls, wrong_calls;
static int last_right;

/* Bit i: number i was met in this call. */
static uint32_t met[CALLS];

int tally(enum call call, uint64_t number, int right)
{
    met[call] |= (uint32_t)1 << number;
    last_right = right;
    if (right)
        right_calls++;
    else
        wrong_calls++;
    return !right && wrong_calls <= PRINTED;
}

/* A case that is another than it was meant to be shows nothing, so it counts as wrong. */
static void not_meant(uint64_t number, uint64_t place)
{
    if (last_right) {
        right_calls--;
        wrong_calls++;
        last_right = 0;
    }
    if (wrong_calls <= PRINTED)
        printf("wrong: a case meant for %" PRIu64 ", place %" PRIu64 ", is another\n", number,
               place);
}

void meant(sax_reply want, uint64_t number, uint64_t place)
{
    if (want.number != number || want.place != place)
        not_meant(number, place);
}

void meant_value(sax_reply want, uint64_t value)
{
    if (want.number != 0 || want.value != value)
        not_meant(0, 0);
}

void meant_lane(sax_lane_reply want, uint64_t number, uint64_t place)
{
    if (want.number != number || want.place != place)
        not_meant(number, place);
}

void meant_lane_value(sax_lane_reply want, double value)
{
    if (want.number != 0 || want.value < value || want.value > value)
        not_meant(0, 0);
}

#define BIT(number) ((uint32_t)1 << (number))
#define SETTING (BIT(1) | BIT(2) | BIT(3) | BIT(4) | BIT(5) | BIT(6))

/* What each call can give, 18 left out, which none gives. */
static const uint32_t can[CALLS] = {
    [CHOOSE] = BIT(0) | BIT(1) | BIT(2) | BIT(3) | BIT(7),
    [PACK] = BIT(0) | SETTING | BIT(9) | BIT(8),
    [UNPACK] = BIT(0) | SETTING | BIT(11) | BIT(10),
    [REDUCE] = BIT(0) | SETTING | BIT(11),
    [BUILD_TABLE] = BIT(0) | SETTING | BIT(14) | BIT(10),
    [REDUCE_BY_TABLE] = BIT(0) | SETTING | BIT(14) | BIT(15) | BIT(10) | BIT(11),
    [PRODUCT] = BIT(0) | SETTING | BIT(9) | BIT(8) | BIT(10),
    [SUM] = BIT(0) | SETTING | BIT(9) | BIT(13) | BIT(8) | BIT(10),
    [LANE_SUM] = BIT(0) | SETTING | BIT(16) | BIT(9) | BIT(13) | BIT(8),
    [LANE_REDUCE] = BIT(0) | SETTING | BIT(16) | BIT(11),
};

int tally_end(void)
{
    for (int call = 0; call < CALLS; call++)
        if (met[call] != can[call]) {
            printf("wrong: function %d of the header was not met in each of its refusals\n", call);
            wrong_calls++;
        }
    printf("c: %" PRIu64 " calls right, %" PRIu64 " wrong\n", right_calls, wrong_calls);
    return wrong_calls > 0;
}

void fill(uint64_t p, uint64_t c, uint16_t *xs, size_t len)
{
    for (size_t i = 0; i < len; i++) {
        xs[i] = (uint16_t)(c % 65537 % p);
        c = c % 65537 * 75;
    }
}

uint64_t sample_word(setting s, uint64_t c)
{
    uint16_t parts[4];
    uint64_t word = 0;
    fill(65536, c, parts, 4);
    for (int i = 0; i < 4; i++)
        word = (word << 16) + parts[i];
    return word & (((uint64_t)1 << (school_places(s) * s.t)) - 1);
}

setting make_setting(uint64_t p, uint64_t k, uint64_t t, uint64_t n)
{
    setting s = {p, k, t, n};
    return s;
}

static void visit_widths(uint64_t p, uint64_t k, uint64_t n, void (*visit)(setting s))
{
    sax_reply chosen = school_choose(p, k, n);
    if (chosen.number != 0)
        return;
    uint64_t widest = 63 / (2 * k - 1);
    visit(make_setting(p, k, chosen.value, n));
    if (chosen.value < widest)
        visit(make_setting(p, k, widest, n));
}

void for_settings(void (*visit)(setting s))
{
    static const uint64_t ps[] = {2,   3,   5,   6,   7,    16,   23,    37,
                                  127, 128, 256, 929, 4096, 32749, 65521, 65536};
    static const uint64_t ns[] = {1, 2, 3, 7, 31, 100, 4096, 1048576};
    for (size_t i = 0; i < sizeof ps / sizeof *ps; i++)
        for (uint64_t k = 1; k <= 8; k++)
            for (size_t j = 0; j < sizeof ns / sizeof *ns; j++)
                visit_widths(ps[i], k, ns[j], visit);
}

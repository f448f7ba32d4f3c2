/* One call of the header and its comparison, for each function. */
#include "test.h"

#include <inttypes.h>
#include <stdio.h>
#include <string.h>

int null_for_empty = 0;

/* Elements in front of and behind an output, which no call may touch. */
#define GUARD 16
#define MOST_OUT 20000
#define ROOM (GUARD + MOST_OUT + GUARD)

static uint8_t got8[ROOM], want8[ROOM];
static uint16_t got16[ROOM], want16[ROOM];
static uint64_t got64[ROOM], want64[ROOM];

/* Old contents that no right call writes, but for p above 60,000, and no two neighbours alike. */
static void old8(size_t out_len)
{
    for (size_t i = 0; i < GUARD + out_len + GUARD; i++)
        got8[i] = want8[i] = (uint8_t)(200 + i % 50);
}

static void old16(size_t out_len)
{
    for (size_t i = 0; i < GUARD + out_len + GUARD; i++)
        got16[i] = want16[i] = (uint16_t)(60000 + i % 5000);
}

static void old64(size_t out_len)
{
    for (size_t i = 0; i < GUARD + out_len + GUARD; i++)
        got64[i] = want64[i] = UINT64_MAX - i;
}

/* Whether the output and what lies around it is as it has to be. */
static int left8(size_t out_len)
{
    return memcmp(got8, want8, (GUARD + out_len + GUARD) * sizeof *got8) == 0;
}

static int left16(size_t out_len)
{
    return memcmp(got16, want16, (GUARD + out_len + GUARD) * sizeof *got16) == 0;
}

static int left64(size_t out_len)
{
    return memcmp(got64, want64, (GUARD + out_len + GUARD) * sizeof *got64) == 0;
}

static void *lent(void *buffer, size_t len)
{
    return len == 0 && null_for_empty ? NULL : buffer;
}

static const void *lent_const(const void *buffer, size_t len)
{
    return len == 0 && null_for_empty ? NULL : buffer;
}

/* Tells whether a call has changed an input. */
static uint64_t digest(const void *buffer, size_t bytes)
{
    const unsigned char *at = buffer;
    uint64_t sum = bytes;
    for (size_t i = 0; i < bytes; i++)
        sum = sum * 1099511628211u + at[i];
    return sum;
}

static int same(sax_reply got, sax_reply want)
{
    return got.number == want.number && got.place == want.place && got.value == want.value;
}

/* In every bit: 0.0 and -0.0 are not the same. */
static int same_lane(sax_lane_reply got, sax_lane_reply want)
{
    return got.number == want.number && got.place == want.place &&
           memcmp(&got.value, &want.value, sizeof got.value) == 0;
}

static void say_call(const char *name, setting s)
{
    printf("wrong: %s %" PRIu64 " %" PRIu64 " %" PRIu64 " %" PRIu64, name, s.p, s.k, s.t, s.n);
}

static void say_list(const char *name, const uint16_t *xs, size_t len)
{
    printf(", %s", name);
    for (size_t i = 0; i < len && i < 8; i++)
        printf(" %u", (unsigned)xs[i]);
    printf("%s (%zu)", len > 8 ? " .." : "", len);
}

static void say_replies(sax_reply got, sax_reply want)
{
    printf(": gave %" PRIu64 " %" PRIu64 " %" PRIu64 " for %" PRIu64 " %" PRIu64 " %" PRIu64 "%s\n",
           got.number, got.place, got.value, want.number, want.place, want.value,
           same(got, want) ? ", and a buffer is wrong" : "");
}

static void say_lane_replies(sax_lane_reply got, sax_lane_reply want)
{
    printf(": gave %" PRIu64 " %" PRIu64 " %.17g for %" PRIu64 " %" PRIu64 " %.17g\n", got.number,
           got.place, got.value, want.number, want.place, want.value);
}

sax_reply try_choose(uint64_t p, uint64_t k, uint64_t n)
{
    sax_reply want = school_choose(p, k, n);
    sax_reply got = sax_choose(p, k, n);
    if (tally(CHOOSE, want.number, same(got, want))) {
        say_call("sax_choose (with 0 for t)", make_setting(p, k, 0, n));
        say_replies(got, want);
    }
    return want;
}

sax_reply try_pack(setting s, const uint16_t *xs, size_t len)
{
    uint64_t before = digest(xs, 2 * len);
    sax_reply want = school_pack(s, xs, len);
    sax_reply got = sax_pack(s.p, s.k, s.t, s.n, lent_const(xs, len), len);
    if (tally(PACK, want.number, same(got, want) && digest(xs, 2 * len) == before)) {
        say_call("sax_pack", s);
        say_list("coefficients", xs, len);
        say_replies(got, want);
    }
    return want;
}

sax_reply try_unpack(setting s, uint64_t word, size_t out_len)
{
    old64(out_len);
    sax_reply want = school_unpack(s, word, want64 + GUARD, out_len);
    sax_reply got = sax_unpack(s.p, s.k, s.t, s.n, word, lent(got64 + GUARD, out_len), out_len);
    if (tally(UNPACK, want.number, same(got, want) && left64(out_len))) {
        say_call("sax_unpack", s);
        printf(", word %" PRIu64 ", out (%zu)", word, out_len);
        say_replies(got, want);
    }
    return want;
}

sax_reply try_reduce(setting s, uint64_t word)
{
    sax_reply want = school_reduce(s, word);
    sax_reply got = sax_reduce(s.p, s.k, s.t, s.n, word);
    if (tally(REDUCE, want.number, same(got, want))) {
        say_call("sax_reduce", s);
        printf(", word %" PRIu64, word);
        say_replies(got, want);
    }
    return want;
}

sax_reply try_build_table(setting s, size_t out_len)
{
    old8(out_len);
    sax_reply want = school_build_table(s, want8 + GUARD, out_len);
    sax_reply got = sax_build_table(s.p, s.k, s.t, s.n, lent(got8 + GUARD, out_len), out_len);
    if (tally(BUILD_TABLE, want.number, same(got, want) && left8(out_len))) {
        say_call("sax_build_table", s);
        printf(", out (%zu)", out_len);
        say_replies(got, want);
    }
    return want;
}

sax_reply try_reduce_by_table(setting s, const uint8_t *table, size_t table_len,
                              const uint64_t *words, size_t words_len, size_t out_len)
{
    uint64_t before = digest(table, table_len) + digest(words, 8 * words_len);
    old64(out_len);
    sax_reply want =
        school_reduce_by_table(s, table, table_len, words, words_len, want64 + GUARD, out_len);
    sax_reply got = sax_reduce_by_table(s.p, s.k, s.t, s.n, lent_const(table, table_len), table_len,
                                        lent_const(words, words_len), words_len,
                                        lent(got64 + GUARD, out_len), out_len);
    int kept = digest(table, table_len) + digest(words, 8 * words_len) == before;
    if (tally(REDUCE_BY_TABLE, want.number,
              same(got, want) && left64(out_len) && kept)) {
        say_call("sax_reduce_by_table", s);
        printf(", table (%zu), words (%zu), out (%zu)", table_len, words_len, out_len);
        say_replies(got, want);
    }
    return want;
}

sax_reply try_product(setting s, const uint16_t *a, size_t a_len,
                      const uint16_t *b, size_t b_len, size_t out_len)
{
    uint64_t before = digest(a, 2 * a_len) + digest(b, 2 * b_len);
    old16(out_len);
    sax_reply want = school_product(s, a, a_len, b, b_len, want16 + GUARD, out_len);
    sax_reply got = sax_product(s.p, s.k, s.t, s.n, lent_const(a, a_len), a_len,
                                lent_const(b, b_len), b_len, lent(got16 + GUARD, out_len), out_len);
    int kept = digest(a, 2 * a_len) + digest(b, 2 * b_len) == before;
    if (tally(PRODUCT, want.number,
              same(got, want) && left16(out_len) && kept)) {
        say_call("sax_product", s);
        say_list("a", a, a_len);
        say_list("b", b, b_len);
        printf(", out (%zu)", out_len);
        say_replies(got, want);
    }
    return want;
}

sax_reply try_sum(setting s, const uint16_t *xs, size_t xs_len,
                  const uint16_t *ys, size_t ys_len, size_t size, size_t out_len)
{
    uint64_t before = digest(xs, 2 * xs_len) + digest(ys, 2 * ys_len);
    old16(out_len);
    sax_reply want = school_sum(s, xs, xs_len, ys, ys_len, want16 + GUARD, out_len);
    sax_reply got = sax_sum(s.p, s.k, s.t, s.n, lent_const(xs, xs_len), xs_len,
                            lent_const(ys, ys_len), ys_len, size, lent(got16 + GUARD, out_len),
                            out_len);
    int kept = digest(xs, 2 * xs_len) + digest(ys, 2 * ys_len) == before;
    if (tally(SUM, want.number, same(got, want) && left16(out_len) && kept)) {
        say_call("sax_sum", s);
        say_list("xs", xs, xs_len);
        say_list("ys", ys, ys_len);
        printf(", size %zu, out (%zu)", size, out_len);
        say_replies(got, want);
    }
    return want;
}

sax_lane_reply try_lane_sum(setting s, const uint16_t *xs, size_t xs_len,
                            const uint16_t *ys, size_t ys_len)
{
    uint64_t before = digest(xs, 2 * xs_len) + digest(ys, 2 * ys_len);
    sax_lane_reply want = school_lane_sum(s, xs, xs_len, ys, ys_len);
    sax_lane_reply got = sax_lane_sum(s.p, s.k, s.t, s.n, lent_const(xs, xs_len), xs_len,
                                      lent_const(ys, ys_len), ys_len);
    int kept = digest(xs, 2 * xs_len) + digest(ys, 2 * ys_len) == before;
    if (tally(LANE_SUM, want.number, same_lane(got, want) && kept)) {
        say_call("sax_lane_sum", s);
        say_list("xs", xs, xs_len);
        say_list("ys", ys, ys_len);
        say_lane_replies(got, want);
    }
    return want;
}

sax_lane_reply try_lane_reduce(setting s, double word)
{
    sax_lane_reply want = school_lane_reduce(s, word);
    sax_lane_reply got = sax_lane_reduce(s.p, s.k, s.t, s.n, word);
    if (tally(LANE_REDUCE, want.number, same_lane(got, want))) {
        say_call("sax_lane_reduce", s);
        printf(", word %.17g", word);
        say_lane_replies(got, want);
    }
    return want;
}

/* agree: many calls with all kinds of arguments, refused and accepted; prints the checksum of all replies and of all that was written. Not counted: the
   archive and the kernels in C have to print the same, so that they do the same checked work. */
#include <string.h>
#include "../include/saxweylur.h"
#include "common.h"

enum { ROUNDS = 20000, LONGEST = 40, TABLE = 8 + 13 * 13 };

static uint64_t state = 1, sum;
static uint16_t a[LONGEST], b[LONGEST], out[2 * LONGEST];
static uint64_t words[LONGEST], out_words[LONGEST];
static uint8_t table[TABLE];

static uint64_t below(uint64_t n) { return next_number(&state) % n; }
static int one_in(uint64_t n) { return below(n) == 0; }
static size_t some(void) { return one_in(8) ? 0 : below(LONGEST + 1); }

static void add_bytes(const void *at, size_t len)
{
    const uint8_t *bytes = at;
    for (size_t i = 0; i < len; i++) sum = checksum(sum, bytes[i]);
}

/* The reply, and all outputs, also past what was written; then they are set anew. */
static void add(sax_reply r)
{
    add_bytes(&r, sizeof r);
    add_bytes(out, sizeof out);
    add_bytes(out_words, sizeof out_words);
    memset(out, 0xee, sizeof out);
    memset(out_words, 0xee, sizeof out_words);
}

static void fill(uint64_t p)
{
    int bad = one_in(4);
    for (size_t i = 0; i < LONGEST; i++) {
        a[i] = (uint16_t)below(bad && one_in(40) ? 65536 : p);
        b[i] = (uint16_t)below(bad && one_in(40) ? 65536 : p);
    }
}

static void fill_words(uint64_t bits)
{
    int bad = one_in(4);
    for (size_t i = 0; i < LONGEST; i++) {
        uint64_t shift = bits < 1 || bits > 63 || (bad && one_in(20)) ? 0 : 64 - bits;
        words[i] = next_number(&state) >> shift;
    }
}

static void products_and_sums(uint64_t p, uint64_t k, uint64_t t, uint64_t n)
{
    size_t la = some(), lb = some(), len = below(LONGEST / 8 + 1) * (k < 1 || k > 8 ? 1 : k), size = below(6);
    size_t room = one_in(8) ? some() : 2 * LONGEST, places = one_in(8) ? below(15) : 15;
    fill(p < 2 || p > 65536 ? 2 : p);
    add(sax_product(p, k, t, n, a, la, b, lb, out, room));
    add(sax_sum(p, k, t, n, a, la, b, lb, size, out, places));
    add(sax_sum(p, k, t, n, a, la, b, la, size, out, places));
    add(sax_sum(p, k, t, n, a, len, b, len, size, out, places));
}

static void reductions(uint64_t p, uint64_t k, uint64_t t, uint64_t n)
{
    size_t len = some(), held = one_in(8) ? below(TABLE) : TABLE, room = one_in(8) ? some() : LONGEST;
    fill_words((2 * k - 1) * t);
    add(sax_reduce(p, k, t, n, words[0]));
    add(sax_build_table(p, k, t, n, table, held));
    add_bytes(table, sizeof table);
    if (one_in(4)) table[below(TABLE)] ^= 1;
    add(sax_reduce_by_table(p, k, t, n, table, held, words, len, out_words, room));
}

/* One pair too many. */
static void too_many(void)
{
    static uint16_t zeros[1000001];
    add(sax_sum(2, 1, 21, 1048576, zeros, 1000000, zeros, 1000000, 1000, out, 1));
    add(sax_sum(2, 1, 21, 1048576, zeros, 1000001, zeros, 1000001, 1000, out, 1));
}

/* The smallest width that 5 lets pass, so that many settings are accepted. */
static uint64_t width(uint64_t p, uint64_t k, uint64_t n)
{
    uint64_t t = 1;
    while (t < 63 && UINT64_C(1) << t <= n * k * (p - 1) * (p - 1)) t++;
    return t;
}

int main(void)
{
    for (int i = 0; i < ROUNDS; i++) {
        uint64_t p = 2 + below(12), k = 1 + below(4), n = 1 + below(9), t = width(p, k, n);
        if (one_in(8)) p = below(65538);
        if (one_in(16)) p = one_in(2) ? below(2) : 65535 + below(3);
        if (one_in(8)) k = below(10);
        if (one_in(16)) n = one_in(2) ? 0 : 1048575 + below(3);
        if (one_in(8)) t = below(66);
        products_and_sums(p, k, t, n);
        if (p < 14 || p > 127) reductions(p, k, t, n);
    }
    too_many();
    print_checksum(sum);
    return 0;
}

/* measure CALL P K T N SIZE: makes one call of the library on fixed inputs, counted, and prints the checksum of what it wrote. It is linked to the
   archive and to the kernels in C alike. SIZE is the number of coefficients of each factor, of pairs or of words. */
#include <string.h>
#include "../include/saxweylur.h"
#include "common.h"

enum { PAIRS_A_CALL = 1000, MOST_PLACES = 15, LARGEST_TABLE = 8 + 127 * 127 };

static uint64_t p, k, t, n;
static size_t size;

static void *room(size_t bytes)
{
    void *at = malloc(bytes);
    if (!at) exit(2);
    return memset(at, 0xee, bytes);
}

static void expect(sax_reply r, uint64_t value)
{
    if (r.number == 0 && r.value == value) return;
    fprintf(stderr, "measure: number %llu, value %llu\n", (unsigned long long)r.number, (unsigned long long)r.value);
    exit(1);
}

static uint64_t sum16(const uint16_t *xs, size_t len)
{
    uint64_t sum = 0;
    for (size_t i = 0; i < len; i++) sum = checksum(sum, xs[i]);
    return sum;
}

static uint64_t sum64(const uint64_t *xs, size_t len)
{
    uint64_t sum = 0;
    for (size_t i = 0; i < len; i++) sum = checksum(sum, xs[i]);
    return sum;
}

/* Words below 2^((2k-1)t), all their bits at random. */
static uint64_t *random_words(void)
{
    uint64_t *words = room(size * sizeof *words), state = p;
    for (size_t i = 0; i < size; i++) words[i] = next_number(&state) >> (64 - (2 * k - 1) * t);
    return words;
}

static uint64_t product(void)
{
    size_t len = 2 * size - 1;
    uint16_t *a = coefficients(p, 1, size), *b = coefficients(p, 2, size), *out = room(len * sizeof *out);
    COUNT_BEGIN;
    sax_reply r = sax_product(p, k, t, n, a, size, b, size, out, len);
    COUNT_END;
    expect(r, len);
    return sum16(out, len);
}

static uint64_t sum_of_pairs(void)
{
    size_t len = size * k;
    uint16_t *xs = coefficients(p, 1, len), *ys = coefficients(p, 2, len), out[MOST_PLACES];
    COUNT_BEGIN;
    sax_reply r = sax_sum(p, k, t, n, xs, len, ys, len, PAIRS_A_CALL, out, 2 * k - 1);
    COUNT_END;
    expect(r, (size + n - 1) / n);
    return sum16(out, 2 * k - 1);
}

/* A call for each word; the loop around the calls is counted too. */
static uint64_t reduce(void)
{
    uint64_t *words = random_words(), *out = room(size * sizeof *out), refused = 0;
    COUNT_BEGIN;
    for (size_t i = 0; i < size; i++) {
        sax_reply r = sax_reduce(p, k, t, n, words[i]);
        refused |= r.number;
        out[i] = r.value;
    }
    COUNT_END;
    if (refused) exit(1);
    return sum64(out, size);
}

static uint64_t reduce_by_table(void)
{
    static uint8_t table[LARGEST_TABLE];
    uint64_t *words = random_words(), *out = room(size * sizeof *out);
    expect(sax_build_table(p, k, t, n, table, sizeof table), 8 + p * p);
    COUNT_BEGIN;
    sax_reply r = sax_reduce_by_table(p, k, t, n, table, sizeof table, words, size, out, size);
    COUNT_END;
    expect(r, size);
    return sum64(out, size);
}

static uint64_t build_table(void)
{
    static uint8_t table[LARGEST_TABLE];
    uint64_t sum = 0;
    COUNT_BEGIN;
    sax_reply r = sax_build_table(p, k, t, n, table, sizeof table);
    COUNT_END;
    expect(r, 8 + p * p);
    for (size_t i = 0; i < 8 + p * p; i++) sum = checksum(sum, table[i]);
    return sum;
}

static const struct {
    const char *name;
    uint64_t (*run)(void);
} calls[] = {
    {"product", product},
    {"sum", sum_of_pairs},
    {"reduce", reduce},
    {"reduce_by_table", reduce_by_table},
    {"build_table", build_table},
};

int main(int argc, char **argv)
{
    if (argc != 7) return 2;
    p = strtoull(argv[2], NULL, 10);
    k = strtoull(argv[3], NULL, 10);
    t = strtoull(argv[4], NULL, 10);
    n = strtoull(argv[5], NULL, 10);
    size = strtoull(argv[6], NULL, 10);
    for (size_t i = 0; i < sizeof calls / sizeof *calls; i++) {
        if (strcmp(argv[1], calls[i].name) != 0) continue;
        print_checksum(calls[i].run());
        return 0;
    }
    return 2;
}

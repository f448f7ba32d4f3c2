/* The correction table: 8 bytes of header, then p rows of p entries, entry u of row v being (u - q v) mod p; and reduction by it, with one division a
   word and one look-up a field. */
#include <string.h>
#include "checks.h"

enum { LARGEST = 127, HEADER = 8 };

/* A row is 0, 1, .., p-1 turned by q v mod p: no division an entry. */
static void write_table(uint64_t p, uint64_t t, uint8_t *out)
{
    uint64_t follow = 4 + p * p, q = (UINT64_C(1) << t) % p, first = 0;
    uint8_t header[HEADER] = {(uint8_t)(follow >> 24), (uint8_t)(follow >> 16), (uint8_t)(follow >> 8), (uint8_t)follow, 1, (uint8_t)(p >> 8), (uint8_t)p, (uint8_t)t};
    memcpy(out, header, HEADER);
    out += HEADER;
    for (uint64_t v = 0; v < p; v++, out += p) {
        for (uint64_t u = 0; u < p - first; u++) out[u] = (uint8_t)(first + u);
        for (uint64_t u = 0; u < first; u++) out[p - first + u] = (uint8_t)u;
        first = first < q ? first + p - q : first - q;
    }
}

/* The first byte at which the buffer is not the table, or the table's size. */
static size_t first_difference(uint64_t p, uint64_t t, const uint8_t *buffer, size_t len)
{
    uint8_t expected[HEADER + LARGEST * LARGEST];
    size_t size = HEADER + p * p, both = len < size ? len : size, i = 0;
    write_table(p, t, expected);
    if (memcmp(buffer, expected, both) == 0) return both;
    while (buffer[i] == expected[i]) i++;
    return i;
}

KERNEL uint64_t look_up(uint64_t p, uint64_t k, uint64_t t, const uint8_t *entries, uint64_t word)
{
    uint64_t quotient = word / p, reduced = 0, above = 0;
    for (size_t i = 2 * k - 1; i-- > 0;) {
        uint64_t u = (word >> i * t) - p * (quotient >> i * t);
        reduced |= (uint64_t)entries[u + p * above] << i * t;
        above = u;
    }
    return reduced;
}

KERNEL void look_up_all(uint64_t p, uint64_t k, uint64_t t, const uint8_t *entries, const uint64_t *words, size_t len, uint64_t *out)
{
    for (size_t i = 0; i < len; i++) out[i] = look_up(p, k, t, entries, words[i]);
}

static size_t first_bad_word(setting s, const uint64_t *words, size_t len)
{
    for (size_t i = 0; i < len; i++)
        if (word_cause(s, words[i])) return i;
    return len;
}

sax_reply sax_build_table(uint64_t p, uint64_t k, uint64_t t, uint64_t n, uint8_t *out, size_t out_len)
{
    uint64_t cause = setting_cause((setting){p, k, t, n});
    if (cause) return refused(cause, 0);
    if (p > LARGEST) return refused(NO_TABLE, 0);
    if (out_len < HEADER + p * p) return refused(SHORT, 0);
    write_table(p, t, out);
    return answered(HEADER + p * p);
}

sax_reply sax_reduce_by_table(uint64_t p, uint64_t k, uint64_t t, uint64_t n, const uint8_t *table, size_t table_len, const uint64_t *words, size_t words_len, uint64_t *out, size_t out_len)
{
    setting s = {p, k, t, n};
    uint64_t cause = setting_cause(s);
    if (cause) return refused(cause, 0);
    if (p > LARGEST) return refused(NO_TABLE, 0);
    size_t differs = first_difference(p, t, table, table_len);
    if (differs < HEADER + p * p) return refused(STALE, differs);
    if (out_len < words_len) return refused(SHORT, 0);
    size_t bad = first_bad_word(s, words, words_len);
    if (bad < words_len) return refused(WORD, bad);
    if (k == 2 && t == 21) look_up_all(p, 2, 21, table + HEADER, words, words_len, out);
    else look_up_all(p, k, t, table + HEADER, words, words_len, out);
    return answered(words_len);
}

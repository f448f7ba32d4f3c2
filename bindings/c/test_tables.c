/* Tables, and reduction by them. */
#include "test.h"

#define WORDS 40

static uint8_t table[SAX_MOST_TABLE_BYTES + 9];
static uint64_t words[WORDS];

static size_t set_table(uint64_t p, uint64_t t)
{
    size_t size = school_table_size(p);
    for (size_t i = 0; i < size; i++)
        table[i] = school_table_byte(p, t, i);
    for (size_t i = size; i < sizeof table; i++)
        table[i] = 251;
    return size;
}

static void set_words(setting s)
{
    for (size_t i = 0; i < WORDS; i++)
        words[i] = sample_word(s, 77 * i + s.t);
    words[0] = 0;
    words[WORDS - 1] = ((uint64_t)1 << (school_places(s) * s.t)) - 1;
}

static void builds(setting s)
{
    if (s.p > 127) {
        meant(try_build_table(s, SAX_MOST_TABLE_BYTES + 300), 14, 0);
        meant(try_build_table(s, 0), 14, 0);
        return;
    }
    size_t size = school_table_size(s.p);
    meant(try_build_table(s, 0), 10, 0);
    meant(try_build_table(s, size - 1), 10, 0);
    meant_value(try_build_table(s, size), size);
    meant_value(try_build_table(s, size + 300), size);
}

/* A bad word at the first, a middle and the last index, and the first of two. */
static void bad_words(setting s, size_t size)
{
    uint64_t limit = (uint64_t)1 << (school_places(s) * s.t), kept = words[WORDS / 2];
    words[WORDS / 2] = limit;
    meant(try_reduce_by_table(s, table, size, words, WORDS, WORDS + 3), 11, WORDS / 2);
    meant(try_reduce_by_table(s, table, size, words, WORDS, WORDS - 1), 10, 0);
    words[WORDS - 1] = UINT64_MAX;
    meant(try_reduce_by_table(s, table, size, words, WORDS, WORDS), 11, WORDS / 2);
    words[WORDS / 2] = kept;
    meant(try_reduce_by_table(s, table, size, words, WORDS, WORDS), 11, WORDS - 1);
    words[0] = limit;
    meant(try_reduce_by_table(s, table, size, words, WORDS, WORDS), 11, 0);
    set_words(s);
}

static void changed_byte(setting s, size_t size, size_t at)
{
    table[at] ^= 1;
    meant(try_reduce_by_table(s, table, size, words, WORDS, WORDS), 15, at);
    meant(try_reduce_by_table(s, table, size + 5, words, 0, 0), 15, at);
    meant(try_reduce_by_table(s, table, size, words, WORDS, WORDS - 1), 15, at);
    table[at] ^= 1;
}

static void stale(setting s, size_t size)
{
    for (size_t at = 0; at < size; at = at < 12 ? at + 1 : at + size / 11)
        changed_byte(s, size, at);
    changed_byte(s, size, size - 1);
    for (size_t len = 0; len < size; len = len < 12 ? len + 1 : len + size / 11)
        meant(try_reduce_by_table(s, table, len, words, 2, 2), 15, len);
    meant(try_reduce_by_table(s, table, size - 1, words, 2, 2), 15, size - 1);
    set_table(s.p, s.t == 63 ? 62 : s.t + 1);
    meant(try_reduce_by_table(s, table, size, words, 2, 2), 15, 7);
    set_table(s.p, s.t);
}

static void reduces(setting s)
{
    set_words(s);
    if (s.p > 127) {
        set_table(127, s.t);
        meant(try_reduce_by_table(s, table, school_table_size(127), words, 2, 2), 14, 0);
        meant(try_reduce_by_table(s, table, 0, words, 2, 1), 14, 0);
        return;
    }
    size_t size = set_table(s.p, s.t);
    meant_value(try_reduce_by_table(s, table, size, words, WORDS, WORDS), WORDS);
    meant_value(try_reduce_by_table(s, table, sizeof table, words, WORDS, WORDS + 9), WORDS);
    meant_value(try_reduce_by_table(s, table, size, words + 3, 1, 1), 1);
    meant_value(try_reduce_by_table(s, table, size, words, 0, 4), 0);
    meant(try_reduce_by_table(s, table, size, words, WORDS, WORDS - 1), 10, 0);
    bad_words(s, size);
    stale(s, size);
}

/* Every p that has a table, and the next. */
static void every_modulus(void)
{
    for (uint64_t p = 2; p <= 128; p++) {
        setting s = make_setting(p, 1, 14 + p % 50, 1);
        builds(s);
        reduces(s);
    }
}

static void examples(void)
{
    static const uint8_t printed[17] = {0, 0, 0, 13, 1, 0, 3, 4, 0, 1, 2, 2, 0, 1, 1, 2, 0};
    static const uint64_t word[1] = {1122};
    meant_value(try_reduce_by_table(make_setting(3, 2, 4, 1), printed, 17, word, 1, 1), 1);
    meant(try_reduce_by_table(make_setting(3, 2, 5, 1), printed, 17, word, 1, 1), 15, 7);
}

void test_tables(void)
{
    examples();
    for_settings(builds);
    for_settings(reduces);
    every_modulus();
}

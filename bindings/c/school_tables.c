/* The definitions of tables. */
#include "school.h"

size_t school_table_size(uint64_t p)
{
    return (size_t)(8 + p * p);
}

uint8_t school_table_byte(uint64_t p, uint64_t t, size_t i)
{
    if (i < 4)
        return (uint8_t)((school_table_size(p) - 4) >> (8 * (3 - i)));
    if (i == 4)
        return 1;
    if (i < 7)
        return (uint8_t)(p >> (8 * (6 - i)));
    if (i == 7)
        return (uint8_t)t;
    uint64_t u = (i - 8) % p, v = (i - 8) / p;
    uint64_t qv = ((uint64_t)1 << t) % p * v % p;
    return (uint8_t)((u + p - qv) % p);
}

sax_reply school_build_table(setting s, uint8_t *out, size_t out_len)
{
    uint64_t number = school_setting(s);
    if (number != 0)
        return school_refusal(number, 0);
    if (s.p > 127)
        return school_refusal(14, 0);
    if (out_len < school_table_size(s.p))
        return school_refusal(10, 0);
    for (size_t i = 0; i < school_table_size(s.p); i++)
        out[i] = school_table_byte(s.p, s.t, i);
    return school_answer(school_table_size(s.p));
}

/* The first byte that differs or is missing, or the table's size. */
static size_t first_difference(setting s, const uint8_t *table, size_t table_len)
{
    size_t i = 0;
    while (i < school_table_size(s.p) && i < table_len &&
           table[i] == school_table_byte(s.p, s.t, i))
        i++;
    return i;
}

sax_reply school_reduce_by_table(setting s, const uint8_t *table, size_t table_len,
                                 const uint64_t *words, size_t words_len,
                                 uint64_t *out, size_t out_len)
{
    uint64_t number = school_setting(s);
    if (number != 0)
        return school_refusal(number, 0);
    if (s.p > 127)
        return school_refusal(14, 0);
    size_t at = first_difference(s, table, table_len);
    if (at < school_table_size(s.p))
        return school_refusal(15, at);
    if (out_len < words_len)
        return school_refusal(10, 0);
    for (size_t i = 0; i < words_len; i++)
        if (school_too_large(s, words[i]))
            return school_refusal(11, i);
    for (size_t i = 0; i < words_len; i++)
        out[i] = school_reduced(s, words[i]);
    return school_answer(words_len);
}

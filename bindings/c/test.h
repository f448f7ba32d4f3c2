/*
 * The test of the header's functions. Each try_ makes one call, holds its reply and every byte of
 * its buffers, also those around the output, to the definitions of school.h, and counts it. It
 * returns what the definitions say, for `meant`.
 */
#ifndef TEST_H
#define TEST_H

#include "school.h"

sax_reply try_choose(uint64_t p, uint64_t k, uint64_t n);
sax_reply try_pack(setting s, const uint16_t *xs, size_t len);
sax_reply try_unpack(setting s, uint64_t word, size_t out_len);
sax_reply try_reduce(setting s, uint64_t word);
sax_reply try_build_table(setting s, size_t out_len);
sax_reply try_reduce_by_table(setting s, const uint8_t *table, size_t table_len,
                              const uint64_t *words, size_t words_len, size_t out_len);
sax_reply try_product(setting s, const uint16_t *a, size_t a_len,
                      const uint16_t *b, size_t b_len, size_t out_len);
sax_reply try_sum(setting s, const uint16_t *xs, size_t xs_len,
                  const uint16_t *ys, size_t ys_len, size_t size, size_t out_len);
sax_lane_reply try_lane_sum(setting s, const uint16_t *xs, size_t xs_len,
                            const uint16_t *ys, size_t ys_len);
sax_lane_reply try_lane_reduce(setting s, double word);

/* Where it is set, a buffer of no elements is given as null. */
extern int null_for_empty;

/* That the last call was the case it was meant to be: refused so, or answered with this value. */
void meant(sax_reply want, uint64_t number, uint64_t place);
void meant_value(sax_reply want, uint64_t value);
void meant_lane(sax_lane_reply want, uint64_t number, uint64_t place);
void meant_lane_value(sax_lane_reply want, double value);

/* The functions, for the count of what was met. */
enum call {
    CHOOSE, PACK, UNPACK, REDUCE, BUILD_TABLE, REDUCE_BY_TABLE, PRODUCT, SUM, LANE_SUM,
    LANE_REDUCE, CALLS
};

/* Counts a call; whether it has to be printed, since it is one of the first wrong ones. */
int tally(enum call call, uint64_t number, int right);
int tally_end(void);

/* Element i is c 75^i modulo 65,537, that modulo p. */
void fill(uint64_t p, uint64_t c, uint16_t *xs, size_t len);
uint64_t sample_word(setting s, uint64_t c);

setting make_setting(uint64_t p, uint64_t k, uint64_t t, uint64_t n);

/* Accepted settings: many p and n, each k, the smallest and the largest t. */
void for_settings(void (*visit)(setting s));

void test_settings(void);
void test_places(void);
void test_tables(void);
void test_products(void);
void test_sums(void);
void test_lane(void);
void test_empty(void);

#endif

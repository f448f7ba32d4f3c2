/*
 * What every function of the header has to give, by its plain definition: whole numbers, one
 * coefficient, field or byte at a time. Nothing here is packed, delayed or looked up, so that it
 * can be read beside docs/REFUSALS.md and shares no way of working with what it judges.
 *
 * An `out` is the buffer as it has to be afterwards: it comes with the old contents.
 */
#ifndef SCHOOL_H
#define SCHOOL_H

#include "saxweylur.h"

typedef struct {
    uint64_t p, k, t, n;
} setting;

/* The first of 1 to 6 that holds, or 0. */
uint64_t school_setting(setting s);

sax_reply school_choose(uint64_t p, uint64_t k, uint64_t n);
sax_reply school_pack(setting s, const uint16_t *xs, size_t len);
sax_reply school_unpack(setting s, uint64_t word, uint64_t *out, size_t out_len);
sax_reply school_reduce(setting s, uint64_t word);

/* Only for a setting that is accepted. */
uint64_t school_reduced(setting s, uint64_t word);

/* Byte i of the table of p and t, for p from 2 to 127 and t from 1 to 63. */
uint8_t school_table_byte(uint64_t p, uint64_t t, size_t i);
size_t school_table_size(uint64_t p);

sax_reply school_build_table(setting s, uint8_t *out, size_t out_len);
sax_reply school_reduce_by_table(setting s, const uint8_t *table, size_t table_len,
                                 const uint64_t *words, size_t words_len,
                                 uint64_t *out, size_t out_len);

sax_reply school_product(setting s, const uint16_t *a, size_t a_len,
                         const uint16_t *b, size_t b_len, uint16_t *out, size_t out_len);
sax_reply school_sum(setting s, const uint16_t *xs, size_t xs_len,
                     const uint16_t *ys, size_t ys_len, uint16_t *out, size_t out_len);
sax_lane_reply school_lane_sum(setting s, const uint16_t *xs, size_t xs_len,
                               const uint16_t *ys, size_t ys_len);
sax_lane_reply school_lane_reduce(setting s, double word);

/* Shared by the files of the definitions. */
sax_reply school_answer(uint64_t value);
sax_reply school_refusal(uint64_t number, uint64_t place);
uint64_t school_places(setting s);
int school_too_large(setting s, uint64_t word);

/* The index of the first coefficient that is p or more, the second list after the first, or the
   length of both. */
size_t school_first_bad(uint64_t p, const uint16_t *xs, size_t xs_len,
                        const uint16_t *ys, size_t ys_len);

#endif

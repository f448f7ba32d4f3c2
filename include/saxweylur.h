/*
 * Saxweylur for C and C++: arithmetic on polynomials with coefficients modulo p that are packed
 * into one 64-bit word, a coefficient to every t bits.
 *
 * Link with libexports.a, which `bindings/archive` writes to target/staticlib. It is for
 * x86-64 with the System V calling convention and asks the C library for memset only. The
 * functions in it are proved; this header is not: bindings/check tests it against them.
 *
 * SETTINGS. A setting is four numbers: p, the modulus; k, coefficients per packed polynomial;
 * t, bits per place; n, products added before a reduction. Below, q is 2^t. A word has 2k-1 places
 * of t bits; field i of a word is floor(word / q^i) mod q. Any numbers may be given, also ones
 * that make no setting: those are refused.
 *
 * REPLIES. Every call returns, and says in its reply whether it was refused. Where several causes
 * hold at once, the first in the order that stands beside the function is given; "setting" there
 * is 1, 2, 3, 4, 5, 6 in this order. docs/REFUSALS.md has the causes in full.
 *
 * BUFFERS. A pointer comes with its number of elements. It must be valid for that many, and
 * aligned for its type; beside 0 elements it may be null. All memory is the caller's: a call
 * keeps no pointer, allocates nothing and has no state, so calls may run at the same time on
 * several threads as long as no output of one is used by another. `out` may not overlap
 * an input of the same call; inputs may overlap each other. A refused call leaves `out` as it
 * was. Any other writes the elements that are named, and leaves those after them as they were.
 */
#ifndef SAXWEYLUR_H
#define SAXWEYLUR_H

#include <stddef.h>
#include <stdint.h>

#ifdef __cplusplus
extern "C" {
#endif

/* The refusals by number. The place is 0 unless another one is named here. */
enum sax_refusal {
    SAX_NO_REFUSAL = 0,
    SAX_MODULUS = 1,     /* p outside 2..65,536 */
    SAX_LENGTH = 2,      /* k outside 1..8 */
    SAX_BATCH = 3,       /* n outside 1..1,048,576 */
    SAX_WIDTH = 4,       /* t outside 1..63 */
    SAX_NARROW = 5,      /* 2^t <= n k (p-1)^2 */
    SAX_ROOM = 6,        /* (2k-1) t >= 64 */
    SAX_NONE = 7,        /* no t in 1..63 escapes both 5 and 6 */
    SAX_COEFFICIENT = 8, /* a coefficient >= p; place: its index, in the second of two lists the
                            first's length added */
    SAX_SHAPE = 9,       /* a list's length is wrong for the call */
    SAX_SHORT = 10,      /* the output buffer is shorter than needed */
    SAX_WORD = 11,       /* a word >= 2^((2k-1)t), or a double that is no whole number below that;
                            place: its index where it stands in a list */
    SAX_RECORD = 12,     /* a record that is not coherent; no function here takes a record */
    SAX_FULL = 13,       /* more pairs than the call may take */
    SAX_NO_TABLE = 14,   /* p > 127 */
    SAX_STALE = 15,      /* a table that does not fit the setting; place: the first byte that
                            differs, or the buffer's length if it ends first */
    SAX_LANE = 16,       /* (2k-1) t >= 53 */
    SAX_JOB = 17,        /* of the job program; no function here gives it */
    SAX_OVERFLOW = 18    /* a batch sum would not fit its word: never given, by proof */
};

/* Sizes of which no call needs more. */
#define SAX_MOST_FIELDS 15        /* 2k-1 for k = 8 */
#define SAX_MOST_TABLE_BYTES 16137 /* 8 + p^2 for p = 127 */
#define SAX_LONGEST_FACTOR 4096   /* coefficients in a list of sax_product */
#define SAX_MOST_PAIRS 1000000    /* pairs in a call of sax_sum */

/*
 * number: the refusal's, or 0 where nothing was refused. place: the refusal's, or 0.
 * value: as said of each function, and 0 beside a refusal.
 */
typedef struct {
    uint64_t number;
    uint64_t place;
    uint64_t value;
} sax_reply;

/* The same with a double, which is +0.0 beside a refusal. */
typedef struct {
    uint64_t number;
    uint64_t place;
    double value;
} sax_lane_reply;

/*
 * Choose a width. value: the smallest t from 1 to 63 that escapes 5 and 6, so that the setting
 * p, k, t, n is accepted.
 * Refusals: 1, 2, 3, 7.
 */
sax_reply sax_choose(uint64_t p, uint64_t k, uint64_t n);

/*
 * Pack exactly k coefficients. value: the word, the sum of coefficients[i] q^i.
 * Refusals: setting; 9 where len is not k; 8.
 */
sax_reply sax_pack(uint64_t p, uint64_t k, uint64_t t, uint64_t n,
                   const uint16_t *coefficients, size_t len);

/*
 * Unpack a word: its 2k-1 fields, the lowest first, are written to out. value: 2k-1.
 * Refusals: setting; 11; 10 where out_len is below 2k-1.
 */
sax_reply sax_unpack(uint64_t p, uint64_t k, uint64_t t, uint64_t n,
                     uint64_t word, uint64_t *out, size_t out_len);

/*
 * Reduce a word. value: the word whose field i is the old field i modulo p, for each of the 2k-1
 * places.
 * Refusals: setting; 11.
 */
sax_reply sax_reduce(uint64_t p, uint64_t k, uint64_t t, uint64_t n, uint64_t word);

/*
 * Build the correction table of p and t: four bytes of a length that counts all bytes after it,
 * a version byte 1, two bytes of p, one of t, numbers big-endian; then p^2 bytes, of which byte
 * u + p v is (u - q v) mod p, taken in 0..p-1. value: 8 + p^2, the bytes written.
 * Refusals: setting; 14; 10 where out_len is below 8 + p^2.
 */
sax_reply sax_build_table(uint64_t p, uint64_t k, uint64_t t, uint64_t n,
                          uint8_t *out, size_t out_len);

/*
 * Reduce words by a table: out[i] becomes the reduced word of words[i]. value: words_len. Each
 * call compares the whole table, also where there are no words; bytes of the buffer after it are
 * not looked at.
 * Refusals: setting; 14; 15; 10 where out_len is below words_len; 11 with the word's index.
 */
sax_reply sax_reduce_by_table(uint64_t p, uint64_t k, uint64_t t, uint64_t n,
                              const uint8_t *table, size_t table_len,
                              const uint64_t *words, size_t words_len,
                              uint64_t *out, size_t out_len);

/*
 * The product of two lists: out[j] becomes the sum of a[i] b[j-i] modulo p. value: the
 * coefficients written, a_len + b_len - 1, or 0 where a list is empty, and then nothing is written.
 * Refusals: setting; 9 where a list has more than 4,096 coefficients; 8; 10 where out_len is below
 * the product's length; 18, which is defined and never given.
 * It takes some 130 KiB of stack, which a thread with a small stack may not have.
 */
sax_reply sax_product(uint64_t p, uint64_t k, uint64_t t, uint64_t n,
                      const uint16_t *a, size_t a_len,
                      const uint16_t *b, size_t b_len,
                      uint16_t *out, size_t out_len);

/*
 * The sum of products of pairs. xs and ys are flat, k coefficients per polynomial: pair i is
 * xs[ki..ki+k-1] and ys[ki..ki+k-1]. A fresh running record is fed all pairs, `size` of them at a
 * time or all at once where size is 0, and closed: the first 2k-1 elements of out become the
 * coefficients of the sum of all products modulo p, zeros where there are no pairs. value: the
 * number of reductions, pairs / n rounded up. Neither the reply nor out depends on size, and the
 * place of a refusal is one in the whole lists.
 * Refusals: setting; 9 where the lengths differ or are no multiple of k; 13 where there are more
 * than 1,000,000 pairs; 8; 18, which is defined and never given; 10 where out_len is below 2k-1.
 */
sax_reply sax_sum(uint64_t p, uint64_t k, uint64_t t, uint64_t n,
                  const uint16_t *xs, size_t xs_len,
                  const uint16_t *ys, size_t ys_len,
                  size_t size, uint16_t *out, size_t out_len);

/*
 * The sum of products of at most n pairs in the double lane, lists as in sax_sum. value: the word
 * whose fields are the coefficients of the sum, unreduced; exactly, and +0.0 for zero.
 * Refusals: setting; 16; 9 where the lengths differ or are no multiple of k; 13 where there are
 * more than n pairs; 8.
 */
sax_lane_reply sax_lane_sum(uint64_t p, uint64_t k, uint64_t t, uint64_t n,
                            const uint16_t *xs, size_t xs_len,
                            const uint16_t *ys, size_t ys_len);

/*
 * Reduce a word in the double lane. value: what sax_reduce gives for the word, as a double;
 * exactly, and +0.0 for zero.
 * Refusals: setting; 16; 11 unless word is a whole number from 0 to 2^((2k-1)t) - 1: a NaN, an
 * infinity, a fraction, a negative number and -0.0 are refused too.
 */
sax_lane_reply sax_lane_reduce(uint64_t p, uint64_t k, uint64_t t, uint64_t n, double word);

#ifdef __cplusplus
}
#endif

#endif

/* Each field of a word by its own remainder. */
#include "checks.h"

KERNEL uint64_t reduce(uint64_t p, uint64_t k, uint64_t t, uint64_t word)
{
    uint64_t reduced = 0;
    for (size_t i = 0; i < 2 * k - 1; i++) reduced |= remainder_of(field(word, i, t), p, t) << i * t;
    return reduced;
}

sax_reply sax_reduce(uint64_t p, uint64_t k, uint64_t t, uint64_t n, uint64_t word)
{
    setting s = {p, k, t, n};
    uint64_t cause = setting_cause(s);
    if (cause) return refused(cause, 0);
    if (word_cause(s, word)) return refused(WORD, 0);
    return answered(k == 2 && t == 21 ? reduce(p, 2, 21, word) : reduce(p, k, t, word));
}

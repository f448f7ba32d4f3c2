// ntl HOW P SIZE: as flint.c, by NTL. HOW is plain, the schoolbook method, or best, the one that NTL chooses.
#include <NTL/lzz_pX.h>
#include <cstring>
#include "common.h"

using NTL::zz_pX;
typedef void product(zz_pX &, const zz_pX &, const zz_pX &);

static zz_pX make(uint64_t p, uint64_t list, size_t size)
{
    uint16_t *xs = coefficients(p, list, size);
    zz_pX f;
    for (size_t i = 0; i < size; i++) SetCoeff(f, (long)i, (long)xs[i]);
    return f;
}

int main(int argc, char **argv)
{
    if (argc != 4) return 2;
    uint64_t p = strtoull(argv[2], nullptr, 10), sum = 0;
    size_t size = strtoull(argv[3], nullptr, 10);
    NTL::zz_p::init((long)p);
    product *best = NTL::mul, *mul = strcmp(argv[1], "plain") == 0 ? NTL::PlainMul : best;
    zz_pX a = make(p, 1, size), b = make(p, 2, size), out;
    mul(out, a, b);
    COUNT_BEGIN;
    mul(out, a, b);
    COUNT_END;
    for (size_t i = 0; i < 2 * size - 1; i++) sum = checksum(sum, (uint64_t)rep(coeff(out, (long)i)));
    print_checksum(sum);
}

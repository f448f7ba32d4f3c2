/* flint HOW P SIZE: the product of two polynomials of SIZE coefficients by FLINT, counted, and the checksum of its coefficients. HOW is classical, the
   schoolbook method, or best, the one that FLINT chooses. The polynomials are made before, and one uncounted product lets libraries make ready. */
#include <flint/nmod_poly.h>
#include <string.h>
#include "common.h"

static void make(nmod_poly_t f, unsigned long p, uint64_t list, size_t size)
{
    uint16_t *xs = coefficients(p, list, size);
    nmod_poly_init(f, p);
    for (size_t i = 0; i < size; i++) nmod_poly_set_coeff_ui(f, (slong)i, xs[i]);
}

int main(int argc, char **argv)
{
    if (argc != 4) return 2;
    unsigned long p = strtoul(argv[2], NULL, 10);
    size_t size = strtoul(argv[3], NULL, 10);
    void (*mul)(nmod_poly_t, const nmod_poly_t, const nmod_poly_t) = strcmp(argv[1], "classical") == 0 ? nmod_poly_mul_classical : nmod_poly_mul;
    uint64_t sum = 0;
    nmod_poly_t a, b, out;
    make(a, p, 1, size);
    make(b, p, 2, size);
    nmod_poly_init(out, p);
    mul(out, a, b);
    COUNT_BEGIN;
    mul(out, a, b);
    COUNT_END;
    for (size_t i = 0; i < 2 * size - 1; i++) sum = checksum(sum, nmod_poly_get_coeff_ui(out, (slong)i));
    print_checksum(sum);
    return 0;
}

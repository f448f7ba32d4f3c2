"""Products of lists by document 01's words, in whole numbers. The coefficients come from one multiplication of two whole numbers, in each of which a
list stands with 64 bits a coefficient, so that no sum reaches its neighbour: nothing is packed at t bits, and no batch is formed. Where the lists are
not long, each coefficient is also summed by its definition, and the two are asserted to be equal. No code of the crates is used."""

from document import check, refuse, refuse_coefficients, refuse_short

LONGEST = 4096


def by_definition(p, a, b):
    """Coefficient j is the sum of a_i b_(j-i) modulo p."""
    return [sum(a[i] * b[j - i] for i in range(len(a)) if 0 <= j - i < len(b)) % p for j in range(len(a) + len(b) - 1)]


def by_one_multiplication(p, a, b):
    def number(xs):
        return int.from_bytes(b"".join(x.to_bytes(8, "little") for x in xs), "little")

    assert LONGEST * (p - 1) ** 2 < 2**64
    digits = (number(a) * number(b)).to_bytes(8 * (len(a) + len(b)), "little")
    return [int.from_bytes(digits[8 * j:8 * j + 8], "little") % p for j in range(len(a) + len(b) - 1)]


def coefficients(p, a, b):
    if not a or not b:
        return []
    answer = by_one_multiplication(p, a, b)
    if len(a) + len(b) <= 1024:
        assert answer == by_definition(p, a, b)
    return answer


def product(s, a, b, lent):
    refuse(check(*s))
    refuse(9 if max(len(a), len(b)) > LONGEST else 0)
    refuse_coefficients(s[0], a, b)
    answer = coefficients(s[0], a, b)
    refuse_short(lent, len(answer))
    return answer


# document 01's pair, and that pair's residues in its example of a reduced word
assert product((3, 2, 4, 1), [1, 2], [2, 2], 3) == [2, 0, 1]

"""The double lane by document 01's words, in whole numbers. A sum is formed from schoolbook sums, and that it is the sum of the products of the
packed words is asserted; a reduction takes each field modulo p. Python's floats are doubles too: they stand for the doubles that are handed over, by
their bits from struct. What a double rounds to is worked out from fractions, 1/p too, and that Python's floats give the same is asserted. No code of
the crates is used."""

import struct
from fractions import Fraction
from math import inf, nan

from document import check, refuse, refuse_coefficients, words
from records import pairs_of, refuse_shape, schoolbook
from words import after, packed, reduced

SIGN = 2**63
LANE_BITS = 53


def bits(x):
    return struct.unpack(">Q", struct.pack(">d", x))[0]


def of_bits(pattern):
    return struct.unpack(">d", struct.pack(">Q", pattern))[0]


def nearest(x):
    """The double nearest to a fraction that is no smaller than 2^-64 nor larger than 2^64, or zero; of two that are as near the even one."""
    if x == 0:
        return 0.0
    power = x.numerator.bit_length() - x.denominator.bit_length() - LANE_BITS
    while x >= Fraction(2) ** (power + LANE_BITS):
        power += 1
    # 2^52 to 2^53, where the last step may reach the next power of two; round of a fraction is exact, and takes the even one of two
    return of_bits(((power + 1074) << 52) + round(x / Fraction(2) ** power))


def whole(x):
    answer = nearest(Fraction(x))
    assert answer == float(x)
    return answer


def over(x, y):
    """The quotient of two doubles that are whole and not negative."""
    if y == 0:
        return inf if x else nan
    answer = nearest(Fraction(x) / Fraction(y))
    assert answer == x / y
    return answer


def double(x):
    """A whole number below 2^64 as one, another double by its bits, either after its sign."""
    if x != x:
        return "nan"
    sign, size = divmod(bits(x), SIGN)
    x = of_bits(size)
    return words(["minus"] * sign, [int(x)] if x < 2**64 and x == int(x) else ["bits", size])


def refused_lane(s):
    """The number of the first of 1 to 6 and 16 whose cause holds, or 0."""
    p, k, t, n = s
    return check(*s) or (16 if (2 * k - 1) * t >= LANE_BITS else 0)


def right_doubles(s):
    p, k, t, n = s
    return [whole(p), whole(2**t), over(1.0, whole(p))]


class Lane:
    """A setting and three doubles: those that make holds, where no others are given."""

    def __init__(self, s, *doubles):
        self.s, self.doubles = tuple(s), list(doubles) or right_doubles(s)

    def coherent(self):
        return not refused_lane(self.s) and all(x == x and bits(x) == bits(y) for x, y in zip(self.doubles, right_doubles(self.s)))

    def shown(self):
        return " : ".join([words("lane", self.s)] + [double(x) for x in self.doubles])


def make(s):
    refuse(refused_lane(s))
    return Lane(s)


def lane_sum(lane, xs, ys):
    p, k, t, n = lane.s
    refuse(0 if lane.coherent() else 12)
    refuse_shape(k, xs, ys)
    pairs = pairs_of(k, xs, ys)
    refuse(13 if len(pairs) > n else 0)
    refuse_coefficients(p, xs, ys)
    word = packed(t, schoolbook(k, pairs))
    assert word == sum(packed(t, a) * packed(t, b) for a, b in pairs) < after(k, t)
    return word


def is_word(s, x):
    p, k, t, n = s
    return x == x and bits(x) < SIGN and x < inf and x == int(x) and int(x) < after(k, t)


def lane_reduce(lane, x):
    refuse(0 if lane.coherent() else 12)
    refuse(0 if is_word(lane.s, x) else 11)
    return reduced(lane.s, int(x))


# what document 01 prints
assert refused_lane((3, 4, 7, 7)) == 0 and refused_lane((3, 4, 8, 7)) == 16
assert lane_sum(Lane((3, 2, 5, 2)), [1, 2], [2, 2]) == 4290 and lane_reduce(Lane((3, 2, 4, 1)), 1122.0) == 258

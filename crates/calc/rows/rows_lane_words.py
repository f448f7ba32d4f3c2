"""Rows of calc's test: lane reductions by sound records, and the doubles that are no words."""

from itertools import count, islice
from math import inf
from sys import float_info

from lanes import Lane, bits, double, of_bits, refused_lane
from rows_lane import LONG, ONE, SMALL, lane_words
from words import packed


def span(s):
    return (2 * s[1] - 1) * s[2]


def last_multiple(s):
    return 2 ** span(s) - 1 - (2 ** span(s) - 1) % s[0]


def around(sheet, s, word):
    lane_words(sheet, Lane(s), word - 1, word, word + 1)


def is_low(p, x):
    """Whether the product of doubles, cut, is one less than the quotient."""
    return int(float(x) * (1.0 / p)) == x // p - 1


def low_words(s):
    """The three smallest multiples of p that are low; p times the largest power of two for which that is a word, and the two multiples before."""
    p = s[0]
    small = list(islice((m * p for m in count(1) if is_low(p, m * p)), 3))
    power = 2 ** (span(s) - p.bit_length())
    assert power * p < 2 ** span(s) <= 2 * power * p
    low = small + [(power - 2) * p, (power - 1) * p, power * p]
    assert refused_lane(s) == 0 and all(is_low(p, x) for x in low)
    return low


def reductions(sheet):
    sheet.group("lanereduce: document 01's words")
    lane_words(sheet, Lane(SMALL), 4290, 8580)
    lane_words(sheet, Lane((3, 2, 4, 1)), 1122, 258)
    assert sheet.answers[-2:] == ["word 258", "word 258"]
    sheet.group("lanereduce: 0, 1, p-1, p and p+1")
    lane_words(sheet, Lane((2, 1, 1, 1)), 0, 1)
    for s in [SMALL, ONE, (65535, 1, 32, 1), (19, 3, 10, 1)]:
        lane_words(sheet, Lane(s), 0, 1, s[0] - 1, s[0], s[0] + 1)
    lane_words(sheet, Lane(LONG), 0, 1, 2, 3)
    sheet.group("lanereduce: single fields, and all three")
    lane_words(sheet, Lane(SMALL), *[packed(5, [0] * j + [x]) for j in (1, 2) for x in (2, 3, 31)])
    lane_words(sheet, Lane(SMALL), *[packed(5, [x] * 3) for x in (2, 3, 4, 30)])
    sheet.group("lanereduce: every field q-1, and 11 for one more")
    for s in [
        SMALL, (256, 2, 17, 1), (19, 3, 10, 1), (3, 4, 7, 7), (3, 5, 5, 1), (2, 6, 4, 2), LONG, (2, 1, 1, 1), ONE, (3, 1, 52, 1), (65535, 1, 52, 1),
        (65536, 1, 52, 1),
    ]:
        p, k, t, n = s
        assert packed(t, [2**t - 1] * (2 * k - 1)) == 2 ** span(s) - 1
        lane_words(sheet, Lane(s), 2 ** span(s) - 1)
        lane_words(sheet, Lane(s), 2 ** span(s), gives="refused 11 0")
    sheet.group("lanereduce: around the largest multiple of p; p divides q")
    for s in [
        (3, 1, 52, 1), (929, 1, 52, 1), (65521, 1, 52, 1048576), (65535, 1, 52, 1), (65535, 1, 32, 1), (49, 2, 17, 14), (251, 2, 17, 1),
        (19, 3, 10, 1), (6, 4, 7, 1), (3, 5, 5, 1), (2, 6, 4, 2), LONG,
    ]:
        around(sheet, s, last_multiple(s))
    lane_words(sheet, Lane((65536, 1, 52, 1)), 65535, 65536, 65537, 2**52 - 1)
    around(sheet, (65536, 1, 52, 1), last_multiple((65536, 1, 52, 1)))
    around(sheet, (256, 2, 17, 1), 2**51 - 64)
    # no p below 49, and none that a k above 2 allows
    assert min(p for p in range(2, 65537) if is_low(p, p)) == 49
    assert all(refused_lane((49, k, t, 1)) for k in range(3, 9) for t in range(1, 64))
    sheet.group("lanereduce: where the product with 1/p is low by one")
    low = low_words((49, 2, 13, 1))
    lane_words(sheet, Lane((49, 2, 13, 1)), *low)
    around(sheet, (49, 2, 13, 1), low[0])
    around(sheet, (49, 2, 13, 1), low[4])
    for s in [
        (49, 2, 17, 14), (98, 2, 15, 1), (103, 2, 17, 6), (161, 2, 16, 1), (197, 2, 17, 1), (253, 2, 17, 1), (49, 1, 52, 1), (929, 1, 20, 1),
        (929, 1, 52, 1), (65519, 1, 52, 1), (65521, 1, 32, 1), (65530, 1, 52, 1),
    ]:
        lane_words(sheet, Lane(s), *low_words(s))
    sheet.group("lanereduce: where a correction's product is low")
    for s, cases in [
        ((98, 2, 15, 1), [[0, 0, 49], [5, 7, 49], [3, 49, 0]]),
        ((196, 2, 17, 1), [[5, 7, 49], [5, 7, 98], [195, 131071, 147]]),
        ((206, 2, 17, 1), [[5, 7, 103], [3, 103, 0]]),
        ((214, 2, 17, 1), [[5, 7, 107], [3, 107, 0]]),
    ]:
        for case in cases:
            word = packed(s[2], case)
            shifted = [word // 2 ** (s[2] * i) % s[0] for i in range(3)]
            assert refused_lane(s) == 0 and any(u and is_low(s[0], u * 2 ** s[2]) for u in shifted[1:])
            lane_words(sheet, Lane(s), word)


def improper(sheet):
    # no words of any setting here
    no_words = ["minus 0", "minus 1", "minus 49", "minus 4503599627370495", "minus 9223372036854775808"]
    no_words += ["1 over 2", "minus 1 over 2", "3 over 2", "1 over 10", "29 over 10", "1 over 3"]
    no_words += [2**52, 2**53, 2**63, "bits %d" % bits(2.0**64), "bits %d" % bits(1e300)]
    no_words += ["bits 1", "minus bits 1", "bits %d" % (2**52 - 1), "bits %d" % 2**52]
    no_words += ["bits %d" % bits(float_info.max), "1 over 0", "minus 1 over 0", "minus bits %d" % bits(float_info.max)]
    no_words += ["nan", "minus nan", "0 over 0", "bits %d" % (bits(inf) + 1), "bits %d" % (2**64 - 1)]
    assert of_bits(2**52) == float_info.min
    for s in [SMALL, (65536, 1, 52, 1)]:
        sheet.group("lanereduce: 11, negative, fractions, too large, the smallest and the largest, infinite, NaN")
        lane_words(sheet, Lane(s), *no_words, gives="refused 11 0")
    sheet.group("lanereduce: 11, next to words")
    for s, xs in [
        (SMALL, [beside(1.0, 1), beside(2.0, 1), beside(32767.0, 1), 32766.5, 32767.5, beside(1.0, -1), beside(32768.0, -1), 32768.0]),
        ((65536, 1, 52, 1), [2**52 - 1.5, 2**52 - 0.5, 2**51 + 0.5]),
        (LONG, [2**52 - 0.5, 2.0**52, 2.0**52 + 1, -0.0]),
    ]:
        lane_words(sheet, Lane(s), *[double(x) for x in xs], gives="refused 11 0")


def beside(x, steps):
    return of_bits(bits(x) + steps)


def rows(sheet):
    reductions(sheet)
    improper(sheet)

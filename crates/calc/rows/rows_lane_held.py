"""Rows of calc's test: lane records that are set by hand, sound and not."""

from math import inf, nan

from document import ALL, check
from lanes import Lane, bits, of_bits, refused_lane, right_doubles
from rows_lane import SMALL, hold, lane_sum, lane_words

THIRD = 1.0 / 3
OTHER = (49, 2, 13, 1)


def held(sheet, *record, sound=False):
    """One sum and one reduction, which are refused with 12 where the record is not sound."""
    lane = Lane(*record)
    assert lane.coherent() == sound
    # typed also where it is what make gives
    sheet.type(lane.shown(), gives=lane.shown())
    lane_sum(sheet, lane, [1, 2], [2, 2], gives=None if sound else "refused 12 0")
    lane_words(sheet, lane, 4290, gives=None if sound else "refused 12 0")


def rows(sheet):
    sheet.group("12: one double of the lane, the last of each list the right one")
    for p in [nan, 0.0, -0.0, -3.0, inf, -inf, 2.0, 4.0, 32.0, 3.0]:
        held(sheet, SMALL, p, 32.0, THIRD, sound=p == 3.0)
    for q in [nan, 0.0, -0.0, -32.0, inf, -inf, 16.0, 64.0, 3.0, 32.0]:
        held(sheet, SMALL, 3.0, q, THIRD, sound=q == 32.0)
    beside = [of_bits(bits(THIRD) - 1), of_bits(bits(THIRD) + 1)]
    for inverse in [nan, 0.0, -0.0, -THIRD, inf, -inf, 1.0 / 2, 1.0 / 4, 1.0 / 32, *beside, THIRD]:
        held(sheet, SMALL, 3.0, 32.0, inverse, sound=inverse == THIRD)
    sheet.group("12: each bit of each double")
    for bit in range(64):
        for changed in range(3):
            doubles = right_doubles(OTHER)
            doubles[changed] = of_bits(bits(doubles[changed]) ^ 2**bit)
            held(sheet, OTHER, *doubles)
    sheet.group("12: doubles in each other's place, of another setting, and none")
    for doubles in [
        (32.0, 3.0, THIRD), (32.0, 3.0, 1.0 / 32), (THIRD, 32.0, 3.0), (2.0, 32.0, 1.0 / 2), (3.0, 64.0, THIRD), (0.0, 0.0, 0.0), (nan, nan, nan),
        (3.0, 32.0, THIRD),
    ]:
        held(sheet, SMALL, *doubles, sound=doubles == (3.0, 32.0, THIRD))
    sheet.group("12: the doubles of p = 3, t = 5 beside another setting")
    for sound, *s in [
        (False, 2, 2, 5, 2), (False, 4, 1, 5, 1), (False, 3, 2, 4, 1), (False, 3, 2, 6, 2), (True, 3, 2, 5, 1), (True, 3, 2, 5, 3),
        (True, 3, 1, 5, 2), (True, 3, 3, 5, 2),
    ]:
        assert refused_lane(s) == 0
        held(sheet, s, *right_doubles(SMALL), sound=sound)
    sheet.group("12: settings that are refused, with their doubles")
    for number, *s in [
        (1, 0, 2, 5, 2), (1, 1, 2, 5, 2), (1, 65537, 1, 40, 1), (2, 3, 0, 5, 2), (2, 3, 9, 5, 2), (3, 3, 2, 5, 0), (3, 3, 2, 5, 1048577),
        (4, 3, 2, 0, 2), (4, 3, 2, 64, 2), (4, 3, 2, ALL, 2), (5, 3, 2, 5, 4), (6, 3, 2, 22, 2),
    ]:
        p, k, t, n = s
        assert check(*s) == number
        held(sheet, s, float(p), 2.0**t if t < 1024 else inf, 1.0 / p if p else inf)
    sheet.group("12: settings that meet 16, each beside one that does not")
    for number, *s in [(16, 3, 2, 18, 2), (0, 3, 2, 17, 2), (16, 3, 1, 53, 2), (0, 3, 1, 52, 2), (16, 3, 4, 8, 7), (0, 3, 4, 7, 7), (16, 2, 8, 4, 1)]:
        assert refused_lane(s) == number
        held(sheet, s, *right_doubles(s), sound=number == 0)
    sheet.group("12 before the others")
    for lane in [Lane((3, 2, 5, 4)), Lane((3, 2, 18, 2)), Lane(SMALL, 3.0, 32.0, nan)]:
        for length, other in [(4, 2), (3, 3), (6, 6), (4, 4), (0, 0)]:
            lane_sum(sheet, lane, [3] * length, [3] * other, gives="refused 12 0")
        lane_words(sheet, lane, 32768, "minus 0", "1 over 2", "nan", 0, gives="refused 12 0")
    sheet.group("make after a lane that was not sound")
    hold(sheet, Lane(SMALL))
    lane_sum(sheet, Lane(SMALL), [1, 2], [2, 2], gives="word 4290")

"""Rows of calc's test: lane records that are made, and lane sums by them."""

from document import ALL, largest_batch, words
from lanes import Lane, refused_lane
from rows import two_made
from rows_records import COEFFICIENTS, SHAPES

SMALL, ONE, LONG, LARGE = (3, 2, 5, 2), (65536, 1, 32, 1), (2, 7, 4, 2), (65536, 1, 40, 256)

# settings, each after the number that is known for it, or 0
MAKES = [
    ("what document 01 prints", [(0, 3, 4, 7, 7), (16, 3, 4, 8, 7)]),
    ("16, and the last t before it", [
        (0, 3, 1, 52, 1), (16, 3, 1, 53, 1), (16, 3, 1, 63, 1), (0, 3, 2, 17, 2), (16, 3, 2, 18, 2), (16, 3, 2, 21, 2), (0, 3, 3, 10, 2),
        (16, 3, 3, 11, 2), (16, 3, 3, 12, 2), (0, 3, 4, 7, 1), (16, 3, 4, 8, 1), (16, 3, 4, 9, 1), (0, 3, 5, 5, 1), (16, 3, 5, 6, 1),
        (16, 3, 5, 7, 1), (0, 2, 6, 4, 2), (16, 2, 6, 5, 2), (0, 2, 7, 4, 2), (6, 2, 7, 5, 2), (5, 2, 8, 3, 1), (16, 2, 8, 4, 1),
    ]),
    ("1 to 6, each before those after it, and before 16", [
        (1, 1, 2, 5, 2), (1, 65537, 1, 40, 1), (2, 3, 0, 5, 2), (2, 3, 9, 5, 2), (3, 3, 2, 5, 0), (3, 3, 2, 5, 1048577), (4, 3, 2, 0, 2),
        (4, 3, 2, 64, 2), (5, 3, 2, 5, 4), (6, 3, 2, 22, 2), (1, ALL, ALL, ALL, ALL), (1, 0, 0, 0, 0), (2, 65536, 9, 0, 0),
        (3, 65536, 8, 64, 1048577), (4, 65536, 8, 64, 1048576), (5, 65536, 8, 54, 1048576), (6, 65536, 8, 55, 1048576), (5, 65536, 2, 18, 1),
        (6, 3, 8, 6, 1), (5, 3, 8, 5, 1),
    ]),
    ("ends", [
        (0, 2, 1, 1, 1), (0, 65536, 1, 32, 1), (5, 65536, 1, 31, 1), (0, 65536, 1, 52, 1048576), (5, 65536, 1, 51, 1048576), (0, 256, 2, 17, 1),
        (5, 257, 2, 17, 1),
    ]),
    ("inverses", [(0, p, 1, 52, 1) for p in [2, 5, 7, 10, 49, 127, 929, 32768, 65521, 65535]]),
]

# n is the largest for each
LARGEST = [
    (127, 2, 17, 4), (5, 3, 10, 21), (3, 4, 7, 7), (2, 5, 5, 6), (2, 6, 4, 2), (2, 7, 4, 2), (2, 1, 1, 1), (65536, 1, 32, 1), (49, 2, 13, 1),
    (256, 2, 17, 1), (19, 3, 10, 1), (6, 4, 7, 1), (3, 5, 5, 1), (65536, 1, 40, 256), (929, 1, 30, 1246),
]


def hold(sheet, lane):
    """The held lane record becomes this one, where it is not."""
    if sheet.calc.lane.shown() != lane.shown():
        sheet.type("make " + words(lane.s) if lane.coherent() else lane.shown(), gives=lane.shown())


def lane_sum(sheet, lane, *lists, gives=None):
    hold(sheet, lane)
    return sheet.say("lanesum", *[part for xs in lists for part in (":", xs)], gives=gives)


def lane_words(sheet, lane, *xs, gives=None):
    hold(sheet, lane)
    for x in xs:
        sheet.say("lanereduce :", x, gives=gives)


def reduced_sum(sheet, s, *lists):
    """A sum, and this reduced."""
    answer = lane_sum(sheet, Lane(s), *lists)
    if answer.startswith("word"):
        lane_words(sheet, Lane(s), answer.split()[1])


def alike(x, length):
    return [x] * length if length <= 16 else words("all", length, x)


def sums(sheet):
    sheet.group("lanesum: document 01's pair")
    for pairs, word in [(1, "word 4290"), (2, "word 8580"), (3, "refused 13 0")]:
        reduced_sum(sheet, SMALL, [1, 2] * pairs, [2, 2] * pairs)
        assert word in sheet.answers[-2:]
    reduced_sum(sheet, (3, 4, 7, 7), [1, 2, 0, 1], [2, 0, 1, 1])
    sheet.group("lanesum: zero")
    for s in [SMALL, ONE, LONG]:
        reduced_sum(sheet, s, [], [])
    reduced_sum(sheet, SMALL, [0] * 4, [0] * 4)
    reduced_sum(sheet, SMALL, [0] * 2, [2] * 2)
    reduced_sum(sheet, ONE, [65535], [0])
    reduced_sum(sheet, LONG, [0] * 14, [1] * 14)
    sheet.group("lanesum: every coefficient p-1 at the largest n, and 13 for one pair more")
    for s in LARGEST:
        assert largest_batch(*s) and not refused_lane(s)
        p, k, t, n = s
        for pairs in [n, n + 1]:
            reduced_sum(sheet, s, alike(p - 1, k * pairs), alike(p - 1, k * pairs))
    sheet.group("lanesum: other coefficients, n pairs and fewer")
    for s, pairs in [
        ((929, 1, 30, 1246), 1246), ((31, 2, 17, 72), 72), ((7, 3, 10, 9), 9), ((3, 4, 7, 7), 7), ((2, 5, 5, 6), 6), ((2, 6, 4, 2), 2), (LONG, 2),
        ((65536, 1, 52, 1048576), 300), ((127, 2, 17, 4), 3), ((256, 2, 17, 1), 1), ((7, 3, 10, 9), 4), ((3, 4, 7, 7), 3), (LONG, 1),
    ]:
        assert pairs <= s[3]
        reduced_sum(sheet, s, *two_made(s[0], s[1] * pairs)[2:].split(" : "))
    sheet.group("lanesum: ends")
    reduced_sum(sheet, ONE, [65535], [65535])
    reduced_sum(sheet, ONE, [65535], [1])
    reduced_sum(sheet, (65536, 1, 52, 3), [65535, 65534, 2], [65535, 3, 32768])
    reduced_sum(sheet, LONG, [1, 0, 0, 0, 0, 0, 0], [1, 0, 0, 0, 0, 0, 0])
    reduced_sum(sheet, LONG, [0, 0, 0, 0, 0, 0, 1], [0, 0, 0, 0, 0, 0, 1])
    reduced_sum(sheet, LONG, [1, 0, 1, 1, 0, 1, 1], [0, 1, 1, 0, 1, 1, 1])


def refusals(sheet):
    sheet.group("lanesum: 9")
    for xs, ys in SHAPES:
        lane_sum(sheet, Lane(SMALL), xs, ys)
    lane_sum(sheet, Lane(LARGE), [1, 2, 3], [2, 2, 65535])
    lane_sum(sheet, Lane(LARGE), [1, 2, 3], [2, 2], gives="refused 9 0")
    for length, other in [(6, 6), (7, 7), (8, 8), (14, 7)]:
        lane_sum(sheet, Lane(LONG), [1] * length, [1] * other)
    sheet.group("lanesum: 13")
    lane_sum(sheet, Lane(SMALL), [1, 2, 0, 1], [2, 2, 1, 1])
    lane_sum(sheet, Lane(SMALL), [1, 2, 0, 1, 1, 1], [2, 2, 1, 1, 0, 2], gives="refused 13 0")
    lane_sum(sheet, Lane(SMALL), "all 200 1", "all 200 1", gives="refused 13 0")
    lane_sum(sheet, Lane((3, 2, 5, 1)), [1, 2], [2, 2])
    lane_sum(sheet, Lane((3, 2, 5, 1)), [1, 2, 0, 1], [2, 2, 1, 1], gives="refused 13 0")
    lane_sum(sheet, Lane(ONE), [1], [2])
    lane_sum(sheet, Lane(ONE), [1] * 2, [2] * 2, gives="refused 13 0")
    lane_sum(sheet, Lane((65536, 1, 52, 1048576)), "all 100 1", "all 100 2", gives="word 200")
    sheet.group("lanesum: 8")
    for xs, ys in [*COEFFICIENTS, ([3] * 4, [3] * 4)]:
        assert lane_sum(sheet, Lane(SMALL), xs, ys).startswith("refused 8")
    for x, y in [(928, 928), (929, 928), (928, 929)]:
        lane_sum(sheet, Lane((929, 1, 52, 1)), [x], [y])
    lane_sum(sheet, Lane((65535, 1, 32, 1)), [65534], [65534])
    lane_sum(sheet, Lane((65535, 1, 32, 1)), [65534], [65535], gives="refused 8 1")
    lane_sum(sheet, Lane(ONE), [65535], [65534])
    lane_sum(sheet, Lane(LONG), [1] * 14, [1] * 13 + [2], gives="refused 8 27")
    lane_sum(sheet, Lane((3, 4, 7, 7)), "all 28 2", "all 28 3", gives="refused 8 28")
    sheet.group("lanesum: 9 before 13 and 8, 13 before 8")
    for number, x, length, other in [(9, 3, 8, 6), (9, 3, 7, 7), (13, 3, 6, 6), (8, 3, 4, 4), (9, 3, 4, 2), (9, 3, 1, 1), (13, 2, 6, 6)]:
        lane_sum(sheet, Lane(SMALL), [x] * length, [x] * other, gives="refused %d 0" % number)
    lane_sum(sheet, Lane(SMALL), [2] * 4, [2] * 4)


def rows(sheet):
    for comment, cases in MAKES:
        sheet.group("make: " + comment)
        for number, *s in cases:
            assert refused_lane(s) == number
            sheet.say("make", s, gives="refused %d 0" % number if number else None)
    sheet.group("make: what it refuses leaves the held lane")
    sheet.say("lane")
    sums(sheet)
    refusals(sheet)

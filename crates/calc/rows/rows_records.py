"""Rows of calc's test: records that are set by hand, coherent and not, and the refusals of feed and close in their order."""

from document import ALL, check
from records import MOST, Record, above, coherent
from rows_running import EIGHT, FOUR, LARGE, SMALL, THIRD, feed, hold, repeated
from words import after

# two flat lists for k = 2: lengths that differ, or are no multiple of k, and at the end lengths that will do
SHAPES = [
    ([1, 2], [2, 2, 1, 1]),
    ([1, 2, 1, 1], [2, 2]),
    ([], [2, 2]),
    ([1, 2], []),
    ([1], [2]),
    ([1, 2, 1], [2, 2, 1]),
    ([1, 2, 1], [2, 2]),
    ([1, 2, 1, 1], [2, 2, 1, 1]),
]

# two such lists for p = 3 with a coefficient 3 or more: in the first, in the second, in both, at either end; the first of several
COEFFICIENTS = [
    ([3, 2, 1, 1], [2, 2, 1, 1]),
    ([1, 2, 1, 3], [2, 2, 1, 1]),
    ([1, 2, 1, 1], [3, 2, 1, 1]),
    ([1, 2, 1, 1], [2, 2, 1, 3]),
    ([1, 2, 1, 3], [3, 2, 1, 1]),
    ([1, 4, 65535, 3], [2, 2, 1, 1]),
    ([1, 2, 1, 1], [2, 65535, 3, 4]),
]

# a setting, the number that it is refused with or 0, and a list to feed
HELD_SETTINGS = [
    ((1, 1, 1, 1), 1, [0]), ((2, 1, 1, 1), 0, [0]), ((65537, 1, 63, 1), 1, [0]), ((65536, 1, 63, 1), 0, [0]),
    ((2, 0, 4, 1), 2, []), ((2, 1, 4, 1), 0, [0]), ((2, 9, 4, 1), 2, [0] * 9), ((2, 8, 4, 1), 0, [0] * 8),
    ((2, 1, 63, 0), 3, [0]), ((2, 1, 63, 1), 0, [0]), ((2, 1, 63, 1048577), 3, [0]), ((2, 1, 63, 1048576), 0, [0]),
    ((2, 1, 0, 1), 4, [0]), ((2, 1, 1, 1), 0, [0]), ((2, 1, 64, 1), 4, [0]), ((2, 1, 63, 1), 0, [0]),
    ((3, 2, 5, 4), 5, [2, 2]), ((3, 2, 5, 3), 0, [2, 2]), ((3, 2, 22, 2), 6, [2, 2]), ((3, 2, 21, 2), 0, [2, 2]),
]


def one_residue(i, x):
    return [0] * i + [x]


def past(s):
    """The first number that is no word."""
    return after(s[1], s[2])


# what the clause is, a setting, a list to feed, and totals, words and residues, each with whether the record is coherent
CLAUSES = [
    ("the total", SMALL, [2, 1], [(MOST - 1, 0, [], True), (MOST, 0, [], True), (MOST + 1, 0, [], False), (ALL, 0, [], False)]),
    ("residues", SMALL, [2, 1], [
        (2, 0, [2, 2, 2], True), (2, 0, [3, 2, 2], False), (2, 0, [2, 3, 2], False), (2, 0, [2, 2, 3], False), (2, 0, [65535], False),
        (2, 0, one_residue(2, 1), True), (2, 0, one_residue(3, 1), False), (2, 0, one_residue(4, 2), False), (2, 0, one_residue(14, 1), False),
        (2, 0, one_residue(14, 65535), False),
    ]),
    ("residues, k = 8", EIGHT, [1] * 8, [(1, 0, [1] * 15, True), (1, 0, one_residue(14, 1), True), (1, 0, one_residue(14, 2), False)]),
    ("residues, k = 1", LARGE, [65535], [(256, 0, [65535], True), (256, 0, one_residue(1, 1), False)]),
    ("records that no feeding reaches", SMALL, [2, 1], [(0, 0, [2, 1, 2], True), (1, 0, [0, 1], True), (1, 3, [], True)]),
    ("fields", SMALL, [2, 1], [
        (1, above(SMALL, 1, []), [], True), (1, above(SMALL, 1, [0]), [], False), (1, above(SMALL, 1, [1]), [], False),
        (1, above(SMALL, 1, [2]), [], False), (999999, above(SMALL, 1, []), [2] * 3, True), (999999, above(SMALL, 1, [0]), [2] * 3, False),
        (0, above(SMALL, 0, [0]), [], False), (2, above(SMALL, 0, [0]), [], False), (2, above(SMALL, 0, [1]), [], False),
        (2, above(SMALL, 0, [2]), [], False), (MOST, above(SMALL, 0, [0]), [], False),
    ]),
    ("fields, k = 8", EIGHT, [1] * 8, [(1, above(EIGHT, 0, [0]), [], False), (1, above(EIGHT, 0, [14]), [], False)]),
    ("fields, k = 4", FOUR, [2] * 4, [
        (30, above(FOUR, 30, []), [2] * 7, True), (30, above(FOUR, 30, [0]), [2] * 7, False), (30, above(FOUR, 30, [3]), [2] * 7, False),
        (30, above(FOUR, 30, [6]), [2] * 7, False), (29, above(FOUR, 30, []), [2] * 7, False), (29, above(FOUR, 29, []), [2] * 7, True),
        (61, above(FOUR, 30, []), [2] * 7, True), (61, above(FOUR, 30, [0]), [2] * 7, False),
    ]),
    # 999,935 pairs leave 255 of 256
    ("fields, k = 1", LARGE, [65535], [
        (255, above(LARGE, 255, []), [], True), (255, above(LARGE, 255, [0]), [], False), (254, above(LARGE, 255, []), [], False),
        (999935, above(LARGE, 255, []), [], True), (999935, above(LARGE, 255, [0]), [], False),
    ]),
    ("words", SMALL, [2, 1], [
        (0, past(SMALL), [], False), (1, past(SMALL), [], False), (1, past(SMALL) + above(SMALL, 1, []), [], False), (1, ALL, [], False),
    ]),
    ("words, k = 4", FOUR, [2] * 4, [(30, past(FOUR), [2] * 7, False), (30, past(FOUR) + above(FOUR, 30, []), [2] * 7, False)]),
    ("words, k = 1", LARGE, [65535], [(255, past(LARGE), [], False)]),
    ("words, k = 8", EIGHT, [1] * 8, [(1, past(EIGHT), [], False)]),
]


def held(sheet, record, xs):
    feed(sheet, record, [], [])
    feed(sheet, record, xs, xs)
    hold(sheet, record)
    sheet.say("close into 15")


def incoherent(sheet):
    sheet.group("12: settings, each beside one that is accepted")
    for s, number, xs in HELD_SETTINGS:
        assert check(*s) == number
        held(sheet, Record(s), xs)
    for comment, s, xs, cases in CLAUSES:
        sheet.group("12: " + comment)
        for total, word, residues, sound in cases:
            record = Record(s, total, word, residues)
            assert coherent(record) == sound
            held(sheet, record, xs)


def feeding(sheet):
    sheet.group("feed: 9")
    for xs, ys in SHAPES:
        feed(sheet, THIRD, xs, ys)
    feed(sheet, Record(LARGE), [1, 2, 3], [2, 2, 65535])
    feed(sheet, Record(LARGE), [1, 2, 3], [2, 2])
    for length in [7, 8, 9, 12, 16]:
        feed(sheet, Record(EIGHT), [1] * length, [1] * length)
    sheet.group("feed: 13")
    feed(sheet, Record(SMALL, 999998), [1, 2, 2, 2], [2, 2, 1, 1], "took 2")
    feed(sheet, Record(SMALL, 999998), [1, 2, 2, 2, 1, 1], [2, 2, 1, 1, 0, 2], "refused 13 0")
    feed(sheet, Record(SMALL, MOST, 0, [1, 1, 1]), [1, 2], [2, 2], "refused 13 0")
    feed(sheet, Record(SMALL, MOST, 0, [1, 1, 1]), [], [], "took 0")
    for length in [8, 16]:
        feed(sheet, Record(EIGHT, 999999, 0, [1] * 15), [1] * length, [1] * length)
    sheet.group("feed: 8")
    for xs, ys in COEFFICIENTS:
        feed(sheet, THIRD, xs, ys)
    for x, y in [(928, 928), (929, 928), (928, 929)]:
        feed(sheet, Record((929, 1, 63, 1048576)), [x], [y])
    feed(sheet, Record((65535, 1, 32, 1)), [65534], [65534], "took 1")
    feed(sheet, Record((65535, 1, 32, 1)), [65534], [65535], "refused 8 1")
    feed(sheet, Record((65536, 1, 32, 1)), [65535], [65535], "took 1")
    feed(sheet, Record(FOUR), repeated(2, 200), repeated(3, 200), "refused 8 200")
    sheet.group("feed: 12 before the others")
    for xs, ys in [([3, 3], [3]), ([3], [3]), ([3, 3], [3, 3])]:
        feed(sheet, Record(SMALL, MOST + 1), xs, ys, "refused 12 0")
    for record in [Record(SMALL, MOST, 1), Record(SMALL, 2, 1), Record((3, 0, 5, 2))]:
        feed(sheet, record, [3, 3], [3, 3], "refused 12 0")
    feed(sheet, Record(SMALL, MOST + 1), [], [], "refused 12 0")
    sheet.group("feed: 9 before 13 and 8, 13 before 8")
    for xs, ys, number in [([3] * 4, [3] * 2, 9), ([3] * 3, [3] * 3, 9), ([3] * 2, [3] * 2, 13)]:
        feed(sheet, Record(SMALL, MOST), xs, ys, "refused %d 0" % number)
    feed(sheet, Record(SMALL, MOST - 1), [3] * 2, [3] * 2, "refused 8 0")
    for xs, ys in [([3] * 4, [3] * 2), ([3] * 3, [3] * 3)]:
        feed(sheet, THIRD, xs, ys, "refused 9 0")


def closing(sheet):
    sheet.group("close: 10, and what stands after")
    for record, lents in [
        (THIRD, [0, 2, 3, 4, 16]),
        (Record(LARGE, 255, above(LARGE, 255, []), [65535]), [0, 1, 2]),
        (Record(EIGHT, 5, 0, [1] * 15), [14, 15, 16]),
        (Record(SMALL), [2, 4]),
    ]:
        hold(sheet, record)
        for lent in lents:
            sheet.say("close into", lent, gives=None if lent >= 2 * record.s[1] - 1 else "refused 10 0; kept %d" % lent)
    hold(sheet, Record(EIGHT, 5, 0, [1] * 15))
    sheet.say("close")
    sheet.say("close digest")
    sheet.say("close into 15 digest")
    sheet.group("close: 12 before 10")
    for record, lents, number in [
        (Record(SMALL, MOST + 1), [0, 2], 12),
        (Record(SMALL, 2, 1), [2], 12),
        (Record((3, 9, 5, 2)), [2], 12),
        (Record(SMALL, MOST), [2], 10),
    ]:
        hold(sheet, record)
        for lent in lents:
            sheet.say("close into", lent, gives="refused %d 0; kept %d" % (number, lent))


def rows(sheet):
    incoherent(sheet)
    feeding(sheet)
    closing(sheet)

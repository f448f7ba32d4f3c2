"""Rows of calc's test: settings, widths and coefficients."""

from document import ALL, PRINTED
from rows import refused

CHOICES = [
    # widths at the ends, and no width
    (2, 1, 1), (2, 1, 1048576), (65536, 1, 1048576), (65536, 2, 1), (65536, 8, 1048576), (53, 3, 1),
    # 1
    (0, 0, 0), (1, 1, 1), (65537, 1, 1), (ALL, ALL, ALL),
    # 2
    (2, 0, 0), (2, 9, 1), (2, ALL, 0),
    # 3
    (2, 1, 0), (2, 1, 1048577), (2, 1, ALL),
    # each of them before 7, which (65536, 8, 1048576) is
    (65537, 8, 1048576), (65536, 9, 1048576), (65536, 8, 1048577),
]

# each after the number that is known for it, or 0
SETTINGS = [
    ("the settings of document 01's other examples", 0, (3, 2, 4, 1), (3, 2, 5, 2), (3, 4, 7, 7), (3, 4, 8, 7)),
    ("1: p outside 2..65,536", 1, (0, 1, 1, 1), (1, 1, 1, 1), (65537, 1, 32, 1), (ALL, 1, 32, 1)),
    ("and at the ends", 0, (2, 1, 1, 1), (65536, 1, 32, 1)),
    ("2: k outside 1..8", 2, (2, 0, 4, 1), (2, 9, 4, 1), (2, ALL, 4, 1)),
    ("and at the ends", 0, (2, 1, 4, 1), (2, 8, 4, 1)),
    ("3: n outside 1..1,048,576", 3, (2, 1, 21, 0), (2, 1, 21, 1048577), (2, 1, 21, ALL)),
    ("and at the ends", 0, (2, 1, 21, 1), (2, 1, 21, 1048576)),
    ("4: t outside 1..63", 4, (2, 1, 0, 1), (2, 1, 64, 1), (2, 1, ALL, 1)),
    ("and at the ends", 0, (2, 1, 1, 1), (2, 1, 63, 1)),
    ("5: 2^t equal to and below n k (p-1)^2", 5, (3, 4, 9, 32), (3, 4, 8, 31), (2, 1, 1, 2), (65536, 1, 51, 1048576)),
    ("and above", 0, (3, 4, 9, 31), (65536, 1, 52, 1048576)),
    ("6: (2k-1) t of 65, 66 and 70", 6, (53, 3, 13, 1), (929, 2, 22, 1), (3, 4, 10, 31)),
    ("and of 63", 0, (929, 2, 21, 1)),
    ("several causes at once: 1 first", 1, (0, 0, 0, 0), (ALL, ALL, ALL, ALL)),
    ("2 before the others", 2, (2, 0, 0, 0)),
    ("3 before 4", 3, (2, 1, 0, 0)),
    ("4 before 5 and 6", 4, (3, 2, 0, 2), (65536, 8, 64, 1048576)),
    ("5 before 6", 5, (3, 8, 10, 1048576)),
]

# 8 in two lists: searched as one list, the second after the first
TWO_LISTS = [
    (3, [1, 2], [2, 0]), (3, [1, 3], [3, 0]), (3, [3, 3], [0, 0]), (3, [1, 2], [3, 0]), (3, [1, 2, 0], [2, 3]),
    (3, [], []), (3, [], [2, 9]), (3, [9], []), (0, [], []), (0, [], [0]),
    (65535, [65534], [65535]), (65536, [65535], [65535]), (ALL, [65535], [65535]),
]


def rows(sheet):
    sheet.group("choose: what document 01 prints")
    for case, width in PRINTED.items():
        sheet.say("choose", case, gives="refused 7 0" if width is None else "width %d" % width)
    sheet.group("choose: widths at the ends, no width, and 1, 2 and 3")
    for case in CHOICES:
        sheet.say("choose", case)
    for comment, number, *settings in SETTINGS:
        sheet.group("check: " + comment)
        for s in settings:
            sheet.say("check", s, gives=refused(number) or "accepted")
    sheet.group("coefficients: 8 in two lists, the second after the first")
    for p, xs, ys in TWO_LISTS:
        sheet.say("coefficients", p, ":", xs, ":", ys)
    sheet.say("coefficients 929 : powers 16384 31415 75 65537 929 : powers 16384 57721 75 65537 929", gives="accepted")
    sheet.say("coefficients 929 : powers 16384 31415 75 65537 929 : powers 16384 57721 75 65537 929 but 16383 929", gives="refused 8 32767")
    sheet.group("first: the first bad index, or the length")
    for p, xs, index in [
        (3, [], 0), (3, [1, 2, 0], 3), (3, [3, 1], 0), (3, [1, 2, 3], 2), (3, [1, 65535, 3, 3], 1), (0, [], 0), (0, [0, 0], 0), (1, [0, 1], 1),
        (65535, [65534, 65535], 1), (65536, [65535, 65535], 2), (ALL, [65535], 1),
    ]:
        sheet.say("first", p, ":", xs, gives="index %d" % index)
    for place in [0, 1, 31, 32, 255, 256, 8191, 16383]:
        sheet.say("first 929 : all 16384 928 but", place, 929, gives="index %d" % place)
    sheet.say("first 929 : all 16384 928", gives="index 16384")
    sheet.say("first 929 : all 16384 929", gives="index 0")

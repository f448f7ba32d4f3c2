"""Rows of calc's test: correction tables."""

from document import ALL, SEVEN, check, words
from rows_places import SIX
from tables import table

SMALL, OWN = (3, 2, 4, 1), "built 3 2 4 1"


def buffer(p, t, lent):
    """A buffer of sevens into which that table was written."""
    return table(p, t) + [SEVEN] * (lent - len(table(p, t)))


def raised(xs, *places):
    """Each place is one more for each time that it is named."""
    for i in places:
        xs[i] = (xs[i] + 1) % 256
    return xs


def build(sheet):
    def say(s, lent, number=0):
        sheet.say("build", s, "into", lent, gives="refused %d 0; kept %d" % (number, lent) if number else None)

    sheet.group("build: document 01's example")
    sheet.say("build", SMALL, "into 17", gives="wrote 17: 0 0 0 13 1 0 3 4 0 1 2 2 0 1 1 2 0; kept 0")
    sheet.group("build: 1 to 6, 14, 10, each before the next")
    for number, s in enumerate(SIX[0], 1):
        say(s, 1, number)
    for s, number in [((127, 2, 21, 65), 10), ((128, 2, 21, 65), 14), ((65536, 1, 63, 1), 14)]:
        assert check(*s) == 0
        say(s, 1, number)
    sheet.say("build 128 2 21 65 into 16140 digest", gives="refused 14 0; kept 16140")
    sheet.group("build: 10, and what stands after")
    for lent, number in [(0, 10), (16, 10), (20, 0)]:
        say(SMALL, lent, number)
    for lent, number in [(11, 10), (12, 0), (13, 0)]:
        say((2, 8, 4, 1), lent, number)
    sheet.group("build: the ends of p and t, and large tables")
    for s, lent in [((2, 1, 63, 1), 12), ((4, 2, 5, 1), 24), ((5, 2, 7, 3), 33), ((3, 1, 63, 1), 17)]:
        say(s, lent)
    sheet.say("build 37 3 12 1 into 16140")
    for s in [(127, 2, 21, 65), (37, 3, 12, 1), (113, 1, 62, 1048576)]:
        sheet.say("build", s, "into 16140 digest")
    sheet.say("build 127 2 21 66 into 16136 digest", gives="refused 10 0; kept 16136")
    sheet.say("build 127 2 21 66 into 16137 digest")
    sheet.say("build 3 2 4 1 digest")


def by_table(sheet):
    def say(s, held, ws, lent, number=0, place=0):
        answer = sheet.say("bytable", s, "into", lent, ":", held, ":", ws)
        assert answer.startswith("refused %d %d;" % (number, place) if number else "wrote")

    sheet.group("bytable: document 01's word")
    sheet.say("bytable", SMALL, "into 1 :", OWN, ": 1122", gives="wrote 1: 258; kept 0")
    sheet.group("bytable: 1 to 6 and 14, before 15, 10 and 11")
    for number, s in enumerate(SIX[1], 1):
        say(s, [], [ALL], 0, number)
    for s, ws, number in [((127, 2, 21, 65), [ALL], 15), ((128, 2, 21, 65), [ALL], 14), ((929, 2, 21, 1), [], 14)]:
        say(s, [], ws, 0, number)
    sheet.group("bytable: 15, changed bytes")
    for i in range(17):
        say(SMALL, raised(buffer(3, 4, 20), i, i), [1122, 258], 3, 15, i)
    say(SMALL, raised(buffer(3, 4, 20), 16, 11), [1122, 258], 3, 15, 11)
    say(SMALL, raised(buffer(3, 4, 20), 17, 19), [1122, 258], 3)
    for i in [0, 8, 16]:
        sheet.say("bytable", SMALL, "into 3 :", OWN, "but", i, 255, ": 1122 258", gives="refused 15 %d; kept 3" % i)
    sheet.group("bytable: 15, a buffer that ends")
    for size in range(17):
        say(SMALL, table(3, 4)[:size], [1122], 1, 15, size)
    for i, place in [(9, 9), (14, 12)]:
        say(SMALL, raised(table(3, 4), i)[:12], [1122], 1, 15, place)
    sheet.group("bytable: 15, tables for others; before 10 and 11")
    for p, t, asked, place in [(3, 5, 4, 7), (3, 6, 4, 7), (3, 4, 6, 7), (3, 6, 6, None), (2, 4, 4, 3), (4, 5, 5, 3)]:
        say((3, 2, asked, 1), buffer(p, t, 24), [1122], 1, 0 if place is None else 15, place or 0)
    say(SMALL, buffer(3, 5, 24), [], 1, 15, 7)
    say(SMALL, buffer(3, 5, 24), [1122, ALL], 1, 15, 7)
    # only the header differs
    assert table(3, 6)[8:] == table(3, 4)[8:]
    sheet.group("bytable: 10, before 11")
    for ws, lent, number in [([1122, 258], 1, 10), ([1122, 258], 2, 0), ([1122, 258], 4, 0), ([1122, 4096], 1, 10), ([], 0, 0)]:
        say(SMALL, OWN, ws, lent, number)
    sheet.group("bytable: 11")
    say(SMALL, OWN, [4095, 1, 2], 3)
    for ws, lent, place in [([4096, 1, 2], 3, 0), ([1122, 4096, 2], 3, 1), ([1122, 1, 4096], 3, 2), ([1122, 4097, ALL], 4, 1)]:
        say(SMALL, OWN, ws, lent, 11, place)
    sheet.group("bytable: no word, one and many; the ends of p, k and t")
    say(SMALL, OWN, [], 2)
    say(SMALL, OWN, [0], 2)
    say(SMALL, OWN, [0, 1, 2, 3, 15, 16, 17, 47, 48, 255, 256, 257, 3840, 4080, 4094, 4095], 18)
    say((2, 8, 4, 1), "built 2 8 4 1", [0, 2**60 - 1, 0x123456789ABCDEF], 4)
    say((3, 1, 63, 1), "built 3 1 63 1", [0, 2**63 - 1, 2**63 - 2, 0x123456789ABCDEF], 4)
    say((127, 2, 21, 66), "built 127 2 21 66", [0, 2**63 - 1, 0x123456789ABCDEF, 126, 127, 128, 2**62], 8)
    last = table(127, 21)[16136] + 1
    say((127, 2, 21, 66), words("built 127 2 21 66 but 16136", last), [0], 1, 15, 16136)
    many = "powers 16384 31415 75 65537 4096"
    sheet.say("bytable", SMALL, "into 16383 digest :", OWN, ":", many, gives="refused 10 0; kept 16383")
    sheet.say("bytable", SMALL, "into 16384 digest :", OWN, ":", many)
    sheet.say("bytable", SMALL, "digest :", OWN, ":", many)


def pick(sheet):
    sheet.group("pick: the first that fits, the second, neither; a setting that is refused, and p above 127")
    sheet.say("pick", SMALL, ":", OWN, ": all 17 7", gives="first 8: 0 1 2 2 0 1 1 2 0")
    sound, other = buffer(3, 4, 20), buffer(3, 6, 17)
    six = (3, 2, 6, 1)
    for s, first, second, name in [
        (SMALL, sound, other, "first"),
        (SMALL, other, sound, "second"),
        (six, sound, other, "second"),
        (six, other, sound, "first"),
        (SMALL, sound, sound, "first"),
        (SMALL, other, other, "none"),
        ((3, 2, 5, 1), sound, other, "none"),
        ((4, 2, 4, 1), sound, other, "none"),
        ((3, 2, 3, 1), sound, other, "none"),
        ((0, 2, 4, 1), sound, other, "none"),
        ((128, 2, 21, 65), sound, other, "none"),
        (SMALL, [], sound, "second"),
        (SMALL, [], [], "none"),
    ]:
        assert sheet.say("pick", s, ":", first, ":", second).split()[0] == name
    for number, s in enumerate(SIX[0], 1):
        sheet.say("pick", s, ":", OWN, ":", OWN, gives="none")


def rows(sheet):
    build(sheet)
    by_table(sheet)
    pick(sheet)

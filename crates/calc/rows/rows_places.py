"""Rows of calc's test: words and their places."""

from document import ALL
from rows import refused

SMALL, LARGE, EIGHT = (3, 2, 4, 1), (929, 2, 21, 1), (2, 8, 4, 1)
# a setting for each of 1 to 6
SIX = [
    [(1, 2, 4, 1), (3, 9, 4, 1), (3, 2, 4, 0), (3, 2, 64, 1), (3, 2, 3, 1), (3, 2, 22, 1)],
    [(65537, 2, 4, 1), (3, 0, 4, 1), (3, 2, 4, 1048577), (3, 2, 0, 1), (3, 2, 4, 2), (3, 8, 9, 1)],
    [(0, 2, 4, 1), (3, ALL, 4, 1), (3, 2, 4, ALL), (3, 2, ALL, 1), (3, 2, 1, 1), (53, 3, 13, 1)],
]
# settings, and the bits that a word of theirs may have
BITS = [(SMALL, 12), (EIGHT, 60), (LARGE, 63), ((65536, 1, 32, 1), 32), ((65536, 1, 63, 1), 63)]


def pack(sheet):
    def say(s, xs, number=0, place=0):
        sheet.say("pack", s, ":", xs, gives=refused(number, place))

    sheet.group("pack: document 01's examples")
    sheet.say("pack", SMALL, ": 1 2", gives="word 33")
    sheet.say("pack", SMALL, ": 2 2", gives="word 34")
    sheet.group("pack: 1 to 6, before 9 and 8")
    for number, s in enumerate(SIX[0], 1):
        say(s, [9, 9, 9], number)
    sheet.group("pack: 9, before 8")
    for xs in [[1], [1, 0, 0], [3], [3, 0, 0], []]:
        say(SMALL, xs, 9)
    say(SMALL, [1, 0])
    say((3, 1, 4, 1), [], 9)
    say((3, 1, 4, 1), [2])
    say((3, 1, 4, 1), [2, 2], 9)
    for length in [7, 9]:
        say(EIGHT, [1] * length, 9)
    sheet.say("pack", SMALL, ": all 16384 3", gives="refused 9 0")
    sheet.group("pack: 8")
    say(LARGE, [929, 0], 8, 0)
    say(LARGE, [928, 0])
    say(LARGE, [0, 929], 8, 1)
    say(LARGE, [0, 928])
    say(EIGHT, [2, 1, 1, 1, 1, 1, 1, 1], 8, 0)
    say(EIGHT, [1, 1, 1, 1, 1, 1, 1, 2], 8, 7)
    say(EIGHT, [1, 1, 1, 65535, 1, 2, 1, 1], 8, 3)
    say((65535, 1, 32, 1), [65535], 8, 0)
    say((65535, 1, 32, 1), [65534])
    sheet.group("pack: the largest words, k = 1, k = 8, p = 65,536")
    for xs in [[1] * 8, [0] * 8, [1, 0, 0, 1, 1, 0, 1, 0]]:
        say(EIGHT, xs)
    for s, xs in [(LARGE, [928, 928]), ((37, 3, 12, 1), [36, 1, 36]), ((65536, 1, 32, 1), [65535])]:
        say(s, xs)
    for x in [65535, 0]:
        say((65536, 1, 63, 1), [x])


def written(sheet):
    """unpack and shifted."""
    sheet.group("unpack and shifted: document 01's examples")
    sheet.say("unpack", SMALL, "into 3 : 1122", gives="wrote 3: 2 6 4; kept 0")
    sheet.say("shifted", SMALL, "into 3 : 1122", gives="wrote 3: 0 1 1; kept 0")
    sheet.say("unpack", SMALL, "into 3 : 258", gives="wrote 3: 2 0 1; kept 0")

    def say(verb, s, word, lent, number=0):
        answer = sheet.say(verb, s, "into", lent, ":", word, gives=number and "refused %d 0; kept %d" % (number, lent) or None)
        assert answer.startswith("refused") == (number > 0)

    for verb, six in [("unpack", SIX[1]), ("shifted", SIX[2])]:
        sheet.group(verb + ": 1 to 6, before 11 and 10")
        for number, s in enumerate(six, 1):
            say(verb, s, ALL, 1, number)
        sheet.group(verb + ": 11, before 10")
        say(verb, SMALL, 2**12, 2, 11)
        say(verb, SMALL, ALL, 4, 11)
        for s, bits in BITS:
            lent = 2 * s[1] - 1
            say(verb, s, 2**bits - 1, lent)
            say(verb, s, 2**bits, lent, 11)
    say("shifted", (65535, 1, 63, 1), 2**63 - 1, 1)
    for verb in ["unpack", "shifted"]:
        sheet.group(verb + ": 10, and what stands after")
        for lent, number in [(0, 10), (2, 10), (3, 0), (5, 0)]:
            say(verb, SMALL, 1122, lent, number)
        for lent, number in [(14, 10), (15, 0), (17, 0)]:
            say(verb, EIGHT, 0x123456789ABCDEF, lent, number)
        say(verb, EIGHT, 0, 15)
        say(verb, (37, 3, 12, 1), 123456789012345678, 6)
        for word, lent, number in [(9, 0, 10), (9, 2, 0), (8, 0, 10), (8, 2, 0)]:
            say(verb, (3, 1, 4, 1), word, lent, number)
        say(verb, SMALL, 0, 4)
        sheet.say(verb, SMALL, ": 1122")
        sheet.say(verb, SMALL, "digest : 1122")
        sheet.say(verb, EIGHT, "into 16384 digest :", 0x123456789ABCDEF)


def reduce(sheet):
    def say(s, word, number=0):
        sheet.say("reduce", s, ":", word, gives=refused(number))

    sheet.group("reduce: document 01's example, and 1 to 6 before 11")
    sheet.say("reduce", SMALL, ": 1122", gives="word 258")
    for number, s in enumerate(SIX[0], 1):
        say(s, ALL, number)
    sheet.group("reduce: 11")
    for s, bits in BITS:
        say(s, 2**bits - 1)
        say(s, 2**bits, 11)
    sheet.group("reduce: nothing to reduce, u and m apart, p divides q, fields at their largest")
    for word in [0, 258, 3]:
        say(SMALL, word)
    say(EIGHT, 0x123456789ABCDEF)
    say((37, 3, 12, 1), 123456789012345678)
    say((127, 2, 21, 66), 2**63 - 1)
    say((65535, 1, 63, 1), 2**63 - 1)


def checked(sheet):
    """word and words."""
    sheet.group("word and words: 1 to 6, before 11, also where there is no word")
    for number, s in enumerate(SIX[0], 1):
        sheet.say("word", s, ":", ALL, gives=refused(number))
    for number, s in enumerate(SIX[1], 1):
        sheet.say("words", s, ":", ALL, gives=refused(number))
        sheet.say("words", s, ":", gives=refused(number))
    sheet.group("word and words: 11")
    for s, bits in BITS:
        sheet.say("word", s, ":", 2**bits - 1, gives="accepted")
        sheet.say("word", s, ":", 2**bits, gives="refused 11 0")
        sheet.say("words", s, ":", [0, 2**bits - 1], gives="accepted")
        sheet.say("words", s, ":", [0, 2**bits - 1, 2**bits], gives="refused 11 2")
    sheet.say("words", SMALL, ":", gives="accepted")
    for place in [0, 1, 16383]:
        sheet.say("words", SMALL, ": all 16384 4095 but", place, ALL, gives="refused 11 %d" % place)
    sheet.say("words", SMALL, ": all 16384 4095", gives="accepted")


def rows(sheet):
    pack(sheet)
    written(sheet)
    reduce(sheet)
    checked(sheet)

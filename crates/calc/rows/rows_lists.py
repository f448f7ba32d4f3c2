"""Rows of calc's test: how the lists, words and doubles of a line are read, and the longest lines, lists and answers. What each gives is written
out."""

from calc_lines import LONGEST
from calc_parts import MOST
from document import ALL, words

# lists of coefficients, after `first 3 :`, whose list begins at place 9 and which answers the first index with 3 or more, or the length
TYPED = [
    ("", "index 0"), ("   ", "index 0"), (" \r ", "index 0"), (" # 1 2", "index 0"), (" 1 2", "index 2"), ("1 2", "index 2"),
    (" 1  2   0 ", "index 3"), (" 1\r2\r", "index 2"), (" 0001 2", "index 2"), (" 1 65535", "index 1"), (" 1 65536", "too large 12"),
    (" 65536", "too large 10"), (" 1 0000065535", "index 1"), (" 1 0000065536", "too large 12"), (" 1 %d" % (ALL + 1), "too large 12"),
    (" 1 99999999999999999999999999999999999999999", "too large 12"), (" x", "what? 10"), (" 1 x", "what? 12"), (" 1x", "what? 11"),
    (" 1,2", "what? 11"), (" ,", "what? 10"), (" 1 -2", "what? 12"), (" 1\t2", "what? 11"), (" 1 X", "what? 12"), (" 1 é", "what? 12"),
    (" 65536 x", "too large 10"), (" , 65536", "what? 10"), (" x 65536", "what? 10"), (" 1 Xall 3 2", "what? 12"),
]
MADE = [
    (" all 3 2", "index 3"), ("all 3 2", "index 3"), (" all3 2", "index 3"), (" all 0 2", "index 0"), (" all 3 0 ", "index 3"),
    (" all\r3\r2\r", "index 3"), (" all 16384 2", "index 16384"), (" all 3 65535", "index 0"), (" all 3 65536", "too large 10"),
    (" all 0 65536", "too large 10"), (" all 16385 2", "too many 10"), (" all 16385 65536", "too many 10"), (" all %d 2" % ALL, "too many 10"),
    (" all %d 2" % (ALL + 1), "too large 14"), (" all 3 %d" % (ALL + 1), "too large 16"), (" all 3 %d" % ALL, "too large 10"), (" all", "what? 13"),
    (" all ", "what? 14"), (" all 3", "what? 15"), (" all 3 2 1", "what? 18"), (" all 3 x", "what? 16"), (" all x", "what? 14"),
    (" all 3 2 x", "what? 18"), (" all 3 2 all 3 2", "what? 18"), (" all , 3", "what? 14"), (" all 3, 2", "what? 15"), (" all 3 2,", "what? 17"),
    (" all 3 2 1 x", "what? 18"), (" al 3 2", "what? 10"), (" alls 3 2", "what? 10"), (" All 3 2", "what? 10"), (" aLl 3 2", "what? 10"),
    (" 1 all 3 2", "what? 12"), (" 1 2 x", "what? 14"), (" minus 3", "what? 10"), (" word", "what? 10"), (" powers 4 1 2 7 7", "index 2"),
    (" powers 0 1 2 7 7", "index 0"), (" powers 3 2 0 7 7", "index 3"), (" powers 3 1 1 1 1", "index 3"),
    (" powers 16384 0 5 65537 1", "index 16384"), (" powers 3 65535 1 65537 65537", "index 0"), (" powers 3 65536 1 65537 65537", "too large 10"),
    (" powers 3 65536 1 65537 65536", "index 3"), (" powers 2 1 65536 65537 %d" % ALL, "too large 10"), (" powers 1 1 65536 65537 65537", "index 1"),
    (" powers 0 65536 1 65537 65537", "index 0"), (" powers 3 %d %d 65537 3" % (ALL, ALL), "index 3"),
    (" powers 3 %d %d 65536 65537" % (ALL, ALL), "index 0"), (" powers 4 1 2 65536 65537", "index 2"), (" powers 4 1 2 1 %d" % ALL, "index 4"),
    (" powers 4 1 2 0 7", "what? 10"), (" powers 4 1 2 65538 7", "what? 10"), (" powers 4 1 2 %d 7" % ALL, "what? 10"),
    (" powers 4 1 2 7 0", "what? 10"), (" powers 0 1 2 0 7", "what? 10"), (" powers 16385 1 2 7 0", "what? 10"),
    (" powers 16385 1 2 7 7", "too many 10"), (" powers 16385 65536 1 65537 65537", "too many 10"), (" powers %d 1 2 7 7" % ALL, "too many 10"),
    (" powers 4 1 2 7", "what? 24"), (" powers", "what? 16"), (" powers 4 1 2 7 x", "what? 25"), (" powers 4 1 2 7 7 7", "what? 27"),
    (" powers 4 1 2 7 7 x", "what? 27"), (" powers 4 1 2 7 , 7", "what? 25"), (" powers %d 1 2 7 7" % (ALL + 1), "too large 17"),
    (" power 4 1 2 7 7", "what? 10"), (" built 3 2 4 1", "index 3"), (" built 2 8 4 1", "index 3"), (" built 3 2 3 1", "what? 10"),
    (" built 1 2 4 1", "what? 10"), (" built 128 2 21 65", "what? 10"), (" built 0 0 0 0", "what? 10"), (" built 3 2 4", "what? 21"),
    (" built", "what? 15"), (" built 3 2 4 1 5", "what? 24"), (" built 3 2 4 1 x", "what? 24"), (" built 3 2 4 %d" % (ALL + 1), "too large 22"),
    (" built 3 2, 4 1", "what? 19"), (" build 3 2 4 1", "what? 10"),
]
# `but`, after `first 3 :` too
BUT = [
    (" 1 2 0 but 1 3", "index 1"), (" 1 2 0 but 2 3 0 4", "index 0"), (" 1 2 3 but 2 0", "index 3"), (" 1 2 0 but", "index 3"),
    (" 1 2 0 but ", "index 3"), (" 1 2 0but1 3", "index 1"), (" 1 2 0 but 1 3 1 2", "index 3"), (" 1 2 0 but 1 2 1 3", "index 1"),
    (" all 9 2 but 8 3", "index 8"), (" powers 3 1 1 7 7 but 2 9", "index 2"), (" built 3 2 4 1 but 0 3", "index 0"),
    (" all 16384 2 but 16383 3", "index 16383"), (" 1 but 0 65535", "index 0"), (" 1\rbut\r0\r3", "index 0"), (" 1 but 000 0003", "index 0"),
    (" all 9 2 but 0 0 1 1 2 2 3 0 4 1 5 2 6 0 7 3", "index 7"), (" all 9 2 but 0 0 1 1 2 2 3 0 4 1 5 2 6 0 7 1 8 3", "what? 54"),
    (" all 9 2 but 0 0 1 1 2 2 3 0 4 1 5 2 6 0 7 1 8", "what? 54"), (" 1 2 0 but 1", "what? 21"), (" 1 2 0 but 1 3 2", "what? 25"),
    (" 1 2 0 but 1 ", "what? 22"), (" 1 2 0 but 3 0", "what? 16"), (" 1 2 0 but %d 0" % ALL, "what? 16"),
    (" 1 2 0 but %d 0" % (ALL + 1), "too large 20"), (" 1 2 0 but 1 65536", "too large 16"), (" 1 2 0 but 1 %d" % ALL, "too large 16"),
    (" 1 2 0 but 1 %d" % (ALL + 1), "too large 22"), (" 1 2 0 but 3 65536", "what? 16"), (" 1 2 0 but 1 65536 3 0", "too large 16"),
    (" 1 2 0 but 3 0 1 65536", "what? 16"), (" 1 2 0 but 1 3 but 2 4", "what? 24"), (" 1 2 0 but 1 but 2", "what? 22"),
    (" 1 2 0 but but", "what? 20"), (" 1 2 0 but x", "what? 20"), (" 1 2 0 but 1 3 x", "what? 24"), (" 1 2 0 but 1 3x", "what? 23"),
    (" 1 2 0 but , 1 3", "what? 20"), (" 1 2 0 but 1 3,", "what? 23"), (" 1 2 0 but 1 x", "what? 22"), (" 1 2 0 butt 1 3", "what? 16"),
    (" 1 2 0 bu 1 3", "what? 16"), (" 1 2 0 But 1 3", "what? 16"), (" but", "what? 10"), (" but 0 1", "what? 10"), (" all 0 2 but 0 1", "what? 18"),
    (" all 0 2 but", "index 0"), (" all 3 2 1 but 0 1", "what? 18"), (" all 3 but 0 1", "what? 16"), (" all 3 65536 but 0 1", "too large 10"),
    (" all 16385 2 but x", "too many 10"), (" powers 3 1 1 0 7 but 9 9", "what? 10"), (" 1 65536 but 1 2", "too large 12"),
    (" 1 2 0 but 1 -3", "what? 22"),
]
# a list of coefficients of each verb: what stands before and after it
COEFFICIENTS = [
    ("coefficients 65536 : ", " :"), ("coefficients 65536 : : ", ""), ("first 65536 : ", ""), ("pack 65536 1 32 1 : ", ""),
    ("product 65536 1 32 1 : ", " : 1"), ("product 65536 1 32 1 : 1 : ", ""), ("feed : ", " : 1"), ("feed : 1 : ", ""),
    ("record 65536 1 32 1 0 0 : ", ""), ("lanesum : ", " : 1"), ("lanesum : 1 : ", ""), ("label 0 : ", ""), ("passes 0 : ", ""),
]
BYTES = [
    ("bytable 3 2 4 1 : ", " : 1"), ("pick 3 2 4 1 : ", " : built 3 2 4 1"), ("pick 3 2 4 1 : built 3 2 4 1 : ", ""), ("take : ", ""),
    ("job 0 0 0 0 0 : ", ""),
]
WORDS = ["words 3 2 4 1 : ", "bytable 3 2 4 1 : built 3 2 4 1 : "]


def limits(sheet):
    sheet.group("reading: 65,535 and 65,536 in every list of coefficients")
    sheet.say("fresh 65536 1 32 1")
    sheet.say("make 65536 1 32 1")
    for before, after in COEFFICIENTS:
        assert "large" not in sheet.type(before + "65535" + after)
        sheet.type(before + "65536" + after, "too large %d" % len(before))
        sheet.type(before + "1 all 2 3" + after, "what? %d" % (len(before) + 2))
    sheet.say("record")
    sheet.say("lane")
    sheet.group("reading: 255 and 256 in every list of bytes")
    sheet.say("start")
    for before, after in BYTES:
        assert "large" not in sheet.type(before + "255" + after)
        sheet.type(before + "256" + after, "too large %d" % len(before))
        assert "large" not in sheet.type(before + "all 2 255" + after)
        sheet.type(before + "all 2 256" + after, "too large %d" % len(before))
        sheet.type(before + "1 but 0 256" + after, "too large %d" % (len(before) + 2))
        assert "large" not in sheet.type(before + "powers 9 1 2 65537 256" + after)
        sheet.type(before + "powers 9 1 2 65537 65537" + after, "too large %d" % len(before))
    sheet.group("reading: 2^64 - 1 and 2^64 in lists of words")
    for before in WORDS:
        sheet.type(before + "1 %d" % ALL, "refused 11 1")
        sheet.type(before + "1 %d" % (ALL + 1), "too large %d" % (len(before) + 2))
        sheet.type(before + "all 3 %d" % ALL, "refused 11 0")
        sheet.type(before + "1 2 but 1 %d" % ALL, "refused 11 1")
        sheet.type(before + "1 2 but 1 %d" % (ALL + 1), "too large %d" % (len(before) + 10))
        sheet.type(before + "powers 3 65536 1 65537 65537 but 0 1 1 2", "refused 11 2")
    sheet.group("reading: a word")
    for verb in ["unpack", "shifted", "reduce", "word"]:
        before = verb + " 3 2 4 1 :"
        place = len(before) + 1
        for word, gives in [
            ("", "what? %d" % (place - 1)), (" ", "what? %d" % place), (" 1 2", "what? %d" % (place + 2)), (" x", "what? %d" % place),
            (" 1x", "what? %d" % (place + 1)), (" ,", "what? %d" % place), (" all 1 1", "what? %d" % place), (" 1 but 0 2", "what? %d" % (place + 2)),
            (" %d" % ALL, "refused 11 0"), (" %d" % (ALL + 1), "too large %d" % place), (" 00004096", "refused 11 0"),
            (" 1 %d" % (ALL + 1), "too large %d" % (place + 2)), (" \r", "what? %d" % (place + 1)), (" # 1", "what? %d" % place),
        ]:
            sheet.type(before + word, gives)
    sheet.group("reading: 15 residues and 16")
    sheet.say("record 3 2 5 2 0 0 : 1 2 3 4 5 6 7 8 9 10 11 12 13 14 15", gives="record 3 2 5 2 0 0 : 1 2 3 4 5 6 7 8 9 10 11 12 13 14 15")
    sheet.say("record 3 2 5 2 0 0 : 1 2 3 4 5 6 7 8 9 10 11 12 13 14 15 16", gives="too many 20")
    sheet.say("record 3 2 5 2 0 0 : all 16 0", gives="too many 20")
    sheet.say("record 3 2 5 2 0 0 : all 16384 0", gives="too many 20")
    sheet.say("record 3 2 5 2 0 0 : all 16385 0", gives="too many 21")
    sheet.say("record", gives="record 3 2 5 2 0 0 : 1 2 3 4 5 6 7 8 9 10 11 12 13 14 15")
    sheet.say("record", [ALL] * 6, ": all 15 65535", gives=words("record", [ALL] * 6, ":", [65535] * 15))
    sheet.say("close", gives="refused 12 0")


def long(sheet):
    sheet.group("reading: a list of 4,097 numbers, one of 16,384 in a line of 65,536 bytes, and one of 16,385")
    sheet.type(words("product 3 2 4 1 :", [1] * 4097, ":"), "refused 9 0")
    typed = words("first 3 :", [2] * MOST)
    sheet.type(typed[:-1] + " " * (LONGEST - len(typed)) + typed[-1], "index 16384")
    assert len(sheet.lines[-1]) == LONGEST
    typed = words("first 3 :", [2] * (MOST + 1))
    sheet.type(typed, "too many %d" % (len(typed) - 1))
    sheet.group("reading: a line of 65,537 bytes")
    sheet.type("#" + " " * LONGEST, "too long")
    sheet.group("an answer of 65,536 bytes and one of 65,537")
    # 16,381 times three digits and a blank between them, after 13 bytes; 13,105 times four digits
    answer = sheet.type("bytable 5 2 7 1 : built 5 2 7 1 : all 16381 128")
    assert len(answer) == LONGEST
    sheet.type("bytable 3 2 5 1 : built 3 2 5 1 : all 13105 2114", "answer too long: digest")
    sheet.type("bytable 3 2 5 1 digest : built 3 2 5 1 : all 13105 2114")
    sheet.type("bytable 5 2 7 1 into 16384 : built 5 2 7 1 : all 16381 128", "answer too long: digest")
    sheet.type("bytable 5 2 7 1 into 16380 : built 5 2 7 1 : all 16381 128", "refused 10 0; kept 16380")


def rows(sheet):
    for comment, cases in [("lists that are typed", TYPED), ("lists that a word names", MADE), ("but", BUT)]:
        sheet.group("reading: " + comment)
        for text, gives in cases:
            sheet.type("first 3 :" + text, gives)
    limits(sheet)
    long(sheet)

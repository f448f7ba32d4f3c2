"""Rows of calc's test: how a line is read: verb, numbers, options and how many lists. What each gives is written out."""

from calc_lines import SET, VERBS
from document import ALL, words

HUGE = "1234567890123456789012345678901234567890"

# lines without a verb that is known
VERB = [
    ("", ""), (" ", ""), ("   ", ""), ("\r", ""), (" \r ", ""), ("#", ""), ("# check 3 2 5 2", ""), ("  # a comment", ""), ("\r#", ""),
    ("#" * 20, ""), ("3 2 5 2", "what? 0"), (": 1 2", "what? 0"), ("?", "what? 0"), ("  ?", "what? 2"), (" : # check", "what? 1"), ("-", "what? 0"),
    ("multiply 3 4", "what? 0"), ("  multiply 3 4", "what? 2"), ("checks 3 2 5 2", "what? 0"), ("chec 3 2 5 2", "what? 0"),
    ("chec k 3 2 5 2", "what? 0"), ("checkcheck 3 2 5 2", "what? 0"), ("into 3", "what? 0"), ("all 3 2", "what? 0"), ("but", "what? 0"),
    ("z", "what? 0"), ("lanes", "what? 0"), ("Check 3 2 5 2", "what? 0"), ("CHECK 3 2 5 2", "what? 0"), ("cHeck 3 2 5 2", "what? 0"),
    ("checK 3 2 5 2", "what? 0"), ("\tcheck 3 2 5 2", "what? 0"), (" \tcheck 3 2 5 2", "what? 1"), ("\x0bcheck 3 2 5 2", "what? 0"),
    ("`check 3 2 5 2", "what? 0"), ("{check 3 2 5 2", "what? 0"), ("é", "what? 0"), ("\x7f", "what? 0"), ("/", "what? 0"), (";", "what? 0"),
    ("@", "what? 0"), ("[", "what? 0"), ("\"check\"", "what? 0"),
]

# the numbers of a line that wants four, and of lines that want three, one and none
NUMBERS = [
    ("check 3 2 5 2", "accepted"), ("  check 3 2 5 2", "accepted"), ("check   3  2   5 2   ", "accepted"), ("check3 2 5 2", "accepted"),
    ("check 3 2 5 2\r", "accepted"), ("\rcheck\r3\r2 5\r\r2 \r", "accepted"), ("check 3 2 5 2# with a comment : 1 2", "accepted"),
    ("check 3 2 5 2 # :", "accepted"), ("check 0003 02 05 000000000000000000000000000000000000000002", "accepted"), ("check 00 2 5 2", "refused 1 0"),
    ("check", "what? 5"), ("check ", "what? 6"), ("check 3", "what? 7"), ("check 3 2 5", "what? 11"), ("check 3 2 5  ", "what? 13"),
    ("check 3 2 5\r", "what? 12"), ("check 3 2 5 # 2", "what? 12"), ("check 3 2 5#2", "what? 11"), ("check 3 2 5 : 2", "what? 12"),
    ("check 3 2 5:", "what? 11"), ("check:", "what? 5"), ("check 3 2 5 2 1", "what? 14"), ("check 3 2 5 2 0", "what? 14"),
    ("check 3 2 5 2 1 1", "what? 14"), ("check 3 2 5 2 :", "what? 14"), ("check 3 2 5 2:", "what? 13"), ("check 3 2 5 x", "what? 12"),
    ("check 3 2 5 2 x", "what? 14"), ("check 3 2 5 2 1 x", "what? 14"), ("check 3 2 5 2x", "what? 13"), ("check x 3 2 5 2", "what? 6"),
    ("check 3x2 5 2", "what? 7"), ("check 3 2 5 2 into 3", "what? 14"), ("check 3 2 5 2 digest", "what? 14"), ("check check 3 2 5 2", "what? 6"),
    ("check\t3 2 5 2", "what? 5"), ("check 3\t2 5 2", "what? 7"), ("check 3 2 5 2\t", "what? 13"), ("check 3, 2, 5, 2", "what? 7"),
    ("check -3 2 5 2", "what? 6"), ("check +3 2 5 2", "what? 6"), ("check 3.0 2 5 2", "what? 7"), ("check 3 2 5 2.", "what? 13"),
    ("check 1e3 2 5 2", "what? 7"), ("check 0x3 2 5 2", "what? 7"), ("check 3 2 5 é", "what? 12"), ("check 3 2 5 2 é", "what? 14"),
    ("check 3 2 5 2\x7f", "what? 13"), ("check 3/2 5 2", "what? 7"), ("check 3;2 5 2", "what? 7"), ("check 3 2 5 2 X", "what? 14"),
    ("check 3 2 5 Xx", "what? 12"), ("check 3 2 5 `2", "what? 12"), ("check 3 2 5 {2", "what? 12"), ("check 3 2 5 @2", "what? 12"),
    ("check 3 2 5 \x012", "what? 12"), ("check 3 2 5 \x0b2", "what? 12"), ("check %d 2 5 2" % ALL, "refused 1 0"),
    ("check %d 2 5 2" % (ALL + 1), "too large 6"), ("check 3 2 5 %d" % ALL, "refused 3 0"), ("check 3 2 5 %d" % (ALL + 1), "too large 12"),
    ("check %s 2 5 2" % HUGE, "too large 6"), ("check 3 %s 5 2" % HUGE, "too large 8"), ("check 3 000%d 5 2" % ALL, "refused 2 0"),
    ("check 3 000%d 5 2" % (ALL + 1), "too large 8"), ("check 18446744073709551614 2 5 2", "refused 1 0"),
    ("check 18446744073709551620 2 5 2", "too large 6"), ("check 18446744073709551700 2 5 2", "too large 6"),
    ("check 18446744073709552000 2 5 2", "too large 6"), ("check 20000000000000000000 2 5 2", "too large 6"),
    ("check 99999999999999999999 2 5 2", "too large 6"), ("check 184467440737095516150 2 5 2", "too large 6"),
    ("check 100000000000000000000 2 5 2", "too large 6"), ("check 9999999999999999999 2 5 2", "refused 1 0"),
    # several at once: the lowest place, and at one place too large before one too many
    ("check , %d 5 2" % (ALL + 1), "what? 6"), ("check %d , 5 2" % (ALL + 1), "too large 6"), ("check 3 2 5 2 %d" % (ALL + 1), "too large 14"),
    ("check 3 2 5 2 1 %d" % (ALL + 1), "what? 14"), ("check 3 2 5 2 %d 1" % (ALL + 1), "too large 14"), ("check 3 2 , x", "what? 10"),
    ("check %d x" % (ALL + 1), "too large 6"), ("check %d,3" % (ALL + 1), "too large 6"), ("check 3 2 5 2 1 : x", "what? 14"),
    ("check 3 2 5 : : :", "what? 12"), ("check 3 2 5 2 : : :", "what? 14"), ("choose 3 4 31", "width 9"), ("choose 3 4", "what? 10"),
    ("choose 3 4 31 1", "what? 14"), ("choose 3 4 31 :", "what? 14"), ("choose 3 4 %d" % (ALL + 1), "too large 11"), ("first : 1", "what? 6"),
    ("first 3 4 : 1", "what? 8"), ("first %d : 1" % ALL, "index 1"), ("first %d : 1" % (ALL + 1), "too large 6"), ("coefficients : :", "what? 13"),
    ("start 3", "what? 6"), ("start :", "what? 6"), ("start x", "what? 6"), ("feed 3 : :", "what? 5"), ("close 3", "what? 6"),
    ("finish 3", "what? 7"), ("take 3 : 1", "what? 5"), ("label : 2 893", "what? 6"), ("label 0 1 : 2 893", "what? 8"),
    ("label %d : 2 893" % ALL, "refused 19 0"), ("label %d : 2 893" % (ALL + 1), "too large 6"), ("passes : 1 2 3", "what? 7"),
    ("lanesum 3 : :", "what? 8"), ("lanereduce 3 : 0", "what? 11"), ("help 3", "what? 5"), ("help :", "what? 5"), ("help x", "what? 5"),
    ("help help", "what? 5"), ("help into 3", "what? 5"), ("help#", None), ("  help  ", None), ("help\r", None), ("helpme", "what? 0"),
]

# the options of unpack 3 2 4 1 : 1122, which answers 2 6 4
OPTIONS = [
    ("unpack 3 2 4 1 into 3 : 1122", "wrote 3: 2 6 4; kept 0"), ("unpack 3 2 4 1 into 4 : 1122", "wrote 3: 2 6 4; kept 1"),
    ("unpack 3 2 4 1 into 2 : 1122", "refused 10 0; kept 2"), ("unpack 3 2 4 1 into 0 : 1122", "refused 10 0; kept 0"),
    ("unpack 3 2 4 1 into 16384 : 1122", "wrote 3: 2 6 4; kept 16381"), ("unpack 3 2 4 1 into 16385 : 1122", "too large 20"),
    ("unpack 3 2 4 1 into 0000000000000000000000005 : 1122", "wrote 3: 2 6 4; kept 2"), ("unpack 3 2 4 1 into %d : 1122" % ALL, "too large 20"),
    ("unpack 3 2 4 1 into %d : 1122" % (ALL + 1), "too large 20"), ("unpack 3 2 4 1 into %s : 1122" % HUGE, "too large 20"),
    ("unpack 3 2 4 1 digest : 1122", "wrote 3: digest 133644"), ("unpack 3 2 4 1 into 5 digest : 1122", "wrote 3: digest 133644; kept 2"),
    ("unpack 3 2 4 1 into 2 digest : 1122", "refused 10 0; kept 2"), ("unpack 3 2 4 1 digest : 4096", "refused 11 0"),
    ("unpack 3 2 4 1into5digest: 1122", "wrote 3: digest 133644; kept 2"),
    ("unpack 3 2 4 1 into\r5\rdigest\r: 1122", "wrote 3: digest 133644; kept 2"), ("unpack 3 2 4 1 into : 1122", "what? 20"),
    ("unpack 3 2 4 1 into: 1122", "what? 19"), ("unpack 3 2 4 1 into digest : 1122", "what? 20"), ("unpack 3 2 4 1 into x : 1122", "what? 20"),
    ("unpack 3 2 4 1 into 3 4 : 1122", "what? 22"), ("unpack 3 2 4 1 into 3 16385 : 1122", "too large 22"),
    ("unpack 3 2 4 1 into , 3 : 1122", "what? 20"), ("unpack 3 2 4 1 into 3 , : 1122", "what? 22"), ("unpack 3 2 4 1 into -3 : 1122", "what? 20"),
    ("unpack 3 2 4 1 into 3 into 3 : 1122", "what? 22"), ("unpack 3 2 4 1 into 3 x : 1122", "what? 22"),
    ("unpack 3 2 4 1 into 3x : 1122", "what? 21"), ("unpack 3 2 4 1 into 3 digests : 1122", "what? 22"),
    ("unpack 3 2 4 1 into 3 diges : 1122", "what? 22"), ("unpack 3 2 4 1 digest into 3 : 1122", "what? 22"),
    ("unpack 3 2 4 1 digest digest : 1122", "what? 22"), ("unpack 3 2 4 1 digest 3 : 1122", "what? 22"),
    ("unpack 3 2 4 1 digest3 : 1122", "what? 21"), ("unpack 3 2 4 1 digest , : 1122", "what? 22"),
    ("unpack 3 2 4 1 into 3 digest digest : 1122", "what? 29"), ("unpack 3 2 4 1 into 3 digest 4 : 1122", "what? 29"),
    ("unpack 3 2 4 1 into 3 digest\t: 1122", "what? 28"), ("unpack 3 2 4 1 digestinto 3 : 1122", "what? 15"),
    ("unpack 3 2 4 1 intox 3 : 1122", "what? 15"), ("unpack 3 2 4 1 int 3 : 1122", "what? 15"), ("unpack 3 2 4 1 x : 1122", "what? 15"),
    ("unpack 3 2 4 1 Into 3 : 1122", "what? 15"), ("unpack 3 2 4 1 inTo 3 : 1122", "what? 15"), ("unpack 3 2 4 1 into 3 Digest : 1122", "what? 22"),
    ("unpack into 3 3 2 4 1 : 1122", "what? 7"), ("unpack 3 2 into 3 4 1 : 1122", "what? 11"), ("unpack 3 2 4 1 5 into 3 : 1122", "what? 15"),
    ("unpack 3 2 4 1 : into 3 1122", "what? 17"), ("unpack 3 2 4 1 : 1122 into 3", "what? 22"), ("unpack 3 2 4 1 : 1122 digest", "what? 22"),
    ("unpack 3 2 4 1 into 3 # : 1122", "what? 22"), ("unpack 3 2 4 1 into 16385", "too large 20"),
]

# a line of each verb that writes, of each that does not, with `@` where the options would stand
WRITE = [
    "unpack 3 2 4 1 @: 1122", "shifted 3 2 4 1 @: 1122", "product 3 2 4 1 @: 1 2 : 2 2", "build 3 2 4 1 @", "bytable 3 2 4 1 @: built 3 2 4 1 : 1122",
    "close @", "label 0 @: 2 893", "finish @",
]
NOT_WRITE = [
    "choose 3 4 31 @", "check 3 2 5 2 @", "coefficients 3 @: 1 : 2", "first 3 @: 1", "pack 3 2 4 1 @: 1 2", "reduce 3 2 4 1 @: 1122",
    "word 3 2 4 1 @: 1", "words 3 2 4 1 @: 1", "pick 3 2 4 1 @: :", "fresh 3 2 5 2 @", "feed @: :", "record @", "record 3 2 5 2 0 0 @: 1",
    "make 3 2 5 2 @", "lane @", "lane 3 2 5 2 @: 3 : 32 : 1 over 3", "lanesum @: :", "lanereduce @: 0", "passes 0 @: 1 2 3", "start @", "take @: 1",
    "job @", "job 0 0 0 0 0 @: 1", "help @",
]


def rows(sheet):
    for comment, cases in [
        ("empty lines, comments, and lines without a verb", VERB),
        ("numbers: too few, too many, too large, and what is no number", NUMBERS),
        ("options", OPTIONS),
    ]:
        sheet.group("reading: " + comment)
        for line, gives in cases:
            sheet.type(line, gives)
    sheet.say("help", gives="verbs: " + " ".join(VERBS))
    sheet.group("reading: options of each verb that writes, and of each that does not")
    # what close and finish work on
    sheet.say("fresh 3 2 5 2", gives="accepted")
    sheet.say("start", gives="started")
    for line in WRITE:
        for options in ["", "into 20 ", "digest ", "into 20 digest ", "into 0 "]:
            sheet.type(line.replace("@", options).rstrip())
    for line in NOT_WRITE:
        for options in ["into 20 ", "digest "]:
            sheet.type(line.replace("@", options).rstrip(), gives="what? %d" % line.index("@"))
    sections(sheet)


def sections(sheet):
    sheet.group("reading: lists too few and too many, of each verb")
    for verb, (count, kinds, options) in VERBS.items():
        for extra in ([-1] if kinds else []) + [1]:
            line = words(verb, [3] * count, [": 1"] * (len(kinds) + extra))
            if verb in SET and extra > 0:
                # with a colon these want numbers
                line = words(verb, [3] * SET[verb][0], [": 1"] * (len(SET[verb][1]) + 1))
            sheet.type(line, gives="what? %d" % (len(line) if extra < 0 else len(line) - 3))
    for line, gives in [
        # how many there are is looked at after the options, and before what stands in them
        ("pack 3 2 4 1", "what? 12"), ("pack 3 2 4 1 ", "what? 13"), ("pack 3 2 4 1 # : 1 2", "what? 13"), ("pack 3 2 4 1: 1 2", "word 33"),
        ("pack 3 2 4 1 :1 2", "word 33"), ("pack 3 2 4 1 : : 1 2", "what? 15"), ("pack 3 2 4 1 : 1 2 :", "what? 19"),
        ("pack 3 2 4 1 : x : 1", "what? 17"), ("product 3 2 4 1 : x", "what? 19"), ("product 3 2 4 1 : 65536", "what? 23"),
        ("product 3 2 4 1 : 65536 : x", "too large 18"), ("product 3 2 4 1 : 1 : x", "what? 22"), ("product 3 2 4 1 : x : 65536", "what? 18"),
        ("product 3 2 4 1 : 1 2 : 2 2 :", "what? 28"), ("product 3 2 4 1 x : 1 2 : 2 2 :", "what? 16"), ("product 3 2 4 1::", "wrote 0:"),
        ("product 3 2 4 1 : # : 1", "what? 18"), ("unpack 3 2 4 1 into 3", "what? 21"), ("unpack 3 2 4 1 digest", "what? 21"),
        ("unpack 3 2 4 1 into 3 : 1 : 1", "what? 26"), ("lane 3 2 5 2 : 3 : 32", "what? 21"), ("lane 3 2 5 2 : 3", "what? 16"),
        ("lane 3 2 5 2 : 3 : 32 : 1 over 3 : 4", "what? 33"), ("lane :", "what? 5"), ("lane : 3 : 32 : 1", "what? 5"), ("lane 3", "what? 5"),
        ("lane 3 2 5 2", "what? 5"), ("lane 3 2 5 : 3 : 32 : 1", "what? 11"), ("lane 3 2 5 2 1 : 3 : 32 : 1", "what? 13"), ("lane#", None),
        ("record :", "what? 7"), ("record : 1 : 2", "what? 7"), ("record 3", "what? 7"), ("record 3 2 5 2 0 0", "what? 7"),
        ("record 3 2 5 2 0 : 1", "what? 17"), ("record#:", None), ("record 3 2 5 2 0 0 0 : 1", "what? 19"),
        ("record 3 2 5 2 0 0 : 1 : 2", "what? 23"), ("record x", "what? 7"), ("record 3 2 5 2 0 0 x : 1", "what? 19"),
    ]:
        sheet.type(line, gives)

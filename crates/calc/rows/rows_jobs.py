"""Rows of calc's test: jobs. Those of expected/jobs.txt, whose lines an independent program gave, are taken at once, and some of them in pieces."""

import os

import jobs
from document import words
from jobs import DOCUMENT, header, job

SMALL = (3, 2, 5, 2)
HEADERS = [
    (0, SMALL, "refused 17 0"),
    (10, SMALL, "refused 17 0"),
    (11, SMALL, "3 2 5 2 0 0: 0 0 0"),
    (12, SMALL, "refused 17 0"),
    (10, (1, 2, 5, 2), "refused 17 0"),
    (11, (1, 2, 5, 2), "refused 1 0"),
    (12, (1, 2, 5, 2), "refused 1 0"),
    (11 + 2**8, SMALL, "refused 17 0"),
    (11 + 2**16, SMALL, "refused 17 0"),
    (11 + 2**24, SMALL, "refused 13 0"),
    (11, (3 + 2**8, 2, 5, 2), "refused 5 0"),
    (11, (3 + 2**16, 2, 5, 2), "refused 1 0"),
    (11, (3 + 2**24, 2, 5, 2), "refused 1 0"),
    (11, (3, 2, 5, 2 + 2**8), "refused 5 0"),
    (11, (3, 2, 5, 2 + 2**16), "refused 5 0"),
    (11, (3, 2, 5, 2 + 2**24), "refused 3 0"),
]


def given():
    """Bytes, kind and line of each row; a row that stands there twice once."""
    rows = {}
    with open(os.path.join(os.path.dirname(jobs.__file__), "jobs.txt")) as lines:
        for line in lines:
            if not line.startswith("#"):
                digits, kind, answer = [part.strip() for part in line.split("|")]
                bs = bytes.fromhex(digits)
                assert job(bs) == answer, line
                rows.setdefault(bs, (kind, answer))
    return rows


def whole(line):
    return "wrote %d: %s" % (len(line) + 1, line)


def pieces(sheet, line, *parts):
    sheet.say("start", gives="started")
    for part in parts:
        sheet.say("take :", list(part), gives="taken")
    sheet.say("finish", gives=whole(line))


def rows(sheet):
    sheet.group("jobs: document 01's, cut in two, and byte by byte")
    line = "3 2 5 2 3 2: 0 0 0"
    pieces(sheet, line, DOCUMENT)
    for cut in [0, 1, 4, 5, 14, 15, 16, 17, 22, 23, 24, 31, 38, 39]:
        pieces(sheet, line, DOCUMENT[:cut], DOCUMENT[cut:])
    pieces(sheet, line, *[DOCUMENT[i : i + 1] for i in range(len(DOCUMENT))])
    sheet.group("jobs: a line after each byte is that of the bytes so far; then bytes more, and a new start")
    sheet.say("start")
    for i, byte in enumerate(DOCUMENT + b"\0\0"):
        sheet.say("take :", byte)
        if i in (0, 13, 14, 15, 37, 38, 39, 40):
            sheet.say("finish", gives=whole(line if i == 38 else "refused 17 0"))
    sheet.say("take :")
    sheet.say("start")
    sheet.say("finish", gives=whole("refused 17 0"))
    sheet.group("jobs: finish into buffers that are too short, exact and longer")
    for bs, line in [
        (b"", "refused 17 0"),
        (DOCUMENT, "3 2 5 2 3 2: 0 0 0"),
        (DOCUMENT[:16] + b"\x03", "refused 8 0"),
    ]:
        pieces(sheet, line, bs)
        size = len(line) + 1
        for lent in [0, size - 1, size, size + 1, 126]:
            sheet.say("finish into", lent, gives="refused 10 0; kept %d" % lent if lent < size else whole(line) + "; kept %d" % (lent - size))
        sheet.say("finish digest")
        sheet.say("finish into 126 digest")
        # it is still there
        sheet.say("finish", gives=whole(line))
    sheet.group("jobs: headers with no pairs after them, around the shortest length, and with a byte more in a number")
    for length, s, line in HEADERS:
        pieces(sheet, line, header(length, s))
    sheet.group("jobs: those that an independent program gave the lines of")
    lines = given()
    for bs, (kind, line) in lines.items():
        pieces(sheet, line, bs)
    sheet.group("jobs: the first of each kind cut in two at a third and at its last byte")
    kinds = {}
    for bs, (kind, line) in lines.items():
        if len(bs) > 15:
            kinds.setdefault(kind, (bs, line))
    for bs, line in kinds.values():
        for cut in [len(bs) // 3, len(bs) - 1]:
            pieces(sheet, line, bs[:cut], bs[cut:])
    sheet.group("jobs: long pieces")
    # p = 65,536, k = 1, t = 32, n = 1: every two bytes are a coefficient
    many = "powers 16384 31415 75 65537 256"
    for pairs, takes in [(4096, [many]), (4097, [many, "1 2 3 4"]), (8192, ["all 16384 255", many])]:
        sheet.say("start")
        sheet.say("take :", list((11 + 4 * pairs).to_bytes(4, "big")), 1, 0, 1, 0, 0, 1, 32, 0, 0, 0, 1)
        for taken in takes:
            sheet.say("take :", taken, gives="taken")
        assert sheet.say("finish").split(": ")[1].startswith(words("65536 1 32 1", pairs))
    # p = 3: one bad coefficient among many
    for place in [0, 16380, 16381, 16383]:
        sheet.say("start")
        sheet.say("take :", list((11 + 16384).to_bytes(4, "big")), 1, 0, 0, 0, 3, 1, 5, 0, 0, 0, 1)
        sheet.say("take : all 16384 0 but", place, 3)
        sheet.say("finish", gives=whole("refused 8 %d" % (place // 2)))
    sheet.group("jobs: a job that is begun goes on after lines of other verbs")
    sheet.say("start")
    sheet.say("take :", list(DOCUMENT[:20]))
    sheet.say("check 3 2 5 2")
    sheet.say("take : 256", gives="too large 7")
    sheet.say("take : x", gives="what? 7")
    sheet.say("take", gives="what? 4")
    sheet.say("take :", list(DOCUMENT[20:]))
    sheet.say("finish", gives=whole("3 2 5 2 3 2: 0 0 0"))

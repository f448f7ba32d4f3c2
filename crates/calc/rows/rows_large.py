"""Rows of calc's test: jobs of 1,000,000 pairs, fed wholly, and around their end from states that are set by hand; jobs that declare a pair or a byte
more. What a job must give comes from all of its bytes at once."""

import struct

from document import check, words
from jobs import HEAD, PAIRS, State, header, job, take
from records import MOST, Record
from rows_jobs import whole
from rows_running import EIGHT, FOUR
from rows_states import put, taken

PRIME = (65521, 1, 52, 1048576)
# all but so many bytes, when an end is taken: in the middle of a coefficient
LESS = 99
REFUSED = "wrote 13: refused 17 0"


# ---- fed wholly


def any_bytes(i, at, size):
    """Below 255 each, so that every coefficient is below 65,521."""
    return words("powers", size, 31415 + i, "75 65537 255")


def small_bytes(i, at, size):
    """Coefficients 0, 1 and 2: every other byte is 0, those at even places among the pairs. One of the others is set anew in each piece."""
    first = [84, 99, 204, 234, 339, 354][i % 6] * 24 ** (at % 2)
    other = ["but", 2 * (61 * i % (size // 2)) + 1 - at % 2, i % 3] if size > 1 else []
    return words("powers", size, first, "24 365 3", other)


def fed(sheet, s, listed):
    """The header, a byte, pieces of 16,384 and of 16,383 bytes by turns, so that they end everywhere in a pair, and the rest; shown on the way."""
    p, k, t, n = s
    size = 4 * k * MOST
    sheet.say("start", gives="started")
    sheet.say("take :", list(header(11 + size, s)), gives="taken")
    sheet.say("finish", gives=REFUSED)
    sheet.say("job")
    at, i = 0, 0
    while size - LESS - at >= 16384:
        piece = 1 if i == 0 else 16384 - i % 2
        sheet.say("take :", listed(i, at, piece), gives="taken")
        at, i = at + piece, i + 1
        if i in (2, 100):
            sheet.say("job")
    sheet.say("take :", listed(i, at, size - LESS - at), gives="taken")
    sheet.say("finish", gives=REFUSED)
    sheet.say("job")
    sheet.say("take :", listed(i + 1, size - LESS, LESS), gives="taken")
    assert len(sheet.calc.job.bytes) == 15 + size
    line = job(sheet.calc.job.bytes)
    assert line.startswith(words(s, MOST, -(-MOST // n)) + ": ")
    sheet.say("finish", gives=whole(line))
    sheet.say("job")
    sheet.say("take : 0", gives="taken")
    sheet.say("finish", gives=REFUSED)


# ---- ends


def made_bytes(p, count):
    """By the rule for coefficient i."""
    return struct.pack(">%dH" % count, *[(i * i % 1000003 + i // 7) % p for i in range(count)])


def ends(sheet, s):
    p, k, t, n = s
    size = 4 * k * MOST
    head, body = header(11 + size, s), made_bytes(p, 2 * k * MOST + 4)
    most = take(State(HEAD), head + body[: size - LESS])
    line = whole(job(head + body[:size]))
    good, more, bad = list(body[size - LESS : size]), list(body[size : size + 8]), list(struct.pack(">H", p))
    last = whole("refused 8 %d" % (2 * k * MOST - 1))
    sheet.group(words("jobs: around the end of 1,000,000 pairs of", s))
    put(sheet, most)
    sheet.say("finish", gives=REFUSED)
    for gives, *pieces in [
        (line, good),
        (REFUSED, good[:-1]),
        (REFUSED, good + more[:1]),
        (REFUSED, good + more),
        (REFUSED, good, [0]),
        (REFUSED, good, [0] * 8),
        (REFUSED, good, [255] * 8),
        (last, good[:-2] + bad),
        (REFUSED, good[:-2] + bad[:1]),
        (last, good[:-2] + bad + more[:1]),
        (last, good[:-2], bad),
        (REFUSED, good[:-2], bad[:1]),
        (last, good[:-2], bad[:1], bad[1:]),
        (line, *[[byte] for byte in good]),
    ]:
        put(sheet, most)
        for piece in pieces:
            sheet.say("take :", piece, gives="taken")
        sheet.say("job")
        sheet.say("finish", gives=gives)
    # the same where no bytes wait
    put(sheet, most)
    sheet.say("take :", good[:3], gives="taken")
    put(sheet, sheet.calc.job.state)
    assert sheet.calc.job.begun.size == 0 and len(good[3:]) % (4 * k) == 0
    for piece in [good[3 : 3 + 4 * k], good[3 + 4 * k :], []]:
        sheet.say("take :", piece, gives="taken")
    sheet.say("finish", gives=line)


def last_pair(sheet):
    sheet.group(words("jobs: the last pair of 1,000,000 of", EIGHT))
    for size, piece in [(31, [1]), (31, [2]), (31, [1, 0]), (30, [255]), (30, [255, 255, 255]), (0, [0, 2])]:
        taken(sheet, State(PAIRS, [], size, MOST, Record(EIGHT, MOST - 1, 0, [1] * 15)), piece, True)


# ---- headers


def begun(sheet, comment, length, s, pieces):
    """Such a job with each of these pieces after its header, if there is one."""
    assert check(*s) == 0
    sheet.group(words("jobs:", comment, "of", s))
    for gives, piece in pieces:
        sheet.say("start")
        sheet.say("take :", list(header(length, s)))
        if piece:
            sheet.say("take :", piece, gives="taken")
        sheet.say("finish", gives=whole(gives))
        sheet.say("job")


def headers(sheet):
    for s in [PRIME, EIGHT]:
        p, k, t, n = s
        size = 4 * k * (MOST + 1)
        begun(sheet, "1,000,001 pairs", 11 + size, s, [("refused 13 0", piece) for piece in ([], [255] * 2, "all 16384 0", list(made_bytes(p, 16)))])
        begun(sheet, "a byte less declared", 10 + size, s, [("refused 17 0", [])])
        begun(sheet, "a byte more declared", 12 + size, s, [("refused 17 0", [])])
        begun(sheet, "1,000,000 pairs, none there", 11 + size - 4 * k, s, [("refused 17 0", [])])
    for s in [FOUR, PRIME]:
        p, k, t, n = s
        body = list(made_bytes(p, 2 * k + 1))
        pair = job(header(11 + 4 * k, s) + bytes(body[: 4 * k]))
        begun(sheet, "a pair", 11 + 4 * k, s, [(pair, body[: 4 * k])])
        pieces = [[], [255] * 2, body[: 4 * k], body[: 4 * k + 1]]
        begun(sheet, "a pair and a byte", 12 + 4 * k, s, [("refused 17 0", piece) for piece in pieces])


def rows(sheet):
    sheet.group(words("jobs: 1,000,000 pairs of", PRIME))
    fed(sheet, PRIME, any_bytes)
    sheet.group(words("jobs: 1,000,000 pairs of", FOUR))
    fed(sheet, FOUR, small_bytes)
    for s in [FOUR, EIGHT, PRIME]:
        ends(sheet, s)
    last_pair(sheet)
    headers(sheet)

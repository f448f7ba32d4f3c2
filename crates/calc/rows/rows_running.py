"""Rows of calc's test: the running record, fed and closed. A record that would need many pairs is set to the numbers that records.py works out from
these pairs; the edges of its fields come from their formula."""

from collections import Counter

from document import ALL, check, largest_batch, words
from records import MOST, Record, close, pairs_of
from rows import made, two_made

SMALL, SEVENS, FOUR, LARGE, EIGHT = (3, 2, 5, 2), (7, 2, 9, 4), (3, 4, 9, 31), (65536, 1, 40, 256), (2, 8, 4, 1)
PAIR = ((1, 2), (2, 2))
THIRD = Record(SMALL, pairs=[PAIR] * 3)
NINE = pairs_of(2, [1, 2, 3, 4, 5, 6, 6, 0, 2, 5, 4, 3, 0, 1, 6, 6, 2, 2], [6, 5, 0, 3, 2, 1, 4, 6, 3, 3, 5, 1, 1, 2, 6, 6, 4, 4])
WORST = ((65535,), (65535,))


def hold(sheet, record):
    """The held record becomes this one, where it is not."""
    total, word, residues = record.sum
    if (sheet.calc.record.s, sheet.calc.record.sum) == (record.s, record.sum):
        return
    while residues and residues[-1] == 0:
        residues = residues[:-1]
    if not total and not word and not residues and not check(*record.s):
        sheet.say("fresh", record.s, gives="accepted")
    else:
        sheet.say("record", record.s, total, word, ":", residues)


def feed(sheet, record, xs, ys, gives=None):
    """The record with these lists too, shown; it is shown as it was where they are refused."""
    hold(sheet, record)
    before = sheet.calc.record
    answer = sheet.say("feed :", xs, ":", ys, gives=gives)
    sheet.say("record")
    assert answer.startswith("took") or sheet.calc.record is before
    return sheet.calc.record


def feed_and_close(sheet, record, xs, ys, gives=None):
    after = feed(sheet, record, xs, ys, gives)
    sheet.say("close into 15")
    return after


def feed_made(sheet, s, length):
    feed_and_close(sheet, Record(s), made(s[0], 31415, length), made(s[0], 57721, length))


def flat(pairs):
    return [[x for pair in pairs for x in pair[side]] for side in (0, 1)]


def repeated(x, times):
    return [x] * times if times <= 16 else words("all", times, x)


def examples(sheet):
    sheet.group("feed and close: document 01's example")
    sheet.say("fresh", SMALL, gives="accepted")
    for word, residues in [(4290, [0, 0, 0]), (0, [1, 0, 2]), (4290, [1, 0, 2])]:
        after = feed(sheet, sheet.calc.record, [1, 2], [2, 2], "took 1")
        assert after.sum[1:] == (word, residues + [0] * 12)
    for i in range(2):
        sheet.say("close into 3", gives="reductions 2: 0 0 0; kept 0")
    feed(sheet, sheet.calc.record, [1, 2], [2, 2])
    sheet.say("close into 3")
    sheet.group("fresh: 1 to 6, and accepted; what is handed back is held")
    six = [(1, 2, 5, 2), (3, 9, 5, 2), (3, 2, 5, 0), (3, 2, 64, 2), (3, 2, 5, 4), (3, 2, 22, 2), (0, 0, 0, 0), (ALL, ALL, ALL, ALL)]
    for s in six + [SMALL, (2, 1, 1, 1), EIGHT, FOUR, (929, 2, 21, 1), (65536, 1, 63, 1048576)]:
        sheet.say("fresh", s)
        sheet.say("record")
    sheet.group("feed: six pairs in every cut, also with empty calls before each: one record")
    for way, empty in [(way, False) for way in range(32)] + [(way, True) for way in (0, 4, 8, 21, 31)]:
        ends = [0] + [i for i in range(1, 6) if way & 2 ** (i - 1)] + [6]
        sheet.say("fresh", SEVENS)
        for begin, end in zip(ends, ends[1:]):
            if empty:
                sheet.say("feed : :", gives="took 0")
            xs, ys = flat(NINE[begin:end])
            sheet.say("feed :", xs, ":", ys, gives="took %d" % (end - begin))
        shown = sheet.say("record")
        assert sheet.calc.record.sum == Record(SEVENS, pairs=NINE[:6]).sum and shown
        sheet.say("close into 4")


def batches(sheet):
    sheet.group("feed: n = 1")
    one = (7, 2, 7, 1)
    record = feed_and_close(sheet, Record(one), [3, 4], [5, 6])
    record = feed_and_close(sheet, record, [1, 2, 6, 6], [6, 5, 6, 6])
    feed_and_close(sheet, record, [], [])
    feed_and_close(sheet, Record(one), [3, 4, 1, 2, 6, 6], [5, 6, 6, 5, 6, 6])
    feed_and_close(sheet, Record((65536, 1, 32, 1)), [65535, 65534], [65535, 3])
    sheet.group("feed: n = 1,048,576")
    record = feed_and_close(sheet, Record((929, 1, 63, 1048576)), [928, 927], [928, 900])
    feed_and_close(sheet, record, [1, 2, 3], [900, 800, 700])
    feed_made(sheet, (929, 1, 63, 1048576), 500)
    feed_made(sheet, (2, 1, 21, 1048576), 300)
    feed_and_close(sheet, Record((2, 1, 21, 1048576), pairs=[((1,), (1,))] * 999999), [1], [1])
    sheet.group("feed: around a full batch, two and six")
    for pairs in [3, 4, 5, 7, 8, 9, 23, 24, 25]:
        feed_made(sheet, SEVENS, 2 * pairs)
    record = Record(SEVENS)
    for a, b in NINE[:5]:
        record = feed_and_close(sheet, record, a, b)
    three = feed_and_close(sheet, Record(SEVENS), [1, 2, 3, 4, 5, 6], [6, 5, 0, 3, 2, 1])
    for pairs in [0, 1, 2, 4, 5, 6]:
        xs, ys = [6, 0, 2, 5, 4, 3, 1, 1, 2, 2, 0, 6], [4, 6, 3, 3, 5, 1, 6, 2, 4, 4, 6, 0]
        feed_and_close(sheet, three, xs[:2 * pairs], ys[:2 * pairs])
    sheet.group("feed: the other k")
    for s, pairs in [((929, 1, 26, 77), 80), ((7, 3, 12, 37), 40), (FOUR, 33), ((3, 5, 7, 6), 8), ((2, 6, 5, 5), 7), ((2, 7, 4, 2), 5), (EIGHT, 3)]:
        assert largest_batch(*s) and s[3] < pairs
        feed_made(sheet, s, s[1] * pairs)


def million(sheet):
    pieces = (929, 1, 30, 997)
    sheet.group("feed: 61 times 16,384 pairs and the rest: 1,000,000, and one more is 13")
    sheet.say("fresh", pieces)
    for i in range(61):
        sheet.say("feed", two_made(929, 16384), gives="took 16384")
    sheet.say("record")
    sheet.say("feed", two_made(929, 577), gives="refused 13 0")
    feed_and_close(sheet, sheet.calc.record, made(929, 31415, 576), made(929, 57721, 576), "took 576")
    assert sheet.calc.record.sum[0] == MOST
    feed_and_close(sheet, sheet.calc.record, [1], [1], "refused 13 0")
    feed_and_close(sheet, sheet.calc.record, [], [], "took 0")
    sheet.group("feed: 1,000 pairs and 1,001 after 999,000")
    piece = pairs_of(1, *[[first * pow(75, i, 65537) % 65537 % 929 for i in range(1000)] for first in (31415, 57721)])
    most = Record(pieces, pairs=piece * 999)
    assert most.sum[0] % 997 and most.fed(piece).sum[0] == MOST
    hold(sheet, most)
    sheet.say("close into 2")
    feed_and_close(sheet, most, "all 1001 1", "all 1001 1", "refused 13 0")
    full = feed_and_close(sheet, most, made(929, 31415, 1000), made(929, 57721, 1000))
    assert full.sum == most.fed(piece).sum
    feed_and_close(sheet, full, [1], [1], "refused 13 0")
    feed_and_close(sheet, full, [], [])
    feed_made(sheet, (929, 1, 26, 77), 2000)
    sheet.group("feed: up to 1,000,000 with two coefficients a polynomial, and in one batch")
    most = Record(SMALL, pairs=[PAIR] * 999999)
    feed_and_close(sheet, most, [1, 2, 1, 2], [2, 2, 2, 2], "refused 13 0")
    full = feed_and_close(sheet, most, [1, 2], [2, 2])
    feed_and_close(sheet, full, [1, 2], [2, 2], "refused 13 0")
    feed_and_close(sheet, full, [], [])
    most = Record((3, 1, 22, 1000000), pairs=[((2,), (2,))] * 999999)
    hold(sheet, most)
    sheet.say("close into 1")
    feed_and_close(sheet, most, [2], [2])


def largest(sheet):
    sheet.group("feed: every coefficient p-1 at the largest n")
    for s in [
        FOUR, (127, 2, 21, 66), LARGE, EIGHT, (929, 2, 21, 1), (65536, 1, 32, 1), (7, 3, 12, 37), (3, 5, 7, 6), (2, 6, 5, 5), (2, 7, 4, 2),
    ]:
        assert largest_batch(*s)
        p, k, t, n = s
        before, one, more = [repeated(p - 1, k * pairs) for pairs in (n - 1, 1, n + 1)]
        record = feed_and_close(sheet, Record(s), before, before)
        record = feed_and_close(sheet, record, one, one)
        feed_and_close(sheet, record, one, one)
        feed_and_close(sheet, Record(s), more, more)
    assert largest_batch(65536, 1, 48, 65538)
    record = feed_and_close(sheet, Record((65536, 1, 48, 65538), pairs=[WORST] * 65537), [65535], [65535])
    feed_and_close(sheet, record, [65535], [65535])
    assert check(65536, 1, 51, 1048576) == 5
    feed_and_close(sheet, Record((65536, 1, 52, 1048576), pairs=[WORST] * 999999), [65535], [65535])
    feed_and_close(sheet, Record((65536, 1, 63, 1048576), 999999, 999999 * 65535**2, [65535]), [65535], [65535])


def orders(sheet):
    sheet.group("feed: nine pairs in other orders and cuts: other records, and one closing")
    whole = close(Record(SEVENS, pairs=NINE), 3)
    for first, step in [(0, 1), (8, 8), (4, 1), (3, 8), (0, 2), (6, 4), (2, 5)]:
        pairs = [NINE[(first + i * step) % 9] for i in range(9)]
        assert Counter(pairs) == Counter(NINE)
        ended(sheet, [[pair] for pair in pairs], whole)
    for first in range(9):
        ended(sheet, [NINE[first:], NINE[:first]], whole)
    xs, ys = flat(NINE[::-1])
    feed_and_close(sheet, Record(SEVENS), xs, ys)
    two = feed(sheet, Record(SEVENS), xs[:4], ys[:4])
    seven = feed(sheet, two, xs[4:14], ys[4:14])
    assert close(feed_and_close(sheet, seven, xs[14:], ys[14:]), 3) == whole


def ended(sheet, calls, whole):
    sheet.say("fresh", SEVENS)
    for pairs in calls:
        xs, ys = flat(pairs)
        sheet.say("feed :", xs, ":", ys, gives="took %d" % len(pairs))
    sheet.say("record")
    sheet.say("close into 4", gives=words("reductions %d:" % whole[0], whole[1]) + "; kept 1")


def rows(sheet):
    examples(sheet)
    batches(sheet)
    million(sheet)
    largest(sheet)
    orders(sheet)

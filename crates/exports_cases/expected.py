#!/usr/bin/env python3
"""What exports_cases must write: python3 crates/exports_cases/expected.py > crates/exports_cases/stdout

Worked out by document 01's words in whole numbers, with no code of the crates; where the document prints a value, that value is asserted here too. The
inputs are written out again, so a case that the program lacks shows as a difference. A sum is one of whole polynomials: the size of its calls is printed and
has no part in it."""

import os
import sys

sys.path.insert(0, os.path.join(os.path.dirname(os.path.abspath(__file__)), "..", "..", "expected"))
from document import ALL, SEVEN, check, listed, narrow_or_no_room, ranges, words


def line(call, reply, after=None):
    print(words(*call) + ": " + words(*reply) + ("" if after is None else ":" + "".join(" %d" % x for x in after)))
    return reply


def answered(value):
    return (0, 0, value)


def refused(number, place=0):
    return (number, place, 0)


def fields(k, t, word):
    return [word // 2 ** (i * t) % 2**t for i in range(2 * k - 1)]


def reduced(s, word):
    p, k, t, n = s
    return sum(f % p * 2 ** (i * t) for i, f in enumerate(fields(k, t, word)))


def multiplied(p, a, b):
    out = [0] * (len(a) + len(b) - 1 if a and b else 0)
    for i, x in enumerate(a):
        for j, y in enumerate(b):
            out[i + j] = (out[i + j] + x * y) % p
    return out


def pairs(k, xs, ys):
    return [(xs[i : i + k], ys[i : i + k]) for i in range(0, len(xs), k)]


def added(k, cs):
    """The coefficients of the sum of products, unreduced."""
    return [sum(a[i] * b[j - i] for a, b in cs for i in range(k) if 0 <= j - i < k) for j in range(2 * k - 1)]


def first_bad(p, *lists):
    both = [x for xs in lists for x in xs]
    return next((i for i, x in enumerate(both) if x >= p), None)


def left(old, new):
    return new + old[len(new) :]


def choice(p, k, n):
    number = ranges(p, k, n)
    width = None if number else next((t for t in range(1, 64) if not narrow_or_no_room(p, k, t, n)), None)
    return line(("choose", p, k, n), refused(number) if number else refused(7) if width is None else answered(width))


def pack(s, xs):
    p, k, t, n = s
    bad = first_bad(p, xs)
    reply = answered(sum(x * 2 ** (i * t) for i, x in enumerate(xs))) if t < 64 else None
    if check(*s):
        reply = refused(check(*s))
    elif len(xs) != k:
        reply = refused(9)
    elif bad is not None:
        reply = refused(8, bad)
    return line(("pack", s, "of", xs), reply)


def refused_word(s, word):
    p, k, t, n = s
    return check(*s) or (11 if word >= 2 ** ((2 * k - 1) * t) else 0)


def unpack(s, word, lent):
    p, k, t, n = s
    number = refused_word(s, word) or (10 if lent < 2 * k - 1 else 0)
    new = [] if number else fields(k, t, word)
    return line(("unpack", s, "of", word), refused(number) if number else answered(len(new)), left([SEVEN] * lent, new))


def reduce(s, word):
    number = refused_word(s, word)
    return line(("reduce", s, "of", word), refused(number) if number else answered(reduced(s, word)))


def table_of(p, t):
    body = bytes([1]) + p.to_bytes(2, "big") + bytes([t]) + bytes((u - 2**t * v) % p for v in range(p) for u in range(p))
    return list(len(body).to_bytes(4, "big") + body)


def table(s, lent):
    p, k, t, n = s
    number = check(*s) or (14 if p > 127 else 10 if lent < 8 + p * p else 0)
    new = [] if number else table_of(p, t)
    return line(("table", s), refused(number) if number else answered(len(new)), left([SEVEN] * lent, new))


def by_table(s, buffer, ws, lent):
    p, k, t, n = s
    number = check(*s) or (14 if p > 127 else 0)
    place = 0
    if not number:
        right = table_of(p, t)
        differs = next((i for i, x in enumerate(right) if buffer[i : i + 1] != [x]), None)
        bad = next((i for i, w in enumerate(ws) if refused_word(s, w)), None)
        if differs is not None:
            number, place = 15, differs
        elif lent < len(ws):
            number = 10
        elif bad is not None:
            number, place = 11, bad
    new = [] if number else [reduced(s, w) for w in ws]
    return line(("by table", s, "with", len(buffer), "of", ws), refused(number, place) if number else answered(len(new)), left([SEVEN] * lent, new))


def product(s, a, b, lent):
    p, k, t, n = s
    number, place, bad = check(*s), 0, first_bad(p, a, b)
    new = multiplied(p, a, b)
    if not number:
        if max(len(a), len(b)) > 4096:
            number = 9
        elif bad is not None:
            number, place = 8, bad
        elif lent < len(new):
            number = 10
    new = [] if number else new
    return line(("product", s, "of", listed(a), "by", listed(b)), refused(number, place) if number else answered(len(new)), left([SEVEN] * lent, new))


def flat(s, xs, ys, most):
    """Number and place of 9, 13 and 8 in two flat lists."""
    p, k, t, n = s
    bad = first_bad(p, xs, ys)
    if len(xs) != len(ys) or len(xs) % k:
        return (9, 0)
    if len(xs) // k > most:
        return (13, 0)
    return (0, 0) if bad is None else (8, bad)


def show_sum(s, xs, ys, size, lent=4):
    p, k, t, n = s
    number, place = (check(*s), 0) if check(*s) else flat(s, xs, ys, 1000000)
    number = number or (10 if lent < 2 * k - 1 else 0)
    cs = [] if number else pairs(k, xs, ys)
    new = [] if number else [x % p for x in added(k, cs)]
    reply = refused(number, place) if number else answered(-(-len(cs) // n))
    return line(("sum", s, "of", xs, "by", ys, "in", size), reply, left([SEVEN] * lent, new))


def refused_lane(s):
    p, k, t, n = s
    return check(*s) or (16 if (2 * k - 1) * t >= 53 else 0)


def lane_line(call, number, place, word, other):
    print(words(*call) + ": %d %d " % (number, place) + ("the same" if (0 if number else word) == other else "another"))


def lane_sum(s, xs, ys, other):
    p, k, t, n = s
    number, place = (refused_lane(s), 0) if refused_lane(s) else flat(s, xs, ys, n)
    word = 0 if number else sum(x * 2 ** (j * t) for j, x in enumerate(added(k, pairs(k, xs, ys))))
    lane_line(("lane sum", s, "of", xs, "by", ys), number, place, word, other)


def lane_reduce(s, x, other):
    p, k, t, n = s
    improper = str(x).startswith("-") or x != int(x) or x >= 2 ** ((2 * k - 1) * t)
    number = refused_lane(s) or (11 if improper else 0)
    lane_line(("lane reduce", s), number, 0, 0 if number else reduced(s, int(x)), other)


assert choice(3, 4, 31) == answered(9)
assert choice(3, 4, 32) == refused(7)
assert choice(929, 2, 1) == answered(21)
assert choice(65536, 1, 1) == answered(32)
choice(1, 4, 31)
choice(3, 9, 31)
choice(3, 4, 0)
choice(ALL, ALL, ALL)

S4 = (3, 2, 4, 1)
assert pack(S4, [1, 2]) == answered(33)
assert pack(S4, [2, 2]) == answered(34)
pack(S4, [1, 2, 0])
pack(S4, [1, 3])
pack((3, 2, 3, 1), [1, 3])
pack((ALL, ALL, ALL, ALL), [])

unpack(S4, 1122, 3)
unpack(S4, 1122, 5)
unpack(S4, 1122, 2)
unpack(S4, 4096, 2)
unpack((3, 2, 22, 1), 4096, 2)

assert reduce(S4, 1122) == answered(258)
reduce(S4, 4095)
reduce(S4, 4096)
reduce((3, 2, 64, 1), 1122)

assert table_of(3, 4) == list(bytes.fromhex("0000000D01000304000102020001010200"))
table(S4, 17)
table(S4, 20)
table(S4, 16)
table((128, 2, 21, 1), 16)
table((3, 0, 4, 1), 16)

HELD = table_of(3, 4) + [SEVEN] * 3
by_table(S4, HELD, [1122, 33, 34], 4)
by_table(S4, HELD, [1122, 33, 4096], 4)
by_table(S4, HELD, [1122, 33, 4096], 2)
by_table((3, 2, 5, 1), HELD, [1122, 33, 4096], 2)
by_table((128, 2, 21, 1), HELD, [1122, 33], 2)
by_table((3, 2, 4, 0), HELD, [1122, 33], 2)
by_table(S4, HELD[:8], [1122, 33], 2)

product(S4, [1, 2], [2, 2], 5)
product(S4, [1, 2, 1, 1, 2], [2, 0, 1], 7)
product(S4, [], [2, 2], 1)
product(S4, [1, 2], [2, 2], 2)
product(S4, [1, 2], [2, 3], 2)
product(S4, [1, 3], [2, 3], 2)
product(S4, [3] * 4097, [2, 2], 2)
product((3, 2, 4, 5), [1, 2], [2, 2], 5)

S5 = (3, 2, 5, 2)
for size in [0, 1, 2, 3]:
    assert show_sum(S5, [1, 2] * 3, [2, 2] * 3, size) == answered(2)
show_sum(S5, [], [], 1)
XS = [6, 5, 4, 3, 2, 1, 0, 1, 2, 3, 4, 5, 6, 6]
YS = [1, 6, 6, 0, 5, 2, 3, 3, 4, 1, 0, 6, 2, 5]
for size in [0, 1, 2, 3, 4, 6, 7, 8, ALL]:
    show_sum((7, 2, 9, 3), XS, YS, size)

for size in [0, 1]:
    show_sum(S5, [1, 2, 1, 2, 1, 2], [2, 2, 2, 2, 3, 2], size)
for size in [0, 1]:
    show_sum(S5, [1, 2, 1, 2, 1, 3], [2, 3, 2, 2, 2, 2], size)
for size in [0, 1]:
    show_sum(S5, [3, 2, 1, 2, 1], [2, 2, 2, 2, 3], size)
show_sum(S5, [3, 2, 1, 2], [2] * 6, 1)
show_sum((3, 2, 3, 2), [3, 2, 1, 2], [2] * 6, 1)
show_sum(S5, [1, 2, 1, 2], [2] * 4, 1, 2)
show_sum(S5, [1, 2, 1, 3], [2] * 4, 1, 2)

lane_sum(S5, [1, 2, 1, 2], [2] * 4, 8580)
lane_sum(S5, [1, 2, 1, 2], [2] * 4, 4290)
lane_sum(S5, [], [], 0)
lane_sum(S5, [1, 2, 1, 2], [2, 2, 2, 3], 0)
lane_sum(S5, [1] * 6, [3] * 6, 0)
lane_sum(S5, [1] * 6, [3] * 4, 0)
lane_sum((3, 4, 7, 7), [0] * 4, [3] * 3, 0)
lane_sum((3, 4, 8, 7), [0] * 4, [3] * 3, 0)
lane_sum((3, 4, 10, 7), [0] * 4, [3] * 3, 0)

lane_reduce(S4, 1122.0, 258)
lane_reduce(S4, 1122.0, 259)
lane_reduce(S4, 0.0, 0)
lane_reduce(S4, 4096.0, 0)
lane_reduce(S4, -0.0, 0)
lane_reduce(S4, 0.5, 0)
lane_reduce((3, 2, 18, 1), 0.5, 0)
lane_reduce((3, 2, 22, 1), 0.5, 0)

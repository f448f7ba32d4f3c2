"""Rows of calc's test: products of lists. Every list of more than nine elements is given by its rule, and what is long is answered by its digest."""

from document import check, largest_batch, words
from rows import made, two_made

SMALL, FOUR, LARGE = (3, 2, 4, 1), (3, 4, 9, 31), (929, 2, 21, 1)

MODULI = [
    (2, 1, 63, 1048576), (2, 2, 21, 1000), (2, 3, 12, 1365), (2, 4, 9, 127), (2, 5, 7, 25), (2, 6, 5, 5), (2, 7, 4, 2), (2, 8, 4, 1), (3, 1, 3, 1),
    (3, 3, 12, 341), (3, 4, 5, 1), (3, 5, 7, 6), (3, 6, 5, 1), (7, 1, 6, 1), (7, 2, 21, 29127), (7, 3, 12, 37), (7, 4, 9, 3), (127, 1, 14, 1),
    (127, 2, 21, 66), (929, 1, 63, 1048576), (929, 2, 21, 1), (65536, 1, 32, 1), (65536, 1, 63, 1048576), (6, 1, 5, 1), (6, 2, 6, 1), (6, 3, 12, 54),
    (6, 4, 9, 5), (6, 5, 7, 1), (15, 1, 8, 1), (15, 2, 21, 5349), (15, 3, 12, 6), (1000, 1, 20, 1), (1000, 2, 21, 1),
]

LARGEST = [
    (2, 8, 4, 1), (2, 5, 7, 25), (3, 2, 7, 15), (3, 4, 9, 31), (6, 5, 7, 1), (7, 3, 12, 37), (127, 2, 21, 66), (929, 1, 26, 77), (1000, 2, 21, 1),
    (65536, 1, 32, 1), (65536, 1, 40, 256),
]


def rows(sheet):
    def say(s, a, b, lent, number=0, place=0, digest=False):
        answer = sheet.say("product", s, "into", lent, ["digest"] * digest, ":", a, ":", b)
        assert answer.startswith("refused %d %d;" % (number, place) if number else "wrote"), answer

    def say_made(s, la, lb, lent, number=0):
        answer = sheet.say("product", s, "into", lent, ["digest"] * (lent > 16), two_made(s[0], la, lb))
        assert answer.startswith("refused %d 0;" % number if number else "wrote"), answer

    sheet.group("product: document 01's pair")
    sheet.say("product", SMALL, "into 3 : 1 2 : 2 2", gives="wrote 3: 2 0 1; kept 0")
    sheet.group("product: no coefficient; then 10 is never given, and the other list is tested all the same")
    for lent in [2, 0]:
        for a, b in [([], [2, 2]), ([1, 2], []), ([], [])]:
            say(SMALL, a, b, lent)
    say(SMALL, [], "all 4096 2", 2)
    say(SMALL, "all 4096 1", [], 2)
    say((3, 2, 3, 1), [], [], 0, 5)
    say(SMALL, [], "all 4097 2", 2, 9)
    say(SMALL, "all 4097 1", [], 2, 9)
    say(SMALL, [], [2, 3, 3], 2, 8, 1)
    say(SMALL, [1, 2, 3], [], 2, 8, 2)
    say(SMALL, [], [3, 2], 0, 8)
    say(SMALL, [3, 2], [], 0, 8)

    sheet.group("product: lengths around k, and the longest")
    for la in [1, 2, 3]:
        for lb in [1, 2, 3]:
            say_made((7, 2, 21, 1000), la, lb, 6)
    for la in [1, 3, 4, 5]:
        for lb in [1, 3, 4, 5]:
            say_made(FOUR, la, lb, 10)
    for length in [1, 3, 4, 5]:
        say_made(FOUR, 4096, length, 4095 + length)
    for length in [1, 3, 4, 5]:
        say_made(FOUR, length, 4096, 4095 + length)
    sheet.group("product: 9, the first list, the second, and both")
    for la, lb in [(4097, 1), (1, 4097), (4097, 4096), (4096, 4097), (4097, 4097)]:
        say_made(FOUR, la, lb, la + lb - 1, 9)

    sheet.group("product: every n up to the largest, and the next")
    for p, k, t, most in [(3, 2, 7, 15), (3, 4, 9, 31)]:
        assert largest_batch(p, k, t, most) and most * k < 126
        for n in range(1, most + 2):
            say_made((p, k, t, n), 130, 126, 255, 5 if n > most else 0)
    sheet.group("product: every coefficient p-1 at the largest n")
    for s in LARGEST:
        assert largest_batch(*s) and s[3] * s[1] < 300
        say(s, words("all 300", s[0] - 1), words("all 300", s[0] - 1), 599, digest=True)
    sheet.group("product: moduli")
    for s in MODULI:
        assert not check(*s)
        say_made(s, 9, 8, 16)
        say_made(s, 61, 47, 107)

    sheet.group("product: 256 coefficients and one more")
    for s in [(929, 1, 26, 77), FOUR, (2, 8, 4, 1)]:
        for la, lb in [(255, 256), (256, 256), (256, 257), (257, 256), (256, 1), (257, 1), (1, 256), (1, 257)]:
            say_made(s, la, lb, la + lb - 1)
    sheet.group("product: unequal lengths")
    for s in [(65536, 1, 40, 256), (127, 2, 21, 66)]:
        for la, lb in [(1, 4096), (4096, 1), (3, 1000), (1000, 3)]:
            say_made(s, la, lb, la + lb - 1)

    sheet.group("product: 10, and what stands after")
    for lent in [0, 3, 4, 9]:
        say(SMALL, [1, 2, 0], [2, 2], lent, 10 if lent < 4 else 0)
    for lent in [0, 1, 2]:
        say((929, 1, 63, 1048576), [928], [928], lent, 10 if lent < 1 else 0)
    for lent in [398, 399, 402]:
        say_made(FOUR, 200, 200, lent, 10 if lent < 399 else 0)
    for lent in [8190, 8191, 8194]:
        say_made(LARGE, 4096, 4096, lent, 10 if lent < 8191 else 0)
    sheet.group("product: 1 to 6, before 9, 8 and 10")
    for number, s in enumerate([(1, 2, 4, 1), (3, 9, 4, 1), (3, 2, 4, 0), (3, 2, 64, 1), (3, 2, 3, 1), (3, 2, 22, 1)], 1):
        say(s, "all 4097 9", "all 4097 9", 2, number)
    sheet.group("product: 9 before 8 and 10")
    for la, lb, number in [(4097, 1, 9), (1, 4097, 9), (4096, 4097, 9), (4096, 4096, 8)]:
        say(SMALL, words("all", la, 9), words("all", lb, 9), 2, number)
    sheet.group("product: 8, in the first list and in the second; before 10")
    for a, b, lent, place in [
        ([1, 3, 0], [3, 1], 2, 1),
        ([1, 2, 3], [2, 1], 2, 2),
        ([1, 2, 0], [3, 1], 2, 3),
        ([1, 2, 0], [2, 3], 2, 4),
        ([4, 3, 65535], [2, 1], 4, 0),
        ([1, 2, 0], [65535, 3], 4, 3),
    ]:
        say(SMALL, a, b, lent, 8, place)
    for s in [LARGE, (65535, 1, 32, 1)]:
        p = s[0]
        say(s, [p - 1], [p - 1], 1)
        say(s, [p], [p - 1], 1, 8, 0)
        say(s, [p - 1], [p], 1, 8, 1)
    say((65536, 1, 32, 1), [65535], [65535], 1)
    for a, b, place in [("but 0 3", "but 0 3", 0), ("but 4095 3", "but 0 3", 4095), ("", "but 0 3", 4096), ("", "but 4095 3", 8191)]:
        say(FOUR, words("all 4096 2", a), words("all 4096 2", b), 2, 8, place)
    say(FOUR, "all 4096 2", "all 4096 2", 2, 10)

    sheet.group("product: the longest lists")
    for s in [(2, 8, 4, 1), FOUR, (7, 3, 12, 37), (127, 2, 21, 66), (929, 1, 63, 1048576), (65536, 1, 63, 1)]:
        say_made(s, 4096, 4096, 8191)
    say((65536, 1, 63, 1048576), "all 4096 65535", "all 4096 65535", 8191, digest=True)
    sheet.group("product: a list of 16,384 elements is lent where the line names none")
    sheet.say("product", LARGE, "digest", two_made(929, 4096))
    sheet.say("product", SMALL, ": 1 2 0 : 2 2", gives="wrote 4: 2 0 1 0")
    sheet.say("product", SMALL, ":", made(3, 31415, 40), ":", made(3, 57721, 9))

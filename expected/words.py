"""Packed words by document 01's words, in whole numbers: a word is a sum of digits times powers of q = 2^t, and its fields are read off by repeated
division, not by a power at each place. The shifted residues are divisions by q^i, and a reduced word is put together from the fields modulo p, so
neither is worked out from the other. What document 01 prints is asserted. No code of the crates is used."""

from document import check, refuse, refuse_coefficients, refuse_first, refuse_short


def places(k):
    return range(2 * k - 1)


def packed(t, digits):
    return sum(x * (2**t) ** i for i, x in enumerate(digits))


def fields(k, t, word):
    digits = []
    for _ in places(k):
        word, digit = divmod(word, 2**t)
        digits.append(digit)
    return digits


def after(k, t):
    """The first number that is no word."""
    return 2 ** ((2 * k - 1) * t)


def reduced(s, word):
    p, k, t, n = s
    return packed(t, [x % p for x in fields(k, t, word)])


def pack(s, xs):
    p, k, t, n = s
    refuse(check(*s))
    refuse(9 if len(xs) != k else 0)
    refuse_coefficients(p, xs)
    return packed(t, xs)


def check_word(s, word):
    p, k, t, n = s
    refuse(check(*s))
    refuse(11 if word >= after(k, t) else 0)


def check_words(s, words):
    p, k, t, n = s
    refuse(check(*s))
    refuse_first(11, (i for i, word in enumerate(words) if word >= after(k, t)))


def unpack(s, word, lent):
    p, k, t, n = s
    check_word(s, word)
    refuse_short(lent, len(places(k)))
    return fields(k, t, word)


def shifted(s, word, lent):
    p, k, t, n = s
    check_word(s, word)
    refuse_short(lent, len(places(k)))
    return [word // (2**t) ** i % p for i in places(k)]


def reduce(s, word):
    check_word(s, word)
    return reduced(s, word)


# what document 01 prints
SMALL = (3, 2, 4, 1)
assert pack(SMALL, [1, 2]) == 33 and pack(SMALL, [2, 2]) == 34 and 33 * 34 == 1122
assert unpack(SMALL, 1122, 3) == [2, 6, 4]
assert shifted(SMALL, 1122, 3) == [0, 1, 1]
assert reduce(SMALL, 1122) == 258 and unpack(SMALL, 258, 3) == [2, 0, 1]

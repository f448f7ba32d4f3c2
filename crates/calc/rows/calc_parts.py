"""The parts of a line as calc reads them, by docs/CALC.md: numbers, lists and doubles, or what calc says of them where it can't read them. A part is
searched for the first thing in it that is wrong, by regular expressions over its places. No code of the crates is used."""

import re
import sys
from functools import lru_cache

from document import ALL, Refused
from lanes import nan, of_bits, over, whole
from tables import build

MOST = 16384

# a number of a line may have as many digits as the line has bytes
sys.set_int_max_str_digits(0)

BLANKS = " \r\n"
THING = re.compile("[0-9]+|[^0-9%s]" % BLANKS)
SOLID = re.compile("[^%s]" % BLANKS)
LETTER = re.compile("[a-z]")
WORD = re.compile("[a-z]*")


class Unread(Exception):
    """What is said of the line."""


def say(kind, place):
    raise Unread("%s %d" % (kind, place))


def what(place):
    say("what?", place)


def first(pattern, text, a, b):
    """Where the pattern is first found from a to b, or b."""
    found = pattern.search(text, a, b)
    return found.start() if found else b


def word_at(text, a, b):
    return WORD.match(text, a, b).group()


def numbers(text, a, b, bound, room, crowd="what?"):
    """The numbers from a to b, at most so many, none above the bound."""
    values = []
    for thing in THING.finditer(text, a, b):
        if not thing.group()[0] in "0123456789":
            what(thing.start())
        if int(thing.group()) > bound:
            say("too large", thing.start())
        if len(values) == room:
            say(crowd, thing.start())
        values.append(int(thing.group()))
    return values


def exactly(count, text, a, b):
    """So many numbers of 64 bits."""
    values = numbers(text, a, b, ALL, count)
    if len(values) < count:
        what(b)
    return values


def all_alike(most, place, m, x):
    if m > MOST:
        say("too many", place)
    if x > most:
        say("too large", place)
    return [x] * m


def powers(most, place, m, a, b, c, d):
    if not 1 <= c <= 65537 or d == 0:
        what(place)
    if m > MOST:
        say("too many", place)
    xs = powers_of(m, a, b, c, d)
    if max(xs, default=0) > most:
        say("too large", place)
    return list(xs)


@lru_cache
def powers_of(m, a, b, c, d):
    """Each by a power of its own, and not from the one before."""
    return [a * pow(b, i, c) % c % d for i in range(m)]


def built(most, place, *s):
    try:
        return build(s, MOST)
    except Refused:
        what(place)


# the words for lists: how many numbers each wants, and what it makes of them
MADE = {"all": (2, all_alike), "powers": (5, powers), "built": (4, built)}


def list_of(most):
    def read(text, s, f):
        b = first(SOLID, text, s, f)
        if b == f:
            return []
        word = word_at(text, b, f)
        j = first(LETTER, text, b + len(word), f)
        if word:
            if word not in MADE:
                what(b)
            count, make = MADE[word]
            xs = make(most, b, *exactly(count, text, b + len(word), j))
        else:
            xs = numbers(text, s, j, most, MOST, "too many")
        return xs if j == f else changed(most, xs, text, j, f)

    return read


def changed(most, xs, text, j, f):
    """The list after `but` at j."""
    if word_at(text, j, f) != "but":
        what(j)
    w = j + len("but")
    end = first(LETTER, text, w, f)
    values = numbers(text, w, end, ALL, 16)
    if len(values) % 2 or end < f:
        what(end)
    for place, value in zip(values[::2], values[1::2]):
        if place >= len(xs):
            what(j)
        if value > most:
            say("too large", j)
        xs[place] = value
    return xs


def short(read, room):
    """Such a list of at most so many."""

    def read_short(text, s, f):
        xs = read(text, s, f)
        if len(xs) > room:
            say("too many", s)
        return xs

    return read_short


def word(text, s, f):
    return exactly(1, text, s, f)[0]


def double(text, s, f):
    b = first(SOLID, text, s, f)
    minus = word_at(text, b, f) == "minus"
    if minus:
        b = first(SOLID, text, b + len("minus"), f)
    if b == f:
        what(f)
    x = unsigned(text, b, f)
    return -x if minus else x


def unsigned(text, b, f):
    name = word_at(text, b, f)
    w = b + len(name)
    if name == "nan":
        if first(SOLID, text, w, f) < f:
            what(first(SOLID, text, w, f))
        return nan
    if name == "bits":
        return of_bits(word(text, w, f))
    if name:
        what(b)
    j = first(LETTER, text, b, f)
    x = whole(word(text, b, j))
    if j == f:
        return x
    if word_at(text, j, f) != "over":
        what(j)
    return over(x, whole(word(text, j + len("over"), f)))


COEFFICIENTS, BYTES, WORDS = list_of(65535), list_of(255), list_of(ALL)
residues, held = short(COEFFICIENTS, 15), short(BYTES, 32)

"""Rows 1 to 6 of document 01 and the choice of a width in whole numbers, what a refusal is, and the pieces of a line: what the modules here and every
expected.py share. A width is found by trying all of them. No code of the crates is used."""

ALL = 2**64 - 1

# what every element of a lent list is before the call
SEVEN = 7


class Refused(Exception):
    """A refusal's number and place."""

    def __init__(self, number, place=0):
        super().__init__(number, place)
        self.number, self.place = number, place


def refuse(number):
    """The refusal of this number, or nothing where it is 0."""
    if number:
        raise Refused(number)


def refuse_first(number, places):
    """The refusal of this number at the first of these places, or nothing where there is none."""
    for place in places:
        raise Refused(number, place)


def refuse_coefficients(p, *lists):
    """8: searched as one list, each after the one before."""
    refuse_first(8, (i for i, x in enumerate([x for xs in lists for x in xs]) if x >= p))


def refuse_short(lent, elements):
    """10."""
    refuse(10 if lent < elements else 0)


def ranges(p, k, n):
    if not 2 <= p <= 65536:
        return 1
    if not 1 <= k <= 8:
        return 2
    if not 1 <= n <= 1048576:
        return 3
    return 0


def narrow_or_no_room(p, k, t, n):
    if 2**t <= n * k * (p - 1) ** 2:
        return 5
    if (2 * k - 1) * t >= 64:
        return 6
    return 0


def check(p, k, t, n):
    """The number of the first of 1 to 6 whose cause holds, or 0."""
    if ranges(p, k, n):
        return ranges(p, k, n)
    if not 1 <= t <= 63:
        return 4
    return narrow_or_no_room(p, k, t, n)


def choose(p, k, n):
    refuse(ranges(p, k, n))
    widths = [t for t in range(1, 64) if narrow_or_no_room(p, k, t, n) == 0]
    refuse(0 if widths else 7)
    return min(widths)


def largest_batch(p, k, t, n):
    """Whether no larger n is accepted."""
    return check(p, k, t, n) == 0 and check(p, k, t, n + 1) == 5


def first_bad(p, xs):
    """The first index whose coefficient is p or more, or the length."""
    return next((i for i, x in enumerate(xs) if x >= p), len(xs))


def words(*parts):
    """Numbers, texts and lists of them, one space apart."""
    flat = []
    for part in parts:
        flat += part if isinstance(part, (list, tuple)) else [part]
    return " ".join(str(x) for x in flat)


def digest(xs):
    answer = 0
    for x in xs:
        answer = (answer * 257 + x) % 1000003
    return answer


def listed(xs):
    """A list, or of a long one its length and its digest."""
    return xs if len(xs) <= 16 else [len(xs), "with digest", digest(xs)]


# what document 01 prints of Choose: a width, or 7
PRINTED = {
    (3, 4, 31): 9, (3, 4, 32): None,
    (929, 2, 1): 21, (929, 2, 2): None,
    (2, 8, 1): 4, (2, 8, 2): None,
    (65536, 1, 1): 32,
    (37, 3, 1): 12, (38, 3, 1): None,
}

for case, printed in PRINTED.items():
    try:
        assert choose(*case) == printed, case
    except Refused as refusal:
        assert printed is None and refusal.number == 7, case

"""Label check words by request T-07 of document 02, in whole numbers. They are solved from the roots: the one polynomial of fewer than m coefficients
that takes at each root what the data words leave to make up (Newton's interpolation), so no generator is formed and nothing is divided. Every label
that is written is asserted to be zero at each root by Horner's rule, which is also what `passes` goes by; the powers of 3 come from Python's pow. The
refusals are judged cause by cause. labels.txt has check words that other programs gave: these are asserted to be the same. No code of the crates is
used."""

import os

from document import refuse, refuse_coefficients, refuse_short

P = 929
MOST = 928
LEVELS = range(9)
INVERSES = [None] + [pow(x, -1, P) for x in range(1, P)]


def checks_at(level):
    """How many check words."""
    return 2 ** (level + 1)


def root(j):
    return pow(3, j, P)


def value(label, x):
    """Horner's rule: the first word is that of the highest power."""
    total = 0
    for w in label:
        total = (total * x + w) % P
    return total


def vanishes(level, label):
    return all(value(label, root(j)) == 0 for j in range(1, checks_at(level) + 1))


def interpolated(xs, ys):
    """The coefficients, highest power first, of the polynomial that is y at each x: Newton's divided differences."""
    m = len(xs)
    parts = list(ys)
    for k in range(1, m):
        for i in range(m - 1, k - 1, -1):
            parts[i] = (parts[i] - parts[i - 1]) * INVERSES[(xs[i] - xs[i - k]) % P] % P
    answer = []
    for x, part in zip(reversed(xs), reversed(parts)):
        # times (X - x), and part added
        answer = [(a - x * b) % P for a, b in zip(answer + [0], [0] + answer)]
        answer = (answer or [0])[:-1] + [((answer or [0])[-1] + part) % P]
    return answer


SOLVED = {}


def check_words(level, data):
    """At x = 3^j they make up for the data words times x^m."""
    if (level, tuple(data)) not in SOLVED:
        m = checks_at(level)
        xs = [root(j) for j in range(1, m + 1)]
        answer = interpolated(xs, [-value(data, x) * pow(x, m, P) % P for x in xs])
        assert len(answer) == m and vanishes(level, data + answer)
        SOLVED[level, tuple(data)] = answer
    return SOLVED[level, tuple(data)]


def write(level, data, lent):
    refuse(0 if level in LEVELS else 19)
    refuse(20 if len(data) < 1 else 0)
    refuse(21 if len(data) + checks_at(level) > MOST else 0)
    refuse_coefficients(P, data)
    refuse_short(lent, len(data) + checks_at(level))
    return data + check_words(level, data)


def passes(level, label):
    refuse(0 if level in LEVELS else 19)
    refuse(20 if len(label) < checks_at(level) + 1 else 0)
    refuse(21 if len(label) > MOST else 0)
    refuse_coefficients(P, label)
    return vanishes(level, label)


def multiplied(roots):
    """The product of (x - r), highest power first: each coefficient is a sum of products of as many roots."""
    sums = [1]
    for r in roots:
        sums = [a + r * b for a, b in zip(sums + [0], [0] + sums)]
    return [(-1) ** i * s % P for i, s in enumerate(sums)]


# what document 02 prints: the generator of level 0
assert multiplied([root(1), root(2)]) == [1, 917, 27]


def given():
    """Level, data words and check words of each row of labels.txt."""
    rows = []
    with open(os.path.join(os.path.dirname(os.path.abspath(__file__)), "labels.txt")) as lines:
        for line in lines:
            if not line.startswith("#"):
                level, data, checks, program = line.split("|")
                rows.append((int(level), [int(w) for w in data.split()], [int(w) for w in checks.split()]))
                assert check_words(*rows[-1][:2]) == rows[-1][2], line
    return rows

"""The running record of document 01 in whole numbers. A record is kept as the numbers that it started from and the list of all pairs since, and no
pair is followed into it: the residues come from one schoolbook sum of all pairs of the full batches, and the word from one of the rest. Closing comes
from one schoolbook sum of all pairs; that it is (residue + field) mod p of the record is asserted. The example that document 01 prints is asserted
too. No code of the crates is used."""

from collections import Counter
from functools import cached_property

from document import check, refuse, refuse_coefficients, refuse_short, words
from words import after, fields, packed, places

MOST = 1000000
RESIDUES = 15


def pairs_of(k, xs, ys):
    return [(tuple(xs[i:i + k]), tuple(ys[i:i + k])) for i in range(0, len(xs), k)]


def schoolbook(k, pairs):
    """Coefficient j is the sum of a_i b_(j-i) over all pairs (a, b); equal pairs are multiplied once."""
    counts = Counter(pairs).items()
    return [sum(times * sum(a[i] * b[j - i] for i in range(k) if 0 <= j - i < k) for (a, b), times in counts) for j in places(k)]


class Record:
    """A setting, total, word and residues to start from, and the pairs since."""

    def __init__(self, s, total=0, word=0, residues=(), pairs=()):
        self.s, self.start, self.pairs = tuple(s), (total, word, list(residues) + [0] * (RESIDUES - len(residues))), list(pairs)

    @cached_property
    def sum(self):
        total, word, residues = self.start
        if not self.pairs:
            return self.start
        p, k, t, n = self.s
        # where the full batches end among the pairs, or before them where none of these fills one
        end = (total + len(self.pairs)) // n * n - total
        if end <= 0:
            return total + len(self.pairs), word + packed(t, schoolbook(k, self.pairs)), residues
        new = [(x + y + z) % p for x, y, z in zip(residues, fields(k, t, word), schoolbook(k, self.pairs[:end]))]
        return total + len(self.pairs), packed(t, schoolbook(k, self.pairs[end:])), new + residues[len(new):]

    def fed(self, pairs):
        return Record(self.s, *self.start, self.pairs + pairs)

    def shown(self):
        total, word, residues = self.sum
        return words(self.s, total, word, ":", residues)


def bounds(s, r):
    """The most that each field of a word of r pairs may be."""
    p, k, t, n = s
    return [r * min(j + 1, 2 * k - 1 - j) * (p - 1) ** 2 for j in places(k)]


def above(s, r, js):
    """The word with each field at its bound for r pairs, and one more at these places."""
    return packed(s[2], [x + (j in js) for j, x in enumerate(bounds(s, r))])


def coherent(record):
    p, k, t, n = record.s
    total, word, residues = record.sum
    return (
        not check(p, k, t, n)
        and total <= MOST
        and all(x < p for x in residues)
        and not any(residues[2 * k - 1:])
        and all(x <= most for x, most in zip(fields(k, t, word), bounds(record.s, total % n)))
        and word < after(k, t)
    )


def refuse_shape(k, xs, ys):
    """9 in two flat lists."""
    refuse(9 if len(xs) != len(ys) or len(xs) % k else 0)


def feed(record, xs, ys):
    """The record with these pairs too."""
    p, k, t, n = record.s
    refuse(0 if coherent(record) else 12)
    refuse_shape(k, xs, ys)
    pairs = pairs_of(k, xs, ys)
    refuse(13 if record.sum[0] + len(pairs) > MOST else 0)
    refuse_coefficients(p, xs, ys)
    return record.fed(pairs)


def close(record, lent):
    """The number of reductions, and the sum."""
    p, k, t, n = record.s
    refuse(0 if coherent(record) else 12)
    refuse_short(lent, len(places(k)))
    total, word, residues = record.start
    answer = [(x + y + z) % p for x, y, z in zip(residues, fields(k, t, word), schoolbook(k, record.pairs))]
    total, word, residues = record.sum
    assert answer == [(x + y) % p for x, y in zip(residues, fields(k, t, word))]
    return -(-total // n), answer


# what document 01 prints
DOCUMENT = [Record((3, 2, 5, 2), pairs=[((1, 2), (2, 2))] * m) for m in (1, 2, 3)]
assert [record.sum[1:] for record in DOCUMENT] == [(4290, [0] * 15), (0, [1, 0, 2] + [0] * 12), (4290, [1, 0, 2] + [0] * 12)]
assert close(DOCUMENT[2], 3) == (2, [0, 0, 0])

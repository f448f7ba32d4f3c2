"""A job by document 01's words, in whole numbers: its line from all bytes at once, by schoolbook sums; and the state that holds what pieces of it
gave. A state is judged by `sound`, clause by clause; what take makes of one is worked out from all of its bytes at once. The running record is that
of records.py. The line that document 01 prints is asserted. No code of the crates is used."""

import struct

from document import check, words
from records import MOST, Record, coherent, schoolbook
from words import fields

HEADER = 15
HELD = 32


# ---- lines and bytes


def refused(number, place):
    return words("refused", number, place)


def sums_line(s, pairs, sums):
    p, k, t, n = s
    return words(s, pairs, -(-pairs // n)) + ": " + words(sums)


def number(bs):
    return int.from_bytes(bs, "big")


def setting(header):
    return number(header[5:9]), header[9], header[10], number(header[11:15])


def coefficients(bs):
    """The whole ones."""
    return struct.unpack(">%dH" % (len(bs) // 2), bs[: len(bs) // 2 * 2])


def pairs_in(k, cs):
    return [(cs[i : i + k], cs[i + k : i + 2 * k]) for i in range(0, len(cs) - 2 * k + 1, 2 * k)]


def first_bad(p, cs):
    """The index of the first coefficient that is p or more; None where there is none."""
    if max(cs, default=0) < p:
        return None
    return next(i for i, x in enumerate(cs) if x >= p)


# ---- a job


def header(length, s):
    """The bytes of a header that declares so many bytes after its first four."""
    p, k, t, n = s
    return struct.pack(">IBIBBI", length, 1, p, k, t, n)


def header_checks(header):
    """17, 1 to 6, 17, 13, or 0."""
    if len(header) < HEADER or header[4] != 1 or number(header[:4]) < 11:
        return 17
    if check(*setting(header)):
        return check(*setting(header))
    pairs, rest = divmod(number(header[:4]) - 11, 4 * header[9])
    if rest:
        return 17
    if pairs > MOST:
        return 13
    return 0


def job(bs):
    """The line of a job, from all of its bytes."""
    if header_checks(bs[:HEADER]):
        return refused(header_checks(bs[:HEADER]), 0)
    p, k, t, n = setting(bs)
    declared = number(bs[:4]) - 11
    cs = coefficients(bs[HEADER : HEADER + declared])
    if first_bad(p, cs) is not None:
        return refused(8, first_bad(p, cs))
    if len(bs) != HEADER + declared:
        return refused(17, 0)
    return sums_line((p, k, t, n), declared // (4 * k), [x % p for x in schoolbook(k, pairs_in(k, cs))])


# what document 01 prints
DOCUMENT = bytes.fromhex("000000230100000003020500000002" + "0001000200020002" * 3)
assert job(DOCUMENT) == "3 2 5 2 3 2: 0 0 0"


# ---- states

BLANK = Record((0, 0, 0, 0))
# a stage: 0 in the header, 1 among the pairs, 2 after a refusal; and the number and the place of this, or zeros
HEAD, PAIRS = (0, 0, 0), (1, 0, 0)


class State:
    """A stage, the held bytes with zeros after them, how many of them count, the declared pairs, and a record."""

    def __init__(self, stage, held=(), size=None, pairs=0, record=BLANK):
        self.stage, self.size, self.pairs, self.record = stage, len(held) if size is None else size, pairs, record
        self.held = list(held) + [0] * (HELD - len(held))

    def shown(self):
        return words(self.stage, self.size, self.pairs, ":", self.held, ":", self.record.shown())


def settled(number, place):
    return State((2, number, place))


def sound(state):
    """Whether it is coherent."""
    if any(state.held[state.size :]):
        return False
    if state.stage == PAIRS:
        if not coherent(state.record):
            return False
        (p, k, t, n), total = state.record.s, state.record.sum[0]
        return (
            total <= state.pairs <= MOST
            and state.size < 4 * k
            and state.size <= 4 * k * (state.pairs - total)
            and first_bad(p, coefficients(bytes(state.held[: state.size]))) is None
        )
    if state.pairs or any(state.record.s) or state.record.sum[:2] != (0, 0) or any(state.record.sum[2]):
        return False
    if state.stage == HEAD:
        return state.size < HEADER
    _, cause, place = state.stage
    if cause == 8:
        return state.size == 0 and place < 2 * 8 * MOST
    return state.size == 0 and place == 0 and cause in (1, 2, 3, 4, 5, 6, 13, 17)


def begun(bs):
    """The state after the first bytes of a job."""
    if len(bs) < HEADER:
        return State(HEAD, bs)
    if header_checks(bs[:HEADER]):
        return settled(header_checks(bs[:HEADER]), 0)
    return added(Record(setting(bs)), (number(bs[:4]) - 11) // (4 * bs[9]), bs[HEADER:])


def added(record, pairs, bs):
    """A record, and the bytes of pairs since."""
    (p, k, t, n), total = record.s, record.sum[0]
    room = 4 * k * (pairs - total)
    bad = first_bad(p, coefficients(bs[:room]))
    if bad is not None:
        return settled(8, 2 * k * total + bad)
    if len(bs) > room:
        return settled(17, 0)
    whole = pairs_in(k, coefficients(bs))
    return State(PAIRS, bs[4 * k * len(whole) :], None, pairs, record.fed(whole))


def take(state, piece):
    if not sound(state):
        return state
    all_held = bytes(state.held[: state.size]) + bytes(piece)
    if state.stage == HEAD:
        return begun(all_held)
    if state.stage == PAIRS:
        return added(state.record, state.pairs, all_held)
    return state


def finish(state):
    if not sound(state):
        return refused(12, 0)
    if state.stage == HEAD:
        return refused(17, 0)
    if state.stage != PAIRS:
        return refused(*state.stage[1:])
    (p, k, t, n), (total, word, residues) = state.record.s, state.record.sum
    if total < state.pairs:
        return refused(17, 0)
    return sums_line(state.record.s, state.pairs, [(x + y) % p for x, y in zip(residues, fields(k, t, word))])

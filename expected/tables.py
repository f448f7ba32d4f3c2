"""Correction tables by document 01's words, in whole numbers: the bytes by the definition of each, a table that fits by comparing byte by byte. Words
are reduced field by field, without a table. The table that document 01 prints is asserted. No code of the crates is used."""

from document import check, refuse, refuse_first, refuse_short
from words import after, reduced


def no_table(s):
    return check(*s) or (14 if s[0] > 127 else 0)


def table(p, t):
    """Length of what follows, version, p, t; then row v of the entries has (u - q v) mod p at u."""
    body = b"\x01" + p.to_bytes(2, "big") + t.to_bytes(1, "big")
    for v in range(p):
        body += bytes((u - 2**t * v) % p for u in range(p))
    return list(len(body).to_bytes(4, "big") + body)


def stale(s, buffer):
    """The first place at which the buffer is not the table, if any."""
    for i, byte in enumerate(table(s[0], s[2])):
        if i == len(buffer) or buffer[i] != byte:
            return [i]
    return []


def build(s, lent):
    refuse(no_table(s))
    refuse_short(lent, 8 + s[0] ** 2)
    answer = table(s[0], s[2])
    assert len(answer) == 8 + s[0] ** 2
    return answer


def by_table(s, buffer, words, lent):
    p, k, t, n = s
    refuse(no_table(s))
    refuse_first(15, stale(s, buffer))
    refuse_short(lent, len(words))
    refuse_first(11, (i for i, word in enumerate(words) if word >= after(k, t)))
    return [reduced(s, word) for word in words]


def pick(s, first, second):
    """In which of the two the entries stand that are handed back, and these; None where they are empty."""
    if no_table(s):
        return None
    for name, buffer in (("first", first), ("second", second)):
        if not stale(s, buffer):
            return name, buffer[8:8 + s[0] ** 2]
    return None


# what document 01 prints
assert bytes(table(3, 4)) == bytes.fromhex("0000000D01000304000102020001010200")

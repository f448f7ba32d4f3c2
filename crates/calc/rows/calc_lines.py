"""How calc reads a line, by docs/CALC.md: its bytes to a verb, its numbers, its options and its lists, or to what calc says of a line that it can't
read. What is wrong is looked for in the order of the line: verb, numbers, options, how many lists, each list. No code of the crates is used."""

from calc_parts import BYTES, COEFFICIENTS, LETTER, MOST, SOLID, WORDS, Unread, double, exactly, first, held, numbers, residues, what, word, word_at

LONGEST = 65536

# the verbs in the order of the page: how many numbers, which lists, and whether options may follow the numbers
VERBS = {
    "choose": (3, [], False),
    "check": (4, [], False),
    "coefficients": (1, [COEFFICIENTS, COEFFICIENTS], False),
    "first": (1, [COEFFICIENTS], False),
    "pack": (4, [COEFFICIENTS], False),
    "unpack": (4, [word], True),
    "shifted": (4, [word], True),
    "reduce": (4, [word], False),
    "word": (4, [word], False),
    "words": (4, [WORDS], False),
    "product": (4, [COEFFICIENTS, COEFFICIENTS], True),
    "build": (4, [], True),
    "bytable": (4, [BYTES, WORDS], True),
    "pick": (4, [BYTES, BYTES], False),
    "fresh": (4, [], False),
    "feed": (0, [COEFFICIENTS, COEFFICIENTS], False),
    "close": (0, [], True),
    "record": (0, [], False),
    "make": (4, [], False),
    "lane": (0, [], False),
    "lanesum": (0, [COEFFICIENTS, COEFFICIENTS], False),
    "lanereduce": (0, [double], False),
    "label": (1, [COEFFICIENTS], True),
    "passes": (1, [COEFFICIENTS], False),
    "start": (0, [], False),
    "take": (0, [BYTES], False),
    "finish": (0, [], True),
    "job": (0, [], False),
    "help": (0, [], False),
}
# what is held is set where the line has a colon
SET = {"record": (6, [residues], False), "lane": (4, [double, double, double], False), "job": (5, [held], False)}


class Call:
    """A verb, its numbers, the length of the list that is lent, or None where the line names none, whether a digest is asked for, and its lists."""

    def __init__(self, verb, numbers, lent, digest, lists):
        self.verb, self.numbers, self.lent, self.digest, self.lists = verb, numbers, lent, digest, lists


def read(line):
    """The call of a line of bytes; None of a line with nothing to answer."""
    if len(line) > LONGEST:
        raise Unread("too long")
    # a byte is a character, so that a place is an index
    text = line.decode("latin-1").split("#")[0]
    i = first(SOLID, text, 0, len(text))
    if i == len(text):
        return None
    colons = [place for place, c in enumerate(text) if c == ":"]
    head = (colons + [len(text)])[0]
    verb = word_at(text, i, head)
    if verb not in VERBS:
        what(i)
    wanted, kinds, options = SET[verb] if colons and verb in SET else VERBS[verb]
    j = first(LETTER, text, i + len(verb), head)
    values = exactly(wanted, text, i + len(verb), j)
    lent, digest = read_options(text, j, head, options) if j < head else (None, False)
    if len(colons) > len(kinds):
        what(colons[len(kinds)])
    if len(colons) < len(kinds):
        what(len(text))
    ends = colons[1:] + [len(text)]
    return Call(verb, values, lent, digest, [kind(text, colon + 1, end) for kind, colon, end in zip(kinds, colons, ends)])


def read_options(text, j, head, allowed):
    lent = None
    if not allowed:
        what(j)
    if word_at(text, j, head) == "into":
        w = j + len("into")
        j = first(LETTER, text, w, head)
        values = numbers(text, w, j, MOST, 1)
        if not values:
            what(j)
        lent = values[0]
        if j == head:
            return lent, False
    if word_at(text, j, head) != "digest":
        what(j)
    rest = first(SOLID, text, j + len("digest"), head)
    if rest < head:
        what(rest)
    return lent, True

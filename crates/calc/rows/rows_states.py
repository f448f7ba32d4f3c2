"""Rows of calc's test: the state of a job, shown, and set by hand: states that no bytes give, beside coherent ones that differ from them as little as
can be. Each is finished, takes a piece, is shown and is finished again. On which side a state is here is asserted."""

from document import ALL, check, words
from jobs import DOCUMENT, HEAD, HELD, PAIRS, State, finish, settled, sound, take
from records import MOST, Record, above
from rows_jobs import whole
from rows_running import EIGHT, PAIR, SMALL, THIRD, hold
from words import after

ZEROS = words([0] * HELD)
NO_RECORD = words([0] * 6, ":", [0] * 15)
LAST = [0] * 31 + [1]
# a record with one field that is not zero, and a coherent one
RECORDS = [Record(s) for s in [(1, 0, 0, 0), (0, 1, 0, 0), (0, 0, 1, 0), (0, 0, 0, 1)]]
RECORDS += [Record((0, 0, 0, 0), *numbers) for numbers in [(1,), (0, 1), (0, 0, [1]), (0, 0, [0] * 14 + [1])]] + [Record(SMALL)]
LARGE, LARGE_ODD, LONG = Record((65536, 1, 32, 1), 1), Record((65535, 1, 32, 1), 1), Record(EIGHT, 1, 0, [1] * 15)
NEARLY = Record(SMALL, pairs=[PAIR] * 999999)

# held bytes, how many of them count, declared pairs, of states that add pairs up a record too, and whether the state is coherent
HEADS = [
    ("how many bytes", [
        ([], 0, 0, True), (DOCUMENT[:14], 14, 0, True), (DOCUMENT[:15], 15, 0, False), ([], 14, 0, True), ([], 15, 0, False),
        ([1] * 32, 32, 0, False), ([], ALL, 0, False),
    ]),
    ("a byte after these", [
        ([1], 0, 0, False), ([1], 1, 0, True), ([0, 0, 0, 255], 3, 0, False), ([0, 0, 0, 255], 4, 0, True), (DOCUMENT[:15], 14, 0, False),
        (LAST, 0, 0, False), ([0, 0, 0, 35] + LAST[4:], 4, 0, False), ([0, 0, 0, 35], 4, 0, True),
    ]),
    ("declared pairs", [([], 0, 1, False), ([], 0, ALL, False), ([0, 0, 0, 35], 4, 3, False)]),
]
SETTINGS = [
    ((0, 0, 0, 0), 1), ((1, 2, 5, 2), 1), ((3, 0, 5, 2), 2), ((3, 9, 5, 2), 2), ((3, 2, 5, 0), 3), ((3, 2, 64, 2), 4), ((3, 2, 5, 4), 5),
    ((3, 2, 22, 2), 6), ((3, 2, ALL, 2), 4),
]
ADDING = [
    ("totals", [
        ([], 0, MOST, Record(SMALL, MOST), True), ([], 0, MOST, Record(SMALL, MOST + 1), False), ([], 0, MOST + 1, Record(SMALL, MOST + 1), False),
        ([], 0, ALL, Record(SMALL, ALL), False),
    ]),
    ("residues and words", [
        ([], 0, 3, Record(SMALL, 2, 0, [2, 2, 2]), True), ([], 0, 3, Record(SMALL, 2, 0, [2, 2, 3]), False),
        ([], 0, 3, Record(SMALL, 2, 0, [0, 0, 0, 1]), False), ([], 0, 3, Record(SMALL, 1, above(SMALL, 1, [])), True),
        ([], 0, 3, Record(SMALL, 1, above(SMALL, 1, [0])), False), ([], 0, 3, Record(SMALL, 2, above(SMALL, 0, [0])), False),
        ([], 0, 3, Record(SMALL, 1, after(2, 5)), False),
    ]),
    ("declared pairs", [
        ([], 0, MOST, THIRD, True), ([], 0, MOST + 1, THIRD, False), ([], 0, ALL, THIRD, False), ([], 0, 4, THIRD, True), ([], 0, 3, THIRD, True),
        ([], 0, 2, THIRD, False), ([], 0, 0, THIRD, False), ([], 0, 0, Record(SMALL), True), ([], 0, MOST, NEARLY, True),
        ([], 0, MOST - 1, NEARLY, True), ([], 0, MOST - 2, NEARLY, False),
    ]),
    ("how many bytes", [
        ([0, 1, 0, 2, 0, 2, 0], 7, 5, THIRD, True), ([0, 1, 0, 2, 0, 2, 0, 2], 8, 5, THIRD, False), ([], 8, 5, THIRD, False),
        ([], 32, 5, THIRD, False), ([], ALL, 5, THIRD, False), ([1, 2, 3], 3, 5, LARGE, True), ([1, 2, 3, 4], 4, 5, LARGE, False),
        ([], 31, 2, LONG, True), ([], 32, 2, LONG, False),
    ]),
    ("what is to come", [
        ([], 0, 3, THIRD, True), ([], 1, 3, THIRD, False), ([0, 1], 2, 3, THIRD, False), ([], 1, 4, THIRD, True), ([0, 1], 2, 4, THIRD, True),
        ([], 1, 0, Record(SMALL), False),
    ]),
    ("whole coefficients, and halves", [
        *[(held, len(held), 5, THIRD, side) for held, side in [
            ([0, 2], True), ([0, 3], False), ([1, 0], False), ([255, 255], False), ([0, 2, 0, 2], True), ([0, 2, 0, 3], False),
            ([0, 2, 0, 2, 0, 2], True), ([0, 2, 0, 2, 0, 3], False), ([0, 3, 0, 2, 0, 2, 0], False), ([1], True), ([0, 2, 255], True),
            ([0, 2, 0, 2, 0, 2, 3], True),
        ]],
        ([255, 255], 2, 5, LARGE, True), ([255, 255], 2, 5, LARGE_ODD, False),
    ]),
    ("a byte after the held ones", [
        ([1], 0, 5, THIRD, False), ([0, 2, 1], 2, 5, THIRD, False), ([0, 2, 0, 2, 0, 2, 0, 1], 7, 5, THIRD, False), (LAST, 0, 5, THIRD, False),
        ([0, 2] + LAST[2:], 2, 5, THIRD, False), (LAST, 31, 2, LONG, False),
    ]),
]

# after `job`, with the record 3 2 5 2 3 4290 : 1 0 2 held
FAULTS = [
    (" 0", "what? 4"), (" x", "what? 4"), (" 0 0 0 0 0", "what? 4"), (" :", "what? 4"), (":", "what? 3"), (" 1 2 3 4 :", "what? 12"),
    (" 1 2 3 4 5 6 :", "what? 14"), (" 1 2 3 4 5 6 7 :", "what? 14"), (" 1 2 3 4 5 : 1 : 2", "what? 18"), (" 1 2 3 4 5 : : ", "what? 16"),
    (" 1 2 3 4 x :", "what? 12"), (" 1 2, 3 4 5 :", "what? 7"), (" 1 2 3 4 5 x :", "what? 14"), (" 1 2 3 4 5 : x", "what? 16"),
    (" 1 2 3 4 5 : 1 x", "what? 18"), (" 1 2 3 4 5 : 1,2", "what? 17"), (" 1 2 3 4 5 : 1 256", "too large 18"),
    (" 1 2 3 4 5 : all 2 256", "too large 16"), (" 1 2 3 4 5 : powers 9 1 2 65537 257", "too large 16"),
    (" 1 2 3 4 5 : 1 2 but 0 256", "too large 20"), (" 1 2 3 4 5 : 1 2 but 2 0", "what? 20"),
    *[(" " + words([1] * i, ALL + 1, [1] * (4 - i), ":"), "too large %d" % (4 + 2 * i)) for i in range(5)],
    (" 1 2 3 4 5 : %d" % (ALL + 1), "too large 16"), (" into 20", "what? 4"), (" digest", "what? 4"), (" 1 2 3 4 5 into 20 : 1", "what? 14"),
    (" 1 2 3 4 5 digest : 1", "what? 14"), (" 1 2 3 4 5 : 1 digest", "what? 18"), (" " + words("1 2 3 4 5 :", [0] * 33), "too many 15"),
    (" 1 2 3 4 5:" + words([0] * 33), "too many 14"), (" 1 2 3 4 5 :   all 33 0", "too many 15"), (" 1 2 3 4 5 : powers 33 1 2 7 7", "too many 15"),
    (" 1 2 3 4 5 : all 16384 0", "too many 15"), (" 1 2 3 4 5 : all 16385 0", "too many 16"), (" 1 2 3 4 5 : all 33 0 but 33 0", "what? 25"),
    (" 1 2 3 4 5 : all 33 256", "too large 16"), (" 1 2 3 4 5 : built 5 2 7 1", "too many 15"), ("s", "what? 0"), ("s 1 2 3 4 5 :", "what? 0"),
]


def put(sheet, state):
    """The held state becomes this one."""
    hold(sheet, state.record)
    held = state.held
    while held and held[-1] == 0:
        held = held[:-1]
    sheet.say("job", state.stage, state.size, state.pairs, ":", held, gives=words("job", state.shown()))


def taken(sheet, state, piece, side):
    """The side is whether the state is here as a coherent one."""
    assert sound(state) == side, state.shown()
    put(sheet, state)
    sheet.say("finish", gives=None if side else "wrote 13: refused 12 0")
    sheet.say("take :", piece, gives="taken")
    after = take(state, piece)
    assert side or after is state
    sheet.say("job", gives=words("job", after.shown()))
    sheet.say("finish", gives=whole(finish(after)))


def reading(sheet):
    sheet.group("job: what is no line of it, and leaves the state")
    hold(sheet, THIRD)
    shown = sheet.say("job 1 2 3 4 5 : 6 7", gives=words("job 1 0 0 4 5 : 6 7", [0] * 30, ": 3 2 5 2 3 4290 : 1 0 2", [0] * 12))
    for text, gives in FAULTS:
        sheet.type("job" + text, gives)
    sheet.say("job", gives=shown)
    sheet.say("  job  # the same", gives=shown)
    sheet.group("job: every list of bytes, and 32 of them")
    sheet.say("record 0 0 0 0 0 0 :")
    for typed, held in [
        ("", []), ("255", [255]), (words(list(range(32))), list(range(32))), ("all 32 255", [255] * 32), ("all 32 0 but 31 255", [0] * 31 + [255]),
        ("powers 8 1 2 65537 256", [1, 2, 4, 8, 16, 32, 64, 128]), ("built 3 2 4 1", [0, 0, 0, 13, 1, 0, 3, 4, 0, 1, 2, 2, 0, 1, 1, 2, 0]),
    ]:
        sheet.say("job 0 0 0 0 0 :", typed, gives=words("job 0 0 0 0 0 :", held, [0] * (32 - len(held)), ":", NO_RECORD))
    sheet.group("job: stages, and 2^64 - 1 everywhere")
    for stage in [0, 1, 2, 3, 4, 255, 256, 2**32, 2**32 + 1, 2**63, ALL - 1, ALL]:
        sheet.say("job", stage, "5 6 7 8 :", gives=words("job", [stage, 0, 0] if stage < 2 else [2, 5, 6], "7 8 :", ZEROS, ":", NO_RECORD))
    most = words([ALL] * 6, ":", [65535] * 15)
    sheet.say("record", [ALL] * 6, ": all 15 65535", gives=words("record", most))
    for stage in [0, 1, ALL]:
        numbers = [0, 0] if stage < 2 else [ALL] * 2
        sheet.say("job", stage, [ALL] * 4, ": all 32 255", gives=words("job", min(stage, 2), numbers, [ALL] * 2, ":", [255] * 32, ":", most))
        sheet.say("take : 1 2 3")
        sheet.say("finish", gives="wrote 13: refused 12 0")
    sheet.say("job", gives=words("job 2", [ALL] * 4, ":", [255] * 32, ":", most))
    sheet.say("start")
    sheet.say("job", gives=words("job 0 0 0 0 0 :", ZEROS, ":", NO_RECORD))


def going_on(sheet):
    sheet.group("job: document 01's, shown after each cut, set by hand to what was shown, and taken to its end")
    for cut in [0, 1, 4, 5, 14, 15, 16, 17, 22, 23, 24, 30, 31, 38, 39]:
        sheet.say("start")
        sheet.say("take :", list(DOCUMENT[:cut]))
        sheet.say("job")
        state = sheet.calc.job.state
        sheet.say("start")
        put(sheet, state)
        sheet.say("take :", list(DOCUMENT[cut:]))
        sheet.say("finish", gives="wrote 19: 3 2 5 2 3 2: 0 0 0")
    sheet.group("job: the held record and that of the state, each by itself")
    hold(sheet, THIRD)
    sheet.say("job 1 0 0 0 5 :")
    sheet.say("take : 0 1 0 2 0 2 0 2 0", gives="taken")
    record = "3 2 5 2 3 4290 : 1 0 2" + " 0" * 12
    sheet.say("record", gives="record " + record)
    shown = sheet.say("job", gives=words("job 1 0 0 1 5 :", ZEROS, ": 3 2 5 2 4 0 : 2 0 1", [0] * 12))
    sheet.say("feed : 1 2 : 2 2", gives="took 1")
    sheet.say("job", gives=shown)
    sheet.say("fresh 7 2 9 4", gives="accepted")
    sheet.say("job", gives=shown)
    sheet.say("take : 1 0 2 0 2 0 2", gives="taken")
    sheet.say("finish", gives="wrote 19: 3 2 5 2 5 3: 1 0 2")


def states(sheet):
    for comment, cases in HEADS:
        sheet.group("states of an incomplete header: " + comment)
        for held, size, pairs, side in cases:
            taken(sheet, State(HEAD, held, size, pairs), [2, 0, 1, 0, 2, 0, 2, 0, 2], side)
    sheet.group("states of an incomplete header: a record")
    for record in RECORDS:
        taken(sheet, State(HEAD, [], 0, 0, record), [2, 0, 1, 0, 2, 0, 2, 0, 2], False)
    sheet.group("states of a refusal: numbers and places")
    for cause in list(range(20)) + [256, ALL]:
        taken(sheet, settled(cause, 0), [0, 1, 2], cause in (1, 2, 3, 4, 5, 6, 8, 13, 17))
    for cause, place in [(0, 1), (1, 1), (6, 1), (13, 1), (17, 1), (17, ALL), (8, 1), (8, 15999999), (8, 16000000), (8, ALL)]:
        taken(sheet, settled(cause, place), [0, 1, 2], cause == 8 and place < 16000000)
    sheet.group("states of a refusal: bytes, declared pairs, a record")
    for stage in [(2, 17, 0), (2, 8, 5)]:
        for held, size in [([], 1), ([1], 1), ([], ALL), ([1], 0), (LAST, 0)]:
            taken(sheet, State(stage, held, size), [0, 1, 2], False)
    for stage in [(2, 13, 0), (2, 8, 5)]:
        for pairs in [1, ALL]:
            taken(sheet, State(stage, [], 0, pairs), [0, 1, 2], False)
    for record in RECORDS:
        taken(sheet, State((2, 6, 0), [], 0, 0, record), [0, 1, 2], False)


def adding(sheet):
    piece = [0, 1, 0, 2, 0, 2, 0, 2]
    sheet.group("states that add pairs up: settings")
    taken(sheet, State(PAIRS, [], 0, 3, Record(SMALL)), piece, True)
    for s, cause in SETTINGS:
        assert check(*s) == cause
        taken(sheet, State(PAIRS, [], 0, 3, Record(s)), piece, False)
    for comment, cases in ADDING:
        sheet.group("states that add pairs up: " + comment)
        for held, size, pairs, record, side in cases:
            taken(sheet, State(PAIRS, held, size, pairs, record), piece, side)
    sheet.group("finish: buffers that are too short, exact and longer for a state that is not coherent")
    put(sheet, State(PAIRS, [], ALL))
    for lent in [0, 12, 13, 14]:
        sheet.say("finish into", lent, gives="refused 10 0; kept %d" % lent if lent < 13 else "wrote 13: refused 12 0; kept %d" % (lent - 13))
    sheet.say("finish digest")


def rows(sheet):
    reading(sheet)
    going_on(sheet)
    states(sheet)
    adding(sheet)

"""Rows of calc's test: labels. The labels of labels.txt, whose check words other programs gave, are written, tested at their level and at those
beside it, and with words changed and exchanged; then come labels of 928 words, lists that vanish at some roots, multiplied out from these roots, and
the edges of each refusal. A list 1, r, r^2 .. of 928 words, r = 3^j, vanishes at every power of 3 but r: it is a label that a word can name."""

from document import ALL, words
from labels import LEVELS, MOST, P, checks_at, check_words, given, multiplied, root, value

FIVE = [1, 2, 3, 4, 5]
TWO_BAD = [([929, 2, 3, 4, 929], 0), ([1, 929, 3, 65535, 5], 1), ([1, 2, 65535, 929, 5], 2), ([1, 2, 3, 930, 929], 3)]


def made(size):
    return words("powers", size, 31415, 75, 65537, P)


def powers(size, j):
    return words("powers", size, 1, root(j), P, P)


def write(sheet, level, data, lent, gives, digest=False):
    """A row that writes so many words, or gives a refusal."""
    answer, kept = sheet.say("label", level, "into", lent, ["digest"] * digest, ":", data).split("; kept ")
    if isinstance(gives, int):
        assert answer.startswith("wrote %d: " % gives) and int(kept) == lent - gives
    else:
        assert answer == gives and int(kept) == lent


def test(sheet, level, label, gives):
    sheet.say("passes", level, ":", label, gives=gives)


def changes(sheet, level, text, label):
    """One word that changed adds x^a, and two that were exchanged a multiple of x^a - x^b: neither is zero at the root 3, so none of them passes."""
    for i in [0, len(label) // 2, len(label) - 1]:
        test(sheet, level, words(text, "but", i, (label[i] + 1) % P), "fails")
    unlike = [i for i, w in enumerate(label) if w != label[0]]
    if unlike:
        test(sheet, level, words(text, "but", 0, label[unlike[0]], unlike[0], label[0]), "fails")


def vectors(sheet):
    sheet.group("label and passes: the labels of expected/labels.txt")
    # of the longest only the first of a level has its words changed and exchanged: each such row is as long as the label
    begun = set()
    for level, data, checks in given():
        label = data + checks
        write(sheet, level, data, MOST, len(label))
        assert sheet.answers[-1].startswith(words("wrote %d:" % len(label), label) + ";")
        test(sheet, level, label, "passes")
        # the roots of a lower level are among these
        if level - 1 in LEVELS:
            test(sheet, level - 1, label, "passes")
        if level + 1 in LEVELS:
            test(sheet, level + 1, label, "fails" if len(label) > checks_at(level + 1) else "refused 20 0")
        if level < 6 or level not in begun:
            changes(sheet, level, words(label), label)
        begun.add(level)


def long(sheet):
    sheet.group("label and passes: 928 words")
    for level, size in [(8, 416), (0, 926)]:
        write(sheet, level, made(size), MOST, MOST)
    data = [31415 * pow(75, i, 65537) % 65537 % P for i in range(926)]
    test(sheet, 8, data[:416] + check_words(8, data[:416]), "passes")
    first, second = check_words(0, data)
    text = words(made(928), "but", 926, first, 927, second)
    test(sheet, 0, text, "passes")
    for i in [0, 464, 925]:
        test(sheet, 0, words(text, i, (data[i] + 1) % P), "fails")
    test(sheet, 0, words(made(928), "but", 926, first, 927, (second + 1) % P), "fails")
    unlike = next(i for i in range(926) if data[i] != data[0])
    test(sheet, 0, words(text, 0, data[unlike], unlike, data[0]), "fails")
    for level, size in [(8, 416), (0, 926)]:
        write(sheet, level, powers(size, 600), MOST, MOST, digest=True)
        label = [pow(root(600), i, P) for i in range(MOST)]
        test(sheet, level, powers(MOST, 600), "passes")
        changes(sheet, level, powers(MOST, 600), label)
        write(sheet, level, words("all", size, 0), MOST, MOST)
        test(sheet, level, "all 928 0", "passes")
        changes(sheet, level, "all 928 0", [0] * MOST)


def product(sheet, level, roots, gives, before=0, after=0):
    """The product of (x - r), with zeros before and after."""
    label = [0] * before + multiplied(roots) + [0] * after
    assert all(value(label, r) == 0 for r in roots)
    test(sheet, level, label, gives)


def roots(sheet):
    sheet.group("passes: lists that vanish at some roots")
    product(sheet, 0, [3, 9], "passes")
    test(sheet, 0, multiplied([3, 9])[::-1], "fails")
    for pair in [[3, 5], [9, 5], [3, 3], [9, 9], [1, 3]]:
        product(sheet, 0, pair, "fails")
    product(sheet, 1, [3, 9, 27, 81], "passes")
    for three in [[9, 27, 81], [3, 27, 81], [3, 9, 81], [3, 9, 27]]:
        product(sheet, 1, three, "fails", before=1)
        product(sheet, 1, three, "fails", after=1)
    product(sheet, 1, [1, 3, 9, 27], "fails")
    product(sheet, 0, [1, 3, 9, 27], "passes")
    for level, size in [(0, 3), (1, 5), (8, 513), (8, 928)]:
        test(sheet, level, words("all", size, 0), "passes")
    sheet.group("passes: lists that vanish at every power of 3 but one, at every level")
    without = [(level, j) for level in LEVELS for j in [0, 1, checks_at(level), checks_at(level) + 1, 927]] + [(8, j) for j in [2, 256, 257, 511]]
    for j in {j for level, j in without}:
        label = [pow(3, j * i, P) for i in range(MOST)]
        assert [i for i in range(MOST) if value(label, root(i))] == [j]
    for level, j in without:
        test(sheet, level, powers(MOST, j), "fails" if 1 <= j <= checks_at(level) else "passes")


def writing(sheet):
    sheet.group("label: 19")
    write(sheet, 8, [1, 2, 3], MOST, 515)
    test(sheet, 8, [1, 2, 3] + check_words(8, [1, 2, 3]), "passes")
    for level in [9, 10, 63, 64, ALL]:
        write(sheet, level, [1, 2, 3], MOST, "refused 19 0")
    sheet.group("label: 20, and one data word")
    for level, n in [(0, 3), (1, 5), (8, 513)]:
        write(sheet, level, [], MOST, "refused 20 0")
        write(sheet, level, [5], MOST, n)
        test(sheet, level, [5] + check_words(level, [5]), "passes")
    sheet.group("label: the most words, and 21 for one more")
    for level in LEVELS:
        size = MOST - checks_at(level)
        write(sheet, level, made(size), 928, MOST, digest=True)
        write(sheet, level, powers(size, 927), 928, MOST, digest=True)
        test(sheet, level, powers(MOST, 927), "passes")
        write(sheet, level, made(size + 1), 929, "refused 21 0")
    for level, size in [(0, 928), (8, 928), (8, 929)]:
        write(sheet, level, made(size), MOST, "refused 21 0")
    write(sheet, 0, "all 16384 0", MOST, "refused 21 0")
    sheet.group("label: 8, one word and two, and in many words")
    for i in [0, 2, 4]:
        for x in [928, 929, 65535]:
            data = FIVE[:i] + [x] + FIVE[i + 1 :]
            write(sheet, 1, data, MOST, 9 if x < P else "refused 8 %d" % i)
            if x < P:
                test(sheet, 1, data + check_words(1, data), "passes")
    for data, i in TWO_BAD:
        write(sheet, 1, data, MOST, "refused 8 %d" % i)
    for level, size, i in [(8, 416, 0), (8, 416, 208), (8, 416, 415), (0, 926, 925)]:
        write(sheet, level, words(made(size), "but", i, 928), MOST, MOST, digest=True)
        for x in [929, 65535]:
            write(sheet, level, words(made(size), "but", i, x), MOST, "refused 8 %d" % i)
    sheet.group("label: 10, and what stands after")
    for level, data, n, lents in [
        (0, [5], 3, [0, 2, 3, 4]),
        (3, FIVE, 21, [0, 20, 21, 22]),
        (8, made(416), 928, [0, 927, 928, 929]),
        (0, made(926), 928, [927, 928, 929]),
    ]:
        for lent in lents:
            write(sheet, level, data, lent, n if lent >= n else "refused 10 0", digest=n > 21)
    test(sheet, 3, FIVE + check_words(3, FIVE), "passes")
    sheet.group("label: 19 before the others, 20 and 8 before 10, 21 before 8 and 10")
    for data, lent in [([], MOST), ([5], MOST), ([929], MOST), ([5], 0), ("all 929 929", 0)]:
        write(sheet, 9, data, lent, "refused 19 0")
    for lent in [0, 1]:
        write(sheet, 0, [], lent, "refused 20 0")
    for lent in [0, 2, 3]:
        write(sheet, 0, [929], lent, "refused 8 0")
    for level, size, i in [(0, 927, 0), (0, 927, 926), (8, 417, 0)]:
        write(sheet, level, words(made(size), "but", i, 929), MOST, "refused 21 0")
    for level, size, lent in [(0, 927, 0), (0, 927, 928), (8, 417, 928)]:
        write(sheet, level, made(size), lent, "refused 21 0")


def testing(sheet):
    sheet.group("passes: 19")
    test(sheet, 8, "all 513 0", "passes")
    for level, size in [(9, 513), (9, 928), (10, 513), (63, 513), (64, 513), (ALL, 513)]:
        test(sheet, level, words("all", size, 0), "refused 19 0")
    sheet.group("passes: 20, as many words as check words, and one more")
    for level in LEVELS:
        m = checks_at(level)
        test(sheet, level, [], "refused 20 0")
        for text, after in [("all %d 0", "passes"), ("powers %d 31415 75 65537 929", "fails")]:
            test(sheet, level, text % m, "refused 20 0")
            test(sheet, level, text % (m + 1), after)
    sheet.group("passes: the most words, and 21 for one more")
    for level in [0, 1, 8]:
        test(sheet, level, "all 928 0", "passes")
        test(sheet, level, "all 929 0", "refused 21 0")
        test(sheet, level, made(927), "fails")
        test(sheet, level, made(928), "fails")
        test(sheet, level, made(929), "refused 21 0")
    sheet.group("passes: 8, one word and two, in many words, and words that differ by 929 from those of a label")
    for i in [0, 2, 4]:
        for x in [928, 929, 65535]:
            test(sheet, 0, FIVE[:i] + [x] + FIVE[i + 1 :], "fails" if x < P else "refused 8 %d" % i)
    for label, i in TWO_BAD:
        test(sheet, 0, label, "refused 8 %d" % i)
    for i in [0, 464, 927]:
        for x in [928, 929, 65535]:
            test(sheet, 8, words(made(928), "but", i, x), "fails" if x < P else "refused 8 %d" % i)
    test(sheet, 0, [1, 917, 27], "passes")
    for label, i in [([1 + P, 917, 27], 0), ([1, 917 + P, 27], 1), ([1, 917, 27 + P], 2), ([P, 0, 0], 0), ([0, 0, P], 2)]:
        test(sheet, 0, label, "refused 8 %d" % i)
    sheet.group("passes: 19 before the others, 20 and 21 before 8")
    for label in [[], "all 1024 0", "all 1025 0", [929] * 3]:
        test(sheet, 9, label, "refused 19 0")
    for level, size, number in [(0, 1, 20), (0, 2, 20), (0, 3, 8), (8, 512, 20), (8, 513, 8)]:
        test(sheet, level, words("all", size, 929), "refused %d 0" % number)
    for level, i, x in [(0, 0, 929), (0, 928, 929), (8, 0, 65535)]:
        test(sheet, level, words(made(929), "but", i, x), "refused 21 0")
    for size, number in [(928, 8), (929, 21)]:
        test(sheet, 8, words("all", size, 929), "refused %d 0" % number)


def rows(sheet):
    vectors(sheet)
    long(sheet)
    roots(sheet)
    writing(sheet)
    testing(sheet)

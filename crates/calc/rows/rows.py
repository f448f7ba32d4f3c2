"""The rows of calc's test as they are put together: each line is answered as soon as it is said, by calc_answers.py, so that the next may go by what
is held then. What a row is here for may be said with it, and is asserted."""

from calc_answers import Calc
from document import words


class Sheet:
    def __init__(self):
        self.calc, self.lines, self.answers = Calc(), [], []

    def say(self, *parts, gives=None):
        """A line of these parts, one space apart, and what it is known to give."""
        return self.type(words(*parts), gives)

    def type(self, line, gives=None):
        """A line as it stands."""
        answer = self.calc.answer(line.encode())
        assert "\n" not in line and gives in (None, answer), (line[:200], answer[:200], gives)
        self.lines.append(line)
        self.answers.append(answer)
        return answer

    def group(self, comment):
        self.say("#", comment, gives="")


def refused(number, place=0):
    """What a row gives that is refused, or None for 0: then nothing is said of it."""
    return words("refused", number, place) if number else None


def made(p, first, length):
    """A list of so many coefficients below p: typed, or by its rule where it is long."""
    if length <= 9:
        return [first * pow(75, i, 65537) % 65537 % p for i in range(length)]
    return words("powers", length, first, 75, 65537, p)


def two_made(p, length, other=None):
    """Such a list, and another of this length or the other."""
    return words(":", made(p, 31415, length), ":", made(p, 57721, length if other is None else other))

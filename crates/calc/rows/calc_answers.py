"""What calc answers, by docs/CALC.md: each line goes to the call of the module here that defines it. What calc holds from line to line stands in a
Calc. No code of the crates is used."""

from calc_lines import LONGEST, VERBS, read
from calc_parts import MOST, Unread
from document import Refused, check, choose, digest, first_bad, refuse, refuse_coefficients, refuse_short, words
from jobs import BLANK, HEAD, State, finish, take
from labels import passes, write
from lanes import Lane, double, lane_reduce, lane_sum, make
from products import product
from records import Record, close, feed
from tables import build, by_table, pick
from words import check_word, check_words, pack, reduce, shifted, unpack


class Job:
    """The state that a job was begun with, and all bytes that were taken since. Its state is worked out from these at once, when it is asked for."""

    def __init__(self, begun):
        self.begun, self.bytes, self.known = begun, bytearray(), begun

    def take(self, piece):
        self.bytes += bytes(piece)
        self.known = None

    @property
    def state(self):
        self.known = self.known or take(self.begun, self.bytes)
        return self.known


class Calc:
    def __init__(self):
        self.record = BLANK
        self.lane = Lane((0, 0, 0, 0), 0.0, 0.0, 0.0)
        self.job = Job(State(HEAD))

    def answer(self, line):
        try:
            call = read(line)
            answer = "" if call is None else self.called(call)
        except Unread as said:
            return str(said)
        return answer if len(answer) <= LONGEST else "answer too long: digest"

    def called(self, call):
        """The answer of a call, with what is left of a list that the line lends."""
        lent = MOST if call.lent is None else call.lent
        try:
            text, written = getattr(self, "do_" + call.verb)(call, lent), 0
            if isinstance(text, tuple):
                # what was written, and how it is shown where no digest is asked for
                name, elements, shown = text
                text, written = words(name + ":", ["digest", digest(elements)] if call.digest else shown), len(elements)
        except Refused as refusal:
            text, written = words("refused", refusal.number, refusal.place), 0
        return text if call.lent is None else text + "; kept %d" % (lent - written)

    # ---- settings

    def do_choose(self, call, lent):
        return words("width", choose(*call.numbers))

    def do_check(self, call, lent):
        refuse(check(*call.numbers))
        return "accepted"

    def do_coefficients(self, call, lent):
        refuse_coefficients(call.numbers[0], *call.lists)
        return "accepted"

    def do_first(self, call, lent):
        return words("index", first_bad(call.numbers[0], call.lists[0]))

    # ---- words

    def do_pack(self, call, lent):
        return words("word", pack(call.numbers, *call.lists))

    def do_unpack(self, call, lent):
        return wrote(unpack(call.numbers, *call.lists, lent))

    def do_shifted(self, call, lent):
        return wrote(shifted(call.numbers, *call.lists, lent))

    def do_reduce(self, call, lent):
        return words("word", reduce(call.numbers, *call.lists))

    def do_word(self, call, lent):
        check_word(call.numbers, *call.lists)
        return "accepted"

    def do_words(self, call, lent):
        check_words(call.numbers, *call.lists)
        return "accepted"

    # ---- products and tables

    def do_product(self, call, lent):
        return wrote(product(call.numbers, *call.lists, lent))

    def do_build(self, call, lent):
        return wrote(build(call.numbers, lent))

    def do_bytable(self, call, lent):
        return wrote(by_table(call.numbers, *call.lists, lent))

    def do_pick(self, call, lent):
        picked = pick(call.numbers, *call.lists)
        return words(picked[0], "8:", picked[1]) if picked else "none"

    # ---- the running record

    def do_fresh(self, call, lent):
        # also beside a refusal
        self.record = Record(call.numbers)
        return self.do_check(call, lent)

    def do_feed(self, call, lent):
        before, self.record = self.record, feed(self.record, *call.lists)
        return words("took", self.record.sum[0] - before.sum[0])

    def do_close(self, call, lent):
        reductions, elements = close(self.record, lent)
        return words("reductions", reductions), elements, elements

    def do_record(self, call, lent):
        if call.lists:
            self.record = Record(call.numbers[:4], *call.numbers[4:], *call.lists)
        return words("record", self.record.shown())

    # ---- the lane

    def do_make(self, call, lent):
        self.lane = make(call.numbers)
        return self.lane.shown()

    def do_lane(self, call, lent):
        if call.lists:
            self.lane = Lane(call.numbers, *call.lists)
        return self.lane.shown()

    def do_lanesum(self, call, lent):
        return words("word", double(float(lane_sum(self.lane, *call.lists))))

    def do_lanereduce(self, call, lent):
        return words("word", double(float(lane_reduce(self.lane, *call.lists))))

    # ---- labels

    def do_label(self, call, lent):
        return wrote(write(*call.numbers, *call.lists, lent))

    def do_passes(self, call, lent):
        return "passes" if passes(*call.numbers, *call.lists) else "fails"

    # ---- jobs

    def do_start(self, call, lent):
        self.job = Job(State(HEAD))
        return "started"

    def do_take(self, call, lent):
        self.job.take(*call.lists)
        return "taken"

    def do_finish(self, call, lent):
        line = finish(self.job.state)
        refuse_short(lent, len(line) + 1)
        return words("wrote", len(line) + 1), list(line.encode() + b"\n"), line

    def do_job(self, call, lent):
        if call.lists:
            stage, number, place, size, pairs = call.numbers
            self.job = Job(State((stage, 0, 0) if stage < 2 else (2, number, place), *call.lists, size, pairs, self.record))
        return words("job", self.job.state.shown())

    def do_help(self, call, lent):
        return "verbs: " + " ".join(VERBS)


def wrote(elements):
    return words("wrote", len(elements)), elements, elements

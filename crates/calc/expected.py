#!/usr/bin/env python3
"""What calc reads and must write in its test: python3 crates/calc/expected.py writes stdin and stdout beside it.

Every line is read and answered by calc_*.py in rows/ and the definitions of expected/, in whole numbers and with no code of the crates. After what is
held at first come the rows of docs/CALC.md, whose answers stand there: that they are the same is asserted. The others are put together by rows_*.py in
rows/, where each group says what it is for; that comment is a row too, answered by an empty line. The last line has no line end."""

import os
import sys

HERE = os.path.dirname(os.path.abspath(__file__))
ROOT = os.path.join(HERE, "..", "..")
sys.path[:0] = [os.path.join(HERE, "rows"), os.path.join(ROOT, "expected")]
import rows_doubles
import rows_jobs
import rows_labels
import rows_lane
import rows_lane_held
import rows_lane_words
import rows_large
import rows_lists
import rows_places
import rows_products
import rows_reading
import rows_records
import rows_running
import rows_settings
import rows_states
import rows_tables
from rows import Sheet

ARROW = " → "


def page_rows():
    """What is typed and what comes, of every example of the page."""
    with open(os.path.join(ROOT, "docs", "CALC.md"), encoding="utf-8") as page:
        examples = [line[4:].rstrip("\n").split(ARROW) for line in page if line.startswith("    ") and ARROW in line]
    return [(typed.rstrip(" "), answer) for typed, answer in examples]


def at_first(sheet):
    sheet.group("what is held at first")
    sheet.say("record", gives="record 0 0 0 0 0 0 : 0 0 0 0 0 0 0 0 0 0 0 0 0 0 0")
    sheet.say("feed : :", gives="refused 12 0")
    sheet.say("close", gives="refused 12 0")
    sheet.say("lane", gives="lane 0 0 0 0 : 0 : 0 : 0")
    sheet.say("lanesum : :", gives="refused 12 0")
    sheet.say("lanereduce : 0", gives="refused 12 0")
    sheet.say("finish", gives="wrote 13: refused 17 0")
    sheet.say("job", gives="job 0 0 0 0 0 : %s : 0 0 0 0 0 0 : 0 0 0 0 0 0 0 0 0 0 0 0 0 0 0" % " ".join("0" * 32))


def at_last(sheet):
    sheet.group("the last line, which has no line end")
    sheet.say("choose 3 4 31", gives="width 9")


def main():
    sheet, wrong, counts = Sheet(), [], []
    for name, rows in [
        ("what is held at first", at_first),
        ("the page", lambda sheet: [wrong.append((typed, answer)) for typed, answer in page_rows() if sheet.type(typed) != answer]),
        ("settings", rows_settings.rows),
        ("words and places", rows_places.rows),
        ("tables", rows_tables.rows),
        ("products", rows_products.rows),
        ("running records", rows_running.rows),
        ("records set by hand", rows_records.rows),
        ("lanes and sums", rows_lane.rows),
        ("lane reductions", rows_lane_words.rows),
        ("lanes set by hand", rows_lane_held.rows),
        ("labels", rows_labels.rows),
        ("jobs", rows_jobs.rows),
        ("states of jobs", rows_states.rows),
        ("large jobs", rows_large.rows),
        ("lines that are read", rows_reading.rows),
        ("lists that are read", rows_lists.rows),
        ("doubles that are read", rows_doubles.rows),
        ("the last line", at_last),
    ]:
        before = len(sheet.lines)
        rows(sheet)
        counts.append((name, len(sheet.lines) - before))
    with open(os.path.join(HERE, "stdin"), "wb") as stdin:
        stdin.write("\n".join(sheet.lines).encode())
    with open(os.path.join(HERE, "stdout"), "wb") as stdout:
        stdout.write("".join(answer + "\n" for answer in sheet.answers).encode())
    for name, count in counts:
        print("%-24s%5d rows" % (name, count))
    print("%-24s%5d rows" % ("together", len(sheet.lines)))
    assert not wrong, "the page is wrong, or this: %s" % wrong


main()

"""The lines of the job text and the result text of document 01, with the pin line (P2) and
the visit line (P12) of document 02, and the fault numbers.

A walk asks for its lines, one after another, each by its key and its spelling, and gives
the values of them all.  One walk serves a text, read at once or in parts, and values
handed over without text: they "get the same checks in the same line order".  In each line
the order is the walk's: first the spelling and the count (fault 2), then 3, then 4, then
5 or 6, always over the whole line.
"""

import re
from contextlib import contextmanager

from arithmetic import (Job, Result, KINDS, VERDICTS, MAX_N, MAX_STEPS, MAX_JOB,
                        MAX_VISIT, MAX_END, MAX_ENTRY, MAX_TERMS, MAX_DEGREE)

# "an optional minus, 1 to 9 digits, no leading zero, no minus zero"
NUMBER = "(?:0|-?[1-9][0-9]{0,8})"
A_NUMBER = re.compile(NUMBER)
A_LIST = re.compile(f"{NUMBER}(?:,{NUMBER})*")
A_DIGIT = re.compile("[0-9]")
A_TERM = re.compile(f"({NUMBER}):([0-9]+)")


class Fault(Exception):
    """A fault's number and its line counted from 1; 0 for "any later fault that no text
    line carries"."""

    def __init__(self, number, line=0):
        super().__init__(number, line)
        self.number, self.line = number, line


def demand(holds, number):
    """The fault, unless the demand holds; a walk adds its line."""
    if not holds:
        raise Fault(number)


# Spellings: the bytes after "key=" become a value, or fault 2.

def word(spelled):
    """A word is checked against its list by the walk."""
    return spelled


def digit(spelled):
    """"`n` is one digit." """
    demand(A_DIGIT.fullmatch(spelled), 2)
    return int(spelled)


def number(spelled):
    """One number."""
    demand(A_NUMBER.fullmatch(spelled), 2)
    return int(spelled)


def numbers(spelled):
    """"Lists are joined by commas."  Nothing spelled is the empty list."""
    demand(spelled == "" or A_LIST.fullmatch(spelled), 2)
    return [int(one) for one in spelled.split(",")] if spelled else []


def terms_of(n):
    """"Terms `coefficient:exponents`, one digit for each unknown"; "`eq=` alone
    is the zero equation"; "Exponent digits 0 to 9 are well spelled"."""
    def terms(spelled):
        found = []
        for one in spelled.split(",") if spelled else []:
            match = A_TERM.fullmatch(one)
            demand(match and len(match[2]) == n, 2)
            found.append((int(match[1]), tuple(map(int, match[2]))))
        return found
    return terms


# Two sources of values for a walk: the lines of a text, and values.

class Walking:
    """A walk under way: the key and the spelling that it asks for, the line that it is in
    and, once it asks for nothing more, the values that it gives."""

    def __init__(self, walk):
        self.walk, self.line, self.values = walk(), 0, None
        self.hand(None)

    def hand(self, value):
        """The walk takes the value of a line and asks for the next one, or is done."""
        try:
            self.asked = self.walk.send(value)
        except StopIteration as done:
            self.asked, self.values = None, done.value

    @contextmanager
    def faults(self):
        """A fault is given the line that it was met in."""
        try:
            yield
        except Fault as fault:
            raise Fault(fault.number, self.line) from None


class FromLines(Walking):
    """"Lines end in one LF, the last too"; each is taken when it has ended."""

    def take(self, line):
        """The next line, without its LF.  A line of another key and an extra one are
        fault 2."""
        self.line += 1
        with self.faults():
            demand(self.asked, 2)
            if self.asked[0] == "pin" and not line.startswith("pin="):
                self.hand(None)                     # "Without the line the last is pinned."
            key, spelling = self.asked
            found, equals, spelled = line.partition("=")
            demand(found == key and equals, 2)
            self.hand(spelling(spelled))

    def end(self, rest):
        """The values, at the end of the text.  A missing line and a last line without its
        LF are fault 2 at the place of that line; "bytes after the last line are an extra
        line"."""
        self.line += 1
        with self.faults():
            demand(not self.asked and not rest, 2)
        return self.values


def check(walk, values):
    """The same walk over a Job or a Result; spelling cannot be wrong."""
    walking, row = Walking(walk), 0
    with walking.faults():
        while walking.asked:
            key, _ = walking.asked
            if key == "pin" and values.pin == values.n:
                walking.hand(None)                  # "A pin equal to n means the last."
                continue
            walking.line += 1
            if key in ("eq", "row"):
                walking.hand(values.lines[row])
                row += 1
            else:
                walking.hand(getattr(values, key))


# The walks.

def within(values, low, high):
    """Fault 4: "a number beyond its size above"."""
    demand(all(low <= value <= high for value in values), 4)


def in_order(lo, hi):
    """Fault 5: "a low end above its high end"; it "belongs to the `hi` line"."""
    demand(all(a <= b for a, b in zip(lo, hi)), 5)


def proper(terms):
    """Fault 6: "over 16 terms, a zero coefficient, degree over 3, or wrong
    order"; the order is strictly falling."""
    demand(len(terms) <= MAX_TERMS, 6)
    demand(all(c != 0 and sum(exponents) <= MAX_DEGREE for c, exponents in terms), 6)
    demand(all(one[1] > other[1] for one, other in zip(terms, terms[1:])), 6)


def walk_pin(kind, n):
    """"Eigen jobs, and no others, get a line `pin=` after `n`."  "Without the line the
    last is pinned."  "9 for a written pin of n, or any pin not 1 to n, on its own line,
    after 2."  The pin of other kinds is 0."""
    if kind != "eigen":
        return 0
    pin = yield "pin", number
    if pin is None:
        return n
    demand(1 <= pin < n, 9)
    return pin


def walk_equation(kind, n):
    """One of the last n lines: `eq` with its terms or, with its numbers, `row`."""
    if kind == "poly":
        terms = yield "eq", terms_of(n)
        within([c for c, _ in terms], -MAX_ENTRY, MAX_ENTRY)
        proper(terms)
        return terms
    # "`row` lines of n + 1 numbers, the right side last"; eigen: of n
    row = yield "row", numbers
    demand(len(row) == (n + 1 if kind == "linear" else n), 2)
    within(row, -MAX_ENTRY, MAX_ENTRY)
    return row


def walk_job(max_n=MAX_N):
    """"Order: job, kind, n, lo, hi, inv, steps, then n lines", and after n the pin.  n is 1
    to max_n."""
    job = yield "job", number
    within([job], 0, MAX_JOB)
    kind = yield "kind", word
    demand(kind in KINDS, 2)
    n = yield "n", digit
    demand(1 <= n <= max_n, 3)
    pin = yield from walk_pin(kind, n)
    lo = yield "lo", numbers
    demand(len(lo) == n, 2)
    within(lo, -MAX_END, MAX_END)
    hi = yield "hi", numbers
    demand(len(hi) == n, 2)
    within(hi, -MAX_END, MAX_END)
    in_order(lo, hi)
    inv = yield "inv", numbers
    demand(len(inv) == n * n, 2)
    within(inv, -MAX_ENTRY, MAX_ENTRY)
    steps = yield "steps", number
    demand(0 <= steps <= MAX_STEPS, 8)
    lines = []
    for _ in range(n):
        lines.append((yield from walk_equation(kind, n)))
    return Job(job, kind, n, lo, hi, inv, steps, lines, pin)


def walk_result(max_n=MAX_N):
    """The lines of a result: job, visit, verdict, steps, lo, hi.  n is 1 to max_n."""
    job = yield "job", number
    within([job], 0, MAX_JOB)
    # "`visit=` as second line (0 for a job run alone, at most 999,999,999, else 4)"
    visit = yield "visit", number
    within([visit], 0, MAX_VISIT)
    verdict = yield "verdict", word
    demand(verdict in VERDICTS, 2)
    steps = yield "steps", number
    demand(0 <= steps <= MAX_STEPS, 8)
    # "the length of the `lo` list is n: an empty list is fault 2, one of over" six
    # "numbers fault 3, and a `hi` list of another length fault 2"
    lo = yield "lo", numbers
    demand(len(lo) >= 1, 2)
    demand(len(lo) <= max_n, 3)
    within(lo, -MAX_END, MAX_END)
    hi = yield "hi", numbers
    demand(len(hi) == len(lo), 2)
    within(hi, -MAX_END, MAX_END)
    in_order(lo, hi)
    return Result(job, visit, verdict, steps, lo, hi)

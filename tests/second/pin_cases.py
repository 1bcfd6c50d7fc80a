"""Cases of document 02, P2: eigen jobs with a pin line, and pin lines where none may be.

After a pin line every line has a number that is one more, a missing or an extra one too.
"""

from arithmetic import Job, KINDS, MARK, MAX_END, MAX_N, MAX_TEXT
from damage import (at_limits, bytes_of, damaged, every_spelling, lines_of, replaced,
                    whole)
from dice import Dice
from jobs import PINNED, largest_job, pinned_job, random_job, zero_job
from spellings import LIMITS, SPELLINGS
from step_cases import WRONG_BOX, random_decision, random_image
from texts import job_text, joined

# The matrix of T12 has the eigenvectors (1, 1), of the eigenvalue 2, and (1, 0), of 1.
# The first coordinate is pinned; unknown 1 is the eigenvalue.
ROWS = [[65_536, 65_536], [0, 131_072]]
ONES = Job(12, "eigen", 2, [114_688, 49_152], [147_456, 81_920],
           [0, -65_536, 65_536, -65_536], 8, ROWS, 1)
FLAT = Job(13, "eigen", 2, [49_152, -16_384], [81_920, 16_384],
           [-65_536, 65_536, 0, 65_536], 8, ROWS, 1)
FLAT_LINES = lines_of(job_text(FLAT))
SIX_LINES = lines_of(job_text(zero_job("eigen", MAX_N, 1)))
PIN_AT = FLAT_LINES.index(b"pin=1")

# in place of FLAT's pin line: another key, or none
OTHER_LINES = [b"", b"pin", b"pin1", b"pin:1", b"pin =1", b" pin=1", b"Pin=1", b"PIN=1", b"pi=1",
               b"pins=1", b"pim=1", b"in=1", b"pin==1", b"pin=1=", b"=1", b"1", b"x=1", b"\0pin=1",
               b"\xffpin=1", b"\xef\xbb\xbfpin=1", b"pin=1\0", b"n=2", b"kind=eigen", b"job=13",
               b"hi=0,0", b"inv=0,0,0,0", b"steps=8", b"row=0,0", b"eq=", b"verdict=none"]
# texts of FLAT in which two faults compete
TWO_FAULTS = [
    [(b"pin=1", b"pin=0"), (b"lo=49152", b"lo=x")], [(b"pin=1", b"pin=x"), (b"lo=49152", b"lo=x")],
    [(b"pin=1", b"pin=2"), (b"steps=8", b"steps=-1")],
    [(b"n=2", b"n=0"), (b"pin=1", b"pin=0")], [(b"n=2", b"n=x"), (b"pin=1", b"pin=0")],
    [(b"n=2", b"n=%d" % (MAX_N + 1)), (b"pin=1", b"pin=x")],
    [(b"kind=eigen", b"kind=Eig"), (b"pin=1", b"pin=0")],
    [(b"job=13", b"job=-1"), (b"pin=1", b"pin=0")], [(b"pin=1\n", b"pin=0\r\n")],
    [(b"pin=1\n", b"pin=1\r\n")], [(b"pin=1", b"pin=0,0")], [(b"pin=1", b"pin=0 ")],
]


def pinned_examples():
    """T12's matrix about both eigenvectors, a job for every n and every pin, and the longest
    jobs."""
    yield from (ONES, FLAT)
    for number, (n, pin) in enumerate(PINNED):
        yield random_job(Dice(number), "eigen", n, pin)
    for pin in (1, MAX_N - 1):
        yield largest_job("eigen")._replace(pin=pin)


def put_in(lines, at, pin):
    """The text of lines with a pin line put in."""
    return whole(lines[:at] + [b"pin=" + bytes_of(pin)] + lines[at:])


def every_pin():
    """Every n with every pin, and one below and one above them."""
    for n in range(1, MAX_N + 1):
        lines = lines_of(job_text(zero_job("eigen", n, n)))
        for pin in range(MAX_N + 2):
            yield put_in(lines, PIN_AT, str(pin))


def moved_pins():
    """The pin line, or a second one, in every place: before n, twice, too late."""
    rest = FLAT_LINES[:PIN_AT] + FLAT_LINES[PIN_AT + 1:]
    for lines in (rest, FLAT_LINES):
        for at in range(len(lines) + 1):
            yield put_in(lines, at, "1")


def each_line(lines):
    """Each line from the pin on with its first number one beyond, misspelled, or left
    out; the text stops there, after its LF and before it."""
    for at in range(PIN_AT, len(lines)):
        key, _, value = lines[at].partition(b"=")
        _, *rest = value.split(b",")
        for first in (b"%d" % (LIMITS[key][1] + 1), b"x"):
            yield replaced(lines, at, key + b"=" + b",".join([first, *rest]))
        kept = whole(lines[:at + 1])
        yield from (whole(lines[:at] + lines[at + 1:]), kept, kept[:-1])


def one_more(lines):
    """Bytes after the last line."""
    for extra in (b"x", b"\n", lines[-1] + b"\n"):
        yield whole(lines) + extra


def long_texts():
    """Such bytes up to a text's greatest length, and one more."""
    text = whole(SIX_LINES)
    for length in (MAX_TEXT, MAX_TEXT + 1):
        yield text + b"x" * (length - len(text))


def pins_of_others():
    """Pin lines in the jobs of other kinds."""
    for kind in ("poly", "linear"):
        for n in (1, 2, MAX_N):
            lines = lines_of(job_text(random_job(Dice(n), kind, n)))
            for pin in ("1", str(n), "0", "x"):
                yield put_in(lines, PIN_AT, pin)


def two_faults():
    """Of two faults the first."""
    for changes in TWO_FAULTS:
        text = whole(FLAT_LINES)
        for old, new in changes:
            text = text.replace(old, new)
        yield text


def fixed_pins():
    """The cases that stand in every set."""
    for job in pinned_examples():
        text, ones = job_text(job), joined([MARK] * job.n)
        for request in ("solve", "job", "image", f"image {ones} {ones}"):
            yield request, text
    for text in every_pin():
        yield "solve", text
    for lines in (FLAT_LINES, SIX_LINES):
        for text in (*each_line(lines), *one_more(lines)):
            yield "job", text
    others = [replaced(FLAT_LINES, PIN_AT, line) for line in OTHER_LINES]
    for text in (*others, *at_limits(FLAT_LINES, PIN_AT), *every_spelling(FLAT_LINES, PIN_AT),
                 *moved_pins(), *pins_of_others(), *two_faults(), *long_texts()):
        yield "job", text
    for request in (f"image {WRONG_BOX}", f"image 0,0 0,-{MAX_END + 1}", "image 1,0 0,0"):
        yield request, whole(FLAT_LINES)
        yield request, replaced(FLAT_LINES, PIN_AT, b"pin=2")


# Random ones.

def misplaced(dice, text):
    """A text with a pin line put in: after n, mostly, or anywhere."""
    lines = lines_of(text)
    at = dice.pick([PIN_AT, PIN_AT, PIN_AT, dice.between(0, len(lines))])
    return put_in(lines, at, dice.pick(SPELLINGS[b"pin"]))


def random_pin(dice):
    """One request."""
    throw = dice.below(20)
    if throw < 9:
        return "solve", job_text(pinned_job(dice))
    if throw < 11:
        return "job", job_text(pinned_job(dice))
    if throw < 15:
        return dice.pick(["job", "solve"]), damaged(dice, job_text(pinned_job(dice)))
    if throw < 17:
        return "job", misplaced(dice, job_text(random_job(dice, dice.pick([*KINDS, "eigen"]))))
    if throw < 19:
        return random_image(dice, pinned_job(dice))
    return random_decision(dice, pinned_job(dice))

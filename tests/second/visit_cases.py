"""Cases of document 02, P12: the visit line of a result, "as second line", and what stands
beside it.

Every odd spelling of its number and its limits are among those of the other lines, in cases.py.
"""

from arithmetic import ALONE, MAX_END, MAX_JOB, MAX_N, MAX_STEPS, MAX_VISIT, VERDICTS, Result
from damage import lines_of, replaced, whole
from jobs import zero_job
from texts import job_text, result_text

RIGHT = Result(41, 7, "unique", 1, [81_919], [103_766])
LONGEST = Result(MAX_JOB, MAX_VISIT, "stalled", MAX_STEPS, [-MAX_END] * MAX_N, [-MAX_END] * MAX_N)
LINES = lines_of(result_text(RIGHT))
# line 2 under another key, or with bytes about it
OTHER = [b"", b"visit", b"visit7", b"visit 7", b"visit =7", b" visit=7", b"visit==7", b"=7",
         b"Visit=7", b"visi=7", b"visits=7", b"visit=7\r", b"visit=7\0", b"job=7", b"pin=7"]
# right ones of every count of digits
VISITS = [1, 10, 999, 1_000, 65_536, 100_000, 9_999_999, 12_345_678, MAX_VISIT - 1]


def without_visit(text):
    """A text without its second line."""
    lines = lines_of(text)
    return whole(lines[:1] + lines[2:])


def old_text(result):
    """The text of a result before P12."""
    return without_visit(result_text(result))


def right_texts():
    """A visit is written as it was read."""
    for visit in VISITS:
        yield result_text(RIGHT._replace(visit=visit))
    yield result_text(LONGEST)


def old_texts():
    """"Old result texts are refused by 2, line 2", of every n and every verdict; so are old ones
    that were wrong behind their first line, while a fault of that one comes before."""
    for n in range(1, MAX_N + 1):
        yield old_text(Result(n, ALONE, VERDICTS[n % len(VERDICTS)], n, [-n] * n, [n] * n))
    yield old_text(LONGEST)
    for old, new in ((b"unique", b"Unique"), (b"steps=1", b"steps=1001"), (b"lo=81919", b"lo="),
                     (b"hi=103766", b"hi=0"), (b"103766\n", b"103766"), (b"job=41", b"job=-1"),
                     (b"job=41", b"job=041")):
        yield old_text(RIGHT).replace(old, new)


def moved_visits():
    """The visit line in every other place; twice, the second in every place behind the first, or
    right behind it with another number."""
    first, visit, *rest = LINES
    others = [first, *rest]
    for at in (0, *range(2, len(LINES))):
        yield whole(others[:at] + [visit] + others[at:])
    for at in range(2, len(LINES) + 1):
        yield whole(LINES[:at] + [visit] + LINES[at:])
    yield whole([first, visit, b"visit=8", *rest])


def cut_texts():
    """The text stops about its visit line, with LF and without."""
    first, visit, *_ = LINES
    for last in (b"", visit[:1], b"visit", b"visit=", visit, visit + b"\n"):
        yield first + b"\n" + last


def competing_faults():
    """The visit's fault 4 or 2 beside another line's: the first bad line decides."""
    for visit in (b"visit=-1", b"visit=07"):
        for at, line in ((0, b"job=-1"), (2, b"verdict=one"), (3, b"steps=1001"),
                         (4, b"lo=" + b",".join([b"0"] * (MAX_N + 1))), (5, b"hi=0")):
            yield replaced(lines_of(replaced(LINES, 1, visit)), at, line)


def fixed_visits():
    """The cases that stand in every set."""
    for text in (*right_texts(), *old_texts(), *moved_visits(), *cut_texts(), *competing_faults()):
        yield "result", text
    for line in OTHER:
        yield "result", replaced(LINES, 1, line)
    first, *rest = lines_of(job_text(zero_job("poly", 1, 0)))
    yield "job", whole([first, b"visit=0", *rest])           # only results have the line

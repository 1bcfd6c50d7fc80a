"""Cases of document 02, P10: jobs and results of five and six unknowns, what stands beside
those, and texts about the greatest length, now and before.
"""

import itertools

from arithmetic import (ALONE, KINDS, MAX_END, MAX_ENTRY, MAX_N, MAX_TERMS, MAX_TEXT, OLD_N,
                        OLD_TEXT, VERDICTS, Result, run)
from damage import lines_of, many_terms, replaced
from dice import Dice
from jobs import random_job, zero_job
from part_cases import of_length
from texts import job_text, joined, result_text

NEW = range(OLD_N + 1, MAX_N + 1)                   # 5 and 6
BESIDE = range(OLD_N, MAX_N + 2)                    # one fewer, these, one more
LENGTHS = [most + more for most in (OLD_TEXT, MAX_TEXT) for more in (-1, 0, 1)]


def new_jobs():
    """For 5 and for 6 unknowns the first random job of each kind that is unique."""
    for n in NEW:
        for kind in KINDS:
            made = (random_job(Dice(seed), kind, n) for seed in itertools.count())
            yield job_text(next(job for job in made if run(job).verdict == "unique"))


def other_n():
    """Jobs of each kind for 4, 5 and 6 unknowns with every other digit for n: 3 for 0, 7, 8 and
    9, else 2 in the first line that has the wrong count."""
    for n in (OLD_N, *NEW):
        for kind in KINDS:
            lines = lines_of(job_text(zero_job(kind, n, n)))
            for digit in (0, *range(OLD_N, 10)):
                if digit != n:
                    yield replaced(lines, 2, b"n=%d" % digit)


def last_lines():
    """The last `eq` line of 5 and of 6 unknowns at the edge of faults 4 and 6: "All other sizes
    stay"."""
    for n in NEW:
        lines, nothing = lines_of(job_text(zero_job("poly", n, 0))), "0" * n
        for terms in (f"{MAX_ENTRY}:{nothing}", f"{MAX_ENTRY + 1}:{nothing}", f"0:{nothing}",
                      f"1:{'111'.ljust(n, '0')}", f"1:{'1111'.ljust(n, '0')}",
                      f"1:{nothing},1:{'1'.rjust(n, '0')}"):
            yield replaced(lines, len(lines) - 1, b"eq=" + terms.encode())
        for count in (MAX_TERMS, MAX_TERMS + 1):
            terms = b",".join(many_terms(Dice(n), n, count))
            yield replaced(lines, len(lines) - 1, b"eq=" + terms)


def other_digits():
    """"With four-digit exponents for four unknowns": as many digits as there are unknowns are
    right in the last `eq` line; fewer and more of them are 2."""
    for n in (OLD_N, *NEW):
        lines = lines_of(job_text(zero_job("poly", n, 0)))
        for digits in BESIDE:
            for term in ("2".ljust(digits, "0"), "1".rjust(digits, "0")):
                yield replaced(lines, len(lines) - 1, b"eq=5:" + term.encode())


def results():
    """Results of 4 to 6 unknowns; `lo` lists of 4 to 7 numbers, in their size and beyond it, with
    `hi` lists of as many, of one more and of one fewer."""
    for n, verdict in zip((OLD_N, *NEW), VERDICTS):
        yield result_text(Result(n, ALONE, verdict, n, [-MAX_END] * n, [MAX_END] * n))
    for low in (0, MAX_END + 1):
        for n in BESIDE:
            for other in (n - 1, n, n + 1):
                lo, hi = joined([low] * n), joined([0] * other)
                yield f"job=1\nvisit=0\nverdict=none\nsteps=1\nlo={lo}\nhi={hi}\n".encode()


def lengths():
    """Jobs of each length about the two, with a long last line that is 4 in its last term;
    results with an extra line."""
    for length in LENGTHS:
        *_, long_line = of_length(length)
        yield "job", long_line
    right = result_text(Result(1, ALONE, "none", 1, [0] * MAX_N, [0] * MAX_N))
    for length in (OLD_TEXT + 1, MAX_TEXT, MAX_TEXT + 1):
        yield "result", right + b"x" * (length - len(right))


def fixed_sizes():
    """The cases that stand in every set."""
    for text in new_jobs():
        for request in ("solve", "job", "image"):
            yield request, text
    for text in (*other_n(), *last_lines(), *other_digits()):
        yield "job", text
    for text in results():
        yield "result", text
    yield from lengths()

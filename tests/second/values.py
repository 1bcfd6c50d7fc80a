"""Values handed over without text, and what comes back.

The product's program (crates/vectors_values) hands the same table, case by case, to
its run and its writers.  "Values handed over without text get the same checks in
the same line order."  There every place past n is full of garbage, for "places past
n play no part", and the pin of a polynomial or linear job too, for "other kinds ignore
it"; here only live places are kept.
"""

from arithmetic import (MAX_END, MAX_ENTRY, MAX_JOB, MAX_N, MAX_STEPS, MAX_TERMS, MAX_VISIT, Job,
                        Result)
from examples import T11, T12
from texts import solve, write_job, write_result
from walks import Fault

ROOM = 128                          # more bytes than any text here has
LEAST, MOST = -2 ** 63, 2 ** 64 - 1     # what a place of the product's values can hold

# x x = 2 and y = 1
POLY = Job(41, "poly", 2, [65_536, 0], [131_072, 131_072], [21_845, 0, 0, 65_536], 8,
           [[(65_536, (2, 0)), (-131_072, (0, 0))], [(65_536, (0, 1)), (-65_536, (0, 0))]])
PINNED = T12._replace(pin=1)
RESULT = Result(41, 7, "stalled", MAX_STEPS, [-3, 0], [3, 0])


def ends(values, lo, hi):
    """Values with other ends of the second unknown."""
    return values._replace(lo=[values.lo[0], lo], hi=[values.hi[0], hi])


def inverse(job, value):
    """The job with another last entry of its inverse."""
    return job._replace(inv=[*job.inv[:-1], value])


def first_term(coefficient, *exponents):
    """The job with another first term of its first equation."""
    (_, second), other = POLY.lines
    return POLY._replace(lines=[[(coefficient, exponents), second], other])


def last_term(coefficient, *exponents):
    """The job with another last term of its second equation."""
    other, (first, _) = POLY.lines
    return POLY._replace(lines=[other, [first, (coefficient, exponents)]])


def first_equation(terms):
    """The job with another first equation."""
    return POLY._replace(lines=[terms, POLY.lines[1]])


def entry(job, value):
    """The job with another last entry of its matrix."""
    first, last = job.lines
    return job._replace(lines=[first, [last[0], value, *last[2:]]])


JOBS = [
    ("poly", POLY),
    ("number 1000000000", POLY._replace(job=MAX_JOB + 1)),
    ("number at most", POLY._replace(job=MOST)),
    ("n 0", POLY._replace(n=0)),
    (f"n {MAX_N + 1}", POLY._replace(n=MAX_N + 1)),
    ("n at most", POLY._replace(n=MOST)),
    ("number and n", POLY._replace(job=MAX_JOB + 1, n=MAX_N + 1)),
    ("steps 0", POLY._replace(steps=0)),
    ("steps 1001", POLY._replace(steps=MAX_STEPS + 1)),
    ("steps at most", POLY._replace(steps=MOST)),
    ("low end beyond", ends(POLY, -MAX_END - 1, 0)),
    ("low end least", ends(POLY, LEAST, 0)),
    ("high end beyond", ends(POLY, 0, MAX_END + 1)),
    ("ends crossed", ends(POLY, 1, 0)),
    ("ends crossed, high beyond", ends(POLY, 0, -MAX_END - 1)),
    ("ends without width", ends(POLY, 0, 0)),
    ("inverse beyond", inverse(POLY, MAX_ENTRY + 1)),
    ("inverse least", inverse(POLY, LEAST)),
    ("no term", first_equation([])),
    ("17 terms", first_equation([(1, (0, 0))] * (MAX_TERMS + 1))),
    ("17 terms, beyond", first_equation([(LEAST, (0, 0))] * (MAX_TERMS + 1))),
    ("coefficient beyond", first_term(MAX_ENTRY + 1, 2, 0)),
    ("coefficient least", last_term(LEAST, 0, 0)),
    ("coefficient zero", last_term(0, 0, 0)),
    ("exponent 10", first_term(1, 10, 0)),
    ("exponents 255", first_term(1, 255, 255)),
    ("degree 4", first_term(1, 2, 2)),
    ("degree 4, beyond", first_term(MAX_ENTRY + 1, 2, 2)),
    ("terms alike", last_term(1, 0, 1)),
    ("terms rising", last_term(1, 0, 2)),
    ("linear", T11),
    ("linear, entry beyond", entry(T11, MAX_ENTRY + 1)),
    ("linear, right side beyond", T11._replace(
        lines=[[131_072, 0, -MAX_ENTRY - 1], T11.lines[1]])),
    ("eigen", T12),
    ("eigen, entry least", entry(T12, LEAST)),
    ("pin 1", PINNED),
    ("pin 0", T12._replace(pin=0)),
    ("pin 3", T12._replace(pin=3)),
    ("pin at most", T12._replace(pin=MOST)),
    ("n and pin", T12._replace(n=MAX_N + 1, pin=0)),
    ("pin and low end", ends(T12._replace(pin=0), -MAX_END - 1, 0)),
    ("pin 1, low end beyond", ends(PINNED, -MAX_END - 1, 0)),
    ("pin 1, ends crossed", ends(PINNED, 1, 0)),
    ("pin 1, inverse beyond", inverse(PINNED, MAX_ENTRY + 1)),
    ("pin 1, steps 1001", PINNED._replace(steps=MAX_STEPS + 1)),
    ("pin 1, entry least", entry(PINNED, LEAST)),
]
RESULTS = [
    ("result", RESULT),
    ("result number 1000000000", RESULT._replace(job=MAX_JOB + 1)),
    ("result visit 999999999", RESULT._replace(visit=MAX_VISIT)),
    ("result visit 1000000000", RESULT._replace(visit=MAX_VISIT + 1)),
    ("result visit at most", RESULT._replace(visit=MOST)),
    ("result number and visit", RESULT._replace(job=MAX_JOB + 1, visit=MAX_VISIT + 1)),
    ("result visit and steps", RESULT._replace(visit=MAX_VISIT + 1, steps=MAX_STEPS + 1)),
    ("result steps 1001", RESULT._replace(steps=MAX_STEPS + 1)),
    ("result n 0", RESULT._replace(lo=[], hi=[])),
    (f"result n {MAX_N + 1}", RESULT._replace(lo=[0] * (MAX_N + 1), hi=[0] * (MAX_N + 1))),
    ("result n at most", RESULT._replace(lo=[0] * 99, hi=[0] * 99)),
    ("result low end beyond", ends(RESULT, -MAX_END - 1, 0)),
    ("result high end least", ends(RESULT, 0, LEAST)),
    ("result ends crossed", ends(RESULT, 1, 0)),
]
ROOMS = [                           # a writer, values, and the bytes of the lent buffer
    (write_job, POLY, 122), (write_job, POLY, 121), (write_job, POLY, 1),
    (write_job, POLY._replace(n=MAX_N + 1), 1),
    (write_job, PINNED, 123), (write_job, PINNED, 122),
    (write_result, RESULT, 57), (write_result, RESULT, 56),
    (write_result, RESULT._replace(lo=[], hi=[]), 1),
]


def refusal(fault):
    """"A fault returns its number and a line." """
    return b"fault=%d line=%d" % (fault.number, fault.line)


def written(write, values, room=ROOM):
    """What a writer answers, and the whole of the buffer of dots lent to it: a fault
    "writes nowhere", and after a text "the lent buffer's bytes beyond it are the old
    ones"."""
    buffer = bytearray(b"." * room)
    try:
        told = b"done length=%d" % write(values, buffer)
    except Fault as fault:
        told = refusal(fault) + b" length=0"
    return b"write: %s\n[%s]\n" % (told, buffer)


def ran(job):
    """What the run answers: a result whose places past n are zero, or a fault."""
    try:
        result = solve(job)
    except Fault as fault:
        return b"run: %s\n" % refusal(fault)
    return b"run: done, past n zero zero\n" + written(write_result, result)


def table():
    """What the product's program prints."""
    told = [name.encode() + b"\n" + ran(job) + written(write_job, job) for name, job in JOBS]
    told += [name.encode() + b"\n" + written(write_result, result) for name, result in RESULTS]
    told += [written(*case) for case in ROOMS]
    return b"".join(told)

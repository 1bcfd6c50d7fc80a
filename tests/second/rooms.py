"""The eight rooms of document 02, P12: their table by values and, in the form of docs/ROOMS.md,
by bytes, with the calls on it.

A table is the last visit number that was handed out and eight slots, each of them None where it
is free, or a visit: a job and its reading, which is a result with the visit's number.  A call on
values gives the table after it and what is answered; a Fault is its refusal.
"""

from collections import namedtuple

import arithmetic
from arithmetic import MAX_VISIT, Result, ends_of
from texts import job_text, read_job, read_result, result_text
from walks import Fault, demand

SLOTS = 8                       # "when all eight slots are taken"

Table = namedtuple("Table", "last slots")
Visit = namedtuple("Visit", "job reading")
Opened = namedtuple("Opened", "slot visit")     # what opening answers

# "All rooms are free, and visits count from 1 again."
CLEARED = Table(0, (None,) * SLOTS)


# The calls on values.

def with_slot(table, slot, visit):
    """The table with another visit, or none, in a slot."""
    return table._replace(slots=(*table.slots[:slot], visit, *table.slots[slot + 1:]))


def lowest_free(table):
    """"Opening takes the lowest free slot"; "13 exactly when all eight slots are taken"."""
    demand(None in table.slots, 13)
    return table.slots.index(None)


def next_visit(table):
    """"A visit number, 1 upward from a clearing and not reused before the next"; "14 after
    visit 999,999,999"."""
    demand(table.last < MAX_VISIT, 14)
    return table.last + 1


def opened(table, text):
    """"Opening, then the job's own, then 13", "then 14".  No step is done yet, and "a visit
    not yet decided reads as spent with its steps and box so far"."""
    job = read_job(text)
    slot, visit = lowest_free(table), next_visit(table)
    reading = Result(job.job, visit, "spent", 0, job.lo, job.hi)
    after = with_slot(table._replace(last=visit), slot, Visit(job, reading))
    return after, Opened(slot, visit)


def held(table, slot, visit):
    """The visit that is shown; "15 for a slot or visit not open": the slot "is over 7, free,
    or holds another"."""
    here = table.slots[slot] if slot < SLOTS else None
    demand(here and here.reading.visit == visit, 15)
    return here


def finished(visit):
    """"A visit is finished when it is decided or its steps are the job's allowance." """
    return visit.reading.verdict != "spent" or visit.reading.steps == visit.job.steps


def one_step(visit):
    """"A step call moves one visit's job by one step", on the box so far."""
    job, reading = visit
    X = list(zip(reading.lo, reading.hi))
    K = arithmetic.image(X, arithmetic.rows_of(job), arithmetic.equations_of(job))
    verdict, box = arithmetic.decide(X, K)
    lo, hi = ends_of(box)
    return Visit(job, reading._replace(verdict=verdict or "spent", steps=reading.steps + 1,
                                       lo=lo, hi=hi))


def fitting(reading, room):
    """The text of a reading for a buffer of so many bytes; "then 7 for the result text"."""
    text = result_text(reading)
    demand(len(text) <= room, 7)
    return text


def stepped(table, slot, visit, room):
    """"A step call answers with the reading after it and changes nothing on a finished one." """
    visit = held(table, slot, visit)
    if not finished(visit):
        visit = one_step(visit)
    return with_slot(table, slot, visit), fitting(visit.reading, room)


def shown(table, slot, visit, room):
    """The reading, and the table as it is."""
    return table, fitting(held(table, slot, visit).reading, room)


def closed(table, slot, visit):
    """"Closing frees the slot." """
    held(table, slot, visit)
    return with_slot(table, slot, None), b""


# The bytes: the last visit number and the slots, one behind the other; in a slot the length of
# the reading, the reading, the length of the job text, the job text.

FOUR = 4                        # "numbers of four bytes have the least byte first"
READING_MOST = 252              # "the reading is at most 252 bytes long
JOB_MOST = 2_044                # and the job text at most 2,044"
JOB_AT = FOUR + READING_MOST    # 256
SLOT = JOB_AT + FOUR + JOB_MOST     # 2,304
TABLE = FOUR + SLOTS * SLOT     # "there are at least 18,436 of them"


def slot_at(slot):
    """"4 + 2,304 k", the first byte of slot k."""
    return FOUR + SLOT * slot


def four_bytes(number):
    """A number of four bytes."""
    return number.to_bytes(FOUR, "little")


def number_at(lent, at):
    """The number of the four bytes at a place."""
    return int.from_bytes(lent[at:at + FOUR], "little")


def text_at(lent, at, most):
    """The text whose length stands at a place; it is at most so long."""
    length = number_at(lent, at)
    demand(length <= most, 16)
    return bytes(lent[at + FOUR:at + FOUR + length])


def texts_at(lent, at):
    """"The job text is a right job text and the reading a right result text." """
    try:
        return Visit(read_job(text_at(lent, at + JOB_AT, JOB_MOST)),
                     read_result(text_at(lent, at, READING_MOST)))
    except Fault:
        raise Fault(16) from None


def visit_at(lent, at, last):
    """The visit of the slot at a place; None where it "is free, which is that the length of
    its job text is 0".  "Both have the same job number and the same n, the reading's visit is
    from 1 to the last visit number, the reading's steps are at most the job's allowance." """
    if number_at(lent, at + JOB_AT) == 0:
        return None
    visit = texts_at(lent, at)
    job, reading = visit
    demand(reading.job == job.job and len(reading.lo) == job.n, 16)
    demand(1 <= reading.visit <= last, 16)
    demand(reading.steps <= job.steps, 16)
    return visit


def enough(lent):
    """"The lent bytes are too few": fewer than those of the table."""
    demand(len(lent) >= TABLE, 16)


def table_in(lent):
    """The values of lent bytes; 16 "exactly where the lent bytes are too few or" "break the
    table's form".  "Bytes of a slot behind its two texts, and those of a free slot, play no
    part in it", nor do those behind the table."""
    enough(lent)
    last = number_at(lent, 0)
    demand(last <= MAX_VISIT, 16)
    return Table(last, tuple(visit_at(lent, slot_at(slot), last) for slot in range(SLOTS)))


def put_text(lent, at, text):
    """A length and its text."""
    lent[at:at + FOUR + len(text)] = four_bytes(len(text)) + text


def put_slot(lent, at, before, after):
    """"Clearing makes all bytes of the table zero, closing all bytes of the slot.  Opening
    writes both texts and their lengths, a step the reading and its length; what stands behind
    them stays." """
    if after is None:
        lent[at:at + SLOT] = bytes(SLOT)
        return
    put_text(lent, at, result_text(after.reading))
    if before is None:
        put_text(lent, at + JOB_AT, job_text(after.job))


def put_table(lent, before, after):
    """What a call has changed of a table."""
    lent[:FOUR] = four_bytes(after.last)
    for slot, (old, new) in enumerate(zip(before.slots, after.slots)):
        if new != old:
            put_slot(lent, slot_at(slot), old, new)


def call(lent, name, *words):
    """What a call answers that is shown these words; the lent bytes are then those after it.
    "Refusals: first 16", "clearing apart"; "no refusal changes the table"."""
    if name == "clear":
        enough(lent)
        lent[:TABLE] = bytes(TABLE)
        return b""
    before = table_in(lent)
    calls = {"open": opened, "step": stepped, "reading": shown, "close": closed}
    after, answer = calls[name](before, *words)
    put_table(lent, before, after)
    return answer

"""Right tables of P12 by values, laid into bytes as docs/ROOMS.md says: what the cases of
table_cases.py begin with.
"""

from collections import namedtuple

from arithmetic import KINDS, MAX_VISIT, VERDICTS, Result, ends_of, run
from dice import Dice
from examples import JOB_41, T7, T9, T11
from jobs import box_around, largest_job, pinned_job, random_job, symmetric_job, zero_job
from pin_cases import FLAT
from room_cases import SLOW
from rooms import (CLEARED, FOUR, JOB_AT, SLOTS, TABLE, Table, Visit, four_bytes, put_slot,
                   slot_at, with_slot)
from visit_cases import LONGEST

BEHIND = 64                     # bytes "18,436 on: no part of the table"

# A table and the bytes that it is laid into.
Base = namedtuple("Base", "table bytes")

# x x = 2 by a poor inverse: after 17 steps a high end of 6 digits, after 18 one of 5
SHORTER = SLOW._replace(lo=[92_683], inv=[2_000], steps=60)


def rubbish(dice):
    """Any bytes."""
    eights = (dice.bits().to_bytes(8, "little") for _ in range((TABLE + BEHIND) // 8 + 1))
    return b"".join(eights)[:TABLE + BEHIND]


def laid(table, ground):
    """A table in bytes, which stay where the form says nothing of them."""
    lent = bytearray(ground)
    lent[:FOUR] = four_bytes(table.last)
    for slot, visit in enumerate(table.slots):
        at = slot_at(slot)
        if visit is None:
            lent[at + JOB_AT:at + JOB_AT + FOUR] = bytes(FOUR)
        else:
            put_slot(lent, at, None, visit)
    return Base(table, bytes(lent))


def after(job, steps, visit):
    """A visit after so many steps of its job."""
    return Visit(job, run(job._replace(steps=steps))._replace(visit=visit))


# Eight rooms: of every kind, begun, on the way, with every verdict, spent, of 1, 2 and 6 unknowns.
MIXED = Table(12, (
    after(zero_job("poly", 6, 0), 0, 12), after(T11, 1, 3), after(FLAT, 0, 9),
    after(SLOW, 9, 10), after(T9, 1, 1), after(JOB_41._replace(steps=0), 0, 7),
    after(T7, 2, 8), after(SHORTER, 17, 11)))
SEVEN = with_slot(MIXED, 5, None)
# The longest texts: of each kind a job, and beside one of them the longest reading.
LONG = Table(MAX_VISIT, (*(after(largest_job(kind), 0, MAX_VISIT) for kind in KINDS),
                         Visit(largest_job("eigen")._replace(pin=1), LONGEST), *[None] * 4))

ZEROS, RUBBISH = bytes(TABLE + BEHIND), rubbish(Dice(12))
EMPTY, DIRTY = laid(CLEARED, ZEROS), laid(CLEARED._replace(last=5), RUBBISH)
ONE = laid(with_slot(CLEARED._replace(last=1), 2, after(SLOW, 9, 1)), ZEROS)
EIGHT = laid(MIXED, RUBBISH)
# "14 after visit 999,999,999", and one before it; a full table there
LATE = laid(SEVEN._replace(last=MAX_VISIT), RUBBISH)
NEARLY = laid(SEVEN._replace(last=MAX_VISIT - 1), RUBBISH)
FULL_AND_LATE = laid(MIXED._replace(last=MAX_VISIT), RUBBISH)
LONGEST_TEXTS = laid(LONG, RUBBISH)


# Random ones.

def any_reading(dice, job, visit):
    """A reading that the form allows; perhaps no steps of the job lead to it."""
    lo, hi = ends_of(box_around(dice, job.lo))
    return Result(job.job, visit, dice.pick(["spent", *VERDICTS]), dice.between(0, job.steps),
                  lo, hi)


def random_visit(dice, last):
    """A visit on the way, or one of any reading."""
    job = dice.pick([random_job, random_job, symmetric_job, pinned_job])(dice)
    visit = dice.pick([1, last, dice.between(1, last)])
    if dice.one_in(2):
        return Visit(job, any_reading(dice, job, visit))
    return after(job, dice.between(0, min(job.steps, 3)), visit)


def random_base(dice):
    """A right table, full or not, on zeros or on any bytes."""
    last, free = dice.pick([1, 9, 300, MAX_VISIT - 1, MAX_VISIT]), dice.pick([0, 1, 2, 6])
    slots = [None if dice.below(8) < free else random_visit(dice, last) for _ in range(SLOTS)]
    return laid(Table(last, tuple(slots)), rubbish(dice) if dice.one_in(2) else ZEROS)

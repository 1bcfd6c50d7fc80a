"""Document 02, P12: slips in the table of rooms, and that cases, tables or claims see them."""

import unittest
from collections import Counter

import answers
import room_claims
import rooms
import tables
from answers import Desk
from arithmetic import MAX_TEXT, MAX_VISIT
from dice import Dice
from room_cases import room_cases
from room_claims import try_apart, try_rooms, try_tables
from rooms import (FOUR, JOB_AT, SLOT, SLOTS, Visit, call, closed, held, number_at, one_step,
                   opened, put_slot, stepped, table_in, texts_at, with_slot)
from tables import outcome
from test_old import breaks
from test_tables import TABLED
from test_whole import Slips
from texts import read_job, result_text
from walks import Fault, demand


# Slips of a whole call: what stands in its place.

def writes_first(lent, name, *words):
    """A step is written before it is known whether the reading fits."""
    if name != "step":
        return call(lent, name, *words)
    *pair, room = words
    text = call(lent, name, *pair, MAX_TEXT)
    demand(len(text) <= room, 7)
    return text


def fifteen_first(lent, name, *words):
    """15 before 16, for a slot that there is not."""
    if name in ("step", "reading", "close"):
        demand(words[0] < SLOTS, 15)
    return call(lent, name, *words)


def job_first(lent, name, *words):
    """The job's own before 16."""
    if name == "open":
        read_job(*words)
    return call(lent, name, *words)


def clears_the_formed(lent, name, *words):
    """Clearing is refused where the form is broken."""
    table_in(lent)
    return call(lent, name, *words)


def clears_all(lent, name, *words):
    """Clearing makes all lent bytes zero."""
    answered = call(lent, name, *words)
    if name == "clear":
        lent[:] = bytes(len(lent))
    return answered


def clears_the_slots(lent, name, *words):
    """Visits count on after a clearing."""
    before = lent[:FOUR]
    answered = call(lent, name, *words)
    if name == "clear":
        lent[:FOUR] = before
    return answered


def counts_refusals(lent, name, *words):
    """An opening that is refused uses a visit number."""
    try:
        return call(lent, name, *words)
    except Fault as fault:
        if name == "open" and fault.number < 10:
            lent[0] ^= 1
        raise


# Slips of the calls on values.

def highest_free(table):
    """The highest free slot."""
    demand(None in table.slots, 13)
    return max(slot for slot in range(SLOTS) if table.slots[slot] is None)


def full_first(table, text):
    """13 before the job's own."""
    demand(None in table.slots, 13)
    return opened(table, text)


def late_first(table, text):
    """14 before 13."""
    read_job(text)
    demand(table.last < MAX_VISIT, 14)
    return opened(table, text)


def stalled_at_first(table, text):
    """A visit reads as stalled before its first step."""
    table, pair = opened(table, text)
    job, reading = table.slots[pair.slot]
    return with_slot(table, pair.slot, Visit(job, reading._replace(verdict="stalled"))), pair


def number_back(table, slot, visit):
    """Closing gives the visit's number back."""
    table, answered = closed(table, slot, visit)
    return table._replace(last=table.last - (visit == table.last)), answered


def any_visit(table, slot, visit):
    """Whoever shows a slot that is taken holds it."""
    demand(slot < SLOTS and table.slots[slot], 15)
    return table.slots[slot]


def slot_of_three_bits(table, slot, visit):
    """The lowest bits of a slot are looked at."""
    return held(table, slot % SLOTS, visit)


def until_spent(visit):
    """A visit that is decided counts on."""
    return visit.reading.steps == visit.job.steps


def until_decided(visit):
    """A visit counts on over its allowance."""
    return visit.reading.verdict != "spent"


def from_the_start(visit):
    """Each step begins on the starting box."""
    job, reading = visit
    return one_step(Visit(job, reading._replace(lo=job.lo, hi=job.hi)))


def stalled_on_the_way(visit):
    """A visit that is not decided reads as stalled."""
    job, reading = one_step(visit)
    verdict = "stalled" if reading.verdict == "spent" else reading.verdict
    return Visit(job, reading._replace(verdict=verdict))


def next_slot_too(table, slot, visit, room):
    """A step moves the visit of the next slot too."""
    table, text = stepped(table, slot, visit, room)
    other = (slot + 1) % SLOTS
    if table.slots[other] and not rooms.finished(table.slots[other]):
        table = with_slot(table, other, one_step(table.slots[other]))
    return table, text


def fits_before(table, slot, visit, room):
    """7 by the reading before the step."""
    demand(len(result_text(held(table, slot, visit).reading)) <= room, 7)
    return stepped(table, slot, visit, MAX_TEXT)


# Slips of the bytes.

def leaves_bytes(lent, at, before, after):
    """Closing makes the length of the job text zero, and no more."""
    if after is None:
        lent[at + JOB_AT:at + JOB_AT + FOUR] = bytes(FOUR)
    else:
        put_slot(lent, at, before, after)


def wipes_the_slot(lent, at, before, after):
    """Opening makes the rest of the slot zero."""
    if before is None:
        lent[at:at + SLOT] = bytes(SLOT)
    put_slot(lent, at, before, after)


def checked_by(visits=True, steps=True, numbers=True, unknowns=True, free=None):
    """A slot read with fewer checks, or with a look at a free one."""
    def instead(lent, at, last):
        if number_at(lent, at + JOB_AT) == 0:
            demand(free is None or number_at(lent, at) <= free, 16)
            return None
        job, reading = visit = texts_at(lent, at)
        demand(not visits or 1 <= reading.visit <= last, 16)
        demand(not steps or reading.steps <= job.steps, 16)
        demand(not numbers or reading.job == job.job, 16)
        demand(len(reading.lo) == job.n or not unknowns and len(reading.lo) < job.n, 16)
        return visit
    return instead


def texts_unread(lent, at):
    """A broken text is its own fault."""
    return Visit(read_job(rooms.text_at(lent, at + JOB_AT, rooms.JOB_MOST)),
                 rooms.read_result(rooms.text_at(lent, at, rooms.READING_MOST)))


ASKED = room_cases(1, 200)


def answered():
    """The answers of the block."""
    desk = Desk()
    return (desk.answer(*case) for case in ASKED)


ANSWERED = list(answered())


def by_cases():
    """Whether some answer of the block is another one."""
    return any(found != right for found, right in zip(answered(), ANSWERED))


def by_tables():
    """Whether something else comes of a table of any bytes."""
    return any(outcome(case) != right for case, right in TABLED)


def lives(seed, count):
    """Jobs in two houses."""
    dice = Dice(seed)
    for _ in range(count):
        try_apart(dice, Counter())


def any_tables(seed, count):
    """Tables of any bytes."""
    try_tables(Dice(seed), count, Counter())


def breaking(name):
    """Whether it is that claim on rooms that breaks."""
    return breaks(name, try_rooms, 200)


class RoomSlips(Slips):
    """Slips are seen by the requests, by the tables and by the claims."""

    def room_slip(self, name, instead, *catchers):
        """A slip in the table itself."""
        self.slip(name, instead, *catchers, module=rooms)

    def test_none(self):
        self.assertFalse(by_cases() or by_tables())

    def test_slips_of_whole_calls(self):
        for instead, claim in ((writes_first, "refused"), (fifteen_first, "form"),
                               (job_first, "form"), (clears_the_formed, "form"),
                               (clears_all, "refused"), (clears_the_slots, "form"),
                               (counts_refusals, "refused")):
            self.slip("call", instead, by_tables, breaks(claim, any_tables, 1_000), module=tables)
        for instead, claim in ((writes_first, "refused"), (clears_the_slots, "form")):
            self.slip("call", instead, breaking(claim), module=room_claims)
        for instead in (clears_the_slots, counts_refusals):
            self.slip("call", instead, by_cases, module=answers)

    def test_slips_of_openings(self):
        everywhere = by_cases, by_tables, breaking("numbers")
        self.room_slip("lowest_free", highest_free, *everywhere)
        self.room_slip("opened", full_first, *everywhere)
        self.room_slip("opened", late_first, by_tables)
        self.room_slip("opened", stalled_at_first, by_cases, by_tables, breaking("sums"))
        self.room_slip("closed", number_back, *everywhere)
        for beside in (-1, 1):
            self.room_slip("MAX_VISIT", MAX_VISIT + beside, by_tables)

    def test_slips_of_what_is_shown(self):
        for instead in (any_visit, slot_of_three_bits):
            self.room_slip("held", instead, by_cases, by_tables, breaking("numbers"))

    def test_slips_of_steps(self):
        self.room_slip("finished", until_spent, by_cases, by_tables, breaking("kept"))
        self.room_slip("finished", until_decided, by_cases, by_tables, breaking("form"))
        self.room_slip("one_step", from_the_start, by_cases, by_tables, breaking("sums"))
        self.room_slip("one_step", stalled_on_the_way, by_cases, by_tables, breaking("sums"))
        self.room_slip("stepped", next_slot_too, by_cases, by_tables, breaks("apart", lives, 40))
        self.room_slip("stepped", fits_before, by_tables, breaking("sums"))

    def test_slips_of_the_bytes(self):
        for instead in (leaves_bytes, wipes_the_slot):
            self.room_slip("put_slot", instead, by_tables)
        for less in ("visits", "steps", "numbers", "unknowns"):
            self.room_slip("visit_at", checked_by(**{less: False}), by_tables)
        self.room_slip("visit_at", checked_by(free=252), by_tables)
        self.room_slip("texts_at", texts_unread, by_tables, breaking("form"))
        for name in ("TABLE", "SLOT", "JOB_AT"):
            self.room_slip(name, getattr(rooms, name) - 1, by_tables)


if __name__ == "__main__":
    unittest.main()

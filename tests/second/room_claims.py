"""What document 02, P12, wants of every table of rooms, tried on random histories of calls and on
tables of any bytes.  claims.py calls it.

- Form: "16, exactly where the lent bytes are too few or, clearing apart, break the table's form",
  "which clearing and every call leave whole".
- Refused: "No refusal changes the table", and no call what stands behind it.
- Numbers: the lowest free slot, visits "1 upward from a clearing and not reused before the next",
  13 "exactly when all eight slots are taken", 15 for what is not open.
- Kept: "demand 3" reads "per visit": each box lies in the one before, a verdict stays with its
  box, a zero of the starting box is never lost, and at unique there is at most one.
- Sums: "Steps add up to the job's allowance, and the answer after them is that of one run": after
  c calls that step it, a visit reads as the run with c steps or, where that is less, all of them.
- Apart: "a holder's verdict, box and steps depend on its own job and calls only": they are the
  same in two houses where others come and go.
"""

import itertools
from collections import Counter

from arithmetic import ALONE, MAX_TEXT, Job, run
from breach import Breach, inside, told
from dice import Dice
from jobs import pinned_job, random_job, symmetric_job
from room_cases import House, random_call, refusal
from rooms import SLOTS, TABLE, Opened, Table, call, table_in
from table_bases import rubbish
from table_cases import random_tables
from tables import outcome
from texts import job_text, read_job, read_result, result_text
from zeros import job_with_zeros


def claim(holds, name, *shown):
    """Fails loudly unless the claim holds."""
    if not holds:
        raise Breach(f"{name}: {shown}")


def said(answered):
    """What is counted of an answer."""
    return f"refused by {refusal(answered)}" if refusal(answered) else "answered"


def try_bytes(name, answered, before, after):
    """Form and Refused, of a call on lent bytes."""
    formed = isinstance(told(table_in, before), Table)
    right = len(before) >= TABLE if name == "clear" else formed
    claim((refusal(answered) == 16) != right, "form", name, answered)
    claim(before == after or not refusal(answered), "refused", name, answered)
    claim(before[TABLE:] == after[TABLE:], "refused", name, answered)
    claim(isinstance(told(table_in, after), Table) or not right, "form", name, answered)


class Visitor:
    """A job in a room, how often it was stepped, and what was heard of it last."""

    def __init__(self, job, zeros, visit):
        start = list(zip(job.lo, job.hi))
        self.job, self.steps = job, 0
        self.zeros = [zero for zero in zeros if inside(zero, start)]
        self.last = run(job._replace(steps=0))._replace(visit=visit)

    def next(self, name):
        """What one run says after a call of that name."""
        steps = self.steps + (name == "step")
        told_by_run = run(self.job._replace(steps=min(steps, self.job.steps)))
        return told_by_run._replace(visit=self.last.visit)

    def hear(self, name, reading):
        """Kept and Sums, of a reading."""
        box = list(zip(self.last.lo, self.last.hi))
        decided = self.last.verdict != "spent"
        claim(inside(reading.lo, box) and inside(reading.hi, box), "kept", self.last, reading)
        claim(reading == self.last or not decided, "kept", self.last, reading)
        box = list(zip(reading.lo, reading.hi))
        claim(all(inside(zero, box) for zero in self.zeros), "kept", self.job, reading)
        most = {"none": 0, "unique": 1}.get(reading.verdict, len(self.zeros))
        claim(len(self.zeros) <= most, "kept", self.job, reading)
        claim(reading == self.next(name), "sums", self.job, self.steps, reading)
        self.steps, self.last = self.steps + (name == "step"), reading


class Watch:
    """A house, each call of which is tried."""

    def __init__(self, dice, tried):
        self.lent, self.house, self.handed = bytearray(rubbish(dice)), House(), 0
        self.visitors, self.tried = {}, tried
        self.call("clear")

    def call(self, name, *words, zeros=()):
        """The next call."""
        before = bytes(self.lent)
        answered = told(call, self.lent, name, *words)
        try_bytes(name, answered, before, bytes(self.lent))
        if name == "open":
            self.opened(told(read_job, *words), answered, zeros)
        elif name == "clear":
            self.visitors, self.handed = {}, 0
        else:
            self.shown(name, words[:2], words[2:], answered)
        self.house.hear(name, words, answered)
        self.tried[f"rooms: {name}, {said(answered)}"] += 1

    def opened(self, job, answered, zeros):
        """Numbers, of a job, or its fault, that is opened."""
        if not isinstance(job, Job):
            claim(answered == job, "numbers", answered, job)
            return
        taken = {pair.slot for pair in self.house.now}
        wanted = (13, 0)
        if len(taken) < SLOTS:
            self.handed += 1
            wanted = Opened(min(set(range(SLOTS)) - taken), self.handed)
            self.visitors[wanted] = Visitor(job, zeros, self.handed)
        claim(answered == wanted, "numbers", answered, wanted)

    def shown(self, name, pair, room, answered):
        """Numbers, and what is heard, of a call that shows a slot and a visit."""
        visitor = self.visitors.get(pair)
        claim((refusal(answered) == 15) == (visitor is None), "numbers", name, pair, answered)
        if name == "close" and visitor:
            del self.visitors[pair]
        elif refusal(answered) == 7:
            claim(len(result_text(visitor.next(name))) > room[0], "sums", pair, room)
        elif not refusal(answered):
            claim(len(answered) <= room[0], "sums", pair, room)
            visitor.hear(name, read_result(answered))
            self.tried[f"rooms: readings that are {visitor.last.verdict}"] += 1


def some_room(dice, visitor):
    """A buffer for any text, or one of about the length of what was heard last."""
    length = len(result_text(visitor.last)) if visitor else 1
    return dice.pick([MAX_TEXT] * 3 + [length + dice.around(1)])


def try_history(dice, tried):
    """Sixty calls in a house; then one who is there is stepped to the end, and over it."""
    watch, crowd = Watch(dice, tried), dice.pick([2, 5, SLOTS, SLOTS + 1])
    for _ in range(60):
        name, *words = random_call(dice, watch.house, crowd)
        zeros = []
        if name == "open" and dice.one_in(2):
            job, zeros = job_with_zeros(dice)
            words = [job_text(job)]
        if name == "step":
            words.append(some_room(dice, watch.visitors.get(tuple(words))))
        watch.call(name, *words, zeros=zeros)
    for pair, visitor in list(watch.visitors.items())[:1]:
        for _ in range(min(visitor.job.steps, 20) + 2):
            watch.call("step", *pair, MAX_TEXT)
        if visitor.job.steps <= 20:
            claim(visitor.last == run(visitor.job)._replace(visit=pair.visit), "sums", pair)
            tried["rooms: visits that read as one run"] += 1


def others(dice, lent, house, own, count):
    """Calls of others: what shows the holder's own slot and visit would be its own call, and
    "the table isn't cleared"."""
    for _ in range(count):
        name, *words = random_call(dice, house, SLOTS)
        if name != "clear" and tuple(words[:2]) != own:
            words += [MAX_TEXT] * (name == "step")
            house.hear(name, tuple(words), told(call, lent, name, *words))


def life(dice, text, calls):
    """What a holder hears by these calls, the visit's number apart, where others come and go."""
    lent, house = bytearray(TABLE), House()
    others(dice, lent, house, None, dice.below(16))
    if len(house.now) == SLOTS:
        call(lent, "close", *house.now.pop())
    own, heard = told(call, lent, "open", text), []
    claim(not refusal(own), "apart", own)
    for name in calls:
        others(dice, lent, house, own, dice.below(4))
        reading = told(call, lent, name, *own, MAX_TEXT)
        claim(not refusal(reading), "apart", own, reading)
        heard.append(read_result(reading)._replace(visit=ALONE))
    return heard


def try_apart(dice, tried):
    """Apart, of a job that lives in two houses."""
    text = job_text(dice.pick([random_job, symmetric_job, pinned_job])(dice))
    calls = [dice.pick(["step", "step", "reading"]) for _ in range(dice.between(1, 12))]
    one, other = (life(dice, text, calls) for _ in range(2))
    claim(one == other, "apart", text, calls, one, other)
    tried[f"rooms: lives in two houses, {one[-1].verdict} at last"] += 1


def try_tables(dice, count, tried):
    """Form and Refused, of calls on tables of any bytes."""
    for case in itertools.islice(random_tables(dice), count):
        answered, before, after = outcome(case)
        try_bytes(case.name, answered, before[:case.lent], after[:case.lent])
        claim(before[case.lent:] == after[case.lent:], "refused", case.name)
        tried[f"rooms: tables of any bytes, {said(answered)}"] += 1


def try_rooms(seed, count):
    """count tables of any bytes, and for every twenty of them a history and two houses; how often
    each was tried.  Raises Breach at the first claim that does not hold."""
    dice, tried = Dice(seed + 2 ** 40), Counter()
    for _ in range(count // 20):
        try_history(dice, tried)
        try_apart(dice, tried)
    try_tables(dice, count, tried)
    return tried

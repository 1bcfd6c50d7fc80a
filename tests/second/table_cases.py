"""Cases of the bytes of P12's table (docs/ROOMS.md): a call on lent bytes, right ones and broken
ones.  What it answers and the bytes after it, tables.py says.
"""

import itertools
from collections import namedtuple

from arithmetic import MAX_END, MAX_JOB, MAX_N, MAX_STEPS, MAX_TEXT, MAX_VISIT, VERDICTS
from damage import damaged
from dice import Dice
from examples import JOB_41, T7, T11
from jobs import zero_job
from room_cases import FAR, SLOW, WRONG_JOBS, random_opening
from rooms import (FOUR, JOB_AT, JOB_MOST, READING_MOST, SLOT, SLOTS, TABLE, four_bytes, shown,
                   slot_at, stepped)
from table_bases import (BEHIND, DIRTY, EIGHT, EMPTY, FULL_AND_LATE, LATE, LONGEST_TEXTS, NEARLY,
                         ONE, random_base)
from texts import job_text, result_text
from visit_cases import old_text

NAMES = ("open", "step", "reading", "close")
FAR_64 = [far for far in FAR if far < 2 ** 64]      # those that the C calls can be shown
RIGHT_JOB = job_text(JOB_41)

# A call and what is shown by it, on the first so many bytes of a base with patches, which are
# pairs of a place and the bytes there.
Case = namedtuple("Case", "base patches lent name words")


# What is shown.

def pairs(table):
    """The slots that are taken, and their visits."""
    return [(slot, visit.reading.visit) for slot, visit in enumerate(table.slots) if visit]


def wrong_pair(dice, slot, visit):
    """A slot or a visit that is not open, or not this one."""
    return dice.pick([(SLOTS, visit), (dice.pick(FAR_64), visit), (slot, 0), (slot, visit + 1),
                      (slot, visit + 2 ** 32), ((slot + 1) % SLOTS, visit)])


def some_room(dice, table, name, pair):
    """A buffer for any text, or one of about the length that is answered."""
    text = {"step": stepped, "reading": shown}[name](table, *pair, MAX_TEXT)[1]
    return dice.pick([MAX_TEXT] * 4 + [len(text), len(text) - 1, 0])


def some_words(dice, table, name):
    """What a call shows, mostly what is open and right."""
    if name == "clear":
        return ()
    if name == "open":
        return (dice.pick([RIGHT_JOB] * 5 + WRONG_JOBS[:1] + [b""]),)
    taken, room = pairs(table), MAX_TEXT
    pair = dice.pick(taken or [(0, 1)])
    if dice.one_in(6):
        pair = wrong_pair(dice, *pair)
    elif taken and name != "close":
        room = some_room(dice, table, name, pair)
    return pair if name == "close" else (*pair, room)


# Right tables and lengths of lent bytes.

def every_call(dice, base, patches=(), lent=TABLE + BEHIND, names=NAMES):
    """A case of each call."""
    for name in names:
        yield Case(base, list(patches), lent, name, some_words(dice, base.table, name))


def lent_lengths(dice):
    """"The lent bytes are too few"; just enough; and more, which are "no part of the table"."""
    for base in (EMPTY, DIRTY, EIGHT):
        for lent in (0, 1, FOUR, TABLE // 2, TABLE - SLOT, TABLE - 1, TABLE, TABLE + 1):
            yield from every_call(dice, base, (), lent, ("clear", *NAMES))
    for patch in ((0, b"\xff" * FOUR), (slot_at(3) + JOB_AT, b"\xff" * FOUR)):
        yield Case(EIGHT, [patch], TABLE + BEHIND, "clear", ())


def every_pair():
    """Every slot with its visit, others, and buffers about the length of what is answered."""
    for base in (ONE, EIGHT, LATE, LONGEST_TEXTS):
        for pair in pairs(base.table):
            for name, answers in (("step", stepped), ("reading", shown)):
                length = len(answers(base.table, *pair, MAX_TEXT)[1])
                for room in (MAX_TEXT, length, length - 1, 0):
                    yield Case(base, [], TABLE, name, (*pair, room))
            yield Case(base, [], TABLE, "close", pair)
        for slot in (*range(SLOTS + 1), *FAR_64):
            for visit in (0, 1, 2, 8, MAX_VISIT, 2 ** 32 + 1, 2 ** 64 - 1):
                yield Case(base, [], TABLE, "step", (slot, visit, 0))


def every_opening():
    """The job's own fault before 13, 13 before 14, and the last visit number."""
    for base in (EMPTY, DIRTY, ONE, EIGHT, LATE, NEARLY, FULL_AND_LATE):
        for text in (RIGHT_JOB, job_text(zero_job("linear", MAX_N, 0)), *WRONG_JOBS):
            yield Case(base, [], TABLE + BEHIND, "open", (text,))


# Single bytes.

def other_bytes(byte):
    """Some other values."""
    return sorted({0, byte ^ 1, byte ^ 128, 255} - {byte})


def last_visits(dice):
    """"The last visit number is at most 999,999,999", and no visit is over it."""
    for base in (EMPTY, ONE, EIGHT, LATE):
        for last in (0, 1, 11, 12, 13, MAX_VISIT - 1, MAX_VISIT, MAX_VISIT + 1, 2 ** 31,
                     2 ** 32 - 1):
            yield from every_call(dice, base, [(0, four_bytes(last))])


def headers_and_lengths(dice):
    """Every byte of the header and of the lengths to several other values."""
    lengths = [slot_at(slot) + at + byte for slot in range(SLOTS) for at in (0, JOB_AT)
               for byte in range(FOUR)]
    for base in (EMPTY, DIRTY, ONE, EIGHT, LATE):
        for at in (*range(FOUR), *lengths):
            names = NAMES if base is EIGHT or at < FOUR else dice.some(NAMES, 1)
            for value in other_bytes(base.bytes[at]):
                yield from every_call(dice, base, [(at, bytes([value]))], names=names)


def text_places(base):
    """The places of the bytes of all texts."""
    for slot, visit in enumerate(base.table.slots):
        if visit:
            reading, job = slot_at(slot) + FOUR, slot_at(slot) + JOB_AT + FOUR
            yield from range(reading, reading + len(result_text(visit.reading)))
            yield from range(job, job + len(job_text(visit.job)))


def texts_and_rest(dice):
    """Every byte of the texts to one other value, a digit often to a digit; and some of the
    bytes that play no part."""
    for base in (ONE, EIGHT, LONGEST_TEXTS):
        inside = list(text_places(base))
        outside = [*(dice.below(TABLE) for _ in range(60)), TABLE, TABLE + BEHIND - 1]
        for at in inside[::17] if base is LONGEST_TEXTS else inside + outside:
            byte = base.bytes[at]
            values = (byte ^ 1, byte ^ 1, byte ^ 1 << dice.below(8), 0, 10)
            value = dice.pick([value for value in values if value != byte])
            names = NAMES if base is ONE else dice.some(NAMES, 1)
            yield from every_call(dice, base, [(at, bytes([value]))], names=names)


# Other texts in a slot.

def lengthened(at, text):
    """The patch of a text and its length."""
    return at, four_bytes(len(text)) + text


def other_readings(reading):
    """Readings in the place of one, of the job SLOW: right ones, and ones that break the form."""
    for visit in (0, 1, 2, 12, 13, MAX_VISIT):
        yield result_text(reading._replace(visit=visit))
    for steps in (0, SLOW.steps - 1, SLOW.steps, SLOW.steps + 1, MAX_STEPS):
        yield result_text(reading._replace(steps=steps))
    for verdict in VERDICTS:
        yield result_text(reading._replace(verdict=verdict, steps=0))
    for job in (reading.job + 1, 0, MAX_JOB):
        yield result_text(reading._replace(job=job))
    for n in (2, MAX_N):
        yield result_text(reading._replace(lo=[0] * n, hi=[0] * n))
    for lo, hi in ((-MAX_END, MAX_END), (MAX_END, MAX_END), (0, 0), (92_681, 92_682)):
        yield result_text(reading._replace(lo=[lo], hi=[hi]))
    text = result_text(reading)
    yield from (b"", text[:-1], text + b"\n", old_text(reading), RIGHT_JOB, text * 4)
    for old, new in ((b"visit=", b"visit=0"), (b"hi=", b"hi=-"), (b"hi=", b"hi=9"),
                     (b"lo=", b"lo= "), (b"spent", b"Spent"), (b"steps=", b"steps=-")):
        yield text.replace(old, new)


def other_jobs(visit):
    """Job texts in the place of SLOW, whose visit has done 9 steps."""
    for steps in (8, 9, 10, MAX_STEPS):
        yield job_text(SLOW._replace(steps=steps))
    for job in (T7, T11, T11._replace(job=41), zero_job("linear", 1, 0)._replace(job=41, steps=9),
                zero_job("poly", MAX_N, 0)._replace(job=41, steps=9), SLOW._replace(job=40)):
        yield job_text(job)
    for old, new in ((b"steps=20", b"steps=1001"), (b"lo=", b"lo=-0"), (b"n=1", b"n=0"),
                     (b"lo=92000", b"lo=131073"), (b"65536:2", b"65536:4"), (b"poly", b"eigen")):
        yield job_text(SLOW).replace(old, new)
    yield from (job_text(SLOW)[:-1], job_text(SLOW) + b"\n", result_text(visit.reading))


def other_texts(dice):
    """Other texts in slot 3 of a full table, and lengths at the limits of what it holds; each
    with calls that show that slot, others, and something wrong."""
    reading, job = slot_at(3), slot_at(3) + JOB_AT
    visit = EIGHT.table.slots[3]
    patches = [lengthened(reading, text) for text in other_readings(visit.reading)]
    patches += [lengthened(job, text) for text in other_jobs(visit)]
    for at, most in ((reading, READING_MOST), (job, JOB_MOST)):
        for length in (most, most + 1, 2 ** 16, 2 ** 31, 2 ** 32 - 1, 2 ** 32 - FOUR):
            patches.append((at, four_bytes(length)))
    own = pairs(EIGHT.table)[3]
    for patch in patches:
        for name, words in (("step", (*own, MAX_TEXT)), ("reading", (*own, MAX_TEXT)),
                            ("step", (*own, 0)), ("close", (SLOTS, 0)), ("open", (b"",))):
            yield Case(EIGHT, [patch], TABLE, name, words)
        yield from every_call(dice, EIGHT, [patch], names=dice.some(NAMES, 2))


# Random ones.

def damaged_slot(dice, base):
    """A slot with a text that is damaged, or with the reading of another slot."""
    slot, visit = dice.pick([pair for pair in enumerate(base.table.slots) if pair[1]])
    other = dice.pick([visit for visit in base.table.slots if visit])
    reading, job = slot_at(slot), slot_at(slot) + JOB_AT
    at, text, most = dice.pick([
        (reading, damaged(dice, result_text(visit.reading)), READING_MOST),
        (reading, result_text(other.reading), READING_MOST),
        (job, damaged(dice, job_text(visit.job)), JOB_MOST)])
    return lengthened(at, text[:most])


def random_patches(dice, base):
    """None, a byte anywhere or of a text, another last visit, or another text in a slot."""
    places, way = list(text_places(base)), dice.below(6)
    if way <= 1 or not places:
        return []
    if way == 2:
        at = dice.pick([dice.pick(places), dice.below(TABLE + BEHIND)])
        return [(at, bytes([dice.pick([base.bytes[at] ^ 1, dice.below(256)])]))]
    if way == 3:
        return [(0, four_bytes(dice.pick([0, 1, 8, MAX_VISIT, MAX_VISIT + 1])))]
    return [damaged_slot(dice, base) for _ in range(dice.pick([1, 1, 2]))]


def random_tables(dice):
    """Cases without end, forty of each random base."""
    while True:
        base = random_base(dice)
        for _ in range(40):
            name = dice.pick(["clear", *NAMES * 4])
            words = some_words(dice, base.table, name)
            if name == "open":
                words = (random_opening(dice),)
            lent = TABLE + dice.pick([0, 1, BEHIND])
            yield Case(base, random_patches(dice, base), lent, name, words)


def fixed_tables():
    """The cases that stand in every set."""
    dice = Dice(12)
    yield from lent_lengths(dice)
    yield from every_pair()
    yield from every_opening()
    yield from last_visits(dice)
    yield from headers_and_lengths(dice)
    yield from texts_and_rest(dice)
    yield from other_texts(dice)


def table_cases(seed, count):
    """count cases, the fixed ones first."""
    others = random_tables(Dice(seed + 2 ** 39))
    yield from itertools.islice(itertools.chain(fixed_tables(), others), count)

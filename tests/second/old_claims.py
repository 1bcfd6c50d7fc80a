"""What document 02, P10, wants of both texts beside the old program, tried on right and
damaged ones.  claims.py calls it.

The old program is seen as a reader: the same walks with the limits of before, over results as
they stand now, with the visit line of P12.

- Kept: "Stored texts of n up to 4 read as before and are written byte for byte the same": what
  the old program reads is read now with the same values, and written the same.
- New: of a right text of 5 or 6 unknowns the old program "answers 3", in the line that has n.
- Same: where the old program answers neither 1 nor 3, the answer now is the same one, fault and
  line: "never a wrong job".
- Lost: "Texts of 2,049 to 4,096 bytes, and n of 5 and 6, lose faults 1 and 3", and no others.
"""

from collections import Counter, namedtuple
from functools import partial

from answers import answer
from arithmetic import MAX_N, MAX_TEXT, OLD_N, OLD_TEXT, Job, Result
from breach import Breach, told
from cases import random_result
from damage import damaged, lines_of, long_text, replaced
from dice import Dice
from jobs import pinned_job, random_job
from texts import job_text, read, read_job, read_result, result_text
from walks import walk_job, walk_result

N_LINE = {"job": 3, "result": 5}    # the line that has n: its digit, or its list of so many

# A text of a sort, and what is told of it: values, or a fault's number and line.
Both = namedtuple("Both", "sort text now old")


def old_job(text):
    """A job text as the old program reads it."""
    return read(partial(walk_job, OLD_N), text, OLD_TEXT)


def old_result(text):
    """A result text as the old program reads it."""
    return read(partial(walk_result, OLD_N), text, OLD_TEXT)


def read_both(sort, text):
    """A text as it is read now and as the old program reads it."""
    readers = (read_job, old_job) if sort == "job" else (read_result, old_result)
    return Both(sort, text, *(told(reader, text) for reader in readers))


def fault_of(found):
    """The number of a fault; 0 where values were read."""
    return 0 if isinstance(found, (Job, Result)) else found[0]


def n_of(sort, text):
    """The n of a text whose line of n is well spelled."""
    line = lines_of(text)[N_LINE[sort] - 1]
    return int(line[2:]) if sort == "job" else line.count(b",") + 1


def claim(holds, name, both):
    """Fails loudly unless the claim holds."""
    if not holds:
        raise Breach(f"{name}: {both.now} now, {both.old} before\n{both.text}")


def try_right(both):
    """A text that was right, or that is right now."""
    if not fault_of(both.old):
        written = answer(both.sort, both.text)
        claim(both.now == both.old and written == both.text, "kept", both)
    if not fault_of(both.now) and n_of(both.sort, both.text) > OLD_N:
        claim(both.old == (3, N_LINE[both.sort]), "new", both)


def try_lost(both):
    """Fault 1 is that of a length, now and before, and no text that was too long is right; 3 is
    that of n."""
    for found, max_n, max_text in ((both.now, MAX_N, MAX_TEXT), (both.old, OLD_N, OLD_TEXT)):
        claim((fault_of(found) == 1) == (len(both.text) > max_text), "lost", both)
        if fault_of(found) == 3:
            claim(not 1 <= n_of(both.sort, both.text) <= max_n, "lost", both)
    claim(fault_of(both.now) or len(both.text) <= OLD_TEXT, "lost", both)
    if fault_of(both.old) == 3 and not OLD_N < n_of(both.sort, both.text) <= MAX_N:
        claim(both.now == both.old, "lost", both)


def try_text(sort, text, tried):
    """All claims on one text."""
    both = read_both(sort, text)
    if fault_of(both.old) not in (0, 1, 3):
        claim(both.now == both.old, "same", both)
    try_lost(both)
    try_right(both)
    now, old = fault_of(both.now), fault_of(both.old)
    of_n = f" of n={n_of(sort, text)}" if not now or 3 in (now, old) else ""
    tried[f"old: {sort}s{of_n}, {old or 'right'} before, {now or 'right'} now"] += 1


def random_text(dice):
    """A sort and a text of it: right, damaged, about as long as may be, or of another n."""
    sort = dice.pick(["job", "job", "result"])
    if sort == "job":
        text = job_text(dice.pick([random_job, random_job, pinned_job])(dice))
    else:
        text = result_text(random_result(dice))
    lines, way = lines_of(text), dice.below(8)
    if way == 0:
        return sort, long_text(dice, lines)
    if way == 1:
        n = dice.below(10)
        line = b"n=%d" % n if sort == "job" else b"lo=" + b",".join([b"0"] * n)
        return sort, replaced(lines, N_LINE[sort] - 1, line)
    return sort, text if way <= 4 else damaged(dice, text)


def try_old(seed, count):
    """count texts; how often each answer was met.  Raises Breach at the first claim that does
    not hold."""
    dice, tried = Dice(seed + 2 ** 36), Counter()
    for _ in range(count):
        try_text(*random_text(dice), tried)
    return tried

"""What document 02, P12, wants of stored result texts: "old result texts are refused by 2,
line 2".  claims.py calls it.

- Read: of a result text of now, right or damaged, its second line is left out.  Where it was
  right, the reader of before P12 reads what is left, with the same values.
- Refused: what the reader of before reads is refused now by 2, line 2.
"""

from collections import Counter

from arithmetic import ALONE, MAX_TEXT, Result
from breach import Breach, told
from cases import random_result
from damage import damaged
from dice import Dice
from texts import read, read_result, result_text
from visit_cases import without_visit
from walks import walk_result


def walk_before():
    """The lines of a result before P12: those of now, with no line taken for the visit."""
    walk, value = walk_result(), None
    while True:
        try:
            asked = walk.send(value)
        except StopIteration as done:
            return done.value
        value = ALONE if asked[0] == "visit" else (yield asked)


def read_before(text):
    """A result text as it was read before P12."""
    return read(walk_before, text, MAX_TEXT)


def try_visit(text, tried):
    """Both claims on one text of now."""
    result, left = told(read_result, text), without_visit(text)
    before, now = told(read_before, left), told(read_result, left)
    right, was_right = isinstance(result, Result), isinstance(before, Result)
    if right and before != result._replace(visit=ALONE):
        raise Breach(f"read: {before} before, {result} now\n{text}")
    if was_right and now != (2, 2):
        raise Breach(f"refused: {now} now\n{left}")
    said = "old texts, refused now" if was_right else f"texts with fault {before[0]} before"
    tried[f"visits: {said}"] += 1


def try_visits(seed, count):
    """count texts; how often each answer was met.  Raises Breach at the first claim that does
    not hold."""
    dice, tried = Dice(seed + 2 ** 37), Counter()
    for _ in range(count):
        text = result_text(random_result(dice))
        try_visit(text if dice.one_in(2) else damaged(dice, text), tried)
    return tried

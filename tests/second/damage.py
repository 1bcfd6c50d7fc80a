"""Damage to right texts.  Each way takes dice and the lines of a text (bytes,
without their LF) and gives the bytes of a text that is mostly wrong; what the
right answer is, the readers of texts.py say."""

import re

from arithmetic import (MAX_DEGREE, MAX_END, MAX_ENTRY, MAX_N, MAX_TERMS, MAX_TEXT,
                        OLD_N, OLD_TEXT)
from jobs import coefficient, monomials
from spellings import EDGES, LIMITS, ODD_BYTES, ODD_NUMBERS, SPELLINGS, WORDS, WRONG


def whole(lines):
    """The text of lines."""
    return b"".join(line + b"\n" for line in lines)


def replaced(lines, at, line):
    """The text of lines with another one in a place."""
    return whole(lines[:at] + [line] + lines[at + 1:])


def lines_of(text):
    """The lines of a text whose last one ends in LF."""
    return text.split(b"\n")[:-1]


def bytes_of(text):
    """A Python string of bytes."""
    return text.encode("latin-1")


def damaged_value(dice, line):
    """A line with one number, word or list changed."""
    key, _, value = line.partition(b"=")
    own = SPELLINGS.get(key)
    if own and not dice.one_in(6):
        return key + b"=" + bytes_of(dice.pick(own))
    if key == b"eq" and not dice.one_in(4):
        terms, n = terms_and_n(value)
        return key + b"=" + b",".join(misspelled_terms(dice, terms, n))
    parts = value.split(b",")
    place = dice.pick([0, len(parts) - 1, dice.below(len(parts))])
    way = dice.below(8)
    if way <= 3:                                      # another number in its place
        parts[place] = bytes_of(dice.pick(ODD_NUMBERS))
    elif way <= 5:                                    # at a size, or one beyond
        parts[place] = bytes_of(str(dice.pick(EDGES)))
    elif way == 6:                                    # one less, or none at all
        parts = parts[:place] + parts[place + 1:]
    else:                                             # one or more too many
        parts[place:place] = [b"0"] * dice.pick([1, 1, 2, MAX_N, MAX_N * MAX_N])
    return key + b"=" + b",".join(parts)


def beyond_value(dice, line):
    """A line with a fault other than 2, mostly well spelled."""
    key, _, value = line.partition(b"=")
    wrong = WRONG.get(key)
    if wrong:
        return key + b"=" + bytes_of(dice.pick(wrong))
    if key == b"eq":
        terms, n = terms_and_n(value)
        return key + b"=" + b",".join(wrong_terms(dice, terms, n))
    if key in (b"kind", b"verdict"):
        return key + b"=" + bytes_of(dice.pick(WORDS[:3] + WORDS[9:13]))
    parts = value.split(b",")
    size = MAX_END if key in (b"lo", b"hi") else MAX_ENTRY
    place = dice.pick([0, len(parts) - 1, dice.below(len(parts))])
    parts[place] = b"%d" % dice.pick([size + 1, -size - 1, size, -size, 999_999_999])
    if key == b"lo" and dice.one_in(4):               # in a result: over 6 numbers
        parts += [parts[place]] * (MAX_N + 1 - len(parts))
    elif dice.one_in(4):                              # 2 in the same line comes first
        parts = dice.pick([parts + [b"0"], parts + [b"x"], [b"-0"] + parts,
                           parts + [b""], [parts[place]] + parts])
    return key + b"=" + b",".join(parts)


def terms_and_n(value):
    """The terms of an `eq` line; for the zero equation one term of n = 1."""
    terms = value.split(b",") if value else [b"1:1"]
    return terms, len(terms[0].partition(b":")[2]) or 1


def wrong_terms(dice, terms, n):
    """Well-spelled terms that are fault 6, or 4."""
    place = dice.pick([0, len(terms) - 1, dice.below(len(terms))])
    c, _, exponents = terms[place].partition(b":")
    return dice.pick([
        terms + [terms[-1]],                          # doubled
        terms[::-1],                                  # wrong order
        terms[:place] + [b"0:" + exponents] + terms[place + 1:],
        [b"1:%d" % (MAX_DEGREE + 1) + b"0" * (n - 1)] + terms,
        terms + [b"1:" + b"0" * (n - 1) + b"%d" % (MAX_DEGREE + 1)],
        [b"1:" + b"9" * n] + terms,
        [b"%d:" % (MAX_ENTRY + 1) + b"4" * n] + terms,      # 4 before 6
        terms[:place] + [b"%d:" % dice.pick(EDGES[6:]) + exponents] + terms[place + 1:],
        many_terms(dice, n, MAX_TERMS), many_terms(dice, n, MAX_TERMS + 1),
        many_terms(dice, n, MAX_TERMS) + [b"1:" + b"0" * n],
        many_terms(dice, n, MAX_TERMS) + [b"%d:" % (MAX_ENTRY + 1) + b"0" * n],
    ])


def of_digits(term, count):
    """A term with so many exponent digits."""
    c, colon, exponents = term.partition(b":")
    return c + colon + exponents[:count].ljust(count, b"0")


def misspelled_terms(dice, terms, n):
    """Terms that are fault 2, some with a later or an earlier 4 or 6."""
    place = dice.pick([0, len(terms) - 1, dice.below(len(terms))])
    c, _, exponents = terms[place].partition(b":")
    return dice.pick([
        terms[:place] + [b"-0:" + exponents] + terms[place + 1:],
        terms[:place] + [bytes_of(dice.pick(ODD_NUMBERS)) + b":" + exponents],
        [b"0:" + b"9" * n] + terms[:place] + [c + b":x"],
        terms[:place] + [c + b":" + exponents + b"0"] + terms[place + 1:],
        terms[:place] + [c + b":" + exponents[1:]],
        [of_digits(term, MAX_N) for term in terms],
        [of_digits(term, OLD_N) for term in terms],
        terms[:place] + [c + b":" + exponents[:-1] + dice.pick(ODD_BYTES)],
        terms[:place] + [c + exponents] + terms[place + 1:],
        terms[:place] + [c + b"::" + exponents],
        terms + [b""], [b""] + terms, terms[:place] + [b"", b""] + terms[place:],
        many_terms(dice, n, MAX_TERMS) + [dice.pick([b"x:", b"01:", b"1;", b":"])
                                          + b"0" * n],
        many_terms(dice, n, MAX_TERMS) + [b"1:" + b"0" * (n + 1)],
    ])


def many_terms(dice, n, count):
    """That many terms in falling order where there are so many, else more of
    the last."""
    found = dice.some(monomials(n), count) if n <= MAX_N else [(0,) * n]
    found += found[-1:] * (count - len(found))
    return [b"%d:" % coefficient(dice, MAX_ENTRY) + bytes_of("".join(map(str, e)))
            for e in found]


def at_limits(lines, since=0):
    """Every line from a place on, with its first and its last number at each limit and
    one beyond, the latter also before a misspelled one and in a list of the wrong
    count."""
    for at in range(since, len(lines)):
        key, _, value = lines[at].partition(b"=")
        low, high = LIMITS.get(key, (0, 0))
        for number in (low - 1, low, high, high + 1):
            for place in (0, -1):
                parts = value.split(b",")
                _, colon, exponents = parts[place].partition(b":")
                parts[place] = b"%d" % number + colon + exponents
                beyond = place == 0 and not low <= number <= high
                for more in ([], [b"x"], [b"0"]) if beyond else ([],):
                    changed = key + b"=" + b",".join(parts + more)
                    yield replaced(lines, at, changed)


def every_spelling(lines, since=0):
    """The lines of one word or one number, from a place on, in every spelling."""
    for at in range(since, len(lines)):
        key = lines[at].partition(b"=")[0]
        for spelled in SPELLINGS.get(key, []):
            yield replaced(lines, at, key + b"=" + bytes_of(spelled))


# The ways.

def one_value(dice, lines):
    """One line's value changed."""
    at = dice.below(len(lines))
    return replaced(lines, at, damaged_value(dice, lines[at]))


def one_beyond(dice, lines):
    """One line well spelled, with a fault 3, 4, 6 or 8; more of the later lines."""
    at = dice.between(dice.pick([0, 0, len(lines) - 2]), len(lines) - 1)
    return replaced(lines, at, beyond_value(dice, lines[at]))


def two_values(dice, lines):
    """Two faults in one text, or two in one line."""
    lines = list(lines)
    at = dice.below(len(lines))
    for place in (at, at if dice.one_in(2) else dice.below(len(lines))):
        change = beyond_value if dice.one_in(2) else damaged_value
        lines[place] = change(dice, lines[place])
    return whole(lines)


def ends_crossed(dice, lines):
    """A low end above its high end, by one or by more; at times beyond a size."""
    lines = list(lines)
    at = next(i for i, line in enumerate(lines) if line.startswith(b"hi="))
    lo = lines[at - 1][3:].split(b",")
    hi = lines[at][3:].split(b",")
    place = dice.below(len(hi))
    hi[place] = b"%d" % (int(lo[place]) - dice.pick([0, 1, 1, 2, 1_000]))
    if dice.one_in(4):
        hi[dice.below(len(hi))] = bytes_of(str(dice.pick(EDGES)))
    lines[at] = b"hi=" + b",".join(hi)
    return whole(lines)


def one_byte(dice, lines):
    """A byte changed, put in or taken out: the first, the last, or any."""
    text = whole(lines)
    at = dice.pick([0, len(text) - 1, dice.below(len(text)), dice.below(len(text))])
    odd = dice.pick(ODD_BYTES + [bytes([dice.below(256)])])
    return text[:at] + dice.pick([odd + text[at + 1:], odd + text[at:], text[at + 1:]])


def tail(dice, lines):
    """Bytes after the text: an extra line."""
    extra = dice.pick([b"\n", b"\0", b" ", b"x", lines[-1], lines[-1] + b"\n",
                       lines[0] + b"\n", b"\n\n", b"\r\n", whole(lines)])
    return whole(lines) + extra


def cut_off(dice, lines):
    """The text stops early: anywhere, after an LF, or before the last LF."""
    text = whole(lines)
    kept = whole(lines[:dice.below(len(lines))])
    return dice.pick([text[:dice.below(len(text))], kept, text[:-1], kept[:-1]])


def moved_lines(dice, lines):
    """A line missing, doubled, swapped with another, or an empty one put in."""
    a, b = dice.below(len(lines)), dice.below(len(lines))
    swapped = list(lines)
    swapped[a], swapped[b] = swapped[b], swapped[a]
    return whole(dice.pick([lines[:a] + lines[a + 1:], lines[:a + 1] + lines[a:],
                            swapped, lines[:a] + [b""] + lines[a:]]))


def key_changed(dice, lines):
    """A key spelled in another way."""
    at = dice.below(len(lines))
    key, _, value = lines[at].partition(b"=")
    line = dice.pick([key.upper() + b"=" + value, key + value, key + b" =" + value,
                      b" " + lines[at], key + b"= " + value, key, b"=" + value,
                      key + b"==" + value, key[:-1] + b"=" + value, lines[at] + b" ",
                      b"x=" + value, lines[at] + b"\r"])
    return replaced(lines, at, line)


def every_line(dice, lines):
    """Other line ends throughout."""
    return dice.pick([b"\r\n", b"\r", b"\0", b"\n\n"]).join(lines) + b"\n"


def long_text(dice, lines):
    """A text of exactly the greatest length, now or before P10, one more, or many more."""
    length = dice.pick([MAX_TEXT, OLD_TEXT])
    length += dice.pick([-1, 0, 0, 0, 1, 1, 1, dice.below(MAX_TEXT)])
    way = dice.below(4)
    if way == 0:                                      # an extra line
        text = whole(lines)
        return text + dice.pick([b"x", b"\n", b"\0", b"\xff"]) * (length - len(text))
    if way == 1:                                      # a bad first line
        first = bytes_of(dice.pick(["job=041\n", "\n", "job=-1\n"]))
        return first + b"0" * (length - len(first))
    n = next((len(m[1]) for m in re.finditer(rb":([0-9]+)", lines[-1])), 0)
    if not n:                                         # a long list
        text = whole(lines)[:-1] + b",0" * (length // 2)
        return text[:length - 1] + b"\n"
    # a last `eq` line of many terms, well spelled or not
    text = whole(lines)[:-1] + (b",1:" + b"0" * n) * (length // 4)
    text = text[:length - 2 * n - 13]
    text = text[:text.rindex(b",")]
    last = dice.pick([b",1:", b",0:", b",x:", b",%d:" % (MAX_ENTRY + 1)]) + b"0" * n
    while len(text) + len(last) + 1 < length:         # digits of one coefficient
        gap = length - 1 - len(text) - len(last)
        text += (b",1:" + b"0" * n) if gap >= 2 * (n + 3) + 8 else \
            b"," + b"1" * (gap - n - 2) + b":" + b"0" * n
    return text + last + b"\n"


def made_up(dice, lines):
    """Nothing, an LF, or random bytes."""
    return dice.pick([b"", b"\n", b"\0", b"=", b"job", b"job=", b"job=1", b"job=1\n",
                      bytes(dice.below(256) for _ in range(dice.below(60)))])


WAYS = ([one_value] * 4 + [one_beyond] * 12 + [two_values] * 5 + [ends_crossed] * 2
        + [one_byte] * 3
        + [tail, cut_off, cut_off, moved_lines, moved_lines, key_changed, key_changed])
RARE_WAYS = [every_line, long_text, made_up]


def damaged(dice, text):
    """A damaged text made from a right one."""
    way = dice.pick(RARE_WAYS) if dice.one_in(10) else dice.pick(WAYS)
    return way(dice, lines_of(text))

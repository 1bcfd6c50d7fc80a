"""Cases of document 02, P1: requests `parts L1,L2,..`, job texts in parts of these lengths.

A part past the end of the text is empty; what is left after the last one is a part more.
"""

from answers import HEADER
from arithmetic import Job, MAX_ENTRY, MAX_N, MAX_TEXT, OLD_TEXT
from damage import damaged
from jobs import largest_job, pinned_job, random_job, zero_job
from texts import job_text, joined

POLY = job_text(Job(41, "poly", 1, [-7], [12], [-34], 10, [[(5, (3,)), (-67, (0,))]]))
LINEAR = job_text(Job(8, "linear", 1, [-2], [3], [45], 6, [[-12, 34]]))
EIGEN = job_text(Job(6, "eigen", 1, [-9], [10], [23], 4, [[56]], 1))
PINNED = job_text(Job(7, "eigen", 2, [-1, 2], [3, 45], [6, -7, 8, 9], 1, [[2, -3], [45, 6]], 1))
UNPINNED = PINNED.replace(b"pin=1\n", b"")
SIX = job_text(zero_job("poly", MAX_N, 0))
CROSSED = b"job=5\nkind=poly\nn=1\nlo=3\nhi=2\ninv=9\nsteps=1\neq=\n"
LARGEST = [job_text(largest_job("poly")), job_text(largest_job("eigen")._replace(pin=1))]

DAMAGED = [
    # the first line is bad, or a later one
    b"\n" + POLY, POLY.replace(b"job=41", b"job=041"), POLY.replace(b"41", b"-1"),
    POLY.replace(b"poly", b"Poly"), POLY.replace(b"n=1", b"n=0"), POLY.replace(b"lo=-7", b"lo=13"),
    POLY.replace(b"lo=-7", b"lo=262145"), POLY.replace(b"steps=10", b"steps=1001"),
    POLY.replace(b"5:3", b"0:3"), POLY.replace(b"5:3", b"5:33"), LINEAR.replace(b",34", b""),
    PINNED.replace(b"pin=1", b"pin=2"), PINNED.replace(b"pin=1", b"pin=x"),
    PINNED.replace(b"lo=", b"pin=1\nlo="), LINEAR.replace(b"lo=", b"pin=1\nlo="),
    EIGEN.replace(b"lo=", b"pi=1\nlo="),
    # lines are missing, or the last LF
    POLY.replace(b"n=1\n", b""), POLY[:POLY.index(b"eq")], PINNED[:PINNED.rindex(b"row")],
    POLY[:-1], PINNED[:-1], PINNED[:PINNED.index(b"\nlo")], SIX[:SIX.rindex(b"eq")], b"j",
    # bytes after the last line
    POLY + b"x", POLY + b"\n", POLY + b"\0", POLY * 2, PINNED + b"row=0,0\n",
    LARGEST[-1] + b"x", SIX + b"eq=\n",
    # other line ends, other bytes
    POLY.replace(b"\n", b"\r\n"), POLY.replace(b"\n", b"\r"), POLY[:-1] + b"\r\n", b"\n" * 9,
    b"\0" * 9, POLY.replace(b"1\n", b"1\0\n", 1), b"\xff" + POLY,
]
# lengths about the most that 32, 63 and 64 bits hold, and one of 30 digits
FAR = [2 ** 32, 2 ** 63, 2 ** 64 - 1, 2 ** 64, 10 ** 30 - 1]


def parts(lengths):
    """The words of a request."""
    return f"parts {joined(lengths)}"


def lengths_at(places):
    """The lengths of parts whose ends are these places, which stand in order."""
    return [place - before for before, place in zip([0, *places], places)]


def found(text, byte):
    """The places of a byte."""
    return [at for at, one in enumerate(text) if one == ord(byte)]


def around_feeds(text):
    """Every line feed is a part."""
    return lengths_at([at + more for at in found(text, "\n") for more in (0, 1)])


def in_lines(text):
    """Parts that end before each line feed or behind it; inside each key, before its `=`,
    behind it, and inside each value."""
    for byte, more in (("\n", 0), ("\n", 1), ("=", -1), ("=", 0), ("=", 1), ("=", 2)):
        yield lengths_at([at + more for at in found(text, byte)])


def with_empty_parts(text):
    """Empty parts first, last, between others and between all bytes."""
    half = len(text) // 2
    yield from ([0] * 9, [half, 0], [half, 0, 0, 0, 1], [len(text), 0],
                [0, half, 0, 0, len(text) - half, 0, 0], [0, 1] * len(text) + [0])


def past_the_end(text):
    """Lengths past the end; in 32 or in 64 bits some would be others, or sum up to others."""
    half = len(text) // 2
    yield from ([len(text) + 1], [len(text), 1], [half, len(text)], [half, 9_999, 1])
    yield from ([far] for far in FAR)
    yield from ([2 ** 32 + half], [2 ** 64 + half], [2 ** 63, 2 ** 63], [1, 2 ** 64 - 1],
                [half, 2 ** 64 - half, 1])


def of_length(length):
    """Texts of a length: with an extra line; bad from the first line on; with a last line
    so long that only its last term, which is beyond its size, decides."""
    yield POLY + b"x" * (length - len(POLY))
    yield b"job=041\n" + b"0" * (length - 8)
    head, last = POLY[:-1], b",%d:0\n" % (MAX_ENTRY + 1)
    terms, digits = divmod(length - len(head) - len(last), len(b",1:0"))
    yield head + b",1:0" * (terms - 1) + b",1" + b"1" * digits + b":0" + last


def long_texts():
    """Texts of the greatest length, now and before P10, and one more, cut there or elsewhere."""
    for most in (OLD_TEXT, MAX_TEXT):
        for length, cuts in ((most, ([most // 2], [most - 1], [most, 0])),
                             (most + 1, ([most], [8], [most - 1, 1, 0]))):
            for text, lengths in zip(of_length(length), cuts):
                yield parts(lengths), text
    yield parts([8] + [MAX_TEXT] * 2), b"\n" * (MAX_TEXT + 9)


def long_lines():
    """Lines of requests as long as they may be: many lengths, or one of many digits."""
    for length, text in (("1", next(of_length(MAX_TEXT))), ("1", LARGEST[0]), ("0", POLY)):
        room = HEADER - len(f"parts  {len(text)}\n")
        many = f"{length}," * (room // 2 - 1)
        yield f"parts {many}" + "9" * (room - len(many)), text
    yield "parts " + "9" * (HEADER - len(f"parts  {len(PINNED)}\n")), PINNED


def fixed_parts():
    """The cases that stand in every set."""
    for text in (POLY, LINEAR, PINNED, CROSSED):
        for place in range(len(text) + 1):
            yield parts([place]), text
    for text in (POLY, LINEAR, EIGEN, PINNED):
        for lengths in in_lines(text):
            yield parts(lengths), text
    for text in (POLY, LINEAR, EIGEN, PINNED, UNPINNED, CROSSED, *LARGEST, *DAMAGED):
        yield parts([1] * len(text)), text
        if b"\n" in text:
            yield parts(around_feeds(text)), text
    for text in (POLY, PINNED[:-1], CROSSED):
        for lengths in with_empty_parts(text):
            yield parts(lengths), text
    for text in (POLY, PINNED[:-1]):
        for lengths in past_the_end(text):
            yield parts(lengths), text
    for lengths in ([0], [0] * 9, [1], [0, 7, 0], *([far] for far in FAR)):
        yield parts(lengths), b""
    yield from long_texts()
    yield from long_lines()


# Random ones.

def random_lengths(dice, text):
    """Parts that end anywhere or beside line feeds, few or many; or short ones, all alike.
    At times empty ones among them, or one past the end."""
    anywhere = list(range(len(text) + 1))
    beside = [at + more for at in found(text, "\n") for more in (0, 1)]
    places = beside if beside and dice.one_in(2) else anywhere
    count = dice.pick([1, 1, 2, 3, 5, 9, 30])
    lengths = lengths_at(sorted(dice.pick(places) for _ in range(count)))
    if dice.one_in(6):
        lengths = [dice.between(1, 9)] * dice.between(1, 90)
    for _ in range(dice.pick([0, 0, 1, 5])):
        lengths.insert(dice.between(0, len(lengths)), 0)
    if dice.one_in(8):
        far = dice.pick([len(text), len(text) + 1, MAX_TEXT, MAX_TEXT + 1, *FAR])
        lengths[dice.below(len(lengths))] = far
    return lengths


def random_text(dice):
    """A job text, mostly a damaged one."""
    text = job_text(dice.pick([random_job, random_job, pinned_job])(dice))
    return text if dice.one_in(3) else damaged(dice, text)


def random_part(dice):
    """One request."""
    text = random_text(dice)
    return parts(random_lengths(dice, text)), text

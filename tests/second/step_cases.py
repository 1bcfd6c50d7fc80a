"""Cases of document 02, P7: requests `image`, `image LO HI` and `decide N LO HI KLO KHI`.

In both operations places past n play no part, so that many lists here end in numbers
that no check would take; a place that a list leaves out is 0.
"""

from itertools import combinations_with_replacement

from arithmetic import (Job, MAX_END, MAX_IMAGE, MAX_N, MAX_TEXT, ends_of, equations_of,
                        image, rows_of)
from damage import damaged
from jobs import box_around, largest_job, random_job, symmetric_job, zero_job
from texts import job_text, joined

ONE = Job(1, "poly", 1, [0], [9], [30_000], 0, [[(65_536, (3,)), (-9, (0,))]])
# x x + x y = 1 and y y + x = 1
TWO = Job(2, "poly", 2, [0, 0], [65_536, 65_536], [30_000, -9_000, -9_000, 30_000], 8,
          [[(65_536, (2, 0)), (65_536, (1, 1)), (-65_536, (0, 0))],
           [(65_536, (1, 0)), (65_536, (0, 2)), (-65_536, (0, 0))]])
LARGEST, SIX = largest_job("poly"), zero_job("poly", MAX_N, 0)

FAR = 10 ** 18 - 1                  # the longest number of a request
E, K = MAX_END, MAX_IMAGE           # the greatest end of a box, and of an image
E1, K1 = E + 1, K + 1               # and one beyond
N1 = MAX_N + 1                      # one unknown too many

BOXES = [                           # a job, LO and HI
    (ONE, f"0,{E1},1,-{FAR},{K1},-1 9,0,0,{FAR},0,-{K1}"), (ONE, "0,1 0"),
    (TWO, "0,0 9,9"), (TWO, f"-{E},-{E} {E},{E}"), (TWO, f"{E},-{E} {E},-{E}"),
    (TWO, f"-{E1},0 0,0"), (TWO, f"0,-{E1} 0,0"), (TWO, f"0,0 {E1},0"), (TWO, f"0,0 0,{E1}"),
    (TWO, f"-{FAR},0 9,9"), (TWO, f"0,{FAR} 9,{FAR}"),
    (TWO, "1,0 0,0"), (TWO, "0,1 0,0"),                             # crossed
    (TWO, f"1,0 0,{E1}"), (TWO, f"0,0 0,-{E1}"),                    # 4 before 5
    (TWO, f"0,0,{FAR},1 9,9,-{FAR}"),                               # past n
    (TWO, "5 9"), (TWO, "-5 5,5"), (TWO, "1,1 5"),                  # left out
    (LARGEST, f"{joined([-E] * MAX_N)} {joined([E] * MAX_N)}"), (LARGEST, "-9,-9 9"),
    (SIX, f"0,0,0,0,0,-{E1} 9,9,9,9,9,9"), (SIX, "0,0,0,0,0,1 9,9,9,9,9,0"),
    (SIX, "0,0,0,0,-9 9,9,9,9,9"),
]
WRONG_BOX = f"1,0 0,{E1}"

DECISIONS = [                       # N, LO, HI, KLO and KHI
    # boxes without width, or nearly
    "1 0 0 0 0", "1 0 0 1 1", "1 0 1 0 0",
    # one coordinate decides, or all do
    "2 0,0 9,9 1,10 8,11", "2 0,0 9,9 1,0 8,8", "2 0,0 9,9 1,-5 8,20",
    "4 0,0,0,0 9,9,9,9 1,1,1,1 8,8,8,8", "4 0,0,0,0 9,9,9,9 1,1,1,1 8,8,8,9",
    "4 0,0,0,0 9,9,9,9 1,1,1,-2 8,8,8,-1", "5 0,0,0,0,0 9,9,9,9,9 1,1,1,1,1 8,8,8,8,8",
    "5 0,0,0,0,0 9,9,9,9,9 1,1,1,1,0 8,8,8,8,8", "5 0,0,0,0,0 9,9,9,9,9 1,1,1,1,10 8,8,8,8,12",
    "6 0,0,0,0,0,0 9,9,9,9,9,9 1,1,1,1,1,1 8,8,8,8,8,8",
    "6 0,0,0,0,0,0 9,9,9,9,9,9 1,1,1,1,1,1 8,8,8,8,8,9",
    "6 0,0,0,0,0,0 9,9,9,9,9,9 1,1,1,1,1,-2 8,8,8,8,8,-1",
    # at the limits of X and K, and one beyond
    f"2 -{E},-{E} {E},{E} -{K},-{K} {K},{K}", f"1 {E} {E} {K} {K}", f"1 -{E} -{E} -{K} -{K}",
    f"1 -{E1} 0 0 0", f"2 0,0 0,{E1} 0,0 0,0", f"2 0,{E1} 0,{E1} 0,0 0,0", f"1 0 -{E1} 0 0",
    f"1 0 9 -{K1} 0", f"2 0,0 9,9 0,0 0,{K1}", f"2 0,0 9,9 0,{K1} 0,{K1}", f"1 0 9 0 -{K1}",
    f"1 0 9 0 {FAR}", f"6 0,0,0,0,0,{E1} 0,0,0,0,0,{E1} 0 0", f"6 0 9 0,0,0,0,0,-{K1} 0",
    # crossed
    "2 0,9 9,8 0,0 0,0", "2 0,0 9,9 0,9 9,8", "6 0,0,0,0,0,1 0 0 0", "6 0 9 0,0,0,0,0,1 9",
    # n; one that 64 bits would make 1
    "0 0 0 0 0", f"{N1} 0 0 0 0", f"{2 ** 64 + 1} 0 0 0 0", f"{10 ** 40} 0 0 0 0",
    # of two faults the first: 3, then 4 and 5 of X, then 4 and 5 of K
    f"{N1} {E1} {E1} 0 0", f"{N1} 1 0 0 0", f"{N1} 0 0 {K1} {K1}", f"{N1} 0 0 1 0",
    f"2 1,0 0,{E1} 0,0 0,0", f"2 0,{E1} 0,{E1} 1,0 0,0", f"2 0,1 9,0 {K1},0 {K1},0",
    f"2 0,0 9,9 1,0 0,{K1}",
    # past n: beyond and crossed; apart; inside
    f"1 0,{FAR},1 9,-{FAR},0 1,{K1} 8,0,0,{FAR}", "1 0,0 9,9 1,20 8,30", "1 0,0 9,9 -1,3 9,5",
    f"2 0,0,1,{E1} 9,9,0,0 1,1,-{K1},5 8,8,{K1},4",
    f"5 0,0,0,0,0,{E1} 9,9,9,9,9,0 1,1,1,1,1,1 8,8,8,8,8,-{K1}",
    # left out
    "4 0 0 0 0", "6 0 0 0 0", "6 0,0,0,0,0 9 1 8,8", "2 0,5 9,9 1 8", "2 0,1 9 0 0",
]


def wrong_jobs():
    """Texts with a fault of their own; it comes before the box's and has its line."""
    text = job_text(TWO)
    for old, new in ((b"n=2", b"n=0"), (b"lo=0,", b"lo=%d," % E1), (b"hi=65536,", b"hi=-1,"),
                     (b"steps=8", b"steps=1001")):
        yield text.replace(old, new)
    yield text[:-1]
    yield b""
    yield text + b"x" * (MAX_TEXT + 1 - len(text))


def fixed_steps():
    """The cases that stand in every set."""
    for job, box in BOXES:
        yield f"image {box}", job_text(job)
    for text in wrong_jobs():
        yield f"image {WRONG_BOX}", text
    # every way that an image can lie against the box [0, 2], by single marks
    for klo, khi in combinations_with_replacement((-1, 0, 1, 2, 3), 2):
        yield f"decide 1 0 2 {klo} {khi}", b""
    for row in DECISIONS:
        yield f"decide {row}", b""


# Random ones.

def harmed(dice, box, size):
    """The ends of a box: mostly as they are; else one at a limit of its size or one
    beyond, or two crossed, or both."""
    lo, hi = ends_of(box)
    if dice.one_in(8):
        ends = dice.pick([lo, hi])
        ends[dice.below(len(ends))] = dice.pick([size, -size, size + 1, -size - 1])
    if dice.one_in(16):
        place = dice.below(len(lo))
        lo[place], hi[place] = hi[place] + dice.below(2), lo[place]
    return lo, hi


def spelled(dice, ends):
    """A list of a request: mostly of n numbers; else of more, which no check would take,
    or of fewer."""
    way = dice.below(20)
    if way == 0:
        ends = ends[:dice.between(1, len(ends))]
    elif way <= 8:
        garbage = [E1, -E1, K1, -K1, FAR, -FAR]
        ends = ends + [dice.pick(garbage) for _ in range(len(ends), MAX_N)]
    return joined(ends)


def random_image(dice, job):
    """The image of a job, mostly a right one, over its own box or another one."""
    text = damaged(dice, job_text(job)) if dice.one_in(6) else job_text(job)
    if dice.one_in(4):
        return "image", text
    lo, hi = harmed(dice, box_around(dice, job.lo), MAX_END)
    return f"image {spelled(dice, lo)} {spelled(dice, hi)}", text


def against(dice, X):
    """An image whose ends are those of X or lie beside them, in all coordinates in one
    way or in each in its own; at times one coordinate touches X from outside, or is apart."""
    ways = [(1, -1), (1, -1), (1, -1), (0, 0), (-1, 1), (0, -1), (1, 0), (1, 1), (-1, -1)]
    same, mixed, far = dice.pick(ways), dice.one_in(4), dice.pick([1, 1, 2, 9, 900])
    found = []
    for low, high in X:
        down, up = dice.pick(ways) if mixed else same
        found.append(sorted((low + far * down, high + far * up)))
    if dice.one_in(5):
        place = dice.below(len(X))
        low, high = X[place]
        gap = dice.below(2)
        found[place] = dice.pick([(low - gap - far, low - gap),
                                  (high + gap, high + gap + far)])
    return found


def random_decision(dice, job):
    """What is decided of the first step of a job, or of an image against its box."""
    X = list(zip(job.lo, job.hi))
    near = dice.one_in(2)
    found = against(dice, X) if near else image(X, rows_of(job), equations_of(job))
    lists = (*harmed(dice, X, MAX_END), *harmed(dice, found, MAX_IMAGE))
    n = dice.pick([0, MAX_N + 1, 2 ** 64 + job.n]) if dice.one_in(12) else job.n
    return f"decide {n} " + " ".join(spelled(dice, ends) for ends in lists), b""


def random_step(dice):
    """One request."""
    if dice.one_in(2):
        return random_image(dice, dice.pick([random_job, symmetric_job])(dice))
    return random_decision(dice, random_job(dice))

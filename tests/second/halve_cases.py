"""Cases of document 02, P8: requests `halve DEPTH ROOM`, a job whose box is halved."""

from arithmetic import MAX_BOXES, MAX_DEPTH, MAX_END, MAX_N, OLD_N, Job, unit
from damage import damaged, replaced
from jobs import pinned_job, random_job, symmetric_job, unknowns, zero_job
from pin_cases import FLAT_LINES, PIN_AT
from step_cases import FAR, wrong_jobs
from texts import job_text
from zeros import job_with_several

# The hinge of examples/hinge-wide.txt, its knees at (1, 3/4) and (1, -3/4): at the other knee
# the slopes in y have the other sign, and an inverse serves one of the two.
WIDE = Job(301, "poly", 2, [49_152, -65_536], [81_920, 65_536],
           [16_384, -16_384, 21_845, 21_845], 20,
           [[(65_536, (2, 0)), (65_536, (0, 2)), (-102_400, (0, 0))],
            [(65_536, (2, 0)), (-262_144, (1, 0)), (65_536, (0, 2)), (159_744, (0, 0))]])
# The same hinge in the equations of examples/hinge-two.txt, which one inverse serves at both.
TWO = Job(305, "poly", 2, [49_152, -57_344], [73_728, 57_344], [32_768, 0, 0, 58_254], 20,
          [[(65_536, (2, 0)), (65_536, (0, 2)), (-102_400, (0, 0))],
           [(65_536, (2, 1)), (-131_072, (1, 1)), (65_536, (0, 3)), (28_672, (0, 1))]])
# x x x = x: -1, 0 and 1, of which the inverse serves the outer two
CUBIC = Job(308, "poly", 1, [-98_304], [131_072], [32_768], 20,
            [[(65_536, (3,)), (-65_536, (1,))]])
# the equations of T11 with a poor inverse, one step at a time
LOAD = Job(502, "linear", 2, [-65_536, -65_536], [36_000, 18_000],
           [12_000, 3_000, -1_000, 4_000], 1, [[131_072, 0, 65_536], [0, 262_144, 65_536]])
# x = y/2 twice over: a line of zeros
LINE = Job(503, "linear", 2, [-5_000, -65_536], [5_000, 65_536], [65_536, 0, 0, 0], 8,
           [[65_536, -32_768, 0], [-131_072, 65_536, 0]])
# both eigenpairs of T12's matrix, its first coordinate pinned
PAIRS = Job(14, "eigen", 2, [32_768, -32_768], [163_840, 98_304], [-65_536, 65_536, 0, 65_536],
            20, [[65_536, 65_536], [0, 131_072]], 1)
# 1 = 0
NOTHING = Job(9, "poly", 1, [0], [2], [65_536], 8, [[(65_536, (0,))]])

ON_CUTS = [                         # the zeros lie on cuts, and in two boxes each, or on ends
    TWO._replace(lo=[49_152, -65_536], hi=[73_728, 65_536]), CUBIC._replace(lo=[-131_072]),
    CUBIC._replace(lo=[-65_536], hi=[65_536])]
WIDTHS = [                          # of boxes in which edges are alike, all or some of them
    (5, 5), (4, 5), (5, 4), (2, 2), (1, 2), (2, 1), (1, 1), (0, 0), (0, 3),
    (5, 5, 5), (4, 5, 5), (5, 4, 5), (5, 5, 4), (1, 2, 2), (3, 3, 3),
    (9, 9, 9, 9), (3, 9, 9, 9), (9, 3, 9, 9), (9, 9, 3, 9), (9, 9, 9, 3), (3, 3, 9, 9),
    (1, 1, 1, 2), (1, 2, 1, 2), (2, 1, 1, 1), (1, 1, 1, 1), (0, 0, 0, 2), (8, 4, 2, 1),
    (5, 5, 5, 5, 5), (4, 4, 4, 4, 5), (5, 5, 5, 5, 4), (1, 1, 1, 2, 1), (0, 0, 0, 0, 2),
    (9, 9, 9, 9, 9, 9), (3, 3, 3, 3, 9, 9), (9, 3, 3, 3, 3, 9), (1, 1, 1, 1, 1, 2),
    (2, 1, 1, 1, 1, 2), (1, 1, 1, 1, 1, 1), (0, 0, 0, 0, 0, 2), (1, 2, 3, 5, 7, 9)]
# not 0 to 8; in 8, 16 or 32 bits some would be
DEPTHS = [-1, MAX_DEPTH + 1, -MAX_DEPTH, 10, 64, 255, 256, 257, -255, 2 ** 16, 2 ** 32,
          2 ** 32 + 1, 1 - 2 ** 32, 2 ** 59, FAR, -FAR]


def followed(n):
    """The hinge of TWO with half of y put before it and halves of x between the two, n unknowns
    in all."""
    y, halves = n - 1, range(2, n - 1)
    first, last = [[(c, unit(n, *[1] * e, *[y] * f)) for c, (e, f) in line]
                   for line in TWO.lines]
    rows = [{0: 65_536, y: 29_127}, {1: 32_768}, *({1: 16_384, k: 65_536} for k in halves),
            {y: 58_254}]
    return Job(310 + n, "poly", n, [-40_000, 49_152, *[20_000] * len(halves), -57_344],
               [40_000, 73_728, *[40_000] * len(halves), 57_344],
               [row.get(j, 0) for row in rows for j in range(n)], 20,
               [[(65_536, unit(n, 0)), (-32_768, unit(n, y))], first,
                *([(-32_768, unit(n, 1)), (65_536, unit(n, k))] for k in halves), last])


def halve(depth, room=MAX_BOXES):
    """The words of a request."""
    return f"halve {depth} {room}"


def still(lo, hi, steps=0):
    """A job that decides nothing and cuts nothing off: without steps it is spent; with them,
    its inverse being zero, it stalls.  Its boxes are halved as far as may be."""
    return zero_job("poly", len(lo), 0)._replace(lo=lo, hi=hi, steps=steps)


def refused():
    """Depths that are not 0 to 8, whatever the room; and of two faults the first: the job's
    own, then 8, then 7."""
    for depth in DEPTHS:
        for room in (0, MAX_BOXES):
            yield halve(depth, room), job_text(WIDE)
    for text in (*wrong_jobs(), replaced(FLAT_LINES, PIN_AT, b"pin=2")):
        for words in (halve(MAX_DEPTH + 1, 0), halve(-1), halve(1, 1), halve(1)):
            yield words, text


def every_room():
    """Rooms about two to the power of each depth, for a job of which nothing is listed."""
    for depth in range(MAX_DEPTH + 1):
        most = 2 ** depth
        for room in sorted({0, 1, most - 1, most, most + 1, MAX_BOXES - 1, MAX_BOXES}):
            if room <= MAX_BOXES:
                yield halve(depth, room), job_text(NOTHING)


def small_boxes():
    """Edges of a few marks, below zero too, where down is not toward zero; and edges alike."""
    for low in (-3, -2, 1):
        for wide in range(5):
            for depth in (1, 3):
                yield halve(depth), job_text(still([low], [low + wide], wide % 2))
    for widths in WIDTHS:
        lo = [-3 - place for place in range(len(widths))]
        hi = [low + wide for low, wide in zip(lo, widths)]
        for depth in (1, min(len(widths), OLD_N) + 1):
            yield halve(depth), job_text(still(lo, hi, depth % 2))
    for low, high in ((-MAX_END, 1 - MAX_END), (-MAX_END, 3 - MAX_END), (MAX_END - 3, MAX_END)):
        yield halve(2), job_text(still([low], [high]))


def every_depth():
    """Jobs at every depth; the list has room for what may be listed, or for more."""
    jobs = [WIDE, TWO, *map(followed, range(3, MAX_N + 1)), CUBIC, LOAD, LINE, PAIRS, *ON_CUTS]
    jobs += [still([-MAX_END], [MAX_END], 1)]
    for number, job in enumerate(jobs):
        for depth in range(MAX_DEPTH + 1):
            yield halve(depth, MAX_BOXES if number % 2 else 2 ** depth), job_text(job)


def full_lists():
    """As many boxes as are ever listed, of few unknowns and of the most."""
    for n in (2, MAX_N):
        yield halve(MAX_DEPTH), job_text(still([-MAX_END] * n, [MAX_END] * n))


def fixed_halvings():
    """The cases that stand in every set."""
    yield from refused()
    yield from every_room()
    yield from small_boxes()
    yield from every_depth()
    yield from full_lists()


# Random ones.

def small_job(dice):
    """A job that never decides, on a box of a few marks with edges that are often alike."""
    sizes = [dice.below(10), dice.below(10)]
    lo = [dice.around(9) for _ in range(unknowns(dice))]
    return still(lo, [low + dice.pick(sizes) for low in lo], dice.below(2))


def several_job(dice):
    """A job with several known zeros in its box."""
    return job_with_several(dice)[0]


def random_room(dice, depth):
    """As many boxes as may be listed, any more, or one less."""
    most = 2 ** depth
    more = dice.between(most, MAX_BOXES)
    return dice.pick([most] * 5 + [more] * 2 + [MAX_BOXES] * 3 + [most - 1])


def random_halving(dice):
    """One request.  The more unknowns the less deep, and where it is deep there are few steps,
    for the time that they would take."""
    maker = dice.pick([several_job] * 5 + [random_job, random_job, symmetric_job, pinned_job,
                                           small_job])
    job = maker(dice)
    deepest = MAX_DEPTH if job.n <= 2 else 5 if job.n <= OLD_N else 3
    depth = min(dice.between(0, MAX_DEPTH), deepest)
    job = job._replace(steps=min(job.steps, 60 >> depth // 2))
    text = damaged(dice, job_text(job)) if dice.one_in(8) else job_text(job)
    if dice.one_in(12):
        return halve(dice.pick(DEPTHS), dice.between(0, MAX_BOXES)), text
    return halve(depth, random_room(dice, depth)), text

"""Random jobs that document 01 accepts, leaning to its corners.

A job is made of independent choices: a kind and n, a system with a wanted zero
z (or none), a box placed against z, an inverse, an allowance.  Good inverses are
computed in fractions from the slopes at the middle of the box.  Symmetric jobs are
those of document 02, P5: boxes round zero, squares and cubes in their terms.  Pinned
jobs are those of P2: eigen jobs with a pin line.
"""

from fractions import Fraction
from functools import lru_cache
from itertools import product as every

from arithmetic import (Job, KINDS, MARK, MAX_N, MAX_STEPS, MAX_JOB, MAX_END,
                        MAX_ENTRY, MAX_TERMS, MAX_DEGREE, OLD_N, ends_of,
                        equation_over, equations_of, middle, slope, unit)


def clip(value, size):
    """The nearest whole number within -size to size."""
    return max(-size, min(size, value))


@lru_cache(None)
def monomials(n):
    """All exponents of total degree 0 to 3, falling."""
    digits = range(MAX_DEGREE + 1)
    return sorted((e for e in every(digits, repeat=n) if sum(e) <= MAX_DEGREE),
                  reverse=True)


def coefficient(dice, size):
    """A number of about that size that is not zero."""
    return dice.around(size) or 1


def sizes(dice):
    """A size for entries: some marks, a part of a unit, units, the limit."""
    return dice.pick([3, 900, MARK // 8, MARK // 4, MARK, 4 * MARK, MAX_ENTRY])


def strong(dice):
    """A diagonal entry: a power of two, or any number of some units."""
    if dice.one_in(2):
        return dice.pick([1, -1]) * (MARK << dice.below(7)) // 2
    return dice.pick([1, -1]) * dice.between(MARK // 2, 8 * MARK)


# Systems.

def poly_lines(dice, n):
    """Equations with a strong diagonal and further terms, or terms alone."""
    choices = monomials(n)
    steady = not dice.one_in(6)
    size = dice.pick([3, 900, MARK // 16, MARK // 8]) if steady else sizes(dice)
    lines = []
    for i in range(n):
        count = dice.pick([0, 0, 1, 2, 3, 5, 9, MAX_TERMS - 2, MAX_TERMS])
        terms = {e: coefficient(dice, size) for e in dice.some(choices, count)}
        if steady:
            terms[tuple(int(i == k) for k in range(n))] = strong(dice)
        if dice.one_in(9):                            # the highest degrees only
            terms = {e: c for e, c in terms.items() if sum(e) == MAX_DEGREE}
        if dice.one_in(12):
            terms = {e: dice.pick([MAX_ENTRY, -MAX_ENTRY]) for e in terms}
        lines.append([(terms[e], e) for e in sorted(terms, reverse=True)][:MAX_TERMS])
    return lines


def symmetric_lines(dice, n):
    """In equation i unknown i, its cube and its products with squares, all of one sign,
    so that their slope in it keeps that sign where no square is negative; and further
    terms of degree 2 and 3."""
    further = [e for e in monomials(n) if sum(e) >= 2]
    size = dice.pick([1, 900, MARK // 32, MARK // 4])
    lines = []
    for i in range(n):
        terms = {e: coefficient(dice, size) for e in dice.some(further, dice.below(4))}
        sign, most = dice.pick([1, -1]), dice.pick([MARK // 4, MARK, 4 * MARK])
        terms[unit(n, i)] = sign * dice.between(MARK // 8, MARK)
        for k in range(n):
            if k == i or dice.one_in(3):
                terms[unit(n, i, k, k)] = sign * dice.between(1, most)
        lines.append([(terms[e], e) for e in sorted(terms, reverse=True)])
    return lines


def row_lines(dice, kind, n):
    """Rows with a strong diagonal, or any."""
    steady = not dice.one_in(6)
    size = dice.pick([0, 900, MARK // 8, MARK // 4]) if steady else sizes(dice)
    width = n + 1 if kind == "linear" else n
    return [[strong(dice) if steady and i == j else dice.around(size)
             for j in range(width)] for i in range(n)]


def settle(kind, n, lines, z, pin=0):
    """The same lines with constants that bring each equation near 0 at z; those of an
    eigen job are the column of the pinned coordinate."""
    point, nothing, settled = [(v, v) for v in z], (0,) * n, []
    for i, line in enumerate(lines):
        if kind == "poly":
            rest = [term for term in line if term[1] != nothing][:MAX_TERMS - 1]
            constant = clip(-equation_over(rest, point)[0], MAX_ENTRY)
            settled.append(rest + [(constant, nothing)] * (constant != 0))
        else:
            place = n if kind == "linear" else pin - 1
            row = line[:place] + [0] + line[place + 1:]
            rows = [row if k == i else line for k in range(n)]
            value = equation_over(
                equations_of(Job(0, kind, n, [], [], [], 0, rows, pin))[i], point)[0]
            row[place] = clip(value if kind == "linear" else -value, MAX_ENTRY)
            settled.append(row)
    return settled


# Boxes.

def interval(dice, placing, z, radius):
    """One edge of the box, placed against the wanted zero z."""
    a, b = dice.between(0, radius), dice.between(0, radius)
    if placing == "mid":                              # z is the middle
        ends = z - radius, z + radius
    elif placing == "low":                            # z at the low end, or next to it
        ends = z + dice.pick([-1, 0, 0, 1]), z + radius
    elif placing == "high":                           # z at the high end
        ends = z - radius, z + dice.pick([-1, 0, 0, 1])
    elif placing == "flat":                           # width zero at z, or next to it
        z += dice.pick([-1, 0, 0, 1])
        ends = z, z
    elif placing == "off":                            # z outside
        far = dice.between(1, 1 + radius) * dice.pick([1, -1])
        ends = z + far + a * (far > 0) - b * (far < 0), z + far
    elif placing == "limit":
        ends = dice.pick([(-MAX_END, MAX_END), (MAX_END, MAX_END), (z, MAX_END),
                          (-MAX_END, -MAX_END), (-MAX_END, z), (MAX_END - 2, MAX_END)])
    elif placing == "wild":
        ends = dice.around(MAX_END), dice.around(MAX_END)
    else:
        ends = z - a, z + b
    ends = [clip(end, MAX_END) for end in ends]
    return min(ends), max(ends)


def box_around(dice, z):
    """A box placed in one way, or in each coordinate in its own way."""
    ways = ["mid", "mid", "in", "in", "low", "high", "flat", "off", "limit", "wild"]
    radius = dice.pick([1, 2, 3, 9, 30, 100, 300, 900, 1_000, 2_000, 4_000, 9_000,
                        9_000, 20_000, 20_000, 40_000, MARK])
    same = dice.pick(ways + ["in", "mid"] * 5 + ["low", "high"])
    mixed = dice.one_in(4)
    return [interval(dice, dice.pick(ways) if mixed and dice.one_in(2) else same,
                     v, radius) for v in z]


def round_zero(dice):
    """An edge that holds 0 in its middle, elsewhere or at an end, or ends beside it."""
    radius = dice.pick([1, 900, MARK // 4, MARK // 2, MARK // 2, MARK, MARK, 2 * MARK])
    far = dice.between(0, radius)
    return dice.pick([(-radius, radius), (-radius, radius), (-radius, far), (-far, radius),
                      (0, radius), (-radius, 0), (1, radius), (-radius, -1), (0, 0)])


# Inverses.

def inverse(matrix):
    """The inverse of a matrix of fractions, or None where there is none."""
    n = len(matrix)
    rows = [list(row) + [Fraction(i == j) for j in range(n)]
            for i, row in enumerate(matrix)]
    for j in range(n):
        pivot = next((i for i in range(j, n) if rows[i][j]), None)
        if pivot is None:
            return None
        rows[j], rows[pivot] = rows[pivot], rows[j]
        rows[j] = [v / rows[j][j] for v in rows[j]]
        for i in range(n):
            if i != j and rows[i][j]:
                factor = rows[i][j]
                rows[i] = [v - factor * w for v, w in zip(rows[i], rows[j])]
    return [row[n:] for row in rows]


def inverse_in_marks(slopes):
    """The inverse of slopes in marks, in marks; None where singular."""
    found = inverse([[Fraction(v, MARK) for v in row] for row in slopes])
    return found and [clip(round(v * MARK), MAX_ENTRY) for row in found for v in row]


def good_inverse(equations, box):
    """The inverse of the slopes at the middle."""
    point = [(middle(x), middle(x)) for x in box]
    return inverse_in_marks([[slope(equation, j, point)[0] for j in range(len(box))]
                             for equation in equations])


def wide_inverse(equations, box):
    """The inverse of the middles of the slopes over the box: better where a slope is
    least or greatest at the middle, as that of a cube on a box round zero is."""
    return inverse_in_marks([[middle(slope(equation, j, box)) for j in range(len(box))]
                             for equation in equations])


def choose_inverse(dice, equations, box):
    """Mostly a good inverse; else one too small or too large, or a useless one."""
    n = len(box)
    way = dice.pick(["good"] * 9 + ["part"] * 4 + ["zero", "wild", "limit", "one"])
    if way in ("good", "part"):
        good = good_inverse(equations, box)
        if good is not None:
            eighths = 8 if way == "good" else dice.pick([1, 2, 4, 6, 7, 9, 12, 15])
            return [clip(v * eighths // 8, MAX_ENTRY) for v in good]
    if way == "zero":
        return [0] * (n * n)
    if way == "limit":
        return [dice.pick([MAX_ENTRY, -MAX_ENTRY]) for _ in range(n * n)]
    if way == "one":
        return [MARK * (i == j) for i in range(n) for j in range(n)]
    size = sizes(dice)
    return [dice.around(size) for _ in range(n * n)]


# Jobs.

def allowance(dice):
    """0, 1, 2, the limit, or a few steps."""
    few = dice.between(3, 12)
    return dice.pick([0, 1, 1, 2, 2, 3, few, few, few, few, few, few, 8, 8,
                      dice.between(13, 60), MAX_STEPS - dice.below(2)])


def job_number(dice):
    """Any job number, both ends often."""
    return dice.pick([0, 1, 41, MAX_JOB, dice.below(1_000), dice.between(0, MAX_JOB)])


def unknowns(dice):
    """How many unknowns; few of them oftener than many, whose texts are longer."""
    return dice.pick([*range(1, MAX_N + 1), *range(1, OLD_N + 1), 1, 2])


def random_job(dice, kind=None, n=None, pin=None):
    """A job that every check accepts; where no pin is asked for, the last is pinned."""
    kind = kind or dice.pick(["poly", "poly", *KINDS])
    n = n or unknowns(dice)
    pin = (pin or n) if kind == "eigen" else 0
    lines = poly_lines(dice, n) if kind == "poly" else row_lines(dice, kind, n)
    reach = dice.pick([9, MARK // 2, MARK, 2 * MARK, MAX_END])
    z = [dice.around(reach) for _ in range(n)]
    if not dice.one_in(6):
        lines = settle(kind, n, lines, z, pin)
    box = box_around(dice, z)
    job = Job(job_number(dice), kind, n, *ends_of(box), [], allowance(dice), lines, pin)
    return job._replace(inv=choose_inverse(dice, equations_of(job), box))


# Every n and every pin that is written.
PINNED = [(n, pin) for n in range(1, MAX_N + 1) for pin in range(1, n)]


def pinned_job(dice):
    """An eigen job with a pin line."""
    n = max(2, unknowns(dice))
    return random_job(dice, "eigen", n, dice.between(1, n - 1))


def zero_job(kind, n, pin):
    """A job of nothing but zeros, its box without width."""
    line = [] if kind == "poly" else [0] * (n + (kind == "linear"))
    return Job(0, kind, n, [0] * n, [0] * n, [0] * n * n, 1, [line] * n, pin)


def largest_job(kind):
    """A job with every number as long as it may be."""
    full = [-MAX_ENTRY] * (MAX_N * MAX_N)
    width = MAX_N + 1 if kind == "linear" else MAX_N
    if kind == "poly":
        line = [(-MAX_ENTRY, e) for e in monomials(MAX_N)[:MAX_TERMS]]
    else:
        line = [-MAX_ENTRY] * width
    return Job(MAX_JOB, kind, MAX_N, [-MAX_END] * MAX_N, [-MAX_END] * MAX_N, full,
               MAX_STEPS, [line] * MAX_N, MAX_N if kind == "eigen" else 0)


def symmetric_job(dice):
    """A polynomial job on a box round zero, or touching it; its wanted zero lies in the
    box, mostly, and often near 0."""
    n = dice.pick([1, 1, 2, 2, 3, OLD_N, 5, MAX_N])
    box, eighths = [round_zero(dice) for _ in range(n)], dice.pick([1, 2, 4, 8, 16])
    z = [dice.between(low, high) * eighths // 8 for low, high in box]
    lines = settle("poly", n, symmetric_lines(dice, n), z)
    wide = not dice.one_in(4) and wide_inverse(lines, box)
    return Job(job_number(dice), "poly", n, *ends_of(box),
               wide or choose_inverse(dice, lines, box),
               dice.pick([allowance(dice), 60]), lines)

"""Accepted jobs whose zeros are known as fraction points.

A zero has the value u/d in each unknown, that is 65,536 u/d marks, mostly no
whole number of marks.
"""

from fractions import Fraction
from itertools import product as every

from arithmetic import (Job, MARK, MAX_END, MAX_ENTRY, MAX_N, MAX_TERMS, ends_of,
                        equations_of, slope, unit)
from jobs import allowance, choose_inverse, clip, interval, inverse_in_marks, job_number


def times(one, other):
    """The product of two polynomials (exponents to coefficient)."""
    found = {}
    for (e, c), (f, d) in every(one.items(), other.items()):
        g = tuple(map(sum, zip(e, f)))
        found[g] = found.get(g, 0) + c * d
    return found


def plus(one, other):
    """The sum of two polynomials."""
    return {e: one.get(e, 0) + other.get(e, 0) for e in {**one, **other}}


def poly_with_zeros(dice, n):
    """Equations i: a part that is 0 where unknown i has one of its values, and
    further parts of the same sort.  Returns lines and all choices of values."""
    d = dice.pick([1, 2, 3, 5, 7, 12])
    values = [[Fraction(dice.around(4 * d), d) for _ in range(dice.pick([1, 1, 2]))]
              for _ in range(n)]

    def vanishing(j):
        part = {(0,) * n: 1}
        for v in values[j]:
            part = times(part, {unit(n, j): v.denominator, unit(n): -v.numerator})
        return part

    lines = []
    for i in range(n):
        scale = dice.pick([1, -1]) * dice.between(MARK // 8, 2 * MARK)
        found = times({unit(n): scale // d}, vanishing(i))
        for _ in range(dice.below(4)):
            j, k = dice.below(n), dice.below(n)
            factor = {unit(n, *[k] * dice.below(4 - len(values[j]))): dice.around(900)}
            found = plus(found, times(factor, vanishing(j)))
        line = [(c, e) for e, c in sorted(found.items(), reverse=True) if c]
        if len(line) > MAX_TERMS or any(abs(c) > MAX_ENTRY for c, _ in line):
            return poly_with_zeros(dice, n)
        lines.append(line)
    return lines, [list(zero) for zero in every(*values)]


def linear_with_zero(dice, n):
    """a(i,j) = d r(i,j) and b(i) = the sum of r(i,j) u(j): the zero is u/d."""
    d = dice.between(1, 13)
    u = [dice.around(3 * d) for _ in range(n)]
    r = [[dice.around(MARK // 8) + (i == j) * dice.pick([1, -1]) * MARK // d
          for j in range(n)] for i in range(n)]
    lines = [[d * v for v in row] + [sum(v * w for v, w in zip(row, u))] for row in r]
    return lines, [[Fraction(v, d) for v in u]]


def eigen_with_zero(dice, n, pin):
    """The vector u/d, which is 1 in the pinned place, and an eigenvalue of whole marks:
    elsewhere a(i,j) is a multiple of d, for i = j the eigenvalue and a multiple of d, so
    a(i,pin) is whole."""
    d, p = dice.between(1, 13), pin - 1
    u = [d if j == p else dice.around(3 * d) for j in range(n)]
    eigenvalue = dice.around(3 * MARK)
    lines = []
    for i in range(n):
        row = [0 if j == p else d * dice.around(4 * MARK // d) + (eigenvalue if i == j else 0)
               for j in range(n)]
        row[p] = (eigenvalue * u[i] - sum(v * w for v, w in zip(row, u))) // d
        lines.append(row)
    if any(abs(v) > MAX_ENTRY for row in lines for v in row):
        return eigen_with_zero(dice, n, pin)
    return lines, [eigenpair([Fraction(v, d) for v in u], eigenvalue, p)]


def eigenpair(vector, eigenvalue, p):
    """The zero of an eigenvector: coordinate p made 1, the eigenvalue in its place."""
    zero = [v / vector[p] for v in vector]
    zero[p] = Fraction(eigenvalue, MARK)
    return zero


def triangular_with_zeros(dice, n, pin):
    """A triangular matrix, its rows and columns in another order: all of its eigenpairs
    are known.  Where the pinned coordinate of a vector is 0, no multiple has 1 there."""
    order = dice.shuffled(n)
    values = [dice.around(3 * MARK) for _ in range(n)]
    if len(set(values)) < n:
        return triangular_with_zeros(dice, n, pin)
    lines = [[0] * n for _ in range(n)]
    for i in range(n):
        lines[order[i]][order[i]] = values[i]
        for j in range(i + 1, n):
            lines[order[i]][order[j]] = dice.pick([0, dice.around(MARK), dice.around(4 * MARK)])
    zeros = []
    for k, value in enumerate(values):
        vector = [Fraction(0)] * n
        vector[order[k]] = Fraction(1)
        for i in reversed(range(k)):
            row = lines[order[i]]
            vector[order[i]] = sum(a * v for a, v in zip(row, vector)) / (value - values[i])
        if vector[pin - 1]:
            zeros.append(eigenpair(vector, value, pin - 1))
    return lines, zeros


def system_with_zeros(dice, kind, n, pin):
    """The lines of a job and its known zeros, in units."""
    if kind == "poly":
        return poly_with_zeros(dice, n)
    if kind == "linear":
        return linear_with_zero(dice, n)
    return dice.pick([eigen_with_zero, triangular_with_zeros])(dice, n, pin)


def in_marks(zeros):
    """Zeros in units as zeros in marks."""
    return [[MARK * v for v in zero] for zero in zeros]


def edge_round(dice, ends, radius):
    """An edge of a box that holds these fractions, and up to radius more on either side."""
    low, high = min(ends).__floor__(), max(ends).__ceil__()
    return (clip(low - dice.below(radius), MAX_END), clip(high + dice.below(radius), MAX_END))


def job_with_zeros(dice):
    """An accepted job and its known zeros, in marks."""
    kind = dice.pick(["poly", "poly", "linear", "eigen", "eigen"])
    n = dice.between(1, MAX_N)
    pin = dice.between(1, n) if kind == "eigen" else 0
    lines, zeros = system_with_zeros(dice, kind, n, pin)
    zeros = in_marks(zeros)
    radius = dice.pick([2, 9, 100, 900, 4_000, 9_000, 30_000])
    placing = dice.pick(["mid", "in", "in", "low", "high", "both"])
    aim, box = dice.pick(zeros), []
    for j in range(n):
        if placing == "both":
            box.append(edge_round(dice, [zero[j] for zero in zeros], radius))
        else:
            box.append(interval(dice, placing, aim[j].__floor__(), radius))
    job = Job(job_number(dice), kind, n, *ends_of(box), [], allowance(dice), lines, pin)
    return job._replace(inv=choose_inverse(dice, equations_of(job), box)), zeros


# Several zeros in one box, for document 02, P8.

def hinge_with_zeros(dice):
    """A hinge with the knees (u/d, v/d) and (u/d, -v/d), its unknowns in either order, in
    equations that one inverse may serve at both: the squared distance of the knee from
    (0, 0) is as there, and so is that from (u/d, 0), times the unknown that is v/d."""
    d = dice.pick([1, 2, 3, 4, 7, 12])
    u, v = dice.pick([1, -1]) * dice.between(1, 3 * d), dice.between(1, 3 * d)
    across, along = dice.shuffled(2)
    squares = {unit(2, along, along): d * d, unit(2, across, across): d * d}
    first = plus(squares, {unit(2): -u * u - v * v})
    other = plus(squares, {unit(2, along): -2 * u * d, unit(2): u * u - v * v})
    lines = []
    for found in (first, times({unit(2, across): 1}, other)):
        scale = dice.between(MARK // 8, 2 * MARK) // (d * d)
        lines.append([(c * scale, e) for e, c in sorted(found.items(), reverse=True) if c])
    if along == 1:                                    # the equation of its own unknown
        lines.reverse()
    zeros = [[Fraction(u, d)] * 2, [Fraction(u, d)] * 2]
    zeros[0][across], zeros[1][across] = Fraction(v, d), Fraction(-v, d)
    return lines, zeros


def mean_inverse(equations, zeros):
    """The inverse of the mean of the slopes at some zeros; None where singular."""
    n = len(equations)
    points = [[(v.__floor__(),) * 2 for v in zero] for zero in zeros]
    return inverse_in_marks([[sum(slope(equation, j, point)[0] for point in points) // len(points)
                              for j in range(n)] for equation in equations])


def job_with_several(dice):
    """An accepted job and its known zeros, in marks, two of them or more; its box is placed
    round them all, and its inverse, mostly, is made for one of them or for all."""
    kind, n, pin, zeros = "poly", 2, 0, []
    if dice.one_in(3):
        lines, zeros = hinge_with_zeros(dice)
    while len(zeros) < 2:
        kind, n = dice.pick(["poly", "eigen"]), dice.between(1, MAX_N)
        pin = dice.between(1, n) if kind == "eigen" else 0
        lines, zeros = system_with_zeros(dice, kind, n, pin)
    zeros = in_marks(zeros)
    radius = dice.pick([2, 9, 900, 9_000, 30_000])
    box = [edge_round(dice, [zero[j] for zero in zeros], radius) for j in range(n)]
    job = Job(job_number(dice), kind, n, *ends_of(box), [], allowance(dice), lines, pin)
    equations, aims = equations_of(job), dice.pick([zeros, [dice.pick(zeros)]])
    made = not dice.one_in(4) and mean_inverse(equations, aims)
    return job._replace(inv=made or choose_inverse(dice, equations, box)), zeros

"""The arithmetic of document 01, with the powers of document 02, P5, and the pinned
coordinate of P2: marks, intervals, powers, the Krawczyk step, the run.

Every number is a whole count of marks, kept in Python's unbounded integers, so
nothing here can overflow.  An interval is a pair (a, b) with a <= b; a box is a
list of intervals; a term is a pair (coefficient, exponents); an equation is a
list of terms.
"""

from collections import namedtuple

# "Numbers and sizes".  Each limit stands here once.
MARK = 65_536                   # "one mark is 1/65,536"
MAX_N = 6                       # document 02, P10: "Raise n to 6 and the text to
MAX_TEXT = 4_096                # 4,096 bytes, for jobs and results"
OLD_N = 4                       # before P10: "n: 1 to 4"
OLD_TEXT = 2_048                # "Text: at most 2,048 bytes"
MAX_STEPS = 1_000               # "Steps: 0 to 1,000"
MAX_JOB = 999_999_999           # "Job number: 0 to 999,999,999"
MAX_END = 262_144               # "Box ends: -262,144 to 262,144"
MAX_ENTRY = 4_194_304           # "Coefficients, matrix entries, right sides and
#                                 entries of the inverse: -4,194,304 to 4,194,304"
MAX_TERMS = 16                  # "A polynomial equation has 0 to 16 terms"
MAX_DEGREE = 3                  # "each of total degree 0 to 3"
MAX_IMAGE = 2 ** 46             # document 02, P7: "from -2^46 to 2^46"
MAX_DEPTH = 8                   # document 02, P8: "Depth is 0 to 8"
MAX_BOXES = 2 ** MAX_DEPTH      # "two to the power of the depth"
MAX_VISIT = 999_999_999         # document 02, P12: "at most 999,999,999"
ALONE = 0                       # "0 for a job run alone"

KINDS = ("poly", "linear", "eigen")
VERDICTS = ("none", "unique", "stalled", "spent")

# Values.  Only live places are kept: lo and hi hold n numbers, inv holds n times
# n row by row, lines holds n equations (poly) or n rows (linear, eigen).  pin counts
# the coordinates of an eigenvector from 1; "other kinds ignore it".
Job = namedtuple("Job", "job kind n lo hi inv steps lines pin", defaults=[0])
Result = namedtuple("Result", "job visit verdict steps lo hi")


# "The arithmetic"

def down(whole):
    """Divided by 65,536, rounded down: "toward minus infinity, on negative
    numbers too"."""
    return whole // MARK


def up(whole):
    """Divided by 65,536, rounded up."""
    return -(-whole // MARK)


def outward(exact):
    """One outward rounding to marks of an exact interval."""
    return down(exact[0]), up(exact[1])


def four_ends(x, y):
    """The least and the greatest of the four products of ends, exact."""
    (a, b), (c, d) = x, y
    p, q, r, s = a * c, a * d, b * c, b * d
    return min(p, q, r, s), max(p, q, r, s)


def product(x, y):
    """"The least and the greatest of the four products of ends, divided by
    65,536.  The low end is rounded down, the high end up." """
    return outward(four_ends(x, y))


def total(intervals):
    """"Sums and negations are exact."  The sum of no intervals is [0, 0]."""
    low = high = 0
    for a, b in intervals:
        low += a
        high += b
    return low, high


def holds_zero(x):
    """"When the box holds 0", its ends included."""
    return x[0] <= 0 <= x[1]


def square(x):
    """"Exponent 2 is the true range of the square (low end 0 when the box holds 0)",
    "rounded outward"."""
    ends = x[0] * x[0], x[1] * x[1]
    return outward((0 if holds_zero(x) else min(ends), max(ends)))


def cube(x):
    """"Exponent 3 is that square times the unknown, each rounded outward." """
    return product(square(x), x)


def power(x, exponent):
    """"Form a power first"; exponent 1 is the unknown itself."""
    if exponent == 1:
        return x
    return square(x) if exponent == 2 else cube(x)


def term_over(coefficient, exponents, box):
    """"Then multiply the coefficient by the powers in unknown order", "rounding after
    each product".  Exponent 0 makes no product."""
    value = (coefficient, coefficient)
    for unknown, exponent in zip(box, exponents):
        if exponent > 0:
            value = product(value, power(unknown, exponent))
    return value


def equation_over(equation, box):
    """"Equation over a box: the sum of its terms." """
    return total(term_over(c, exponents, box) for c, exponents in equation)


def slope(equation, j, box):
    """"Over the terms with exponent e of at least 1, the term with that exponent
    lowered by one, its ends multiplied by e, all summed."  "Slopes use the same
    powers." """
    parts = []
    for c, exponents in equation:
        e = exponents[j]
        if e >= 1:
            lowered = exponents[:j] + (e - 1,) + exponents[j + 1:]
            low, high = term_over(c, lowered, box)
            parts.append((low * e, high * e))
    return total(parts)


# "The three kinds"

def unit(n, *unknowns):
    """The exponents of the product of the given unknowns (counted from 0)."""
    return tuple(unknowns.count(k) for k in range(n))


def linear_equation(job, i):
    """"The sum of a(i,j) x(j), minus b(i)." """
    n, row = job.n, job.lines[i]
    return [(row[j], unit(n, j)) for j in range(n)] + [(-row[n], unit(n))]


def eigen_equation(job, i):
    """"The sum of a(i,j) x(j) over j < n, plus a(i,n), minus L x(i), where x(n) is 1",
    with another coordinate in the place of n: "coordinate pin is 1 and the eigenvalue
    takes its place as that unknown"."""
    n, row, L = job.n, job.lines[i], job.pin - 1
    x = [() if j == L else (j,) for j in range(n)]
    return [(row[j], unit(n, *x[j])) for j in range(n)] + [(-MARK, unit(n, L, *x[i]))]


def equations_of(job):
    """The equations of a job as lists of terms."""
    if job.kind == "poly":
        return job.lines
    build = linear_equation if job.kind == "linear" else eigen_equation
    return [build(job, i) for i in range(job.n)]


# "One Krawczyk step on box X with inverse C"

def middle(interval):
    """"The sum of the ends divided by 2, rounded down." """
    return (interval[0] + interval[1]) // 2


def scalar(intervals, others):
    """The exact sum of products of ends of two lists of intervals."""
    return total(four_ends(x, y) for x, y in zip(intervals, others))


def image(X, C, equations):
    """K of one step; C is a list of rows of whole numbers."""
    n = len(X)
    places = range(n)
    # 1. m
    m = [middle(interval) for interval in X]
    # 2. F over [m, m], S over X
    point = [(v, v) for v in m]
    F = [equation_over(equation, point) for equation in equations]
    S = [[slope(equation, j, X) for j in places] for equation in equations]
    C = [[(c, c) for c in row] for row in C]
    # 3. D = C F
    D = [outward(scalar(C[i], F)) for i in places]
    # 4. B = I - C S, "I has 65,536 squared on its diagonal before rounding"
    B = []
    for i in places:
        row = []
        for j in places:
            low, high = scalar(C[i], [S[k][j] for k in places])
            one = MARK * MARK if i == j else 0
            row.append(outward((one - high, one - low)))
        B.append(row)
    # 5. Z = X - m, E = B Z
    Z = [(a - v, b - v) for (a, b), v in zip(X, m)]
    E = [outward(scalar(B[i], Z)) for i in places]
    # 6. K = m - D + E
    return [(m[i] - D[i][1] + E[i][0], m[i] - D[i][0] + E[i][1]) for i in places]


def cut(K, X):
    """K cut with X, where they meet."""
    return [(max(k[0], x[0]), min(k[1], x[1])) for k, x in zip(K, X)]


def decide(X, K):
    """The verdict of a step (None where undecided) and the box it leaves."""
    pairs = list(zip(X, K))
    # "some coordinate of K does not meet that of X: verdict none, box X"
    if any(k[1] < x[0] or x[1] < k[0] for x, k in pairs):
        return "none", X
    # "in every coordinate, X low < K low and K high < X high: unique, box K"
    if all(x[0] < k[0] and k[1] < x[1] for x, k in pairs):
        return "unique", K
    # "K cut with X is X itself: verdict stalled, box X"
    smaller = cut(K, X)
    if smaller == X:
        return "stalled", X
    # "otherwise X becomes K cut with X and the next step begins"
    return None, smaller


def ends_of(box):
    """The low ends and the high ends of a box."""
    return [low for low, _ in box], [high for _, high in box]


def rows_of(job):
    """The proposed inverse as rows."""
    return [job.inv[i * job.n:(i + 1) * job.n] for i in range(job.n)]


def trace(job):
    """Every step begun, in order: (X, K, verdict or None, box left)."""
    X, C, equations = list(zip(job.lo, job.hi)), rows_of(job), equations_of(job)
    for _ in range(job.steps):
        K = image(X, C, equations)
        verdict, box = decide(X, K)
        yield X, K, verdict, box
        if verdict is not None:
            return
        X = box


def run(job):
    """The run of an accepted job.

    "If the allowance is used up with none of the three reached, the verdict is
    spent with the box so far.  A verdict reached at the last allowed step
    stands.  Every step begun is counted, the deciding one too.  Allowance 0
    gives spent, 0 steps and the starting box."
    """
    verdict, steps, box = None, 0, list(zip(job.lo, job.hi))
    for _, _, verdict, box in trace(job):
        steps += 1
    return Result(job.job, ALONE, verdict or "spent", steps, *ends_of(box))

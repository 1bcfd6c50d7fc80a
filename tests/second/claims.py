"""What must hold of every accepted job, tried on random fraction points, of every text
that arrives in parts, of every list of a job that is halved, of every text beside what it was
before P10, of every result text of before P12, and of P12's table of rooms.

    claims.py [--seed S] [--count K]

- Powers: the exact power of a fraction member of an interval lies in the power over
  the interval; for two members the difference quotient of a power, over its
  exponent, lies in the power one below: x + y over 2 in the interval itself,
  x x + x y + y y over 3 in its square.
- Nesting: with a larger allowance the box lies in that of a smaller one, and a
  verdict once reached stands.
- Steps (document 02, P7): the image of X, and what is decided of it, each asked for by
  itself, are the step that the run makes.
- Images: over every box that is accepted, the image has its ends in order and within
  2^46 either way.
- Decisions: whatever the image, the box that is left lies in X.
- Newton: at each step the exact Newton image p - C f(p) of every fraction point
  p of X lies in K.
- Zeros: a zero in the starting box is in the box handed back; none is not said.  Those
  of an eigen job are the eigenpairs whose pinned coordinate is 1 (document 02, P2).
- Contraction: at unique, for two points p and q of the X of the deciding step,
  the greatest |g(p) - g(q)| over the widths of X is below that of |p - q|, where g
  is the exact Newton image; so X holds at most one zero.
- Kinds: the built equations equal the formulas of the three kinds at every
  fraction point.
- Parts (document 02, P1): the answer at the end of all parts of a job text, right or
  damaged, is that of the whole text read at once; before the end there is none, and no
  more is held than the line that has not ended and a count, at most one over the limit.
- Halving (document 02, P8): every zero of the starting box lies in a listed box, each box
  listed as unique holds at most one, all lie in the starting box, and there are at most two
  to the power of the depth.
- Old texts (document 02, P10 and P12): see old_claims.py and visit_claims.py.
- Rooms (document 02, P12): see room_claims.py.
"""

import argparse
from collections import Counter
from fractions import Fraction

import arithmetic
from arithmetic import MARK, MAX_END, MAX_IMAGE, MAX_TEXT, ends_of
from breach import Breach, claim, inside, told
from dice import Dice
from halve_claims import try_halvings
from jobs import pinned_job, random_job, symmetric_job
from old_claims import try_old
from part_cases import random_lengths, random_text
from parts import Reader, cut
from room_claims import try_rooms
from step_cases import against
from steps import decision, image_of
from texts import read_job, job_text
from visit_claims import try_visits
from zeros import job_with_zeros


def values_at(equations, p):
    """f(p) in marks, in fractions and without rounding."""
    found = []
    for equation in equations:
        value = Fraction(0)
        for c, exponents in equation:
            for v, e in zip(p, exponents):
                c *= (v / MARK) ** e
            value += c
        found.append(value)
    return found


def newton(job, equations, p):
    """"The exact Newton image of a fraction point p is p - C f(p)." """
    f = values_at(equations, p)
    return [v - sum(c * w for c, w in zip(row, f)) / MARK
            for v, row in zip(p, arithmetic.rows_of(job))]


def fraction_point(dice, box):
    """"A whole number for each unknown over one whole denominator"; ends and
    middles are taken often."""
    d = dice.pick([1, 2, 3, 7, 64, 1_000])
    return [Fraction(dice.pick([a * d, b * d, (a + b) * d // 2,
                                dice.between(a * d, b * d),
                                dice.between(a * d, b * d)]), d) for a, b in box]


def formulas(job, p):
    """The linear and eigenpair equations as the documents spell them: A x - b, and
    A x - L x with x(pin) = 1 and L in its place."""
    if job.kind == "linear":
        return [sum(a * v / MARK for a, v in zip(row, p)) - row[job.n] for row in job.lines]
    x = [v / MARK for v in p]
    L, x[job.pin - 1] = p[job.pin - 1], Fraction(1)
    return [sum(a * v for a, v in zip(row, x)) - L * x[i] for i, row in enumerate(job.lines)]


def sort_of(job):
    """The kind of a job, with its pin where a text has it."""
    return "pinned eigen" if 0 < job.pin < job.n else job.kind


def try_nesting(job, tried):
    """Nesting over the allowances 0 to 9."""
    before = None
    for allowed in range(10):
        now = arithmetic.run(job._replace(steps=allowed))
        claim(now.steps <= allowed, "steps within the allowance", job, allowed)
        if before:
            box = list(zip(before.lo, before.hi))
            claim(inside(now.lo, box) and inside(now.hi, box), "nesting", job, allowed)
            if before.verdict != "spent":
                claim(now == before, "a verdict once reached stands", job, allowed)
            tried["nesting: pairs of allowances"] += 1
        before = now


def quotient(x, y, e):
    """(x^e - y^e) / (x - y), which is a sum of e products of x's and y's, over e."""
    return sum(x ** k * y ** (e - 1 - k) for k in range(e)) / e


def try_powers(dice, job, X, tried):
    """Powers and quotients, in marks, of the numbers that members of an edge stand for."""
    for x, y, edge in zip(fraction_point(dice, X), fraction_point(dice, X), X):
        for e in (2, 3):
            exact = MARK * (x / MARK) ** e
            claim(inside([exact], [arithmetic.power(edge, e)]), "power", job, edge, x, e)
            tried[f"powers: members to the power {e}"] += 1
            exact = MARK * quotient(x / MARK, y / MARK, e)
            claim(inside([exact], [arithmetic.power(edge, e - 1)]), "quotient", job, edge, x, y, e)
            tried[f"powers: quotients of exponent {e}"] += 1


def any_box(dice, n):
    """A box that is accepted, as wide as it may be in some coordinates."""
    def end():
        return dice.pick([-MAX_END, MAX_END, dice.around(MAX_END), dice.around(MARK)])
    return [tuple(sorted((end(), end()))) for _ in range(n)]


def try_image(job, X, tried):
    """The image of a job and a box, asked for by itself."""
    K = image_of(job, *ends_of(X))
    fits = all(-MAX_IMAGE <= a <= b <= MAX_IMAGE for a, b in K)
    claim(fits, "image in its range", job, X, K)
    tried["images: in their range"] += 1
    return K


def try_decision(job, X, K, tried):
    """What is decided of a box and an image, asked for by itself."""
    verdict, box = decision(job.n, *ends_of(X), *ends_of(K))
    claim(all(inside(ends, X) for ends in ends_of(box)), "box left in X", job, X, K)
    tried[f"decisions: a box left in X, {verdict}"] += 1
    return verdict, box


def try_step(dice, job, step, tried):
    """A step of the run by the two operations of P7, and another image of its box."""
    X, K, verdict, box = step
    claim(try_image(job, X, tried) == K, "image of a step", job, X, K)
    decided = try_decision(job, X, K, tried)
    claim(decided == (verdict or "next", box), "decision of a step", job, X, K)
    tried["steps: as in the run"] += 1
    try_decision(job, X, against(dice, X), tried)


def distance(p, q, widths):
    """The greatest |p - q| over the widths."""
    return max(abs(v - w) / width for v, w, width in zip(p, q, widths))


def try_unique(dice, job, equations, X, zeros, tried):
    """The contraction at a unique step, and at most one zero."""
    widths = [b - a for a, b in X]
    claim(min(widths) > 0, "widths at unique", job, X)
    for _ in range(6):
        p, q = fraction_point(dice, X), fraction_point(dice, X)
        if p != q:
            g, h = newton(job, equations, p), newton(job, equations, q)
            claim(distance(g, h, widths) < distance(p, q, widths),
                  "contraction", job, p, q)
            tried["contraction: pairs of points"] += 1
    claim(sum(inside(zero, X) for zero in zeros) <= 1, "at most one zero", job, zeros)
    tried["unique: boxes with at most one known zero"] += 1


def try_job(dice, job, zeros, tried):
    """All claims on one job; zeros are its known ones."""
    equations = arithmetic.equations_of(job)
    start = list(zip(job.lo, job.hi))
    for zero in zeros:
        claim(not any(values_at(equations, zero)), "zero of the made job", job, zero)
    if job.kind != "poly":
        p = fraction_point(dice, start)
        claim(values_at(equations, p) == formulas(job, p), "kinds", job, p)
        tried[f"kinds: points of {sort_of(job)} jobs"] += 1
    try_nesting(job, tried)
    X = any_box(dice, job.n)
    try_decision(job, X, try_image(job, X, tried), tried)
    for number, step in enumerate(arithmetic.trace(job)):
        X, K, verdict, _ = step
        if number < 12:
            try_step(dice, job, step, tried)
            try_powers(dice, job, X, tried)
            for _ in range(4):
                p = fraction_point(dice, X)
                claim(inside(newton(job, equations, p), K), "newton", job, X, K, p)
                tried["newton: points"] += 1
        if verdict == "unique":
            try_unique(dice, job, equations, X, zeros, tried)
    result = arithmetic.run(job)
    tried[f"jobs with verdict {result.verdict}"] += 1
    held = [zero for zero in zeros if inside(zero, start)]
    for zero in held:
        claim(result.verdict != "none" and inside(zero, list(zip(result.lo, result.hi))),
              "zeros never lost", job, zero)
        tried[f"zeros: kept by a run that is {result.verdict}, {sort_of(job)}"] += 1
    if len(held) > 1:
        tried[f"zeros: starting boxes with two or more, {sort_of(job)}"] += 1


def try_parts(dice, tried):
    """A job text whole and in parts, and what the reader holds after each part."""
    text, reader, come = random_text(dice), Reader(), b""
    for part in cut(text, random_lengths(dice, text)):
        come += part
        quiet = told(reader.take, part) is None
        held = b"".join(value for value in vars(reader).values() if isinstance(value, bytes))
        one_line = held in (b"", come.rpartition(b"\n")[2]) and len(held) <= MAX_TEXT
        if not (quiet and one_line and reader.count == min(len(come), MAX_TEXT + 1)):
            raise Breach(f"parts: held or told before the end: {vars(reader)}\n{come}")
        tried["parts: states on the way"] += 1
    found, wanted = told(reader.end), told(read_job, text)
    if found != wanted:
        raise Breach(f"parts: {found} is not {wanted} of the whole\n{text}")
    right = isinstance(wanted, arithmetic.Job)
    tried["parts: right texts" if right else f"parts: texts with fault {wanted[0]}"] += 1


def try_claims(seed, count):
    """count jobs, half of them with known zeros, a quarter symmetric, an eighth pinned, and
    as many texts in parts; how often each claim was tried.  Raises Breach at the first
    claim that does not hold."""
    dice, part, tried = Dice(seed), Dice(~seed), Counter()
    makers = [random_job, symmetric_job, pinned_job, symmetric_job]
    for number in range(count):
        if number % 2:
            job, zeros = job_with_zeros(dice)
        else:
            job, zeros = makers[number // 2 % 4](dice), []
        claim(read_job(job_text(job)) == job, "accepted", job)
        try_job(dice, job, zeros, tried)
        try_parts(part, tried)
    return tried


def main():
    """The command line."""
    parser = argparse.ArgumentParser()
    parser.add_argument("--seed", type=int, default=1)
    parser.add_argument("--count", type=int, default=1_000)
    given = parser.parse_args()
    tried = (try_claims(given.seed, given.count) + try_halvings(given.seed, given.count)
             + try_old(given.seed, given.count) + try_visits(given.seed, given.count)
             + try_rooms(given.seed, given.count))
    for name, times in sorted(tried.items()):
        print(f"{times:7} {name}")
    print("no breach")


if __name__ == "__main__":
    main()

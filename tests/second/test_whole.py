"""The batch, the cases and the claims as wholes, and slips that must be caught."""

import io
import unittest
from unittest.mock import patch

import arithmetic
import texts
import walks
from answers import answer
from arithmetic import MARK, MAX_N, MAX_TEXT, OLD_TEXT
from breach import Breach
from cases import cases, write_cases
from claims import try_claims
from dice import Dice
from jobs import symmetric_job
from second import batch
from test_second import RESULT_41, TEXT_41, marked_examples, power_examples


def run_batch(requests):
    """The output of a batch."""
    sink = io.BytesIO()
    batch(io.BytesIO(requests), sink)
    return sink.getvalue()


class Batch(unittest.TestCase):
    """The framing."""

    def test_framing(self):
        solve = b"solve %d\n" % len(TEXT_41) + TEXT_41
        solved = b"%d\n" % len(RESULT_41) + RESULT_41
        self.assertEqual(run_batch(b""), b"")
        self.assertEqual(run_batch(solve * 2), solved * 2)
        self.assertEqual(run_batch(b"job 0\n"), b"15\nfault=2\nline=1\n")
        for length in (MAX_TEXT + 1, 200_000):
            self.assertEqual(run_batch(b"result %d\n" % length + b"x" * length + solve),
                             b"15\nfault=1\nline=0\n" + solved)
        for broken in (b"x 1\n1", b"solve\n", b"solve 1", b"solve  1\n1", b"solve -1\n",
                       b"solve 01\n1", b"\n", b"solve x\n", b"solve 9\n1", b"solve 1 \n1",
                       b"job 99999999999999999999\nx", b"s" * 9_999, b"solve \xb2\nxx"):
            found = run_batch(solve + broken)
            self.assertTrue(found.startswith(solved + b"error=expected "), broken)
            self.assertEqual(found.count(b"error="), 1)
            self.assertTrue(found.endswith(b"\n"))


class Cases(unittest.TestCase):
    """The cases from a seed."""

    def test_batch_agrees_and_repeats(self):
        sets = []
        for _ in range(2):
            requests, answers = io.BytesIO(), io.BytesIO()
            write_cases(3, 300, requests, answers)
            sets.append((requests.getvalue(), answers.getvalue()))
        self.assertEqual(sets[0], sets[1])
        self.assertEqual(run_batch(sets[0][0]), sets[0][1])

    def test_every_answer_is_met(self):
        met, lengths = set(), set()
        for request, text in cases(1, 3_650):
            reply = answer(request, text).decode("ascii").split("\n")
            operation = request.split(" ")[0]
            name = "job" if operation == "solve" else operation
            met.add((name, reply[0], reply[1]))
            lengths.add(len(text))
            if operation == "decide":
                met.add((name, reply[0]))
            if operation == "solve" and reply[0].startswith("job="):
                met.add((text.split(b"\n")[1].decode(), reply[2]))
        wanted = {("job", 2, line) for line in range(1, MAX_N + 9)}
        wanted |= {("job", 4, line) for line in (1, 4, 5, 6)}
        wanted |= {("job", fault, line) for fault in (4, 6)
                   for line in range(8, MAX_N + 8)}
        wanted |= {("job", 1, 0), ("job", 3, 3), ("job", 5, 5), ("job", 8, 7)}
        wanted |= {("result", 2, line) for line in range(1, 8)}
        wanted |= {("result", 4, line) for line in (1, 2, 5, 6)}
        wanted |= {("result", 1, 0), ("result", 3, 5), ("result", 5, 6), ("result", 8, 4)}
        wanted |= {("image", 4, 0), ("image", 5, 0), ("image", 4, 4), ("image", 5, 5)}
        wanted |= {("decide", fault, 0) for fault in (3, 4, 5)}
        for name, fault, line in wanted:
            self.assertIn((name, f"fault={fault}", f"line={line}"), met)
        for verdict in ("none", "unique", "stalled", "next"):
            self.assertIn(("decide", f"verdict={verdict}"), met)
        for kind in arithmetic.KINDS:
            for verdict in arithmetic.VERDICTS:
                self.assertIn((f"kind={kind}", f"verdict={verdict}"), met)
        about = {most + more for most in (OLD_TEXT, MAX_TEXT) for more in (-1, 0, 1)}
        self.assertLessEqual({0} | about, lengths)

    def test_symmetric_jobs(self):
        """All verdicts are met, and some jobs are decided that stall by plain products."""
        dice = Dice(1)
        jobs = [symmetric_job(dice) for _ in range(300)]
        now = [arithmetic.run(job).verdict for job in jobs]
        with patch.object(arithmetic, "term_over", by_products):
            before = [arithmetic.run(job).verdict for job in jobs]
        self.assertEqual(set(now), set(arithmetic.VERDICTS))
        self.assertIn(("stalled", "unique"), set(zip(before, now)))


# Slips: the name in a module, and what stands there instead.

def toward_zero(whole):
    """Division that cuts toward zero."""
    return whole // MARK if whole >= 0 else -(-whole // MARK)


def touching_unique(X, K):
    """Unique on touching edges."""
    if all(x[0] <= k[0] and k[1] <= x[1] for x, k in zip(X, K)):
        return "unique", K
    return decide(X, K)


def uncut(X, K):
    """K instead of the cut box after an undecided step."""
    verdict, box = decide(X, K)
    return verdict, box if verdict else K


def none_by_middle(X, C, equations):
    """None decided by the middle's own equation values."""
    point = [(arithmetic.middle(x),) * 2 for x in X]
    values = [arithmetic.equation_over(e, point) for e in equations]
    if any(low > 0 or high < 0 for low, high in values):
        return [(10**9, 10**9)] * len(X)
    return image(X, C, equations)


def each_rounded(one, other):
    """Each product of D, B or E rounded before the sum."""
    low, high = arithmetic.total(arithmetic.product(x, y) for x, y in zip(one, other))
    return low * MARK, high * MARK


def slope_alone(equation, j, box):
    """A slope without its factor e."""
    return arithmetic.total(
        arithmetic.term_over(c, e[:j] + (e[j] - 1,) + e[j + 1:], box)
        for c, e in equation if e[j])


def factor_first(equation, j, box):
    """The factor e taken into the coefficient, before the rounding."""
    return arithmetic.total(
        arithmetic.term_over(c * e[j], e[:j] + (e[j] - 1,) + e[j + 1:], box)
        for c, e in equation if e[j])


def last_unknown_first(c, exponents, box):
    """The unknowns of a term taken in the other order."""
    return term_over(c, exponents[::-1], box[::-1])


def by_products(c, exponents, box):
    """A term before P5: "multiply by unknown 1 as often as its exponent says"."""
    value = (c, c)
    for unknown, exponent in zip(box, exponents):
        for _ in range(exponent):
            value = arithmetic.product(value, unknown)
    return value


def slope_by_products(equation, j, box):
    """Slopes by plain products, while values use powers."""
    with patch.object(arithmetic, "term_over", by_products):
        return slope(equation, j, box)


def values_by_products(equation, box):
    """Values by plain products, while slopes use powers."""
    return arithmetic.total(by_products(c, e, box) for c, e in equation)


def powers_first(c, exponents, box):
    """The powers multiplied with each other before the coefficient."""
    return arithmetic.product(term_over(MARK, exponents, box), (c, c))


def plain_square(x):
    """A square that goes below zero on a box around zero."""
    return arithmetic.product(x, x)


def square_from_zero(x):
    """A square whose low end is 0 on every box."""
    return 0, square(x)[1]


def square_inward(x):
    """The square rounded inward."""
    def inward(exact):
        return arithmetic.up(exact[0]), arithmetic.down(exact[1])
    with patch.object(arithmetic, "outward", inward):
        return square(x)


def cube_at_once(x):
    """The cube from the unrounded square."""
    with patch.object(arithmetic, "outward", lambda exact: exact):
        low, high = cube(x)
    return low // MARK ** 2, -(-high // MARK ** 2)


decide, image = arithmetic.decide, arithmetic.image
term_over, slope = arithmetic.term_over, arithmetic.slope
square, cube = arithmetic.square, arithmetic.cube


def caught_by_examples():
    """Whether some example is wrong."""
    return any(found != wanted for found, wanted in marked_examples() + power_examples())


def caught_by_claims():
    """Whether some claim breaks on a few hundred jobs."""
    try:
        try_claims(1, 300)
    except Breach:
        return True
    return False


ASKED = list(cases(1, 2_600))
ANSWERED = [answer(*case) for case in ASKED]


def caught_by_cases():
    """Whether some answer of the cases is another one."""
    return any(answer(*case) != right for case, right in zip(ASKED, ANSWERED))


class Slips(unittest.TestCase):
    """A slip put in."""

    def slip(self, name, instead, *catchers, module=arithmetic):
        """A slip is seen by each of the catchers."""
        with patch.object(module, name, instead):
            for catcher in catchers:
                self.assertTrue(catcher(), (name, instead, catcher))


class Claims(Slips):
    """What must hold of every job; and that slips are seen."""

    def test_no_breach(self):
        tried = try_claims(2, 300)
        for name in ("contraction: pairs of points", "newton: points",
                     "powers: members to the power 3", "powers: quotients of exponent 3",
                     "zeros: kept by a run that is unique, poly",
                     "zeros: kept by a run that is stalled, poly",
                     "zeros: starting boxes with two or more, poly",
                     "zeros: kept by a run that is unique, pinned eigen",
                     "zeros: kept by a run that is stalled, pinned eigen",
                     "steps: as in the run", "images: in their range",
                     "decisions: a box left in X, unique"):
            self.assertGreater(tried[name], 0)
        self.assertFalse(caught_by_examples())
        self.assertFalse(caught_by_cases())

    def test_slips_of_the_run(self):
        everywhere = caught_by_examples, caught_by_claims, caught_by_cases
        self.slip("down", toward_zero, *everywhere)
        self.slip("decide", touching_unique, *everywhere)
        self.slip("decide", uncut, caught_by_claims, caught_by_cases)
        self.slip("image", none_by_middle, *everywhere)
        self.slip("scalar", each_rounded, caught_by_cases)
        self.slip("slope", slope_alone, *everywhere)
        self.slip("slope", factor_first, caught_by_cases)
        self.slip("term_over", last_unknown_first, caught_by_cases)

    def test_slips_of_the_powers(self):
        self.slip("square", plain_square, caught_by_examples, caught_by_cases)
        self.slip("square", square_from_zero, caught_by_examples, caught_by_cases)
        self.slip("square", square_inward, caught_by_examples, caught_by_claims, caught_by_cases)
        self.slip("cube", cube_at_once, caught_by_examples, caught_by_cases)
        self.slip("term_over", powers_first, caught_by_examples, caught_by_cases)
        self.slip("slope", slope_by_products, caught_by_examples, caught_by_cases)
        self.slip("equation_over", values_by_products, caught_by_cases)

    def test_slips_of_the_texts(self):
        loose = walks.re.compile("-?[0-9]{1,9}")
        unchecked = lambda *_: None
        for name, instead in (("A_NUMBER", loose), ("proper", unchecked),
                              ("in_order", unchecked), ("within", unchecked),
                              ("MAX_TERMS", 17), ("MAX_DEGREE", 4),
                              ("MAX_STEPS", 1_001), ("MAX_END", 262_145),
                              ("MAX_ENTRY", 4_194_305)):
            self.slip(name, instead, caught_by_cases, module=walks)
        self.slip("MAX_TEXT", MAX_TEXT + 1, caught_by_cases, module=texts)


if __name__ == "__main__":
    unittest.main()

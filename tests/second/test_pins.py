"""Document 02, P2: what a pinned coordinate means, its line, its faults, and slips in them."""

import unittest

import answers
import arithmetic
import walks
from answers import answer
from arithmetic import (MARK, MAX_N, MAX_TEXT, equation_over, equations_of, rows_of, slope,
                        trace, unit)
from cases import cases
from damage import damaged, lines_of, replaced, whole
from dice import Dice
from examples import T11, T12
from jobs import PINNED, largest_job, random_job, zero_job
from pin_cases import FLAT, FLAT_LINES, ONES, PIN_AT
from test_second import TWO, Told
from test_whole import Slips, caught_by_cases, caught_by_claims
from texts import job_text, read_job, solve, write_job
from walks import demand, digit, number

TEXT = whole(FLAT_LINES)


def at_point(job, point):
    """The values of a job's equations at a point."""
    return [equation_over(equation, [(v, v) for v in point]) for equation in equations_of(job)]


def swapped(job):
    """The same job with the pinned coordinate and the last in each other's place, in the
    rows and columns of the matrix and of the inverse and in the box: the last is pinned."""
    order = list(range(job.n))
    order[job.pin - 1], order[-1] = order[-1], order[job.pin - 1]

    def moved(values):
        return [values[k] for k in order]

    def both_ways(rows):
        return moved([moved(row) for row in rows])

    inv = [v for row in both_ways(rows_of(job)) for v in row]
    return job._replace(lo=moved(job.lo), hi=moved(job.hi), inv=inv,
                        lines=both_ways(job.lines), pin=job.n), moved


class Meaning(unittest.TestCase):
    """"Coordinate pin is 1 and the eigenvalue takes its place as that unknown." """

    def test_t12(self):
        """Both eigenpairs with the first coordinate pinned, one with the last."""
        nothing = [(0, 0), (0, 0)]
        self.assertEqual(at_point(ONES, [131_072, 65_536]), nothing)
        self.assertEqual(at_point(ONES, [65_536, 0]), nothing)
        self.assertEqual(at_point(T12, [65_536, 131_072]), nothing)
        self.assertEqual(at_point(T12, [0, 65_536]), [(65_536, 65_536)] * 2)
        for job, lo, hi in ((ONES, [122_880, 57_344], [139_264, 73_728]),
                            (FLAT, [57_344, -8_192], [73_728, 8_192])):
            found = solve(job)
            self.assertEqual((found.verdict, found.steps, found.lo, found.hi),
                             ("unique", 1, lo, hi))

    def test_last_is_zero(self):
        """"None" says: no eigenpair in the box with that coordinate 1.  The vector (1, 0)
        has no multiple with the last one 1."""
        for lo, hi in (([49_152], [81_920]), ([-262_144], [262_144]), ([-1], [1])):
            last = T12._replace(lo=lo + [49_152], hi=hi + [81_920])
            self.assertEqual(solve(last).verdict, "none")
        self.assertEqual(solve(FLAT).verdict, "unique")

    def test_equations(self):
        """Every n and every pin, the last too, term by term."""
        for n in range(1, MAX_N + 1):
            rows = [[10 * i + j for j in range(1, n + 1)] for i in range(1, n + 1)]
            for pin in range(1, n + 1):
                built = equations_of(zero_job("eigen", n, pin)._replace(lines=rows))
                for i, equation in enumerate(built, 1):
                    wanted = [(10 * i + j, unit(n) if j == pin else unit(n, j - 1))
                              for j in range(1, n + 1)]
                    product = unit(n, pin - 1) if i == pin else unit(n, pin - 1, i - 1)
                    self.assertEqual(sorted(equation), sorted([*wanted, (-MARK, product)]))

    def test_slopes(self):
        """The matrix with the eigenvalue taken off its diagonal; in the pinned column the
        vector with its sign changed."""
        dice = Dice(5)
        for n, pin in PINNED * 5:
            job = random_job(dice, "eigen", n, pin)
            point = [dice.around(MARK) for _ in range(n)]
            vector = point[:pin - 1] + [MARK] + point[pin:]
            box = [(v, v) for v in point]
            for i, equation in enumerate(equations_of(job)):
                for j in range(n):
                    wanted = job.lines[i][j] - (point[pin - 1] if i == j else 0)
                    wanted = -vector[i] if j == pin - 1 else wanted
                    self.assertEqual(slope(equation, j, box), (wanted, wanted))

    def test_swapped(self):
        """A pinned job is the job of the swapped matrix with its last coordinate pinned,
        step by step and to the mark."""
        dice, verdicts = Dice(6), set()
        for n, pin in PINNED * 30:
            job = random_job(dice, "eigen", n, pin)
            other, moved = swapped(job)
            steps = [(moved(X), moved(K), verdict, moved(box)) for X, K, verdict, box in trace(job)]
            self.assertEqual(list(trace(other)), steps)
            found, same = solve(job), solve(other)
            self.assertEqual(same, found._replace(lo=moved(found.lo), hi=moved(found.hi)))
            verdicts.add((job.n, job.pin, found.verdict))
        for n, pin in PINNED:
            self.assertIn((n, pin, "unique"), verdicts)


class Texts(Told):
    """The line, what it does to the numbers of the others, and fault 9."""

    def test_round_trips(self):
        for n in range(1, MAX_N + 1):
            for pin in range(1, n + 1):
                job = zero_job("eigen", n, pin)
                text = job_text(job)
                self.assertEqual(read_job(text), job)
                self.assertEqual(answer("job", text), text)
                self.assertEqual(text.count(b"pin="), int(pin < n))
                self.assertEqual(lines_of(text)[PIN_AT] == b"pin=%d" % pin, pin < n)
        for kind in ("poly", "linear"):
            self.assertEqual(read_job(job_text(random_job(Dice(1), kind))).pin, 0)
        self.assertEqual(read_job(job_text(T12)).pin, 2)

    def test_spellings(self):
        longest = lines_of(job_text(largest_job("eigen")._replace(pin=1)))
        for spelled in (b"0", b"-1", b"6", b"7", b"9", b"10", b"999999999", b"-999999999"):
            self.told("job", replaced(longest, PIN_AT, b"pin=" + spelled), 9, 4)
        for spelled in (b"", b"-", b"-0", b"00", b"01", b"-01", b"+1", b" 1", b"1 ", b"1,2", b"1,",
                        b"1.0", b"x", b"\xb2", b"1\r", b"1\0", b"1000000000", b"-1000000000"):
            self.told("job", replaced(longest, PIN_AT, b"pin=" + spelled), 2, 4)
        for line in (b"", b"pin", b"pin 1", b"Pin=1", b" pin=1", b"pin =1", b"n=6",
                     b"hi=0,0,0,0,0,0"):
            self.told("job", replaced(longest, PIN_AT, line), 2, 4)
        for spelled in (b"2", b"3", b"4", b"5"):
            text = replaced(longest, PIN_AT, b"pin=" + spelled)
            self.assertEqual(answer("job", text), text)

    def test_places(self):
        """"Eigen jobs, and no others, get a line `pin=` after `n`." """
        for pin in (b"pin=1\n", b"pin=0\n", b"pin=x\n"):
            for text in (job_text(T11), TWO):
                self.told("job", text.replace(b"lo=", pin + b"lo="), 2, 4)
            self.told("job", TEXT.replace(b"lo=", pin + b"lo="), 2, 5)            # twice
            self.told("job", TEXT.replace(b"n=2\n", pin + b"n=2\n"), 2, 3)        # before n
            self.told("job", job_text(T12).replace(b"hi=", pin + b"hi="), 2, 5)   # after lo
            self.told("job", job_text(T12) + pin, 2, 10)
        self.told("job", job_text(T12).replace(b"lo=", b"lo=,"), 2, 4)
        self.told("job", job_text(T12).replace(b"lo=65535", b"lo=262145"), 4, 4)
        for pin in (b"1", b"0", b"2"):                    # of one coordinate, the last
            text = job_text(zero_job("eigen", 1, 1)).replace(b"lo=", b"pin=" + pin + b"\nlo=")
            self.told("job", text, 9, 4)

    def test_ends(self):
        self.told("job", whole(FLAT_LINES[:PIN_AT]), 2, 4)
        for at in range(PIN_AT, len(FLAT_LINES)):
            self.told("job", whole(FLAT_LINES[:at + 1])[:-1], 2, at + 1)
        for extra in (b"x", b"\n", b"row=0,0\n"):
            self.told("job", TEXT + extra, 2, 11)

    def test_first_bad_line(self):
        for changes, fault, line in [
                ((b"n=2", b"n=0"), 3, 3), ((b"kind=eigen", b"kind=Eigen"), 2, 2),
                ((b"job=13", b"job=-1"), 4, 1), ((b"lo=49152", b"lo=x"), 9, 4)]:
            self.told("job", TEXT.replace(b"pin=1", b"pin=0").replace(*changes), fault, line)

    def test_later_lines(self):
        """Whatever is wrong in a line after n has that line's number, one more after a
        pin line."""
        dice, met = Dice(7), set()
        for _ in range(600):
            n = dice.between(2, MAX_N)
            lines = lines_of(job_text(random_job(dice, "eigen", n)))
            head, rest = whole(lines[:PIN_AT]), damaged(dice, whole(lines[PIN_AT:]))
            reply = answer("job", head + rest)
            pinned = head + b"pin=1\n" + rest
            if len(pinned) > MAX_TEXT:
                self.told("job", pinned, 1, 0)
            elif reply.startswith(b"fault="):
                fault, line = (int(part.partition(b"=")[2]) for part in lines_of(reply))
                self.told("job", pinned, fault, line + 1)
                met.add((fault, line + 1))
            else:
                self.assertEqual(answer("job", pinned), pinned)
        self.assertLessEqual({(2, line) for line in range(5, MAX_N + 10)}, met)
        self.assertLessEqual({(4, 5), (4, 6), (5, 6), (4, 7), (8, 8), (4, 9), (4, MAX_N + 8)}, met)

    def test_values(self):
        """"A pin equal to n means the last and is accepted; other kinds ignore it." """
        buffer = bytearray(b"old")
        for change, fault, line in [
                ({"pin": 0}, 9, 4), ({"pin": 3}, 9, 4), ({"pin": -1}, 9, 4),
                ({"pin": 10**20}, 9, 4),
                ({"pin": 0, "n": 0}, 3, 3), ({"pin": 0, "job": -1}, 4, 1),
                ({"pin": 0, "lo": [-262_145, 0]}, 9, 4), ({"pin": 1, "lo": [-262_145, 0]}, 4, 5),
                ({"pin": 2, "lo": [-262_145, 0]}, 4, 4), ({"pin": 1, "hi": [0, 0]}, 5, 6),
                ({"pin": 1, "inv": [0, 0, 0, 4_194_305]}, 4, 7), ({"pin": 1, "steps": -1}, 8, 8),
                ({"pin": 1, "lines": [[0, 0], [4_194_305, 0]]}, 4, 10)]:
            job = T12._replace(**change)
            for entry in (solve, job_text, lambda job: write_job(job, buffer)):
                self.raised(fault, line, entry, job)
        self.assertEqual(buffer, b"old")
        for job in (T11, read_job(TWO)):
            for pin in (-1, 0, 1, 2, 3, 10**20):
                other = job._replace(pin=pin)
                self.assertEqual(job_text(other), job_text(job))
                self.assertEqual(solve(other), solve(job))


class Cases(unittest.TestCase):
    """The cases from a seed."""

    def test_every_answer_is_met(self):
        met = set()
        for request, text in cases(1, 3_650):
            lines = text.split(b"\n")
            if lines[1:2] == [b"kind=eigen"] and b"".join(lines[3:4]).startswith(b"pin="):
                reply, operation = answer(request, text).split(b"\n"), request.split(" ")[0]
                if reply[0].startswith(b"fault="):
                    met.add((reply[0], reply[1]))
                else:
                    met.add((operation, lines[2], lines[3]))
                    met.add((operation, reply[2]))
        wanted = {(2, line) for line in range(4, MAX_N + 10)} | {(9, 4), (5, 6), (8, 8)}
        wanted |= {(4, line) for line in (0, 5, 6, 7, *range(9, MAX_N + 9))} | {(5, 0)}
        for fault, line in wanted:
            self.assertIn((b"fault=%d" % fault, b"line=%d" % line), met)
        for verdict in arithmetic.VERDICTS:
            self.assertIn(("solve", b"verdict=" + verdict.encode()), met)
        for n, pin in PINNED:
            for operation in ("solve", "job", "image"):
                self.assertIn((operation, b"n=%d" % n, b"pin=%d" % pin), met)


# Slips: what stands in the place of a function.

def last_always(job, i):
    """The last coordinate is 1, whatever the pin."""
    return eigen_equation(job._replace(pin=job.n), i)


def eigenvalue_last(job, i):
    """The other coordinates in their order, and the eigenvalue as unknown n."""
    p, n = job.pin - 1, job.n
    moved = [*range(p), n - 1, *range(p, n - 1)]
    return [(c, unit(n, *(moved[k] for k in range(n) if e[k])))
            for c, e in eigen_equation(job, i)]


def rows_swapped(job, i):
    """Equation pin and the last in each other's place."""
    return eigen_equation(job, {job.pin - 1: job.n - 1, job.n - 1: job.pin - 1}.get(i, i))


def pin_by(spelling, most, fault, kinds=("eigen",)):
    """The pin line by another spelling, limit or fault, or in other kinds too."""
    def walk(kind, n):
        pin = (yield "pin", spelling) if kind in kinds else None
        if pin is None:
            return n if kind == "eigen" else 0
        demand(1 <= pin <= n + most, fault)
        return pin
    return walk


def pin_unwritten(job):
    """A text without its pin line."""
    return job_text(job._replace(pin=job.n))


eigen_equation = arithmetic.eigen_equation


class PinSlips(Slips):
    """Slips of P2 are seen in the cases."""

    def test_slips(self):
        for instead in (last_always, eigenvalue_last, rows_swapped):
            self.slip("eigen_equation", instead, caught_by_claims, caught_by_cases)
        for instead in (pin_by(digit, -1, 9), pin_by(number, 0, 9), pin_by(number, -2, 9),
                        pin_by(number, -1, 2), pin_by(number, -1, 4),
                        pin_by(number, -1, 9, arithmetic.KINDS)):
            self.slip("walk_pin", instead, caught_by_cases, module=walks)
        self.slip("job_text", pin_unwritten, caught_by_cases, module=answers)


if __name__ == "__main__":
    unittest.main()

"""The examples of documents 01 and 02, and document 01's faults, for texts and for values."""

import unittest

import arithmetic
from answers import answer
from arithmetic import MAX_N, MAX_TEXT, Result, equation_over, equations_of
from examples import CUBE, EXAMPLES, JOB_41, T7, T9, T11, T12
from jobs import largest_job
from texts import (job_text, read_job, read_result, result_text, solve, write_job,
                   write_result)
from walks import Fault

TEXT_41 = b"""job=41
kind=poly
n=1
lo=65536
hi=131072
inv=21845
steps=8
eq=65536:2,-131072:0
"""
RESULT_41 = b"""job=41
visit=0
verdict=unique
steps=1
lo=81919
hi=103766
"""
TWO = TEXT_41.replace(b"n=1", b"n=2").replace(b"lo=65536", b"lo=0,0").replace(
    b"hi=131072", b"hi=1,1").replace(b"inv=21845", b"inv=1,2,3,4").replace(
    b"eq=65536:2,-131072:0\n", b"eq=1:20,-1:01\neq=\n")


def told(job):
    """Verdict, steps and box of a run."""
    found = solve(job)
    return found.verdict, found.steps, list(zip(found.lo, found.hi))


def marked_examples():
    """T1 to T12: what is found and what document 01 says."""
    times, box_41 = arithmetic.product, [(65_536, 131_072)]
    return [
        (times((-1, 1), (-1, 1)), (-1, 1)),
        (times((3, 3), (1, 1)), (0, 1)),
        (times((-3, -3), (1, 1)), (-1, 0)),
        (times((-65_536, 131_072), (-65_536, 131_072)), (-131_072, 262_144)),
        (arithmetic.middle((-3, 0)), -2),
        (arithmetic.image(box_41, [[21_845]], equations_of(JOB_41)), [(81_919, 103_766)]),
        (told(T7), ("stalled", 2, [(0, 0)])),
        (told(T7._replace(steps=1)), ("spent", 1, [(0, 0)])),
        (told(T9), ("none", 1, [(0, 0)])),
        (told(JOB_41._replace(inv=[0])), ("stalled", 1, box_41)),
        (told(T11), ("unique", 1, [(32_768, 32_768), (16_384, 16_384)])),
        ([equation_over(e, [(65_536,) * 2, (131_072,) * 2]) for e in equations_of(T12)],
         [(0, 0), (0, 0)]),
    ]


def power_examples():
    """Powers, as document 02, P5, forms them: what is found and what should be."""
    square, cube, term = arithmetic.square, arithmetic.cube, arithmetic.term_over
    around, point = [(-65_536, 131_072)], [(400, 400), (100, 100)]
    return [
        (square((-1, 1)), (0, 1)),                          # "[-1,1] marks squared"
        (square((-65_536, 131_072)), (0, 262_144)),         # T4 is a product, and stays
        (square((-131_072, 0)), (0, 262_144)),              # 0 at an end
        (square((0, 131_072)), (0, 262_144)),
        (square((-131_072, -65_536)), (65_536, 262_144)),   # 0 outside
        (square((65_536, 131_072)), (65_536, 262_144)),
        (square((-3, -3)), (0, 1)),                         # "each rounded outward"
        (cube((-65_536, 131_072)), (-262_144, 524_288)),    # [-1,2] units: [-4,8]
        (cube((100_000, 100_000)), (232_829, 232_831)),     # 232,830.6 before any rounding
        (term(65_536, (2,), around), (0, 262_144)),
        (term(4_194_304, (2, 0), point), (128, 192)),       # 64 times [2,3], not 156.25
        (term(4_194_304, (2, 1), point), (0, 1)),           # the coefficient first
        (arithmetic.slope([(65_536, (3,))], 0, around), (0, 786_432)),
        (told(CUBE), ("unique", 1, [(-26_215, 52_429)])),
    ]


def line_changed(text, line, new):
    """The text with one line (counted from 1) in another spelling."""
    lines = text.split(b"\n")
    lines[line - 1] = new
    return b"\n".join(lines)


class Examples(unittest.TestCase):
    """The examples of both documents."""

    def test_marked_examples(self):
        for number, (found, wanted) in enumerate(marked_examples(), 1):
            self.assertEqual(found, wanted, f"T{number}")

    def test_powers(self):
        for number, (found, wanted) in enumerate(power_examples(), 1):
            self.assertEqual(found, wanted, f"power {number}")

    def test_job_41(self):
        self.assertEqual(read_job(TEXT_41), JOB_41)
        self.assertEqual(answer("job", TEXT_41), TEXT_41)
        self.assertEqual(answer("solve", TEXT_41), RESULT_41)
        self.assertEqual(answer("result", RESULT_41), RESULT_41)
        self.assertEqual(told(JOB_41._replace(steps=0)), ("spent", 0, [(65_536, 131_072)]))

    def test_round_trips(self):
        for job in EXAMPLES + [largest_job(kind) for kind in arithmetic.KINDS]:
            self.assertEqual(read_job(job_text(job)), job)
            result = solve(job)
            self.assertEqual(read_result(result_text(result)), result)


JOB_FAULTS = [                       # line, its spelling, fault
    (1, b"job=-5", 4), (1, b"job=-0", 2), (1, b"job=1000000000", 2), (1, b"job=", 2),
    (1, b"job=041", 2), (1, b"job=+1", 2), (1, b"job=-", 2), (1, b"", 2),
    (1, b"job=999999999", 0), (1, b"job=0", 0), (1, b"job=1\r", 2), (1, b"job=1\0", 2),
    (1, b"JOB=1", 2), (1, b"job =1", 2), (1, b"job=\xb2", 2), (1, b" job=1", 2),
    (2, b"kind=Poly", 2), (2, b"kind=", 2), (2, b"kind=poly ", 2), (2, b"kind=linear", 0),
    (3, b"n=0", 3), (3, b"n=%d" % (MAX_N + 1), 3), (3, b"n=9", 3), (3, b"n=10", 2),
    (3, b"n=-1", 2), (3, b"n=00", 2), (3, b"n=", 2), (3, b"n=02", 2),
    (4, b"lo=", 2), (4, b"lo=0", 2), (4, b"lo=0,0,0", 2), (4, b"lo=0,,0", 2),
    (4, b"lo=,0,0", 2), (4, b"lo=0,0,", 2), (4, b"lo=-262145,0", 4),
    (4, b"lo=-262144,0", 0), (4, b"lo=262145,x", 2), (5, b"hi=262145,x", 2),
    (5, b"hi=-5,262145", 4),
    (5, b"hi=-5,262144", 5), (5, b"hi=0,0", 0), (5, b"hi=1,-1", 5), (5, b"hi=-1", 2),
    (6, b"inv=4194305,2,3", 2), (6, b"inv=4194305,2,3,4", 4), (6, b"inv=1,2,3,-4194304", 0),
    (7, b"steps=1000", 0), (7, b"steps=1001", 8), (7, b"steps=-1", 8), (7, b"steps=", 2),
    (7, b"steps=999999999", 8), (7, b"steps=1000000000", 2), (7, b"steps=-0", 2),
    (8, b"eq=", 0), (8, b"eq=1:30", 0), (8, b"eq=1:40", 6), (8, b"eq=1:99", 6),
    (8, b"eq=0:10", 6), (8, b"eq=4194305:40", 4), (8, b"eq=-4194304:10", 0),
    (8, b"eq=1:1", 2), (8, b"eq=1:100", 2), (8, b"eq=1:1x", 2), (8, b"eq=1:", 2),
    (8, b"eq=1", 2), (8, b"eq=1:10,", 2), (8, b"eq=,1:10", 2), (8, b"eq=-0:10", 2),
    (8, b"eq=1:10,1:10", 6), (8, b"eq=1:10,1:11", 6), (8, b"eq=1:11,1:10", 0),
    (8, b"eq=0:10,x:00", 2), (8, b"eq=0:10,4194305:00", 4), (8, b"row=1,1", 2),
    (8, b"eq=" + b",".join([b"1:00"] * 17), 6),
    (8, b"eq=" + b",".join([b"1:00"] * 16 + [b"1:0"]), 2),
    (8, b"eq=" + b",".join([b"1:00"] * 16 + [b"4194305:00"]), 4),
    (8, b"eq=" + b",".join([b"1:00"] * 16 + [b"4194305:00", b"x"]), 2),
]
RESULT_FAULTS = [
    (1, b"job=-1", 4), (2, b"visit=-1", 4), (2, b"visit=-0", 2), (2, b"visit=-", 2),
    (2, b"visit=", 2), (2, b"visit=00", 2), (2, b"visit=07", 2), (2, b"visit=+1", 2),
    (2, b"visit=999999999", 0), (2, b"visit=1000000000", 2), (2, b"visit=1", 0),
    (2, b"visit=0,0", 2), (2, b"Visit=0", 2), (2, b"visits=0", 2), (2, b"kind=poly", 2),
    (2, b"verdict=unique", 2), (3, b"verdict=Unique", 2), (3, b"verdict=", 2),
    (3, b"visit=0", 2), (4, b"steps=1001", 8), (4, b"steps=01", 2), (4, b"steps=-1", 8),
    (5, b"lo=", 2), (5, b"lo=" + b",".join([b"0"] * (MAX_N + 1)), 3),
    (5, b"lo=" + b",".join([b"0"] * MAX_N + [b"x"]), 2),
    (5, b"lo=" + b",".join([b"0"] * MAX_N + [b"262145"]), 3),
    (5, b"lo=262145", 4), (5, b"lo=-262144", 0), (6, b"hi=", 2), (6, b"hi=0,0", 2),
    (6, b"hi=" + b",".join([b"0"] * (MAX_N + 1)), 2), (6, b"hi=262145", 4),
    (6, b"hi=81918", 5), (6, b"hi=81919", 0), (6, b"hi=1,262145", 2),
]


class Told(unittest.TestCase):
    """What is told of a fault."""

    def told(self, operation, text, fault, line):
        """Compares an answer with a fault."""
        wanted = b"fault=%d\nline=%d\n" % (fault, line)
        self.assertEqual(answer(operation, text), wanted, text)

    def raised(self, fault, line, entry, *values):
        """Compares the fault of an entry that is handed values."""
        with self.assertRaises(Fault) as caught:
            entry(*values)
        self.assertEqual((caught.exception.number, caught.exception.line), (fault, line))


class Faults(Told):
    """Fault numbers and lines."""

    def test_lines(self):
        for operation, right, table in (("job", TWO, JOB_FAULTS),
                                        ("result", RESULT_41, RESULT_FAULTS)):
            self.assertEqual(answer(operation, right), right)
            for line, spelling, fault in table:
                text = line_changed(right, line, spelling)
                if fault:
                    self.told(operation, text, fault, line)
                elif spelling == b"kind=linear":      # the `eq` line is then wrong
                    self.told(operation, text, 2, 8)
                else:
                    self.assertEqual(answer(operation, text), text)

    def test_ends(self):
        for operation, right, last in (("job", TWO, 9), ("result", RESULT_41, 6)):
            self.told(operation, b"", 2, 1)
            self.told(operation, b"\n" + right, 2, 1)
            self.told(operation, right.replace(b"\n", b"\r\n"), 2, 1)
            self.told(operation, right[:-1], 2, last)
            self.told(operation, right + b"\n", 2, last + 1)
            self.told(operation, right + b"x", 2, last + 1)
            lines = right.split(b"\n")[:-1]
            for at in range(last):
                kept = b"".join(line + b"\n" for line in lines[:at])
                self.told(operation, kept, 2, at + 1)                 # stops after an LF
                self.told(operation, kept + lines[at], 2, at + 1)     # stops without LF
                less = b"".join(line + b"\n" for line in lines[:at] + lines[at + 1:])
                # one line missing; of the `eq` lines it is always the last
                self.told(operation, less, 2, last if at >= 7 else at + 1)

    def test_lengths(self):
        for operation, right, last in (("job", TWO, 9), ("result", RESULT_41, 6)):
            full = right + b"x" * (MAX_TEXT - len(right))
            self.told(operation, full, 2, last + 1)
            self.told(operation, full + b"x", 1, 0)
            self.told(operation, b"\n" * (MAX_TEXT + 1), 1, 0)        # 1 before 2, line 1
        # the whole line is read: 4 decides though over 16 terms
        many = line_changed(TEXT_41, 8, b"eq=" + b"1:0," * 400 + b"4194305:0")
        self.told("job", many, 4, 8)

    def test_first_bad_line(self):
        self.told("job", line_changed(line_changed(TWO, 8, b"eq=1:1"), 5, b"hi=-1,0"), 5, 5)
        self.told("job", line_changed(line_changed(TWO, 3, b"n=0"), 4, b"x"), 3, 3)
        self.told("job", line_changed(line_changed(TWO, 4, b"lo=1,262145"), 5, b""), 4, 4)

    def test_values(self):
        """The same checks in the same line order, without text."""
        for change, fault, line in [
                ({"job": -1}, 4, 1), ({"job": 10**9}, 4, 1), ({"kind": "other"}, 2, 2),
                ({"n": 0}, 3, 3), ({"n": 9}, 3, 3), ({"lo": [-262_145]}, 4, 4),
                ({"hi": [65_535]}, 5, 5), ({"inv": [4_194_305]}, 4, 6),
                ({"steps": 1_001}, 8, 7), ({"steps": -1}, 8, 7),
                ({"lines": [[(1, (10,))]]}, 6, 8), ({"lines": [[(0, (1,))]]}, 6, 8),
                ({"job": -1, "n": 0}, 4, 1), ({"steps": -1, "lines": [[(0, (1,))]]}, 8, 7)]:
            job, buffer = JOB_41._replace(**change), bytearray(b"old")
            for entry in (solve, job_text, lambda job: write_job(job, buffer)):
                self.raised(fault, line, entry, job)
            self.assertEqual(buffer, b"old")
        for result, fault, line in [
                (Result(1, 1, "none", 1, [], []), 2, 5),
                (Result(1, 1, "spent", -1, [], []), 8, 4),
                (Result(1, -1, "spent", -1, [], []), 4, 2),
                (Result(1, 10**9, "one", 1, [0], [0]), 4, 2),
                (Result(10**9, 10**9, "none", 1, [0], [0]), 4, 1),
                (Result(1, 1, "none", 1, [0] * (MAX_N + 1), [0] * (MAX_N + 1)), 3, 5)]:
            self.raised(fault, line, write_result, result, bytearray(999))

    def test_buffers(self):
        for write, values, text in ((write_job, JOB_41, TEXT_41),
                                    (write_result, read_result(RESULT_41), RESULT_41)):
            size = len(text)
            for more in (0, 1, 7):
                buffer = bytearray(b"o" * (size + more))
                self.assertEqual(write(values, buffer), size)
                self.assertEqual(buffer, text + b"o" * more)
            buffer = bytearray(b"o" * (size - 1))
            self.raised(7, 0, write, values, buffer)
            self.assertEqual(buffer, b"o" * (size - 1))


if __name__ == "__main__":
    unittest.main()

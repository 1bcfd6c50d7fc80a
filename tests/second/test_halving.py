"""Document 02, P8: what is listed, its refusals, its requests and its cases."""

import unittest
from collections import Counter

import halving
from arithmetic import KINDS, MARK, MAX_BOXES, MAX_DEPTH, MAX_N, equations_of
from breach import inside, told
from claims import values_at
from dice import Dice
from examples import JOB_41, T7, T9, T11
from halve_cases import TWO, WIDE, fixed_halvings, still
from halve_claims import try_halvings
from halving import halve
from test_second import TEXT_41
from test_whole import ANSWERED, ASKED, run_batch
from texts import job_text, read_job
from zeros import job_with_several

# x x = 2 on [0, 2] units, one step at a time.  The first image is [21845, 152917]; the cut is
# at 76458, the middle of what it leaves.  The image of the low half is [59314, 101794].
SHORT = JOB_41._replace(lo=[0], hi=[131_072], steps=1)
UNIQUE = ("unique", [(83_588, 101_794)])
HALVED = [pair for pair in zip(ASKED, ANSWERED) if pair[0][0].startswith("halve ")]


def opened(*boxes):
    """Boxes listed as open."""
    return [("open", list(box)) for box in boxes]


def spent(*box):
    """A job without steps on a box."""
    return still([low for low, _ in box], [high for _, high in box])


def halved_examples():
    """Worked by hand: what is found and what should be."""
    a, b, wide = (0, 1), (1, 2), (1, 3)
    return [(told(halve, job, depth, 2 ** depth), wanted) for job, depth, wanted in [
        # "at least 2 marks"; "both halves keeping the cut"; "the low half first"
        (spent((0, 0)), 8, opened([(0, 0)])), (spent((0, 1)), 8, opened([(0, 1)])),
        (spent((0, 2)), 0, opened([(0, 2)])), (spent((0, 2)), 1, opened([a], [b])),
        (spent((0, 2)), 8, opened([a], [b])), (spent((0, 3)), 1, opened([a], [wide])),
        (spent((0, 3)), 2, opened([a], [b], [(2, 3)])),
        # "the rounded-down middle"
        (spent((-3, 0)), 1, opened([(-3, -2)], [(-2, 0)])),
        (spent((-4, -1)), 2, opened([(-4, -3)], [(-3, -2)], [(-2, -1)])),
        # "its widest edge (lowest number on ties)"
        (spent((0, 2), (0, 2)), 1, opened([a, (0, 2)], [b, (0, 2)])),
        (spent((0, 2), (0, 2)), 2, opened([a, a], [a, b], [b, a], [b, b])),
        (spent((0, 2), (0, 3)), 2, opened([a, a], [b, a], [a, wide], [b, wide])),
        (spent(a, (0, 2), (0, 2)), 1, opened([a, a, (0, 2)], [a, b, (0, 2)])),
        # "drop the box on none, list it on unique"
        (T9, 8, []), (JOB_41, 0, [("unique", [(81_919, 103_766)])]),
        (JOB_41, 8, [("unique", [(81_919, 103_766)])]),
        (T11, 3, [("unique", [(32_768, 32_768), (16_384, 16_384)])]),
        # "on stalled or spent take the returned box"
        (JOB_41._replace(inv=[0]), 1, opened([(65_536, 98_304)], [(98_304, 131_072)])),
        (T7, 8, opened([(0, 0)])), (T7._replace(steps=1), 8, opened([(0, 0)])),
        (SHORT, 0, opened([(21_845, 131_072)])),
        # "the inverse and step allowance are the job's each time"
        (SHORT, 1, opened([(59_314, 76_458)]) + [UNIQUE]), (SHORT, 2, [UNIQUE]),
    ]]


def refusals():
    """"The job's own, then 8 for depth not 0 to 8, then 7 where the list can't hold two to the
    power of the depth", whatever is listed: what is found and what should be."""
    wrong = JOB_41._replace(steps=1_001)
    return [(told(halving.halve, job, depth, room), wanted) for job, depth, room, wanted in [
        (wrong, -1, 0, (8, 7)), (wrong, 9, 256, (8, 7)), (wrong, 3, 7, (8, 7)),
        (JOB_41._replace(n=0), 9, 0, (3, 3)), (JOB_41._replace(hi=[0]), 3, 0, (5, 5)),
        (JOB_41, -1, 256, (8, 0)), (JOB_41, 9, 256, (8, 0)), (JOB_41, 9, 512, (8, 0)),
        (JOB_41, -1, 0, (8, 0)), (JOB_41, 9, 0, (8, 0)), (JOB_41, 10 ** 30, 0, (8, 0)),
        (JOB_41, -10 ** 30, 256, (8, 0)), (JOB_41, 0, 0, (7, 0)), (JOB_41, 8, 255, (7, 0)),
        (T9, 0, 0, (7, 0)), (T9, 1, 1, (7, 0)), (T9, 3, 7, (7, 0)), (T9, 8, 255, (7, 0)),
        (T9, 0, 1, []), (T9, 3, 8, []), (T9, 3, 9, []), (T9, 8, 256, []), (T9, 8, 10 ** 30, []),
    ]]


class Listing(unittest.TestCase):
    """What is listed of a job."""

    def test_examples(self):
        for number, (found, wanted) in enumerate(halved_examples(), 1):
            self.assertEqual(found, wanted, f"halving {number}")

    def test_hinges(self):
        """Both knees of a hinge, or one and, as open, a box that holds the other."""
        up, down = [MARK, 49_152], [MARK, -49_152]
        for job, depth, words in ((WIDE, 0, ["open"]), (WIDE, 2, ["open", "unique"]),
                                  (TWO, 3, ["open"] * 2), (TWO, 4, ["unique"] * 2)):
            listed = halve(job, depth, 2 ** depth)
            self.assertEqual([word for word, _ in listed], words)
            for knee, box in ((down, listed[0][1]), (up, listed[-1][1])):
                self.assertTrue(inside(knee, box))
        for depth in range(1, MAX_DEPTH + 1):          # the lower one is never served
            self.assertIn("open", [word for word, _ in halve(WIDE, depth, MAX_BOXES)])

    def test_refusals(self):
        for number, (found, wanted) in enumerate(refusals(), 1):
            self.assertEqual(found, wanted, f"refusal {number}")

    def test_zeros(self):
        """Those of the jobs with several known ones are zeros, most of them in the box."""
        dice, several = Dice(8), 0
        for _ in range(200):
            job, zeros = job_with_several(dice)
            self.assertEqual(read_job(job_text(job)), job)
            for zero in zeros:
                self.assertFalse(any(values_at(equations_of(job), zero)))
            several += sum(inside(zero, zip(job.lo, job.hi)) for zero in zeros) > 1
        self.assertGreater(several, 150)

    def test_claims(self):
        tried = try_halvings(2, 300)
        for name in ("boxes listed as open", "boxes listed as unique", "nothing listed",
                     "zeros in a box listed as unique", "zeros in boxes listed as open",
                     "starting boxes with two zeros or more, all unique"):
            self.assertGreater(tried[f"halving: {name}"], 0, name)


TEXT_11 = job_text(T11)
RIGHT_LINES = [                      # a request's words, its text, its answer
    ("halve 0 1", TEXT_41, b"job=41\nboxes=1\nbox=unique\nlo=81919\nhi=103766\n"),
    ("halve 8 256", TEXT_11, b"job=11\nboxes=1\nbox=unique\nlo=32768,16384\nhi=32768,16384\n"),
    ("halve 2 4", job_text(T9), b"job=9\nboxes=0\n"),
    ("halve 1 2", job_text(spent((-1, 1), (0, 1))),
     b"job=0\nboxes=2\nbox=open\nlo=-1,0\nhi=0,1\nbox=open\nlo=0,0\nhi=1,1\n"),
    ("halve 1 256", job_text(SHORT), b"job=41\nboxes=2\nbox=open\nlo=59314\nhi=76458\n"
     b"box=unique\nlo=83588\nhi=101794\n"),
    ("halve 8 255", TEXT_41, b"fault=7\nline=0\n"), ("halve 0 0", TEXT_41, b"fault=7\nline=0\n"),
    ("halve -1 0", TEXT_41, b"fault=8\nline=0\n"), ("halve 9 256", TEXT_41, b"fault=8\nline=0\n"),
    ("halve 999999999999999999 1", TEXT_41, b"fault=8\nline=0\n"),
    ("halve -999999999999999999 256", TEXT_41, b"fault=8\nline=0\n"),
    ("halve 9 0", TEXT_41[:-1], b"fault=2\nline=8\n"), ("halve 3 7", b"", b"fault=2\nline=1\n"),
]
DEPTHS = ["", "-", "-0", "00", "01", "-01", "+1", "x", "1.0", "1,1", "\xb2", f"{10 ** 18}",
          f"-{10 ** 18}"]
ROOMS = ["", "-", "-0", "-1", "00", "01", "0256", "+1", "x", "1.0", "1,1", "\xb2", "257", "999",
         "1000", "2560", f"{2 ** 32 + 1}", f"{2 ** 64 + 1}", "9" * 40]
BROKEN_LINES = [
    "halve", "halve ", "halve 0", "halve 0 1", "halve 0 1 ", "halve 0 1 00", "halve 0 1 -1",
    "halve 0 1 x", "halve 0 1 0 ", "halve 0 1 0 0", "halve 0 1  0", "halve 0 1 0\r", "halve\t0 1 0",
    "Halve 0 1 0", " halve 0 1 0", "halve0 1 0", "halves 0 1 0", "job 0 1 0",
    *(f"halve {depth} 1 0" for depth in DEPTHS), *(f"halve 0 {room} 0" for room in ROOMS)]
BAD_LINE = (b"error=expected a line of solve, job, result, parts L1,L2,.., image, image LO HI, "
            b"decide N LO HI KLO KHI, halve DEPTH ROOM, clear, open, step SLOT VISIT, "
            b"reading SLOT VISIT ROOM or close SLOT VISIT, and a length in digits "
            b"(decide, clear, step, reading, close: 0), one space between words\n")


class Requests(unittest.TestCase):
    """The words of a request, and the text of a list."""

    def test_right_lines(self):
        given = b"".join(b"%s %d\n" % (words.encode(), len(text)) + text
                         for words, text, _ in RIGHT_LINES)
        self.assertEqual(run_batch(given), b"".join(b"%d\n" % len(reply) + reply
                                                    for _, _, reply in RIGHT_LINES))
        for room in range(MAX_BOXES + 1):
            self.assertEqual(run_batch(b"halve 0 %d 0\n" % room), b"15\nfault=2\nline=1\n")

    def test_broken_lines(self):
        for line in BROKEN_LINES:
            self.assertEqual(run_batch(line.encode("latin-1") + b"\n"), BAD_LINE, line)


class Cases(unittest.TestCase):
    """The cases from a seed."""

    def test_fixed(self):
        """No case stands there twice."""
        self.assertEqual(max(Counter(fixed_halvings()).values()), 1)

    def test_every_answer_is_met(self):
        met = Counter()
        for (request, text), reply in HALVED:
            _, depth, _ = request.split(" ")
            first, second, *rest = reply.decode().split("\n")
            if first.startswith("fault="):
                met[first, second] += 1
                continue
            kind, n = text.decode().split("\n")[1:3]
            met[second] += 1
            met[second, n] += 1
            for word in rest[::3]:
                met[word, depth] += 1
                met[word, kind, n] += 1
        for depth in range(MAX_DEPTH + 1):
            for word in ("box=open", "box=unique"):
                self.assertGreater(met[word, str(depth)], 0, (word, depth))
        for n in range(1, MAX_N + 1):
            self.assertGreater(met["box=open", "kind=poly", f"n={n}"], 100, n)
            self.assertGreater(met["box=unique", "kind=poly", f"n={n}"], 2, n)
        for kind in KINDS:
            self.assertGreater(met["box=unique", f"kind={kind}", "n=2"], 2, kind)
        for n in (1, 2, MAX_N):
            self.assertGreater(met["boxes=256", f"n={n}"], 0, n)
        for boxes in (0, 1, 2, 3, 4, 128, 256):
            self.assertGreater(met[f"boxes={boxes}"], 0, boxes)
        for fault, line in ((7, 0), (8, 0), (8, 7), (1, 0), (2, 1), (3, 3), (4, 4), (5, 5), (9, 4)):
            self.assertGreater(met[f"fault={fault}", f"line={line}"], 0, fault)


if __name__ == "__main__":
    unittest.main()

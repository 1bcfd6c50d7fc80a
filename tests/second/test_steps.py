"""Document 02, P7: both operations, their faults and their requests, and slips in them."""

import unittest

import answers
import arithmetic
import steps
from answers import answer
from arithmetic import MAX_END, MAX_IMAGE, MAX_N
from breach import told
from examples import JOB_41, T7, T9, T11
from jobs import largest_job
from second import EXPECTED_LINE
from steps import decision, image_of, live_box
from test_second import TEXT_41
from test_whole import Slips, caught_by_cases, run_batch
from texts import job_text
from walks import Fault, demand, in_order

FAR = 10 ** 18                       # no number of a request: it has 19 digits
E, K = MAX_END, MAX_IMAGE


class Images(unittest.TestCase):
    """"One operation gives K for a job and a box." """

    def test_images(self):
        for job, lo, hi, wanted in [
                (JOB_41, [65_536], [131_072], [(81_919, 103_766)]),           # T6
                (JOB_41._replace(steps=0), [65_536], [131_072], [(81_919, 103_766)]),
                (JOB_41, [98_304], [98_304], [(92_842, 92_843)]),
                (JOB_41._replace(inv=[0]), [7], [9], [(7, 9)]),
                (T11, [-9, 0], [9, 0], [(32_768, 32_768), (16_384, 16_384)]),
                (T11, [-9, 0, FAR, 1], [9, 0, -FAR, 0], [(32_768, 32_768), (16_384, 16_384)])]:
            self.assertEqual(told(image_of, job, lo, hi), wanted)

    def test_range(self):
        """The greatest entries on the widest box, and on boxes without width."""
        for kind in arithmetic.KINDS:
            for lo, hi in ((-E, E), (-E, -E), (E, E)):
                for a, b in image_of(largest_job(kind), [lo] * MAX_N, [hi] * MAX_N):
                    self.assertTrue(-K <= a <= b <= K, (kind, a, b))

    def test_faults(self):
        """"Checked like a job's lo and hi, but with line 0", after the job's own."""
        crossed = T11._replace(lo=[1, 0], hi=[0, 0])
        for job, lo, hi, wanted in [
                (T11, [-E - 1, 0], [0, 0], (4, 0)), (T11, [0, 0], [0, E + 1], (4, 0)),
                (T11, [0, E + 1], [0, E + 1], (4, 0)), (T11, [0, 0], [-E - 1, 0], (4, 0)),
                (T11, [0, 1], [0, 0], (5, 0)), (T11, [1, 0], [0, E + 1], (4, 0)),
                (crossed, [0, 0], [0, 0], (5, 5)), (crossed, [0, 0], [0, E + 1], (5, 5)),
                (T11._replace(steps=-1), [1, 0], [0, 0], (8, 7)),
                (T11._replace(n=0), [E + 1], [0], (3, 3))]:
            self.assertEqual(told(image_of, job, lo, hi), wanted)


class Decisions(unittest.TestCase):
    """"The other takes X and K and gives the verdict or the next box." """

    def test_decisions(self):
        for n, lo, hi, klo, khi, wanted in [
                (1, [0], [9], [10], [12], ("none", [(0, 9)])),
                (1, [0], [9], [9], [12], ("next", [(9, 9)])),
                (1, [0], [9], [1], [8], ("unique", [(1, 8)])),
                (1, [0], [9], [0], [8], ("next", [(0, 8)])),
                (1, [0], [9], [-3], [9], ("stalled", [(0, 9)])),
                (2, [0, 0], [9, 9], [1, -3], [8, -1], ("none", [(0, 9), (0, 9)])),
                (2, [0, 0], [9, 9], [1, 3], [8, 12], ("next", [(1, 8), (3, 9)])),
                (2, [-E] * 2, [E] * 2, [-K] * 2, [K] * 2, ("stalled", [(-E, E)] * 2)),
                (1, [0, 5], [9, 6], [1, FAR], [8, 7], ("unique", [(1, 8)])),
                (1, [0, FAR], [9, 0], [0, 0], [9, 0], ("stalled", [(0, 9)]))]:
            self.assertEqual(told(decision, n, lo, hi, klo, khi), wanted)

    def test_faults(self):
        """"3 for that n, first", then those of X, "4 beyond the image's range, then 5 for
        its ends crossed"."""
        n, X4, X5 = [MAX_N + 1], [[1, E + 1], [0, 0]], [[1, 0], [0, 0]]
        K4, K5, right = [[1, K + 1], [0, 0]], [[1, 0], [0, 0]], [[0, 0], [0, 0]]
        for values, fault in [
                (n + X4 + K4, 3), (n + X5 + K5, 3), ([0] + right + right, 3),
                ([2 ** 64 + 1] + right + right, 3),
                ([2] + X4 + K5, 4), ([2] + X5 + K4, 5), ([2] + right + K4, 4),
                ([2] + right + K5, 5), ([1] + X4 + right, 5), ([1] + right + K4, 5),
                ([2] + right + [[-K - 1, 0], [0, 0]], 4),
                ([2] + right + [[0, 0], [K + 1, 0]], 4),
                ([2] + [[-E - 1, 0], [0, 0]] + right, 4),
                ([2] + [[0, 0], [0, -E - 1]] + right, 4)]:
            self.assertEqual(told(decision, *values), (fault, 0), values)


TEXT_11 = job_text(T11)
RIGHT_LINES = [                      # a request's words, its text, its answer
    ("image", TEXT_41, b"klo=81919\nkhi=103766\n"),
    ("image 65536 131072", TEXT_41, b"klo=81919\nkhi=103766\n"),
    ("image 65536,7,-8,999999999999999999 131072,1", TEXT_41, b"klo=81919\nkhi=103766\n"),
    ("image 65536,9,9,9,9,9 131072,1,1,1,1,1", TEXT_41, b"klo=81919\nkhi=103766\n"),
    ("image 0 -262145,9", TEXT_11, b"fault=4\nline=0\n"),
    ("image -1,-1 9", TEXT_11, b"klo=32768,16384\nkhi=32768,16384\n"),
    ("image 0,1 9", TEXT_11, b"fault=5\nline=0\n"),
    ("image 1 0", b"", b"fault=2\nline=1\n"),
    ("decide 1 0 9 1 8", b"", b"verdict=unique\nlo=1\nhi=8\n"),
    ("decide 2 0 9 1 8", b"", b"verdict=next\nlo=1,0\nhi=8,0\n"),
    ("decide 4 0 0 0 0", b"", b"verdict=stalled\nlo=0,0,0,0\nhi=0,0,0,0\n"),
    ("decide 5 0 9,9,9,9,9 1 8,8,8,8,8", b"", b"verdict=next\nlo=1,0,0,0,0\nhi=8,8,8,8,8\n"),
    ("decide 6 0,0,0,0,0,7 9,9,9,9,9,9 1,1,1,1,1,8 2,2,2,2,2,8", b"",
     b"verdict=unique\nlo=1,1,1,1,1,8\nhi=2,2,2,2,2,8\n"),
    ("decide 7 0 0 0 0", b"", b"fault=3\nline=0\n"),
    ("decide 1 0,1,1,1,1,1 9 10 12", b"", b"verdict=none\nlo=0\nhi=9\n"),
    ("decide 0 0 0 0 0", b"", b"fault=3\nline=0\n"),
    ("decide 1 0 9 0 -999999999999999999", b"", b"fault=4\nline=0\n"),
    ("decide 1 0 9 1 0", b"", b"fault=5\nline=0\n"),
    ("decide " + "9" * 4_078 + " 0 0 0 0", b"", b"fault=3\nline=0\n"),
]
BROKEN_LISTS = ["", ",", "0,", ",0", "0,,0", "0,0,0,0,0,0,0", "00", "01", "-", "-0", "-01",
                "+1", "x", "1.0", "0;0", "\t0", "\xb2", f"{FAR}", f"-{FAR}", f"0,{FAR}"]
BROKEN_LINES = [
    "image", "image ", "image -1", "image 00", "image x", "Image 0", "image\t0", "image 0 0",
    "image 0 0 0 0", "image 0 0 0 0 0", "image  0", "image 0 0  0", "image 0 0 0 ",
    "image 0 0 ", "image 0 0 -1", "image 0 0 00", "image 0 0 x", "step 0",
    "decide", "decide 0", "decide 1 0 0 0 0", "decide 1 0 0 0 0 0 0", "decide 1 0 0 0 0 1",
    "decide 1 0 0 0 0 00", "decide 1 0 0 0 0 ", "decide 1 0 0 0 0 0 ", "decide 01 0 0 0 0 0",
    "decide -1 0 0 0 0 0", "decide +1 0 0 0 0 0", "decide x 0 0 0 0 0", "decide 1,1 0 0 0 0 0",
    "decide  1 0 0 0 0 0", "decide 1  0 0 0 0 0", "decide " + "9" * 4_079 + " 0 0 0 0 0"]


class Requests(unittest.TestCase):
    """The words of a request."""

    def test_step(self):
        """Both at once, of a job's own box."""
        for job, wanted in [
                (JOB_41, b"klo=81919\nkhi=103766\nverdict=unique\nlo=81919\nhi=103766\n"),
                (JOB_41._replace(inv=[0], steps=0),
                 b"klo=65536\nkhi=131072\nverdict=stalled\nlo=65536\nhi=131072\n"),
                (T7, b"klo=0\nkhi=0\nverdict=next\nlo=0\nhi=0\n"),
                (T9, b"klo=65536\nkhi=65536\nverdict=none\nlo=0\nhi=0\n")]:
            self.assertEqual(answer("step", job_text(job)), wanted)
        self.assertEqual(answer("step", TEXT_41[:-1]), b"fault=2\nline=8\n")

    def test_right_lines(self):
        given = b"".join(b"%s %d\n" % (words.encode(), len(text)) + text
                         for words, text, _ in RIGHT_LINES)
        self.assertEqual(run_batch(given), b"".join(b"%d\n" % len(told) + told
                                                    for _, _, told in RIGHT_LINES))

    def test_broken_lines(self):
        forms = ["image {} 0 0", "image 0 {} 0", "decide 1 {} 0 0 0 0", "decide 1 0 {} 0 0 0",
                 "decide 1 0 0 {} 0 0", "decide 1 0 0 0 {} 0"]
        lists = [form.format(spelled) for form in forms for spelled in BROKEN_LISTS]
        for line in BROKEN_LINES + lists:
            self.assertEqual(run_batch(line.encode("latin-1") + b"\n"),
                             f"error=expected {EXPECTED_LINE}\n".encode(), line)


# Slips: what stands in the place of an entry or of a check.

def image_first(n, lo, hi, klo, khi):
    """K checked before X."""
    demand(1 <= n <= MAX_N, 3)
    live_box(n, klo, khi, MAX_IMAGE)
    return decision(n, lo, hi, klo, khi)


def n_last(n, lo, hi, klo, khi):
    """n checked after both boxes."""
    live_box(n, lo, hi, MAX_END)
    live_box(n, klo, khi, MAX_IMAGE)
    return decision(n, lo, hi, klo, khi)


def past_n_decides(n, lo, hi, klo, khi):
    """The places past n play a part."""
    decision(n, lo, hi, klo, khi)
    verdict, box = arithmetic.decide(list(zip(lo, hi)), list(zip(klo, khi)))
    return verdict or "next", box[:n]


def past_n_handed_back(n, lo, hi, klo, khi):
    """The places past n handed back."""
    verdict, box = decision(n, lo, hi, klo, khi)
    return verdict, box + list(zip(lo[n:], hi[n:]))


def crossed_first(n, lo, hi, size):
    """5 before 4."""
    in_order(lo[:n], hi[:n])
    return live_box(n, lo, hi, size)


def past_n_checked(n, lo, hi, size):
    """The places past n looked at."""
    live_box(MAX_N, lo, hi, size)
    return live_box(n, lo, hi, size)


def with_a_line(n, lo, hi, size):
    """The line of a job's hi instead of 0."""
    try:
        return live_box(n, lo, hi, size)
    except Fault as fault:
        raise Fault(fault.number, 5) from None


def own_box(job, lo, hi):
    """The image over the job's own box, whatever box is handed in."""
    return image_of(job, job.lo, job.hi)


def whole_box(X, K):
    """The box untouched at unique."""
    verdict, box = decide(X, K)
    return verdict, X if verdict == "unique" else box


def image_at_none(X, K):
    """K instead of X at none."""
    verdict, box = decide(X, K)
    return verdict, K if verdict == "none" else box


decide = arithmetic.decide


class StepSlips(Slips):
    """Slips of P7 are seen in the cases."""

    def test_slips(self):
        for instead in (image_first, n_last, past_n_decides, past_n_handed_back):
            self.slip("decision", instead, caught_by_cases, module=answers)
        for instead in (crossed_first, past_n_checked, with_a_line):
            self.slip("live_box", instead, caught_by_cases, module=steps)
        for instead in (whole_box, image_at_none):
            self.slip("decide", instead, caught_by_cases)
        self.slip("image_of", own_box, caught_by_cases, module=answers)
        for name in ("MAX_END", "MAX_IMAGE"):
            for beside in (-1, 1):
                self.slip(name, getattr(steps, name) + beside, caught_by_cases, module=steps)


if __name__ == "__main__":
    unittest.main()

"""The packets of batch."""

import os
import unittest

from calls import (EXAMPLES, IMAGE, JOB, MAX_HEADER, MAX_TEXT, RESULT, call, packet, pipe_not_waiting, request,
                   start)

SOLVE = request("solve", JOB)
SOLVED = packet(RESULT)
FAULT_1 = packet(b"fault=1\nline=0\n")
BAD_LINE = (b"error=expected a line of solve, job, result, parts L1,L2,.., image, image LO HI, decide N LO HI KLO KHI, "
            b"halve DEPTH ROOM, clear, open, step SLOT VISIT, reading SLOT VISIT ROOM or close SLOT VISIT, "
            b"and a length in digits (decide, clear, step, reading, close: 0), one space between words\n")
BAD_TEXT = b"error=expected as many bytes of text as the length says\n"

TWO = (EXAMPLES / "hinge-near.txt").read_bytes()             # a job of two unknowns
FAULTY = JOB.replace(b"steps=8", b"steps=1001")

# the words of a request and its text; the lines of its answer
STEPS = [
    ("image", JOB, "klo=81919 khi=103766"),
    ("image", FAULTY, "fault=8 line=7"),
    ("image 65536 131072", JOB, "klo=81919 khi=103766"),
    ("image 65536,9,-9,999999999999999999 131072,-9,9,-999999999999999999", JOB, "klo=81919 khi=103766"),
    ("image 65536,9,9,9,9,9 131072,1,1,1,1,1", JOB, "klo=81919 khi=103766"),
    ("image -262144 262144", JOB, "klo=-917494 khi=1004874"),
    ("image -262145 262144", JOB, "fault=4 line=0"),
    ("image -262144 262145", JOB, "fault=4 line=0"),
    ("image 999999999999999999 999999999999999999", JOB, "fault=4 line=0"),
    ("image 0 -262145", JOB, "fault=4 line=0"),
    ("image 1 0", JOB, "fault=5 line=0"),
    ("image 262145 0", FAULTY, "fault=8 line=7"),
    ("image 1 0", b"", "fault=2 line=1"),
    ("image 1 0", b"x" * (MAX_TEXT + 1), "fault=1 line=0"),
    ("image 1 9", TWO, "klo=65534,-19115 khi=65538,-19101"),
    ("image 0,1 9", TWO, "fault=5 line=0"),
    ("image 1,0 0,262145", TWO, "fault=4 line=0"),
    ("decide 1 0 9 10 12", b"", "verdict=none lo=0 hi=9"),
    ("decide 1 0 9 9 12", b"", "verdict=next lo=9 hi=9"),
    ("decide 1 0 9 1 8", b"", "verdict=unique lo=1 hi=8"),
    ("decide 1 0 9 0 9", b"", "verdict=stalled lo=0 hi=9"),
    ("decide 4 0,0,0,0 9,9,9,9 1,1,1,-5 8,8,8,4", b"", "verdict=next lo=1,1,1,0 hi=8,8,8,4"),
    ("decide 4 0 0 0 0", b"", "verdict=stalled lo=0,0,0,0 hi=0,0,0,0"),
    ("decide 5 0 9,9,9,9,9 1 8,8,8,8,8", b"", "verdict=next lo=1,0,0,0,0 hi=8,8,8,8,8"),
    ("decide 6 0,0,0,0,0,0 9,9,9,9,9,9 1,1,1,1,1,-5 8,8,8,8,8,4", b"", "verdict=next lo=1,1,1,1,1,0 hi=8,8,8,8,8,4"),
    ("decide 6 0,0,0,0,0,262145 9 0 0", b"", "fault=4 line=0"),
    ("decide 1 0,1,262145 9,0 1,-999999999999999999 8,5,6,7", b"", "verdict=unique lo=1 hi=8"),
    ("decide 1 -262144 262144 -70368744177664 70368744177664", b"", "verdict=stalled lo=-262144 hi=262144"),
    ("decide 0 0 0 0 0", b"", "fault=3 line=0"),
    ("decide 7 1 0 1 0", b"", "fault=3 line=0"),
    ("decide 18446744073709551617 0 0 0 0", b"", "fault=3 line=0"),
    ("decide 1 -262145 0 1 0", b"", "fault=4 line=0"),
    ("decide 1 1 0 0 70368744177665", b"", "fault=5 line=0"),
    ("decide 1 0 9 0 70368744177665", b"", "fault=4 line=0"),
    ("decide 1 0 9 -70368744177665 0", b"", "fault=4 line=0"),
    ("decide 1 0 9 1 0", b"", "fault=5 line=0"),
]

# no list of 1 to 6 numbers, each an optional minus and 1 to 18 digits
NO_LISTS = ["", ",", "0,", ",0", "0,,0", "0,0,0,0,0,0,0", "00", "01", "-", "-0", "-01", "+1", "x", "1.0", "0;0",
            "0\t", "1000000000000000000", "-1000000000000000000", "0,1000000000000000000"]
NO_STEPS = ["image", "image ", "image -1", "image 00", "image x", "Image 0", "image\t0", "image 0\r", "image  0",
            "image 0 0", "image 0 0 ", "image 0 0  0", "image 0 0 0 ", "image 0 0 0 0", "image 0 0 0 0 0",
            "image 0 0 -1", "image 0 0 00", "image 0 0 x",
            "decide", "decide 0", "decide 1 0 0 0 0", "decide 1 0 0 0 0 ", "decide 1 0 0 0 0 0 ", "decide 1 0 0 0 0 1",
            "decide 1 0 0 0 0 00", "decide 1 0 0 0 0 x", "decide 1 0 0 0 0 0 0", "decide 01 0 0 0 0 0",
            "decide -1 0 0 0 0 0", "decide +1 0 0 0 0 0", "decide x 0 0 0 0 0", "decide 1,1 0 0 0 0 0",
            "decide  1 0 0 0 0 0", "decide 1  0 0 0 0 0", "Decide 1 0 0 0 0 0"]

BEGUN = b"job=41\nvisit=%d\nverdict=spent\nsteps=0\nlo=65536\nhi=131072\n"
DONE = RESULT.replace(b"visit=0", b"visit=%d")
NOT_OPEN = b"fault=15\nline=0\n"
SHORT = b"fault=7\nline=0\n"

# two holders and those who come late; the words of each request, its text and its answer
HISTORY = [
    ("reading 0 1 4096", b"", NOT_OPEN), ("step 0 0", b"", NOT_OPEN), ("close 0 0", b"", NOT_OPEN),
    ("open", FAULTY, b"fault=8\nline=7\n"), ("open", b"x" * 70_000, b"fault=1\nline=0\n"),
    ("open", JOB, b"slot=0\nvisit=1\n"), ("open", JOB, b"slot=1\nvisit=2\n"),
    ("step 0 2", b"", NOT_OPEN), ("step 1 1", b"", NOT_OPEN), ("step 8 1", b"", NOT_OPEN),
    ("step 1 2", b"", DONE % 2), ("reading 0 1 4096", b"", BEGUN % 1), ("step 1 2", b"", DONE % 2),
    ("reading 1 2 57", b"", DONE % 2), ("reading 1 2 56", b"", SHORT), ("reading 1 2 0", b"", SHORT),
    ("reading 0 1 56", b"", BEGUN % 1), ("reading 0 1 55", b"", SHORT), ("reading 0 2 0", b"", NOT_OPEN),
    ("close 0 2", b"", NOT_OPEN), ("close 0 1", b"", b""), ("close 0 1", b"", NOT_OPEN),
    ("open", TWO, b"slot=0\nvisit=3\n"), ("step 0 1", b"", NOT_OPEN), ("reading 1 2 4096", b"", DONE % 2),
    ("clear", b"", b""), ("step 0 3", b"", NOT_OPEN), ("reading 1 2 4096", b"", NOT_OPEN),
    ("open", JOB, b"slot=0\nvisit=1\n"), ("reading 0 1 4096", b"", BEGUN % 1), ("step 0 1", b"", DONE % 1),
]

NO_CALLS = ["clear", "clear ", "clear 1", "clear 00", "clear x", "clear 0 0", "clear  0", "Clear 0", "clear 0\r",
            "open", "open ", "open -1", "open 00", "open 0 0", "open x",
            "step", "step 0", "step 0 0", "step 0 1 1", "step 0 1 00", "step 0 1 ", "step 0 1 0 0", "step 0  1 0",
            "step  0 1 0", "step 00 1 0", "step 0 01 0", "step -1 1 0", "step 0 -1 0", "step x 1 0", "step 0 x 0",
            "step 0,1 1 0", "step\t0 1 0", "Step 0 1 0", "steps 0 1 0",
            "reading 0 1 0", "reading 0 1 2 1", "reading 0 1 2 0 0", "reading 0 1 4097 0", "reading 0 1 01 0",
            "reading 0 1 -1 0", "reading 0 1 x 0", "reading 0 1  0", "reading 0 1 18446744073709551616 0",
            "close 0", "close 0 1", "close 0 1 1", "close 0 1 4096 0", "close 0 x 0", "close 0 1 00"]


class Rooms(unittest.TestCase):
    """The table of rooms, which a run keeps."""

    def test_history(self):
        """Alone, and with other requests between the calls."""
        for between, answer in ((b"", b""), (SOLVE, SOLVED)):
            given = b"".join(request(words, text) + between for words, text, _ in HISTORY)
            answers = b"".join(packet(told) + answer for _, _, told in HISTORY)
            self.assertEqual(call("batch", given=given), (0, answers, ""))

    def test_eight_holders(self):
        """In turns: each has its own result in the end, and a ninth has no room."""
        jobs = [path for path in sorted(EXAMPLES.glob("*.txt")) if b"steps=8\n" in path.read_bytes()][:8]
        given, answers = [], []
        for slot, path in enumerate(jobs):
            given.append(request("open", path.read_bytes()))
            answers.append(packet(b"slot=%d\nvisit=%d\n" % (slot, slot + 1)))
        given.append(request("open", JOB))
        answers.append(packet(b"fault=13\nline=0\n"))
        steps = b"".join(request(f"step {slot} {slot + 1}") for slot in range(8))
        readings = b"".join(request(f"reading {slot} {slot + 1} 4096") for slot in range(8))
        ended = call("batch", given=b"".join(given) + steps * 8 + readings)
        results = b"".join(packet(path.with_suffix(".out").read_bytes().replace(b"visit=0", b"visit=%d" % (slot + 1)))
                           for slot, path in enumerate(jobs))
        self.assertEqual((ended.status, ended.err), (0, ""))
        self.assertTrue(ended.out.startswith(b"".join(answers)))
        self.assertTrue(ended.out.endswith(results * 2))

    def test_beyond_64_bits(self):
        opening, answer = request("open", JOB), packet(b"slot=0\nvisit=1\n")
        for far in (2 ** 64 - 1, 2 ** 64, 2 ** 64 + 1, 2 ** 128, int("9" * 4_000)):
            given = opening + b"".join(request(words) for words in (f"step {far} 1", f"step 0 {far}",
                                                                    f"reading 0 {far} 9", f"close {far} 1"))
            self.assertEqual(call("batch", given=given), (0, answer + packet(NOT_OPEN) * 4, ""))

    def test_one_run_one_table(self):
        """Whoever waits for each answer finds the table as it was; the next run has one of its own."""
        for _ in range(2):
            run = start("batch")
            for words, text, told in HISTORY[:7]:
                run.stdin.write(request(words, text))
                run.stdin.flush()
                self.assertEqual(run.stdout.read(len(packet(told))), packet(told))
            self.assertEqual(run.communicate(request("step 1 2")), (packet(DONE % 2), b""))
            self.assertEqual(run.returncode, 0)

    def test_lines(self):
        for line in NO_CALLS:
            with self.subTest(line=line):
                given = request("open", JOB) + line.encode() + b"\n" + SOLVE
                self.assertEqual(call("batch", given=given), (2, packet(b"slot=0\nvisit=1\n") + BAD_LINE, ""))

    def test_texts(self):
        for broken in (b"open 79\n" + JOB[:-1], b"open 1\n", b"open 70000\n" + b"x" * 69_999):
            self.assertEqual(call("batch", given=request("clear") + broken), (2, packet(b"") + BAD_TEXT, ""))


class Answers(unittest.TestCase):
    """What is framed right is answered, each in its turn."""

    def test_none(self):
        self.assertEqual(call("batch"), (0, b"", ""))

    def test_many(self):
        for count in (1, 2, 1_000, 20_000):
            self.assertEqual(call("batch", given=SOLVE * count), (0, SOLVED * count, ""))

    def test_operations(self):
        given = SOLVE + request("job", JOB) + request("result", RESULT) + request("result", JOB) + request("job", b"")
        answers = SOLVED + packet(JOB) + packet(RESULT) + packet(b"fault=2\nline=2\n") + packet(b"fault=2\nline=1\n")
        self.assertEqual(call("batch", given=given), (0, answers, ""))

    def test_steps(self):
        """All in one run, so that each begins where the one before it ended."""
        given = b"".join(request(words, text) + SOLVE for words, text, _ in STEPS)
        answers = b"".join(packet(lines.replace(" ", "\n").encode() + b"\n") + SOLVED for _, _, lines in STEPS)
        self.assertEqual(call("batch", given=given), (0, answers, ""))

    def test_too_long(self):
        for length in (MAX_TEXT + 1, 70_000, 1_000_000):
            given = SOLVE + request("result", b"x" * length) + SOLVE
            self.assertEqual(call("batch", given=given), (0, SOLVED + FAULT_1 + SOLVED, ""))

    def test_each_before_the_next(self):
        for ends in (os.pipe(), pipe_not_waiting(0)):
            run = start("batch", stdin=ends[0])
            for given, answer in ((SOLVE, SOLVED), (request("job", JOB), packet(JOB)),
                                  (request("image 65536 131072", JOB), packet(IMAGE)),
                                  (request("decide 0 0 0 0 0"), packet(b"fault=3\nline=0\n")),
                                  (request("job", b"x" * 70_000), FAULT_1), (SOLVE, SOLVED)):
                for piece in (given[:3], given[3:40], given[40:]):
                    os.write(ends[1], piece)
                self.assertEqual(run.stdout.read(len(answer)), answer)
            os.close(ends[1])
            self.assertEqual(run.communicate(), (b"", b""))
            self.assertEqual(run.returncode, 0)
            os.close(ends[0])


class Framing(unittest.TestCase):
    """What is not ends the run with what was expected, after the answers before it, and exit status 2."""

    def breaks(self, broken, said):
        """At the beginning, and after requests."""
        for count in (0, 1, 3_000):
            self.assertEqual(call("batch", given=SOLVE * count + broken), (2, SOLVED * count + said, ""))

    def test_lines(self):
        for line in (b"x 1", b"solve", b"", b" ", b"solve ", b"solve  1", b"solve -1", b"solve +1", b"solve 01",
                     b"solve x", b"solve 1 ", b"solve 1 1", b"Solve 1", b"solve\t1", b"solve 1\r", b"solve \xb2",
                     b"show 1", b"1"):
            with self.subTest(line=line):
                self.assertEqual(call("batch", given=line + b"\n" + SOLVE), (2, BAD_LINE, ""))
        self.breaks(b"x 1\n1", BAD_LINE)

    def test_lines_of_steps(self):
        lines = [form.format(spelled) for spelled in NO_LISTS
                 for form in ("image {} 0 0", "image 0 {} 0", "decide 1 {} 0 0 0 0", "decide 1 0 0 0 {} 0")]
        for line in NO_STEPS + lines:
            with self.subTest(line=line):
                self.assertEqual(call("batch", given=line.encode() + b"\n" + SOLVE), (2, BAD_LINE, ""))

    def test_line_without_end(self):
        for line in (b"s", b"solve 1", b"solve 79", b"image 0", b"decide 1 0 0 0 0 0"):
            self.breaks(line, BAD_LINE)

    def test_long_lines(self):
        longest = b"solve %s\n" % (b"9" * (MAX_HEADER - 7))
        self.assertEqual(len(longest), MAX_HEADER)
        self.breaks(longest, BAD_TEXT)
        self.breaks(b"solve 9" + longest[6:], BAD_LINE)
        longest = b"decide %s 0 0 0 0 0\n" % (b"9" * (MAX_HEADER - 18))
        self.assertEqual(len(longest), MAX_HEADER)
        self.assertEqual(call("batch", given=longest + SOLVE), (0, packet(b"fault=3\nline=0\n") + SOLVED, ""))
        self.breaks(b"decide 9" + longest[7:], BAD_LINE)
        self.breaks(b"s" * 100_000, BAD_LINE)

    def test_texts(self):
        for broken in (b"solve 1\n", b"solve 79\n" + JOB[:-1], b"image 0 9 79\n" + JOB[:-1],
                       b"job 70000\n" + b"x" * 69_999,
                       b"job 18446744073709551615\nx", b"job 99999999999999999999\nx"):
            self.breaks(broken, BAD_TEXT)

"""All closing positions: the command halve, and its requests in batch."""

import os
import subprocess
import sys
import time
import unittest

from calls import EXAMPLES, JOB, MAX_TEXT, ROOT, WAIT
from calls import answered_not_waiting, call, packet, pipe_not_waiting, request, start
from test_batch import BAD_LINE, BAD_TEXT, FAULT_1, FAULTY, SOLVE, SOLVED

JOB_FILE = str(EXAMPLES / "job41.txt")
LISTED = b"job=41\nboxes=1\nbox=unique\nlo=81919\nhi=103766\n"          # at every depth
WIDE, TWO = ((EXAMPLES / name).read_bytes() for name in ("hinge-wide.txt", "hinge-two.txt"))
WIDE_LISTED, TWO_LISTED = ((EXAMPLES / name).read_bytes() for name in ("hinge-wide.2.list", "hinge-two.4.list"))
# 1 = 0
NOTHING = b"job=9\nkind=poly\nn=1\nlo=0\nhi=2\ninv=65536\nsteps=8\neq=65536:0\n"
NOTHING_LISTED = b"job=9\nboxes=0\n"
# the widest box of six unknowns, of which nothing is decided: at depth 8 the longest list there is
OPEN = (b"job=999999999\nkind=poly\nn=6\nlo=%s\nhi=%s\ninv=%s\nsteps=0\n" % tuple(
    b",".join([end] * count) for end, count in ((b"-262144", 6), (b"262144", 6), (b"0", 36))) + b"eq=\n" * 6)

FAR = 999_999_999_999_999_999                # the greatest number that a depth may be spelled as
NO_NUMBERS = ["", "x", "-", "+1", "01", "-0", "1,1", str(FAR + 1), str(-FAR - 1)]
NO_ROOMS = ["", "x", "-1", "+1", "01", "257", "1000", str(2 ** 32 + 1), str(2 ** 64 + 1)]
NO_LINES = ["halve", "halve 1", "halve 1 2", "halve 1 2 ", "halve 1 2 00", "halve 1 2 -1", "halve 1 2 x",
            "halve 1 2 0 0", "halve 1 2  0", "halve 1 2 0\r", "halve\t1 2 0", "Halve 1 2 0", "halves 1 2 0"]
BLOCK = 65_536                               # bytes of answers that batch writes at once

# the words of a request and its text; its answer
REQUESTS = [
    ("halve 0 1", JOB, LISTED),
    ("halve 8 256", JOB, LISTED),
    ("halve 2 4", WIDE, WIDE_LISTED),
    ("halve 4 16", TWO, TWO_LISTED),
    ("halve 4 256", TWO, TWO_LISTED),
    ("halve 3 8", NOTHING, NOTHING_LISTED),
    ("halve 0 0", JOB, b"fault=7\nline=0\n"),
    ("halve 4 15", TWO, b"fault=7\nline=0\n"),
    ("halve 8 255", NOTHING, b"fault=7\nline=0\n"),
    ("halve 9 256", JOB, b"fault=8\nline=0\n"),
    ("halve -1 0", JOB, b"fault=8\nline=0\n"),
    (f"halve {FAR} 0", JOB, b"fault=8\nline=0\n"),
    (f"halve {-FAR} 256", JOB, b"fault=8\nline=0\n"),
    ("halve 9 0", FAULTY, b"fault=8\nline=7\n"),
    ("halve 1 1", b"", b"fault=2\nline=1\n"),
    ("halve 0 1", b"x" * (MAX_TEXT + 1), b"fault=1\nline=0\n"),
    ("halve 9 0", b"x" * 70_000, b"fault=1\nline=0\n"),
]


def by_second(depth, text):
    """The list that the second program makes."""
    words = [sys.executable, "-B", str(ROOT / "tests" / "second" / "second.py"), "halve", str(depth)]
    return subprocess.run(words, input=text, capture_output=True, timeout=WAIT, check=True).stdout


def stored():
    """The lists beside the examples: the depth of each, the file of its job, what is listed."""
    for path in sorted(EXAMPLES.glob("*.list")):
        name, depth, _ = path.name.split(".")
        yield depth, EXAMPLES / f"{name}.txt", path.read_bytes()


def uncut(result):
    """What depth 0 lists of a job with this result text."""
    number, _, verdict, _, *ends = result.decode().splitlines()
    word = {"verdict=none": "", "verdict=unique": "box=unique"}.get(verdict, "box=open")
    lines = [number, "boxes=1", word, *ends] if word else [number, "boxes=0"]
    return "".join(line + "\n" for line in lines).encode()


def line_of(text, key):
    """The first line that begins so."""
    return next(line for line in text.splitlines() if line.startswith(key))


class Command(unittest.TestCase):
    """What is listed, and what is said where nothing can be."""

    def test_stored(self):
        lists = list(stored())
        self.assertGreater(len(lists), 2)
        for depth, job, answer in lists:
            self.assertEqual(call("halve", depth, str(job)), (0, answer, ""))
            self.assertEqual(call("halve", depth, given=job.read_bytes()), (0, answer, ""))
            self.assertEqual(call("halve", depth, "-", given=job.read_bytes()), (0, answer, ""))

    def test_uncut(self):
        """At depth 0 the box of the result is listed, or dropped."""
        for job in sorted(EXAMPLES.glob("*.txt")):
            result, ended = job.with_suffix(".out").read_bytes(), call("halve", "0", str(job))
            if result.startswith(b"fault="):
                self.assertEqual((ended.status, ended.out), (1, result))
            else:
                self.assertEqual(ended, (0, uncut(result), ""))

    def test_full(self):
        answer = by_second(8, OPEN)
        self.assertTrue(answer.startswith(b"job=999999999\nboxes=256\nbox=open\n"))
        self.assertEqual(call("halve", "8", given=OPEN), (0, answer, ""))

    def test_page(self):
        """What docs/TEXTS.md says of a dead point, and of an open box that is typed into its job."""
        listed = call("halve", "8", str(EXAMPLES / "straight-knee.txt")).out
        self.assertEqual((listed.split(b"\n")[1], listed.count(b"box=open\n")), (b"boxes=256", 256))
        text = WIDE.replace(b"21845,21845", b"-21845,-21845")
        for end in (b"lo=", b"hi="):
            text = text.replace(line_of(WIDE, end), line_of(WIDE_LISTED, end))
        self.assertIn(b"verdict=unique\nsteps=2\n", call("solve", given=text).out)

    def test_nothing(self):
        for depth in ("0", "1", "8"):
            self.assertEqual(call("halve", depth, given=NOTHING), (0, NOTHING_LISTED, ""))

    def test_depth(self):
        for depth in (9, -1, -8, 256, 2 ** 32, FAR, -FAR):
            said = f"fault 8: the depth is {depth}: it lies from 0 to 8\n"
            self.assertEqual(call("halve", str(depth), given=JOB),
                             (1, b"fault=8\nline=0\n", f"standard input: {said}"))
            self.assertEqual(call("halve", str(depth), JOB_FILE),
                             (1, b"fault=8\nline=0\n", f"{JOB_FILE}: {said}"))

    def test_job_first(self):
        """Its fault and its sentence, whatever the depth."""
        slip = str(EXAMPLES / "slip.txt")
        order = "term 3 must stand before term 2: terms stand in falling order of their exponents"
        for depth in ("0", "9", "-1"):
            self.assertEqual(call("halve", depth, slip),
                             (1, b"fault=6\nline=8\n", f"{slip}:8: fault 6: {order}\n"))
        self.assertEqual(call("halve", "9", given=FAULTY), (
            1, b"fault=8\nline=7\n", "standard input:7: fault 8: steps is 1001: it lies from 0 to 1000\n"))
        said = f"standard input: fault 1: a text has at most {MAX_TEXT} bytes, this one has more\n"
        for length in (MAX_TEXT + 1, 70_000):
            self.assertEqual(call("halve", "9", given=b"x" * length), (1, b"fault=1\nline=0\n", said))

    def test_wrong_calls(self):
        page = call("help").out.decode()
        for words in (("halve",), *(("halve", depth) for depth in NO_NUMBERS), ("halve", JOB_FILE),
                      ("halve", "x", JOB_FILE, "-")):
            word = words[1] if len(words) > 1 else ""
            said = f"floodrafter: expected a depth after halve, a whole number, not '{word}'\n"
            self.assertEqual(call(*words, given=JOB), (2, b"", said + page))
        for words in (("halve", "1", JOB_FILE, "0"), ("halve", "9", "-", "-")):
            self.assertEqual(call(*words, given=JOB), (2, b"", "floodrafter: too many arguments\n" + page))


class Batch(unittest.TestCase):
    """Lists among other answers."""

    def test_answers(self):
        """All in one run, so that each begins where the one before it ended."""
        given = b"".join(request(words, text) + SOLVE for words, text, _ in REQUESTS)
        answers = b"".join(packet(answer) + SOLVED for _, _, answer in REQUESTS)
        self.assertEqual(call("batch", given=given), (0, answers, ""))

    def test_blocks(self):
        """Where a block of answers is full within a list, before one and behind one."""
        asked, answer = request("halve 8 256", OPEN), packet(call("halve", "8", given=OPEN).out)
        full = (BLOCK - 3 * len(answer)) // len(SOLVED)
        self.assertGreater(full, 1)
        for count in (0, 1, full - 1, full, full + 1):
            self.assertEqual(call("batch", given=(asked * 3 + SOLVE * count) * 3),
                             (0, (answer * 3 + SOLVED * count) * 3, ""))

    def test_each_before_the_next(self):
        full = call("halve", "8", given=OPEN).out
        for ends in (os.pipe(), pipe_not_waiting(0)):
            run = start("batch", stdin=ends[0])
            for words, text, answer in (("halve 8 256", OPEN, full), *REQUESTS, ("halve 8 256", OPEN, full)):
                given = request(words, text)
                for piece in (given[:3], given[3:7], given[7:9], given[9:40], given[40:]):
                    os.write(ends[1], piece)
                self.assertEqual(run.stdout.read(len(packet(answer))), packet(answer))
            os.close(ends[1])
            self.assertEqual(run.communicate(timeout=WAIT), (b"", b""))
            self.assertEqual(run.returncode, 0)
            os.close(ends[0])

    def test_byte_by_byte(self):
        reading, writing = os.pipe()
        run = start("batch", stdin=reading)
        for byte in request("halve 2 4", WIDE):
            os.write(writing, bytes([byte]))
            time.sleep(0.001)
        os.close(writing)
        self.assertEqual(run.communicate(timeout=WAIT), (packet(WIDE_LISTED), b""))
        self.assertEqual(run.returncode, 0)
        os.close(reading)

    def test_lines(self):
        """What is no request ends the run, after the answers before it."""
        before, answers = SOLVE + request("halve 2 4", WIDE), SOLVED + packet(WIDE_LISTED)
        for line in (*NO_LINES, *(f"halve {depth} 2 0" for depth in NO_NUMBERS),
                     *(f"halve 1 {room} 0" for room in NO_ROOMS)):
            with self.subTest(line=line):
                self.assertEqual(call("batch", given=before + line.encode() + b"\n" + SOLVE),
                                 (2, answers + BAD_LINE, ""))
        self.assertEqual(call("batch", given=before + b"halve 1 2 0"), (2, answers + BAD_LINE, ""))

    def test_texts(self):
        for broken in (b"halve 0 1 79\n" + JOB[:-1], b"halve 9 0 1\n", b"halve 0 1 70000\n" + b"x" * 69_999):
            self.assertEqual(call("batch", given=SOLVE + broken), (2, SOLVED + BAD_TEXT, ""))

    def test_too_long(self):
        """The bytes past the limit are passed over."""
        for length in (MAX_TEXT + 1, 70_000, 1_000_000):
            given = SOLVE + request("halve 8 256", b"x" * length) + SOLVE
            self.assertEqual(call("batch", given=given), (0, SOLVED + FAULT_1 + SOLVED, ""))


class Writing(unittest.TestCase):
    """A list goes out in pieces, and none of them is lost without a word."""

    def test_ended(self):
        for words, given in ((("halve", "8"), OPEN), (("batch",), request("halve 8 256", OPEN) * 5)):
            reading, writing = os.pipe()
            os.close(reading)
            self.assertEqual(call(*words, given=given, stdout=writing),
                             (2, None, "floodrafter: standard output: Broken pipe\n"))
            os.close(writing)

    def test_not_waiting(self):
        answer = packet(call("halve", "8", given=OPEN).out)
        self.assertEqual(answered_not_waiting(request("halve 8 256", OPEN) * 10), (answer * 10, 0))

"""Every fault by its two lines, its sentence on standard error and exit status 1."""

import re
import unittest

from calls import EXAMPLES, JOB, MAX_TEXT, RESULT, ROOT, call

NUMBER = "; expected job= and the job's number"
KIND = "; expected kind=poly, kind=linear or kind=eigen"
DIGIT = "; expected n= and one digit"
LO = "; expected lo= and one number"
HI = "; expected hi= and one number"
INV = "; expected inv= and one number"
STEPS = "; expected steps= and a number"
EQ = "; expected eq= and terms coefficient:exponents joined by commas, exponent digits a term: 1"
VISIT = "; expected visit= and the visit's number"
VERDICT = "; expected verdict=none, verdict=unique, verdict=stalled or verdict=spent"
NUMBERS = "; expected lo= and numbers joined by commas"
THREE = "; expected lo= and 3 numbers joined by commas"
PIN = "; expected pin= and a number from 1 to 2"
PIN_OR_LO = PIN + ", or lo= and 3 numbers joined by commas"
PIN_RANGE = ": it lies from 1 to 2"
LAST = ": the last coordinate is pinned without this line, leave the line out"

# the line that is put in place of that of a job for one unknown, its fault and its sentence
JOB_FAULTS = [
    (1, "job=x", 2, "the number has a character that is no digit" + NUMBER),
    (1, "job=", 2, "the number is missing" + NUMBER),
    (1, "job=041", 2, "the number begins with a zero and goes on: write it without that zero" + NUMBER),
    (1, "job=1,2", 2, "the number is followed by a comma, and one number is all" + NUMBER),
    (1, "job 41", 2, "line 1 does not begin with its key" + NUMBER),
    (1, "\ufeffjob=41", 2, "the text begins with a byte order mark: save it as plain text without one"),
    (1, "job=41\r", 2, "line 1 has a carriage return: save with Unix line ends"),
    (2, "kind=cubic", 2, "line 2 has another word" + KIND),
    (2, "kind=Poly", 2, "line 2 has a capital letter: all are small" + KIND),
    (2, "kind=poly ", 2, "line 2 has a blank or a tab: write it with none"),
    (2, "kind=poly\r", 2, "line 2 has a carriage return: save with Unix line ends"),
    (3, "n=10", 2, "line 3 has not just one digit" + DIGIT),
    (3, "n=", 2, "line 3 has not just one digit" + DIGIT),
    (3, "n=1\r", 2, "line 3 has a carriage return: save with Unix line ends"),
    (4, "hi=65536", 2, "line 4 begins with hi=, lo= is expected"),
    (4, "Lo=65536", 2, "line 4 has a capital letter: all are small" + LO),
    (4, "", 2, "line 4 is empty" + LO),
    (4, "lo=65,536", 2, "n=1: 1 number expected, 2 found"),
    (4, "lo= 65536", 2, "line 4 has a blank or a tab: write it with none"),
    (4, "lo=65536\t", 2, "line 4 has a blank or a tab: write it with none"),
    (5, "hi=", 2, "number 1 is missing" + HI),
    (5, "hi=2.0", 2, "number 1 has a decimal point: numbers are marks, 1.5 is 98304" + HI),
    (5, "hi=.5", 2, "number 1 has a decimal point: numbers are marks, 1.5 is 98304" + HI),
    (5, "hi=131072,", 2, "number 2 is missing" + HI),
    (5, "hi=131072,,1", 2, "number 2 is missing" + HI),
    (6, "inv=+1", 2, "number 1 has a plus sign: write it with none" + INV),
    (6, "inv=-0", 2, "number 1 has a zero right after its minus: write 0 with no minus" + INV),
    (6, "inv=-", 2, "number 1 has no digit after its minus" + INV),
    (6, "inv=1000000000", 2, "number 1 has over 9 digits" + INV),
    (7, "step=8", 2, "line 7 does not begin with its key" + STEPS),
    (7, "eq=65536:2", 2, "line 7 begins with eq=, steps= is expected"),
    (8, "row=65536,131072", 2, "line 8 begins with row=, eq= is expected"),
    (8, "eq=1", 2, "term 1 has no exponents" + EQ),
    (8, "eq=65536:2,1", 2, "term 2 has no exponents" + EQ),
    (8, "eq=65536:2,:1", 2, "the coefficient of term 2 has a character that is no digit" + EQ),
    (8, "eq=65536:2,", 2, "the coefficient of term 2 is missing" + EQ),
    (8, "eq=65536:2,01:1", 2,
     "the coefficient of term 2 begins with a zero and goes on: write it without that zero" + EQ),
    (8, "eq=65536:20", 2, "n=1: 1 exponent expected in term 1, 2 found"),
    (8, "eq=65536:2,1:", 2, "n=1: 1 exponent expected in term 2, 0 found"),
    (8, "eq=65536:2 ", 2, "line 8 has a blank or a tab: write it with none"),
    (8, "eq=65536:2;1:1", 2, "term 1 is not followed by a comma" + EQ),
    (9, "", 2, "line 9 is one too many: the line before it is the last"),
    (9, "eq=", 2, "line 9 is one too many: the line before it is the last"),
    (3, "n=7", 3, "there are 1 to 6 unknowns, not 7"),
    (3, "n=9", 3, "there are 1 to 6 unknowns, not 9"),
    (3, "n=0", 3, "there are 1 to 6 unknowns, not 0"),
    (1, "job=-1", 4, "the job's number is -1: it lies from 0 to 999999999"),
    (4, "lo=-262145", 4, "number 1 is -262145: ends lie from -262144 to 262144"),
    (5, "hi=262145", 4, "number 1 is 262145: ends lie from -262144 to 262144"),
    (6, "inv=4194305", 4, "number 1 is 4194305: entries lie from -4194304 to 4194304"),
    (8, "eq=65536:2,-9000000:0", 4,
     "the coefficient of term 2 is -9000000: coefficients lie from -4194304 to 4194304"),
    (8, "eq=" + "1:0," * 16 + "9000000:0", 4, "coefficients and entries lie from -4194304 to 4194304"),
    (5, "hi=65535", 5, "unknown 1: the high end 65535 is below the low end 65536"),
    (8, "eq=" + ",".join(["1:0"] * 17), 6, "an equation has at most 16 terms, this one has 17"),
    (8, "eq=1:2,0:1", 6, "the coefficient of term 2 is 0: leave the term out"),
    (8, "eq=1:4", 6, "the exponents of term 1 add up to 4, at most 3 may be"),
    (8, "eq=1:1,1:2", 6, "term 2 must stand before term 1: terms stand in falling order of their exponents"),
    (8, "eq=1:3,1:2,2:2", 6, "terms 2 and 3 have the same exponents: make them one term"),
    (7, "steps=1001", 8, "steps is 1001: it lies from 0 to 1000"),
]

RESULT_FAULTS = [
    (1, "job=", 2, "the number is missing" + NUMBER),
    (2, "visit=", 2, "the number is missing" + VISIT),
    (2, "visit=07", 2, "the number begins with a zero and goes on: write it without that zero" + VISIT),
    (2, "visit=-0", 2, "the number has a zero right after its minus: write 0 with no minus" + VISIT),
    (2, "visit=-", 2, "the number has no digit after its minus" + VISIT),
    (2, "visit=1,2", 2, "the number is followed by a comma, and one number is all" + VISIT),
    (2, "visit=x", 2, "the number has a character that is no digit" + VISIT),
    (2, "visit=1000000000", 2, "the number has over 9 digits" + VISIT),
    (2, "visits=0", 2, "line 2 does not begin with its key" + VISIT),
    (2, "Visit=0", 2, "line 2 has a capital letter: all are small" + VISIT),
    (2, "", 2, "line 2 is empty" + VISIT),
    (2, "kind=poly", 2, "line 2 begins with kind=, visit= is expected"),
    (3, "visit=0", 2, "line 3 begins with visit=, verdict= is expected"),
    (3, "verdict=yes", 2, "line 3 has another word" + VERDICT),
    (4, "steps=01", 2, "the number begins with a zero and goes on: write it without that zero" + STEPS),
    (5, "lo=", 2, "number 1 is missing" + NUMBERS),
    (5, "lo=1;2", 2, "number 1 has a character that is no digit" + NUMBERS),
    (6, "hi=1,2", 2, "n=1: 1 number expected, 2 found"),
    (7, "lo=1", 2, "line 7 is one too many: the line before it is the last"),
    (5, "lo=0,0,0,0,0,0,0", 3, "there are 1 to 6 unknowns, not 7"),
    (5, "lo=0,0,0,0,0,0,0,0,0,0,0", 3, "there are 1 to 6 unknowns, not 11"),
    (1, "job=-1", 4, "the job's number is -1: it lies from 0 to 999999999"),
    (2, "visit=-1", 4, "the visit's number is -1: it lies from 0 to 999999999"),
    (5, "lo=262145", 4, "number 1 is 262145: ends lie from -262144 to 262144"),
    (6, "hi=-262145", 4, "number 1 is -262145: ends lie from -262144 to 262144"),
    (6, "hi=0", 5, "unknown 1: the high end 0 is below the low end 81919"),
    (4, "steps=-1", 8, "steps is -1: it lies from 0 to 1000"),
]

# jobs of two to six unknowns, with lines that have several numbers
SEVERAL = [
    ("load.txt", 6, "inv=1,2,3", 2, "n=3: 9 numbers expected, 3 found"),
    ("load.txt", 6, "inv=1,2,3,4,5,6,7,8,4194305", 4,
     "number 9 is 4194305: entries lie from -4194304 to 4194304"),
    ("load.txt", 4, "lo=0,,0", 2, "number 2 is missing; expected lo= and 3 numbers joined by commas"),
    ("load.txt", 8, "row=x", 2,
     "number 1 has a character that is no digit; expected row= and 4 numbers joined by commas, the right side last"),
    ("load.txt", 9, "row=1,2", 2, "n=3: 4 numbers expected, 2 found"),
    ("mode.txt", 8, "row=x", 2,
     "number 1 has a character that is no digit; expected row= and 3 numbers joined by commas"),
    ("hinge-near.txt", 5, "hi=81920,32767", 5, "unknown 2: the high end 32767 is below the low end 32768"),
    ("hinge-near.txt", 8, "eq=1:2", 2, "n=2: 2 exponents expected in term 1, 1 found"),
    ("hinge-near.txt", 8, "eq=1:02,1:20", 6,
     "term 2 must stand before term 1: terms stand in falling order of their exponents"),
    ("king-post.txt", 5, "hi=131072,131072,131072,131072,-131073", 5,
     "unknown 5: the high end -131073 is below the low end -131072"),
    ("king-post.txt", 12, "row=1,2,3,4,5", 2, "n=5: 6 numbers expected, 5 found"),
    ("wrist.txt", 4, "lo=0,0,0,0", 2, "n=6: 6 numbers expected, 4 found"),
    ("wrist.txt", 6, "inv=1,2,3", 2, "n=6: 36 numbers expected, 3 found"),
    ("wrist.txt", 13, "eq=1:2000", 2, "n=6: 6 exponents expected in term 1, 4 found"),
    ("wrist.txt", 13, "eq=1:211000", 6, "the exponents of term 1 add up to 4, at most 3 may be"),
    ("wrist.txt", 14, "eq=", 2, "line 14 is one too many: the line before it is the last"),
]

# eigen jobs: of three unknowns, without a pin line and with one, and of one unknown; jobs of other kinds
MODE, PINNED = ((EXAMPLES / name).read_bytes() for name in ("mode.txt", "flat-pinned.txt"))
ONE = b"job=1\nkind=eigen\nn=1\nlo=0\nhi=0\ninv=0\nsteps=1\nrow=0\n"
TWO = b"job=1\nkind=eigen\nn=2\npin=1\nlo=0,0\nhi=0,0\ninv=0,0,0,0\nsteps=1\nrow=0,0\nrow=0,0\n"
LOAD = (EXAMPLES / "load.txt").read_bytes()
PIN_FAULTS = [
    (MODE, 4, "hi=0,0,0", 2, "line 4 begins with hi=, pin= or lo= is expected"),
    (MODE, 4, "n=3", 2, "line 4 begins with n=, pin= or lo= is expected"),
    (MODE, 4, "pi=1", 2, "line 4 does not begin with its key" + PIN_OR_LO),
    (MODE, 4, "pin 1", 2, "line 4 does not begin with its key" + PIN_OR_LO),
    (MODE, 4, "Pin=1", 2, "line 4 has a capital letter: all are small" + PIN_OR_LO),
    (MODE, 4, "", 2, "line 4 is empty" + PIN_OR_LO),
    (MODE, 4, " pin=1", 2, "line 4 has a blank or a tab: write it with none"),
    (MODE, 4, "lo=0,,0", 2, "number 2 is missing" + THREE),
    (MODE, 4, "lo=0,0", 2, "n=3: 3 numbers expected, 2 found"),
    (MODE, 5, "pin=1", 2, "line 5 begins with pin=, hi= is expected"),
    (PINNED, 3, "pin=1", 2, "line 3 begins with pin=, n= is expected"),
    (PINNED, 4, "pin=", 2, "the number is missing" + PIN),
    (PINNED, 4, "pin=01", 2, "the number begins with a zero and goes on: write it without that zero" + PIN),
    (PINNED, 4, "pin=-0", 2, "the number has a zero right after its minus: write 0 with no minus" + PIN),
    (PINNED, 4, "pin=-", 2, "the number has no digit after its minus" + PIN),
    (PINNED, 4, "pin=+1", 2, "the number has a plus sign: write it with none" + PIN),
    (PINNED, 4, "pin=1,2", 2, "the number is followed by a comma, and one number is all" + PIN),
    (PINNED, 4, "pin=x", 2, "the number has a character that is no digit" + PIN),
    (PINNED, 4, "pin=1000000000", 2, "the number has over 9 digits" + PIN),
    (PINNED, 4, "pin=1 ", 2, "line 4 has a blank or a tab: write it with none"),
    (PINNED, 4, "pin=1\r", 2, "line 4 has a carriage return: save with Unix line ends"),
    (PINNED, 4, "pin=3", 9, "pin is 3" + LAST),
    (PINNED, 4, "pin=0", 9, "pin is 0" + PIN_RANGE),
    (PINNED, 4, "pin=-1", 9, "pin is -1" + PIN_RANGE),
    (PINNED, 4, "pin=4", 9, "pin is 4" + PIN_RANGE),
    (PINNED, 4, "pin=10", 9, "pin is 10" + PIN_RANGE),
    (PINNED, 4, "pin=999999999", 9, "pin is 999999999" + PIN_RANGE),
    (PINNED, 5, "pin=1", 2, "line 5 begins with pin=, lo= is expected"),
    (PINNED, 5, "hi=0,0,0", 2, "line 5 begins with hi=, lo= is expected"),
    (PINNED, 5, "lo=0,,0", 2, "number 2 is missing" + THREE),
    (PINNED, 6, "hi=147456,-81921,16384", 5, "unknown 2: the high end -81921 is below the low end -81920"),
    (PINNED, 7, "inv=0", 2, "n=3: 9 numbers expected, 1 found"),
    (PINNED, 8, "steps=1001", 8, "steps is 1001: it lies from 0 to 1000"),
    (PINNED, 9, "row=x", 2,
     "number 1 has a character that is no digit; expected row= and 3 numbers joined by commas"),
    (PINNED, 11, "row=0,0,4194305", 4, "number 3 is 4194305: entries lie from -4194304 to 4194304"),
    (PINNED, 12, "row=0,0,0", 2, "line 12 is one too many: the line before it is the last"),
    (TWO, 4, "pin=2", 9, "pin is 2" + LAST),
    (TWO, 4, "pin=0", 9, "pin is 0: only 1 can stand here"),
    (TWO, 4, "pin=x", 2, "the number has a character that is no digit; expected pin=1"),
    (TWO, 4, "", 2, "line 4 is empty; expected pin=1, or lo= and 2 numbers joined by commas"),
    (ONE, 4, "pin=1", 9, "pin is 1" + LAST),
    (ONE, 4, "pin=2", 9, "pin is 2" + LAST),
    (ONE, 4, "pin=x", 2, "line 4 begins with pin=, lo= is expected"),
    (ONE, 4, "hi=0", 2, "line 4 begins with hi=, lo= is expected"),
    (ONE, 4, "", 2, "line 4 is empty" + LO),
    (LOAD, 4, "pin=1", 2, "line 4 begins with pin=, lo= is expected: only an eigen job has a pin line"),
    (JOB, 4, "pin=x", 2, "line 4 begins with pin=, lo= is expected: only an eigen job has a pin line"),
]


# a row of the typists' page whose slip is a line that stands in place of the one with its key
ROW = re.compile(r"^\| (\d) (?:\|.*)?\| `((\w+=)[^`]*)`[^|]*\| (\d+) \| ([^|]+) \|$", re.MULTILINE)


def rows():
    """Those of the three tables of the page: whether of a job, and what the row says."""
    jobs, rest = (ROOT / "docs" / "TEXTS.md").read_text().split("Slips round a pin line", 1)
    pins, results = rest.split("A result text that is read", 1)
    for page, text, command in ((jobs, JOB, "job"), (pins, PINNED, "job"), (results, RESULT, "result")):
        for fault, line, key, number, sentence in ROW.findall(page):
            keys = [place for place in text.decode().splitlines() if place.startswith(key)]
            if keys:
                yield command, text.replace(keys[0].encode(), line.encode()), int(fault), int(number), sentence


def changed(text, number, line):
    """The text with that line in its place, or behind its last."""
    lines = text.decode().split("\n")[:-1]
    lines[number - 1:number] = [line]
    return "".join(line + "\n" for line in lines).encode()


class Faults(unittest.TestCase):
    """A fault is answered on standard output and explained on standard error."""

    def refuses(self, command, text, fault, number, sentence):
        """Both, and the exit status."""
        place = f"standard input:{number}" if number else "standard input"
        self.assertEqual(call(command, given=text),
                         (1, b"fault=%d\nline=%d\n" % (fault, number), f"{place}: fault {fault}: {sentence}\n"))

    def test_jobs(self):
        for number, line, fault, sentence in JOB_FAULTS:
            with self.subTest(line=line):
                self.refuses("job", changed(JOB, number, line), fault, number, sentence)

    def test_commands(self):
        for command in ("solve", "show", "image", "step"):
            number, line, fault, sentence = JOB_FAULTS[0]
            self.refuses(command, changed(JOB, number, line), fault, number, sentence)

    def test_results(self):
        for number, line, fault, sentence in RESULT_FAULTS:
            with self.subTest(line=line):
                self.refuses("result", changed(RESULT, number, line), fault, number, sentence)

    def test_several(self):
        for name, number, line, fault, sentence in SEVERAL:
            with self.subTest(name=name, line=line):
                self.refuses("job", changed((EXAMPLES / name).read_bytes(), number, line), fault, number, sentence)

    def test_pins(self):
        for text, number, line, fault, sentence in PIN_FAULTS:
            with self.subTest(text=text, line=line):
                self.refuses("job", changed(text, number, line), fault, number, sentence)

    def test_page(self):
        page = list(rows())
        self.assertGreater(len(page), 30)
        for row in page:
            with self.subTest(row=row):
                self.refuses(*row)

    def test_too_long(self):
        for length in (MAX_TEXT + 1, 70_000):
            for command in ("solve", "result", "image", "step"):
                self.refuses(command, b"x" * length, 1, 0, f"a text has at most {MAX_TEXT} bytes, this one has more")

    def test_empty(self):
        for command in ("solve", "result", "image", "step"):
            self.refuses(command, b"", 2, 1, "the text is empty" + NUMBER)

    def test_missing_line(self):
        self.refuses("job", JOB[:JOB.index(b"eq=")], 2, 8, "line 8 is missing" + EQ)
        self.refuses("result", RESULT[:RESULT.index(b"hi=")], 2, 6, "line 6 is missing" + HI)
        self.refuses("result", RESULT[:RESULT.index(b"visit=")], 2, 2, "line 2 is missing" + VISIT)
        self.refuses("job", MODE[:MODE.index(b"lo=")], 2, 4, "line 4 is missing" + PIN_OR_LO)
        self.refuses("job", PINNED[:PINNED.index(b"lo=")], 2, 5, "line 5 is missing" + THREE)

    def test_line_left_out(self):
        self.refuses("job", JOB.replace(b"steps=8\n", b""), 2, 7, "line 7 begins with eq=, steps= is expected")

    def test_old_results(self):
        """"Old result texts are refused by 2, line 2." """
        old = RESULT.replace(b"visit=0\n", b"")
        self.refuses("result", old, 2, 2, "line 2 begins with verdict=, visit= is expected")

    def test_no_line_feed(self):
        for text, command, line in ((JOB, "job", 8), (RESULT, "result", 6), (b"job=41", "job", 1),
                                    (b"job=41\nkind=poly", "job", 2), (b"job=41\nkind=poly\nn=1", "job", 3),
                                    (PINNED[:PINNED.index(b"lo=")], "job", 4), (PINNED, "job", 11)):
            ended = text if text.endswith(b"\n") else text + b"\n"
            self.refuses(command, ended[:-1], 2, line, f"line {line} has no line feed: press Enter at its end")

    def test_carriage_returns(self):
        self.refuses("job", JOB.replace(b"\n", b"\r\n"), 2, 1, "line 1 has a carriage return: save with Unix line ends")

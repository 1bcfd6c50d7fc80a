"""Document 02, P1: the reader of parts, its requests and its cases, and slips in them."""

import unittest
from collections import Counter

import answers
import parts
import walks
from answers import HEADER, answer
from arithmetic import KINDS, MAX_N, MAX_TEXT
from breach import Breach, told
from cases import cases
from claims import try_parts
from dice import Dice
from part_cases import PINNED, fixed_parts
from parts import Reader, cut, read_parts
from second import EXPECTED_LINE, EXPECTED_TEXT
from test_second import JOB_FAULTS, TEXT_41, TWO, line_changed
from test_whole import ANSWERED, ASKED, Slips, caught_by_cases, run_batch
from texts import read_job
from walks import demand

LINE_1, LINE_2 = b"job=41\n", b"kind=poly\n"
BAD = b"job=041\n"                          # 8 bytes
LONG = b"x" * 10 ** 6


def ones(text):
    """A text one byte at a time."""
    return cut(text, [1] * len(text))


class Reading(unittest.TestCase):
    """"Its answer, fault number and line must be those of the whole text read at once,
    wherever the cuts fall." """

    def test_every_cut(self):
        """In three parts, of which some are empty, and in single bytes."""
        for text, wanted in ((TEXT_41, read_job(TEXT_41)), (PINNED, read_job(PINNED)),
                             (TEXT_41[:-1], (2, 8)), (TEXT_41 + b"x", (2, 9))):
            for one in range(len(text) + 1):
                for other in range(len(text) + 1 - one):
                    self.assertEqual(told(read_parts, cut(text, [one, other])), wanted)
            self.assertEqual(told(read_parts, ones(text)), wanted)

    def test_every_fault(self):
        """The faults of document 01, line by line, in two parts and in single bytes."""
        for line, spelling, fault in JOB_FAULTS:
            text = line_changed(TWO, line, spelling)
            wanted = (fault, line) if fault else told(read_job, text)
            self.assertEqual(told(read_parts, ones(text)), wanted)
            for place in range(len(text) + 1):
                self.assertEqual(told(read_parts, cut(text, [place])), wanted, (text, place))

    def test_empty_text(self):
        """No part at all, then the end, is the empty text."""
        for given in ([], [b""], [b""] * 9):
            self.assertEqual(told(read_parts, given), (2, 1))

    def test_lengths(self):
        """"Fault 1 comes first", whatever came before it and however it comes."""
        rest = b"x" * (MAX_TEXT - len(TEXT_41))
        self.assertEqual(told(read_parts, [TEXT_41, rest]), (2, 9))
        self.assertEqual(told(read_parts, [BAD, b"0" * (MAX_TEXT - len(BAD))]), (2, 1))
        for given in ([TEXT_41, rest, b"x"], [TEXT_41, rest, b"", b"\n", b""],
                      [TEXT_41 + rest + b"x"], [BAD, b"0" * MAX_TEXT], [BAD] * MAX_TEXT,
                      [BAD * (MAX_TEXT // 8), b"\0"], [b"\n"] * (MAX_TEXT + 1), [b"x"] * 10 ** 4,
                      [LONG] * 3, [BAD, LONG], [BAD * MAX_TEXT, TEXT_41], [LONG, TEXT_41]):
            self.assertEqual(told(read_parts, given), (1, 0))


class Holding(unittest.TestCase):
    """"It may hold only one line and what is already read", and "answers only when told
    the text has ended"."""

    def held(self, given, held, count):
        """What a reader holds after parts, none of which it answers."""
        reader = Reader()
        for part in given:
            self.assertIsNone(reader.take(part))
        self.assertEqual((reader.held, reader.count), (held, count))
        self.assertIsNone(reader.fault and reader.fault.__traceback__)
        self.assertEqual(vars(reader).keys(), {"held", "count", "lines", "fault"})
        self.assertEqual(vars(reader.lines).keys(), {"walk", "line", "values", "asked"})

    def test_held(self):
        for place in range(len(TEXT_41) + 1):
            come = TEXT_41[:place]
            for given in ([come], ones(come), cut(come, [0, place // 2, 0])):
                self.held(given, come[come.rfind(b"\n") + 1:], place)
        self.held([LINE_1, b"ki"], b"ki", 9)
        self.held([LINE_1 + b"k", b"i", b"", b"nd=poly"], b"kind=poly", 16)
        self.held([LINE_1, LINE_2], b"", 17)
        self.held([b"x" * MAX_TEXT], b"x" * MAX_TEXT, MAX_TEXT)

    def test_after_a_fault(self):
        """Bytes are only counted, and no further than one over the limit."""
        self.held([BAD, b"kind"], b"", 12)
        self.held([b"job=0", b"41\nkind=", b"poly"], b"", 17)
        self.held([TEXT_41, b"x\n", b"x"], b"", len(TEXT_41) + 3)
        for given in ([b"x" * MAX_TEXT, b"x"], [LONG], [b"x" * 999] * 9, [BAD] * MAX_TEXT):
            self.held(given, b"", MAX_TEXT + 1)


TEXT = LINE_1 + LINE_2                      # 17 bytes; a text that ends after two lines
RIGHT_LINES = [                             # a request's lengths, its text, its answer
    ("0", TEXT_41, TEXT_41), ("1", TEXT_41, TEXT_41), ("75", TEXT_41, TEXT_41),
    ("3,0,5", TEXT_41, TEXT_41), ("9,99,999", TEXT_41, TEXT_41), ("9" * 30, TEXT_41, TEXT_41),
    ("1,18446744073709551616,1", TEXT_41, TEXT_41), ("0,0,0", PINNED, PINNED),
    ("7", TEXT, b"fault=2\nline=3\n"), ("0", b"", b"fault=2\nline=1\n"),
    ("5", b"", b"fault=2\nline=1\n"), ("1,1", BAD, b"fault=2\nline=1\n"),
    (f"{MAX_TEXT}", b"x" * (MAX_TEXT + 1), b"fault=1\nline=0\n"),
    (f"{MAX_TEXT + 1},999999", LONG, b"fault=1\nline=0\n"),
    (",".join(["1"] * 2_043), TEXT + b"x" * 83, b"fault=2\nline=3\n"),
    ("9" * 4_086, TEXT, b"fault=2\nline=3\n"),
]
BROKEN_LINES = [
    "parts", "parts ", "parts 0", "parts  0", "parts 0 ", "parts  0 0", "parts 0  0", "parts 0 0 ",
    "parts 0 0 0", "parts , 0", "parts 0, 0", "parts ,0 0", "parts 0,,0 0", "parts 00 0",
    "parts 01 0", "parts 0,01 0", "parts -1 0", "parts +1 0", "parts -0 0", "parts 1,-1 0",
    "parts x 0", "parts 1x 0", "parts 1.0 0", "parts 1;1 0", "parts 1, 1 0", "parts 1\t1 0",
    "parts\t1 0", "parts 1\t0", "parts \xb2 0", "parts 1 00", "parts 1 -1", "parts 1 x",
    "parts 1 0\r", " parts 1 0", "Parts 1 0", "part 1 0", "parts1 0", "job 1 0", "result 1,1 0",
    "parts " + ",".join(["1"] * 2_043) + ",1 17", "parts " + "9" * 4_087 + " 17"]


class Requests(unittest.TestCase):
    """The words of a request."""

    def test_right_lines(self):
        given = b"".join(b"parts %s %d\n" % (lengths.encode(), len(text)) + text
                         for lengths, text, _ in RIGHT_LINES)
        self.assertEqual(run_batch(given), b"".join(b"%d\n" % len(reply) + reply
                                                    for _, _, reply in RIGHT_LINES))
        longest = [len(f"parts {lengths} {len(text)}\n") for lengths, text, _ in RIGHT_LINES[-2:]]
        self.assertEqual(longest, [HEADER, HEADER])

    def test_broken_lines(self):
        for line in BROKEN_LINES:
            self.assertEqual(run_batch(line.encode("latin-1") + b"\n" + TEXT),
                             f"error=expected {EXPECTED_LINE}\n".encode(), line)
        for line in (b"parts 1 18\n", b"parts 9,9,9 99999999999999999999\n"):
            self.assertEqual(run_batch(line + TEXT), f"error=expected {EXPECTED_TEXT}\n".encode())


class Cases(unittest.TestCase):
    """The cases from a seed."""

    def test_fixed(self):
        """No case stands there twice, and no line of a request is too long."""
        made = Counter(fixed_parts())
        self.assertEqual(max(made.values()), 1)
        self.assertEqual(max(len(f"{words} {len(text)}\n") for words, text in made), HEADER)

    def test_every_answer_is_met(self):
        met = Counter()
        for request, text in cases(1, 3_650):
            if request.startswith("parts "):
                first, second, *_ = answer(request, text).decode().split("\n")
                met[f"{first} {second}" if first.startswith("fault=") else second] += 1
                lengths = list(map(int, request[6:].split(",")))
                met["empty"] += 0 in lengths
                met["one byte each"] += lengths == [1] * len(text)
                met["past the end"] += sum(lengths) > len(text)
                met["some left"] += sum(lengths) < len(text)
        wanted = {(2, line) for line in range(1, MAX_N + 10)} | {(6, line) for line in (8, 9)}
        wanted |= {(4, line) for line in (1, 4, 5, 6, 8)} | {(1, 0), (3, 3), (5, 5), (8, 7), (9, 4)}
        self.assertLessEqual({f"fault={fault} line={line}" for fault, line in wanted}, set(met))
        for name in ("empty", "one byte each", "past the end", "some left",
                     *(f"kind={kind}" for kind in KINDS)):
            self.assertGreater(met[name], 20, name)


# Slips: what stands in the place of a reader's take or end, or of another function.

def told_at_once(reader, part):
    """Fault 1 told before the end."""
    take(reader, part)
    demand(reader.count <= MAX_TEXT, 1)


def uncounted(reader, part):
    """Bytes not counted after the first fault."""
    if not reader.fault:
        take(reader, part)


def line_kept(reader, part):
    """The held line kept after its LF."""
    before = reader.held
    take(reader, part)
    reader.held = before + reader.held if b"\n" in part else reader.held


def line_dropped(reader, part):
    """The held line forgotten when a part comes."""
    reader.held = b""
    take(reader, part)


def part_as_line(reader, part):
    """The end of a part as the end of its line."""
    take(reader, part)
    if reader.held:
        reader.lines.take(reader.held.decode("latin-1"))
        reader.held = b""


def text_kept(reader, part):
    """The whole text held."""
    reader.text = getattr(reader, "text", b"") + part
    take(reader, part)


def empty_as_end(reader, part):
    """An empty part as the end of the text."""
    reader.over = getattr(reader, "over", False) or not part
    if not reader.over:
        take(reader, part)


def fault_1_last(reader):
    """The first bad line before fault 1."""
    if reader.fault:
        raise reader.fault
    return end(reader)


def last_line_ended(reader):
    """A last line without its LF taken."""
    if reader.held:
        take(reader, b"\n")
    return end(reader)


def rest_not_handed(text, lengths):
    """What is left after the lengths not handed over."""
    lengths = list(lengths)
    return list(cut(text, lengths))[:len(lengths)]


def extra_lines(lines, line):
    """Lines after the last one passed over."""
    if lines.asked:
        take_line(lines, line)


def extra_bytes(lines, rest):
    """Bytes after the last line passed over."""
    return end_lines(lines, rest if lines.asked else b"")


take, end = Reader.take, Reader.end
take_line, end_lines = walks.FromLines.take, walks.FromLines.end

PARTS = [pair for pair in zip(ASKED, ANSWERED) if pair[0][0].startswith("parts ")]


def by_cases():
    """Whether some answer of the cases of parts is another one."""
    return any(answer(*case) != right for case, right in PARTS)


def by_claim():
    """Whether the claim breaks on some thousand texts."""
    dice = Dice(4)
    try:
        for _ in range(1_200):
            try_parts(dice, Counter())
    except Breach:
        return True
    return False


class PartSlips(Slips):
    """Slips of P1 are seen in the cases, by the claim, or by both."""

    def test_none(self):
        self.assertFalse(by_cases())
        self.assertFalse(by_claim())

    def test_slips_of_the_reader(self):
        for instead in (told_at_once, text_kept):           # with the right answer at the end
            self.slip("take", instead, by_claim, module=Reader)
        for instead in (uncounted, line_kept, line_dropped, part_as_line, empty_as_end):
            self.slip("take", instead, by_cases, by_claim, module=Reader)
        for instead in (fault_1_last, last_line_ended):
            self.slip("end", instead, by_cases, by_claim, module=Reader)
        for beside in (-1, 1):
            self.slip("MAX_TEXT", MAX_TEXT + beside, by_cases, module=parts)

    def test_slips_around_it(self):
        self.slip("cut", rest_not_handed, by_cases, module=answers)
        self.slip("take", extra_lines, by_cases, caught_by_cases, module=walks.FromLines)
        self.slip("end", extra_bytes, by_cases, caught_by_cases, module=walks.FromLines)


if __name__ == "__main__":
    unittest.main()

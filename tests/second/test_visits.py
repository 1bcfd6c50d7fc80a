"""Document 02, P12: the visit line of a result, what was read before it, and slips in both."""

import unittest
from collections import Counter

import answers
import arithmetic
import visit_claims
import walks
from answers import answer
from arithmetic import ALONE, MAX_VISIT
from breach import told
from test_old import breaks
from test_second import RESULT_41
from test_whole import Slips
from texts import read_result, result_text
from values import table
from visit_cases import LINES, RIGHT, VISITS, fixed_visits, old_text
from visit_claims import read_before, try_visits
from walks import Fault

OLD_41 = RESULT_41.replace(b"visit=0\n", b"")

# A result text of before; what was told of it: a fault and its line, or 0 where it was right.
BEFORE = [
    (OLD_41, 0), (RESULT_41, (2, 2)), (b"", (2, 1)), (OLD_41.replace(b"41", b"-1"), (4, 1)),
    (OLD_41.replace(b"unique", b"one"), (2, 2)), (OLD_41.replace(b"=1\n", b"=1001\n"), (8, 3)),
    (OLD_41.replace(b"81919", b""), (2, 4)), (OLD_41.replace(b"81919", b"262145"), (4, 4)),
    (OLD_41.replace(b"103766", b"0"), (5, 5)), (OLD_41[:-1], (2, 5)), (OLD_41 + b"\n", (2, 6)),
]


class Texts(unittest.TestCase):
    """What is told of a result text, now and before."""

    def test_before(self):
        """"Old result texts are refused by 2, line 2." """
        for text, fault in BEFORE:
            found = told(read_before, text)
            self.assertEqual(found, fault or read_result(RESULT_41), text)
        self.assertEqual(told(read_result, OLD_41), (2, 2))

    def test_now(self):
        """The visit is one of the values, and only that line has it."""
        for visit in (ALONE, *VISITS, MAX_VISIT):
            result = RIGHT._replace(visit=visit)
            self.assertEqual(read_result(result_text(result)), result)
            self.assertEqual(read_before(old_text(result)), RIGHT._replace(visit=ALONE))

    def test_alone(self):
        """"0 for a job run alone." """
        for text in table().split(b"run: done")[1:]:
            self.assertEqual(text.split(b"\n")[3], b"visit=0")

    def test_claims(self):
        tried = try_visits(2, 1_000)
        wrong = [f"texts with fault {fault} before" for fault in (2, 3, 4, 5, 8)]
        for name in ("old texts, refused now", *wrong):
            self.assertGreater(tried[f"visits: {name}"], 0, name)


class Cases(unittest.TestCase):
    """The cases of every set."""

    def test_fixed(self):
        """No case stands there twice, and every answer that a visit line has is met."""
        self.assertEqual(max(Counter(fixed_visits()).values()), 1)
        met = {answer(*case) for case in fixed_visits() if case[0] == "result"}
        wanted = [(2, line) for line in range(1, len(LINES) + 2)] + [(4, 1), (4, 2)]
        for fault in wanted:
            self.assertIn(b"fault=%d\nline=%d\n" % fault, met)
        for visit in (*VISITS, MAX_VISIT):
            self.assertTrue(any(b"\nvisit=%d\n" % visit in text for text in met), visit)


# Slips: what stands in the place of a reader or of the writer.

def without_the_line(text):
    """A text without the line is that of a job run alone."""
    try:
        return read_before(text)
    except Fault:
        return read_result(text)


def behind_the_line(text):
    """A missing visit line is found out in the line behind it."""
    try:
        return read_result(text)
    except Fault as fault:
        missing = (fault.number, fault.line) == (2, 2)
        raise Fault(2, 3) if missing else fault


def any_key(text):
    """The second line is taken under every key that has as many letters."""
    first, *rest = text.split(b"\n", 1)
    return read_result(b"\n".join([first, *(b"visit" + line[5:] for line in rest)]))


def visit_last(result):
    """The visit line written behind the verdict."""
    first, visit, verdict, *rest = result_text(result).split(b"\n")
    return b"\n".join([first, verdict, visit, *rest])


def always_alone(result):
    """Every visit written as that of a job run alone."""
    return result_text(result._replace(visit=ALONE))


VISITED = [(case, answer(*case)) for case in fixed_visits()]
TABLE = table()


def by_cases():
    """Whether some answer of the cases of the visit line is another one."""
    return any(answer(*case) != right for case, right in VISITED)


def by_values():
    """Whether something else comes back for values."""
    return table() != TABLE


class VisitSlips(Slips):
    """Slips are seen by the claims, in the cases and by the values."""

    def test_none(self):
        self.assertFalse(by_cases() or by_values())

    def test_slips_of_the_readers(self):
        for instead in (without_the_line, behind_the_line):
            self.slip("read_result", instead, breaks("refused", try_visits), module=visit_claims)
            self.slip("read_result", instead, by_cases, module=answers)
        self.slip("read_before", read_result, breaks("read", try_visits), module=visit_claims)
        self.slip("read_result", any_key, by_cases, module=answers)

    def test_slips_of_the_writer(self):
        for instead in (old_text, visit_last, always_alone):
            self.slip("result_text", instead, by_cases, module=answers)

    def test_slips_of_the_limits(self):
        """A greatest visit that is greater is seen by values alone: ten digits are no number."""
        self.slip("MAX_VISIT", MAX_VISIT - 1, by_cases, by_values, module=walks)
        self.slip("MAX_VISIT", MAX_VISIT + 1, by_values, module=walks)
        self.slip("ALONE", 1, by_values, module=arithmetic)


if __name__ == "__main__":
    unittest.main()

"""Document 02, P10: texts now and before, their cases, and slips in what reads and writes."""

import itertools
import unittest
from collections import Counter
from functools import partial
from unittest.mock import patch

import answers
import old_claims
import walks
from answers import answer
from arithmetic import KINDS, MAX_N, MAX_TEXT, OLD_N, OLD_TEXT
from breach import Breach
from cases import cases, fixed
from damage import lines_of, whole
from jobs import largest_job, zero_job
from old_claims import fault_of, old_result, read_both, try_old
from size_cases import NEW, fixed_sizes
from test_whole import Slips
from texts import job_text, read, read_job, result_text
from visit_cases import LONGEST
from walks import terms_of, walk_job, walk_result

FOUR, FIVE, SIX = (job_text(zero_job("poly", n, 0)) for n in (4, 5, 6))


def last_line(text, line):
    """A text with another last line."""
    return whole(lines_of(text)[:-1] + [line])


def result_of(*ends):
    """A result text of so many low and so many high ends."""
    lo, hi = (",".join(["0"] * count) for count in ends)
    return f"job=1\nvisit=0\nverdict=none\nsteps=1\nlo={lo}\nhi={hi}\n".encode()


# A sort and a text; what is told of it before, and now; 0 where it is right.
TEXTS = [
    ("job", FOUR, 0, 0), ("job", FIVE, (3, 3), 0), ("job", SIX, (3, 3), 0),
    ("job", job_text(zero_job("eigen", 6, 5)), (3, 3), 0),
    ("job", SIX.replace(b"n=6", b"n=7"), (3, 3), (3, 3)),
    ("job", SIX.replace(b"n=6", b"n=9"), (3, 3), (3, 3)),
    ("job", FOUR.replace(b"n=4", b"n=0"), (3, 3), (3, 3)),
    ("job", FOUR.replace(b"n=4", b"n=10"), (2, 3), (2, 3)),
    ("job", FOUR.replace(b"n=4", b"n=5"), (3, 3), (2, 4)),
    ("job", SIX.replace(b"steps=1", b"steps=1001"), (3, 3), (8, 7)),
    ("job", SIX[:-1], (3, 3), (2, 13)), ("job", SIX + b"\n", (3, 3), (2, 14)),
    # "with four-digit exponents for four unknowns"
    ("job", last_line(FOUR, b"eq=5:2000"), 0, 0),
    ("job", last_line(FOUR, b"eq=5:200000"), (2, 11), (2, 11)),
    ("job", last_line(FOUR, b"eq=5:20000"), (2, 11), (2, 11)),
    ("job", last_line(FIVE, b"eq=5:20000"), (3, 3), 0),
    ("job", last_line(SIX, b"eq=5:200000"), (3, 3), 0),
    ("job", last_line(SIX, b"eq=5:2000"), (3, 3), (2, 13)),
    ("job", last_line(SIX, b"eq=5:2000000"), (3, 3), (2, 13)),
    # a pin of 5 and of 6 unknowns
    ("job", job_text(zero_job("eigen", 6, 5)).replace(b"pin=5", b"pin=6"), (3, 3), (9, 4)),
    ("job", job_text(zero_job("eigen", 4, 3)).replace(b"pin=3", b"pin=5"), (9, 4), (9, 4)),
    ("result", result_of(4, 4), 0, 0), ("result", result_of(5, 5), (3, 5), 0),
    ("result", result_of(6, 6), (3, 5), 0), ("result", result_of(7, 7), (3, 5), (3, 5)),
    ("result", result_of(4, 5), (2, 6), (2, 6)), ("result", result_of(5, 4), (3, 5), (2, 6)),
    ("result", result_of(6, 7), (3, 5), (2, 6)), ("result", result_of(0, 0), (2, 5), (2, 5)),
    *((sort, b"x" * length, before, now) for sort in ("job", "result")
      for length, before, now in ((2_048, (2, 1), (2, 1)), (2_049, (1, 0), (2, 1)),
                                  (4_096, (1, 0), (2, 1)), (4_097, (1, 0), (1, 0)))),
]


class Texts(unittest.TestCase):
    """What is told of a text, now and before."""

    def test_texts(self):
        for sort, text, before, now in TEXTS:
            both = read_both(sort, text)
            told = tuple(found if fault_of(found) else 0 for found in (both.old, both.now))
            self.assertEqual(told, (before, now), text)
            if not now:
                self.assertEqual(answer(sort, text), text)

    def test_longest(self):
        """No right text is too long for the old program: it is told 3."""
        jobs = [largest_job(kind) for kind in KINDS] + [largest_job("eigen")._replace(pin=1)]
        self.assertEqual(max(len(job_text(job)) for job in jobs), 2_023)
        self.assertEqual(len(result_text(LONGEST)), 159)

    def test_claims(self):
        tried = try_old(2, 2_500)
        for sort, faults in (("jobs", (2, 4, 5, 6, 8, 9)), ("results", (2, 4, 5, 8))):
            wanted = [f"of n={n}, right before, right now" for n in range(1, OLD_N + 1)]
            wanted += [f"of n={n}, 3 before, {now} now" for n in NEW for now in ("right", 2, 4)]
            wanted += [f"of n={n}, 3 before, 3 now" for n in (7, 8, 9)]
            for name in wanted:
                self.assertGreater(tried[f"old: {sort} {name}"], 0, (sort, name))
            for before, now in ((1, 1), (1, 2), *zip(faults, faults)):
                name = f"old: {sort}, {before} before, {now} now"
                self.assertGreater(tried[name], 0, name)


def shown_by(request, text):
    """What a case shows of n: of a right job its operation, its kind and whether it is pinned,
    of a right result that, of a wrong text its fault; of a decision how long its lists are."""
    operation, *words = request.split(" ")
    reply = answer(request, text).decode().split("\n")[0]
    if operation == "decide":
        lists = max(word.count(",") + 1 for word in words[1:])
        return [(words[0], f"{reply.partition('=')[0]}, lists of {lists}")]
    lines = text.decode("latin-1").split("\n")
    if operation == "result":
        n = "".join(lines[4:5]).count(",") + 1
        return [(str(n), "result, " + (reply if reply.startswith("fault") else "right"))]
    n = "".join(lines[2:3]).partition("=")[2]
    if reply.startswith("fault"):
        return [(n, reply)]
    return [(n, operation), (n, lines[1])] + [(n, "pin")] * lines[3].startswith("pin=")


class Cases(unittest.TestCase):
    """The cases from a seed."""

    def test_fixed(self):
        """No case stands there twice."""
        self.assertEqual(max(Counter(fixed_sizes()).values()), 1)

    def test_random(self):
        """Among as many random ones as the gate has, each of 5 and 6 with every operation,
        every kind, a pin, and the faults beside it."""
        first, met = sum(1 for _ in fixed()), Counter()
        for case in itertools.islice(cases(1, 4_200), first, None):
            met.update(shown_by(*case))
        wanted = [*(f"kind={kind}" for kind in KINDS), "pin", "solve", "job", "parts", "image",
                  "halve", "fault=2", "fault=4", "fault=5", "fault=9", "result, right",
                  "result, fault=2", "result, fault=4", "verdict, lists of 6",
                  "fault, lists of 6"]
        for n in NEW:
            for name in wanted:
                self.assertGreater(met[str(n), name], 0, (n, name))
        for n in ("7", "8", "9"):
            self.assertGreater(met[n, "fault=3"], 0, n)
        for name in ("result, fault=3", "fault, lists of 6"):
            self.assertGreater(met["7", name], 0, name)


# Slips: what stands in the place of a reader or of the writer.

def job_by(max_n, max_text):
    """A job text read by other limits."""
    return lambda text: read(partial(walk_job, max_n), text, max_text)


def result_by(max_n, max_text):
    """A result text read by other limits."""
    return lambda text: read(partial(walk_result, max_n), text, max_text)


def by_size(name, size):
    """A job text read now by another of the sizes that stay."""
    def instead(text):
        with patch.object(walks, name, size):
            return read_job(text)
    return instead


def six_digits(job):
    """Exponents written in six digits, whatever n is."""
    lines = job.lines
    if job.kind == "poly":
        lines = [[(c, (*e, *[0] * (MAX_N - job.n))) for c, e in line] for line in lines]
    return job_text(job._replace(lines=lines))


def six_digits_read(text):
    """Exponents read in six digits, whatever n is."""
    with patch.object(walks, "terms_of", lambda n: terms_of(MAX_N)):
        return read_job(text)


def first_four(text):
    """The old program takes the first four numbers of a longer list: a wrong result."""
    lines = [b",".join(line.split(b",")[:OLD_N]) for line in text.split(b"\n")]
    return old_result(b"\n".join(lines))


def breaks(name, tries=try_old, count=2_500):
    """Whether it is that claim that breaks on so many texts."""
    def catcher():
        try:
            tries(1, count)
        except Breach as breach:
            return str(breach).startswith(name + ":")
        return False
    return catcher


SIZED = [(case, answer(*case)) for case in fixed_sizes()]


def by_cases():
    """Whether some answer of the cases of P10 is another one."""
    return any(answer(*case) != right for case, right in SIZED)


class OldSlips(Slips):
    """Slips of P10 are seen by the claims, each by the one that it breaks, and in the cases."""

    def old_slip(self, name, instead, claim):
        """A slip in what the claims call."""
        self.slip(name, instead, breaks(claim), module=old_claims)

    def test_none(self):
        self.assertFalse(by_cases())

    def test_slips_of_the_old_program(self):
        for max_n in (5, 6):
            self.old_slip("old_job", job_by(max_n, OLD_TEXT), "new")
            self.old_slip("old_result", result_by(max_n, OLD_TEXT), "new")
        for max_text in (2_047, 2_049, 4_095, 4_096):
            self.old_slip("old_job", job_by(OLD_N, max_text), "lost")
            self.old_slip("old_result", result_by(OLD_N, max_text), "lost")
        self.old_slip("old_result", first_four, "kept")

    def test_slips_of_the_limits(self):
        for max_n in (5, 7):
            self.old_slip("read_job", job_by(max_n, MAX_TEXT), "lost")
            self.old_slip("read_result", result_by(max_n, MAX_TEXT), "lost")
        for max_text in (2_048, 4_095, 4_097):
            self.old_slip("read_job", job_by(MAX_N, max_text), "lost")
            self.old_slip("read_result", result_by(MAX_N, max_text), "lost")

    def test_slips_of_the_rest(self):
        """"All other sizes stay", and so does how a term is read and written."""
        for name, size in (("MAX_TERMS", 24), ("MAX_DEGREE", 4), ("MAX_STEPS", 1_500),
                           ("MAX_END", 393_216), ("MAX_ENTRY", 6_291_456)):
            self.old_slip("read_job", by_size(name, size), "same")
        self.slip("job_text", six_digits, breaks("kept"), by_cases, module=answers)
        self.old_slip("read_job", six_digits_read, "kept")

    def test_slips_in_the_cases(self):
        """The cases see other limits and other digits too."""
        for limits in ((5, MAX_TEXT), (7, MAX_TEXT), (MAX_N, 4_095), (MAX_N, 4_097)):
            self.slip("read_job", job_by(*limits), by_cases, module=answers)
            self.slip("read_result", result_by(*limits), by_cases, module=answers)
        self.slip("read_job", six_digits_read, by_cases, module=answers)


if __name__ == "__main__":
    unittest.main()

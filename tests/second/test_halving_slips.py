"""Document 02, P8: slips in what is listed, and that they are seen."""

import unittest

import answers
import arithmetic
import halve_claims
import halving
from answers import answer
from arithmetic import MAX_BOXES, MAX_DEPTH
from breach import Breach
from halve_claims import try_halvings
from halving import halve, halves, listing, on_box, width
from jobs import wide_inverse
from test_halving import HALVED, halved_examples, refusals
from test_whole import Slips
from walks import check, demand, walk_job


# Slips: what stands in the place of a function.

def high_after_the_cut(edge):
    """The high half from the middle plus one on."""
    low, high = halves(edge)
    return low, (high[0] + 1, high[1])


def low_before_the_cut(edge):
    """The low half up to the middle less one."""
    low, high = halves(edge)
    return (low[0], low[1] - 1), high


def high_first(edge):
    """The high half first."""
    return halves(edge)[::-1]


def cut_by(rounded):
    """The cut at a middle that is rounded in another way."""
    return lambda edge: ((edge[0], rounded(sum(edge))), (rounded(sum(edge)), edge[1]))


def last_widest(box):
    """The last of the widest edges."""
    widths = [width(edge) for edge in box]
    return len(box) - 1 - widths[::-1].index(max(widths))


def starting_box(*verdicts):
    """The starting box instead of the returned one, where the verdict is one of these."""
    def instead(job):
        result = run(job)
        return result._replace(lo=job.lo, hi=job.hi) if result.verdict in verdicts else result
    return instead


def told_for(verdict, other):
    """Another verdict in the place of one."""
    def instead(job):
        result = run(job)
        return result._replace(verdict=other) if result.verdict == verdict else result
    return instead


def steps_left(job, box):
    """The step allowance as what is left of it."""
    return on_box(job, box)._replace(steps=max(job.steps - run(job).steps, 0))


def new_inverse(job, box):
    """An inverse made for each half."""
    made = wide_inverse(arithmetic.equations_of(job), box)
    return on_box(job, box)._replace(inv=made or job.inv)


def refusing(*order):
    """The refusals in another order, or fewer of them: the job's own (0), 8 and 7."""
    def instead(job, depth, room):
        held = {8: 0 <= depth <= MAX_DEPTH, 7: depth < 0 or 2 ** min(depth, 99) <= room}
        for fault in order:
            if fault:
                demand(held[fault], fault)
            else:
                check(walk_job, job)
        return listing(job, min(depth, MAX_DEPTH))
    return instead


def room_for_listed(job, depth, room):
    """7 only where more is listed than the list can hold."""
    listed = halve(job, depth, MAX_BOXES)
    demand(len(listed) <= room, 7)
    return listed


def room_to_spare(job, depth, room):
    """7 where two to the power of the depth just fit."""
    return halve(job, depth, room - 1)


def once_more(job, depth, room):
    """One halving too many."""
    halve(job, depth, room)
    return listing(job, depth + 1)


run = arithmetic.run


def by_examples():
    """Whether some example is wrong."""
    return any(found != wanted for found, wanted in halved_examples() + refusals())


def by_cases():
    """Whether some answer of the cases of halving is another one."""
    return any(answer(*case) != right for case, right in HALVED)


def by_claims():
    """Whether some claim breaks on a few hundred jobs."""
    try:
        try_halvings(1, 300)
    except Breach:
        return True
    return False


class HalvingSlips(Slips):
    """Slips of P8 are seen in the examples, in the cases, by the claims, or by all."""

    def test_none(self):
        for catcher in (by_examples, by_cases, by_claims):
            self.assertFalse(catcher())

    def test_slips_of_the_cut(self):
        for instead in (high_after_the_cut, low_before_the_cut):
            self.slip("halves", instead, by_examples, by_cases, by_claims, module=halving)
        for instead in (high_first, cut_by(lambda both: -(-both // 2)),
                        cut_by(lambda both: int(both / 2))):
            self.slip("halves", instead, by_examples, by_cases, module=halving)
        self.slip("widest", last_widest, by_examples, by_cases, module=halving)
        for beside in (-1, 1):
            self.slip("width", lambda edge, by=beside: width(edge) + by, by_examples, by_cases,
                      module=halving)

    def test_slips_of_the_run(self):
        for instead in (starting_box("unique"), starting_box("stalled", "spent"),
                        told_for("none", "stalled"), told_for("unique", "spent"),
                        told_for("spent", "unique"), told_for("spent", "none")):
            self.slip("run", instead, by_examples, by_cases)
        self.slip("run", told_for("spent", "unique"), by_claims)
        self.slip("run", told_for("stalled", "none"), by_cases, by_claims)
        self.slip("on_box", steps_left, by_examples, by_cases, module=halving)
        self.slip("on_box", new_inverse, by_cases, module=halving)

    def test_slips_of_the_entry(self):
        for order in ((8, 0, 7), (8, 7, 0), (8, 7)):        # a text's own are told before
            self.slip("halve", refusing(*order), by_examples, module=halving)
        for order in ((0, 7, 8), (0, 7), (0, 8)):
            self.slip("halve", refusing(*order), by_examples, module=halving)
            self.slip("halve", refusing(*order), by_cases, module=answers)
        for instead in (room_for_listed, room_to_spare):
            self.slip("halve", instead, by_examples, module=halving)
            self.slip("halve", instead, by_cases, module=answers)
        self.slip("halve", once_more, by_cases, module=answers)
        self.slip("halve", once_more, by_claims, module=halve_claims)
        for beside in (-1, 1):
            self.slip("MAX_DEPTH", MAX_DEPTH + beside, by_cases, module=halving)


if __name__ == "__main__":
    unittest.main()

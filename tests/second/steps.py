"""The step in two, as document 02, P7, splits it: "one operation gives K for a job and a
box, the other takes X and K and gives the verdict or the next box".

A box is handed in as its low ends and its high ends.  Both lists may hold more than n
numbers: "places past n play no part", whatever stands there.
"""

import arithmetic
from arithmetic import MAX_END, MAX_IMAGE, MAX_N, ends_of
from texts import joined
from walks import check, demand, in_order, walk_job, within


def live_box(n, lo, hi, size):
    """The first n coordinates.  Fault 4 for an end beyond the size, then 5 for ends
    crossed, each over all coordinates; no text line carries them, so their line is 0."""
    lo, hi = lo[:n], hi[:n]
    within(lo + hi, -size, size)
    in_order(lo, hi)
    return list(zip(lo, hi))


def image_of(job, lo, hi):
    """"A box handed in is checked like a job's lo and hi, but with line 0", after the
    faults of the job's own values, which have their lines."""
    check(walk_job, job)
    X = live_box(job.n, lo, hi, MAX_END)
    return arithmetic.image(X, arithmetic.rows_of(job), arithmetic.equations_of(job))


def decision(n, lo, hi, klo, khi):
    """"The second operation is told n.  Refusals, line 0: 3 for that n, first; 4 beyond
    the image's range, then 5 for its ends crossed, after the job's and the box's own."
    The verdict, or the word next, and the box that is left."""
    demand(1 <= n <= MAX_N, 3)
    X = live_box(n, lo, hi, MAX_END)
    K = live_box(n, klo, khi, MAX_IMAGE)
    verdict, box = arithmetic.decide(X, K)
    return verdict or "next", box


def image_text(K):
    """The two lines of an image."""
    klo, khi = ends_of(K)
    return f"klo={joined(klo)}\nkhi={joined(khi)}\n".encode("ascii")


def decision_text(verdict, box):
    """The three lines of what is decided."""
    lo, hi = ends_of(box)
    return f"verdict={verdict}\nlo={joined(lo)}\nhi={joined(hi)}\n".encode("ascii")

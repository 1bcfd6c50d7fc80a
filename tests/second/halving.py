"""All closing positions, as document 02, P8, finds them: "A hinge with two positions in its
box comes back undecided.  Halve it."

A listed box is a pair of its word, unique or open, and the box itself.  The list is not lent
here but handed back: what P8 says of a lent one, "untouched by any of them, and past its last
listed box always", is not to be seen in it.
"""

import arithmetic
from arithmetic import MAX_DEPTH, ends_of
from texts import joined
from walks import check, demand, walk_job


def width(edge):
    """The marks from the low end of an edge to its high end."""
    return edge[1] - edge[0]


def widest(box):
    """"Its widest edge (lowest number on ties)"; here edges are counted from 0."""
    widths = [width(edge) for edge in box]
    return widths.index(max(widths))


def halves(edge):
    """"Cut that edge at the rounded-down middle, both halves keeping the cut", and "do the
    low half first"."""
    cut = arithmetic.middle(edge)
    return (edge[0], cut), (cut, edge[1])


def on_box(job, box):
    """The job on another box: "the inverse and step allowance are the job's each time"."""
    lo, hi = ends_of(box)
    return job._replace(lo=lo, hi=hi)


def listing(job, depth):
    """"Run the job; drop the box on none, list it on unique.  On stalled or spent take the
    returned box.  If depth is left and its widest edge" "is at least 2 marks", both halves
    are done "with depth one less; else list it as open".  Listed on unique is the box of the
    result, which is K."""
    result = arithmetic.run(job)
    box = list(zip(result.lo, result.hi))
    if result.verdict == "none":
        return []
    if result.verdict == "unique":
        return [("unique", box)]
    place = widest(box)
    if depth == 0 or width(box[place]) < 2:
        return [("open", box)]
    listed = []
    for half in halves(box[place]):
        listed += listing(on_box(job, box[:place] + [half] + box[place + 1:]), depth - 1)
    return listed


def halve(job, depth, room):
    """The listed boxes, where the list can hold room of them.  "Refusals: the job's own, then
    8 for depth not 0 to 8, then 7 where the list can't hold two to the power of the depth",
    however many get listed.  No text line carries the last two: their line is 0."""
    check(walk_job, job)
    demand(0 <= depth <= MAX_DEPTH, 8)
    demand(2 ** depth <= room, 7)
    return listing(job, depth)


def listing_text(number, listed):
    """The lines of a list: its job and how many boxes it has, then three of each box."""
    lines = [f"job={number}", f"boxes={len(listed)}"]
    for word, box in listed:
        lo, hi = ends_of(box)
        lines += [f"box={word}", f"lo={joined(lo)}", f"hi={joined(hi)}"]
    return "".join(line + "\n" for line in lines).encode("ascii")

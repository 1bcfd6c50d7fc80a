"""A claim that does not hold, and what the files of claims share."""

from texts import job_text
from walks import Fault


class Breach(Exception):
    """A claim that does not hold, with the job or the text that shows it."""


def claim(holds, name, job, *shown):
    """Fails loudly unless the claim holds."""
    if not holds:
        raise Breach(f"{name} does not hold: {shown}\n{job_text(job).decode()}")


def told(entry, *values):
    """What an entry answers, or the number and the line of its fault."""
    try:
        return entry(*values)
    except Fault as fault:
        return fault.number, fault.line


def inside(point, box):
    """Whether a point lies in a box, edges included."""
    return all(a <= v <= b for v, (a, b) in zip(point, box))

"""Document 02, P1, "job text that arrives by the handful": "a reader that takes a job's
text in parts of any length, zero included, and answers only when told the text has
ended".  It hands each line to the walk of walks.py as soon as the line has ended.
"""

from arithmetic import MAX_TEXT
from walks import Fault, FromLines, demand, walk_job


class Reader:
    """A reader that has begun.  "It may hold only one line and what is already read": the
    bytes of the line that has not ended; the walk, which has the values of the lines
    before it, or the first fault; and the count of bytes, up to one over the limit."""

    def __init__(self):
        self.count, self.held = 0, b""
        self.lines, self.fault = FromLines(walk_job), None

    def take(self, part):
        """The next part, of any length.  "The first bad line decides": after it bytes are
        only counted, for "fault 1 comes first", and so they are once there are too many."""
        self.count = min(self.count + len(part), MAX_TEXT + 1)
        if self.fault or self.count > MAX_TEXT:
            self.held = b""
            return
        *ended, self.held = (self.held + part).split(b"\n")
        try:
            for line in ended:
                self.lines.take(line.decode("latin-1"))
        except Fault as fault:                      # a new one; this one's trace has the part
            self.fault, self.held = Fault(fault.number, fault.line), b""

    def end(self):
        """The job, or a Fault.  "Its answer, fault number and line must be those of the
        whole text read at once, wherever the cuts fall." """
        demand(self.count <= MAX_TEXT, 1)
        if self.fault:
            raise self.fault
        return self.lines.end(self.held)


def read_parts(parts):
    """A job text that arrives in these parts."""
    reader = Reader()
    for part in parts:
        reader.take(part)
    return reader.end()


def cut(text, lengths):
    """A text in parts of these lengths, empty ones past its end; what is left after them
    is one part more."""
    for length in lengths:
        yield text[:length]
        text = text[length:]
    if text:
        yield text

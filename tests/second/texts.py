"""The job text and the result text of documents 01 and 02, read and written."""

from arithmetic import MAX_TEXT, run
from walks import FromLines, check, demand, walk_job, walk_result


def read(walk, text, max_text):
    """A text (bytes) to values, or a Fault.  "Fault 1 comes first." """
    demand(len(text) <= max_text, 1)
    *lines, rest = text.decode("latin-1").split("\n")
    source = FromLines(walk)
    for line in lines:
        source.take(line)
    return source.end(rest)


def read_job(text):
    """A job text."""
    return read(walk_job, text, MAX_TEXT)


def read_result(text):
    """A result text."""
    return read(walk_result, text, MAX_TEXT)


def joined(values):
    """Numbers joined by commas."""
    return ",".join(map(str, values))


def job_text(job):
    """The text of a job's values, or a Fault of the values."""
    check(walk_job, job)
    lines = [f"job={job.job}", f"kind={job.kind}", f"n={job.n}"]
    if job.kind == "eigen" and job.pin != job.n:      # "pin equal to n is never written"
        lines.append(f"pin={job.pin}")
    lines += [f"lo={joined(job.lo)}", f"hi={joined(job.hi)}",
              f"inv={joined(job.inv)}", f"steps={job.steps}"]
    for line in job.lines:
        if job.kind == "poly":
            lines.append("eq=" + ",".join(
                f"{c}:{''.join(map(str, exponents))}" for c, exponents in line))
        else:
            lines.append(f"row={joined(line)}")
    return "".join(line + "\n" for line in lines).encode("ascii")


def result_text(result):
    """The text of a result's values, or a Fault of the values."""
    check(walk_result, result)
    lines = [f"job={result.job}", f"visit={result.visit}", f"verdict={result.verdict}",
             f"steps={result.steps}", f"lo={joined(result.lo)}", f"hi={joined(result.hi)}"]
    return "".join(line + "\n" for line in lines).encode("ascii")


def write_into(buffer, text):
    """Lays a text into a lent bytearray and returns its length.  Fault 7: "the
    written text is longer than the lent buffer"; nothing is written then.  "The
    lent buffer's bytes beyond it are the old ones." """
    demand(len(text) <= len(buffer), 7)
    buffer[:len(text)] = text
    return len(text)


def write_job(job, buffer):
    """"When writing, faults of the values come before 7." """
    return write_into(buffer, job_text(job))


def write_result(result, buffer):
    """The same for a result."""
    return write_into(buffer, result_text(result))


def solve(job):
    """The run as an entry: values are checked first and may be a Fault."""
    check(walk_job, job)
    return run(job)

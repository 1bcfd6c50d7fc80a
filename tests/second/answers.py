"""What is answered to a request: to its words, as `solve`, `parts 3,0,5`, `image 0,0 9,9`,
`halve 3 8` or `step 0 1`, and its text."""

from arithmetic import MAX_N, MAX_TEXT, ends_of
from halving import halve, listing_text
from parts import cut, read_parts
from rooms import TABLE, call
from steps import decision, decision_text, image_of, image_text
from texts import job_text, read_job, read_result, result_text, solve
from walks import Fault

HEADER = 4_096                 # bytes of a request's line, its line feed among them
# The requests of P12's table, by how many words come after the first one; `step` alone is P7's.
ROOM_CALLS = {"clear": 0, "open": 0, "step": 2, "reading": 3, "close": 2}


def places(spelled):
    """A list of a request as six places; a missing one is 0."""
    ends = [int(end) for end in spelled.split(",")]
    return ends + [0] * (MAX_N - len(ends))


def reply(operation, words, text):
    """The answer, or a Fault."""
    if operation == "decide":
        n, *lists = words
        return decision_text(*decision(int(n), *map(places, lists)))
    if operation == "result":
        return result_text(read_result(text))
    if operation == "parts":
        return job_text(read_parts(cut(text, map(int, words[0].split(",")))))
    job = read_job(text)
    if operation == "solve":
        return result_text(solve(job))
    if operation == "job":
        return job_text(job)
    if operation == "halve":
        return listing_text(job.job, halve(job, *map(int, words)))
    lo, hi = map(places, words) if words else (job.lo, job.hi)
    K = image_of(job, lo, hi)
    if operation == "image":
        return image_text(K)
    return image_text(K) + decision_text(*decision(job.n, lo, hi, *ends_of(K)))


def room_reply(table, operation, words, text):
    """The answer of a call on the table, or a Fault.  A step's buffer is one for any text."""
    numbers = list(map(int, words))
    if operation == "open":
        slot, visit = call(table, operation, text)
        return f"slot={slot}\nvisit={visit}\n".encode("ascii")
    if operation == "step":
        numbers.append(MAX_TEXT)
    return call(table, operation, *numbers)


class Desk:
    """Where requests are answered, one after another: it keeps P12's table, which is cleared at
    the start."""

    def __init__(self):
        self.table = bytearray(TABLE)

    def answer(self, request, text):
        """What the product answers: the result text (solve), the same text again (job,
        result, parts), the image (image), what is decided (decide), both (step), the listed
        boxes (halve), a slot and a visit (open), a reading (step of a visit, reading), nothing
        (clear, close), or the two lines `fault=N` and `line=L`."""
        operation, *words = request.split(" ")
        try:
            if ROOM_CALLS.get(operation) == len(words):
                return room_reply(self.table, operation, words, text)
            return reply(operation, words, text)
        except Fault as fault:
            return f"fault={fault.number}\nline={fault.line}\n".encode("ascii")


def answer(request, text):
    """What is answered to a request that comes first."""
    return Desk().answer(request, text)

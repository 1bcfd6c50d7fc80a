"""Cases from a seed: requests (words, text) with the expected answers.

About half are right texts; the others are damaged ones.  The fixed cases come
first: the documents' examples and the places their readers get wrong.  Last come those of
P12's table, which depend on each other.
"""

import itertools
from collections import Counter

from answers import Desk, answer
from arithmetic import (ALONE, Job, KINDS, MARK, MAX_END, MAX_ENTRY, MAX_N, MAX_TERMS,
                        MAX_VISIT, Result, VERDICTS, ends_of)
from damage import at_limits, damaged, every_spelling, lines_of
from dice import Dice
from examples import EXAMPLES, JOB_41, T11, T12
from halve_cases import fixed_halvings, random_halving
from jobs import (allowance, job_number, largest_job, monomials, random_job,
                  symmetric_job, zero_job)
from part_cases import fixed_parts, random_part
from pin_cases import fixed_pins, random_pin
from room_cases import room_cases
from size_cases import fixed_sizes
from step_cases import fixed_steps, random_step
from texts import job_text, result_text
from visit_cases import fixed_visits


def equation_texts():
    """Job texts of n = 3 whose first or last `eq` line is at the edge of fault 6."""
    all_terms = ["1:" + "".join(map(str, e)) for e in monomials(3)]
    full, beyond = all_terms[:MAX_TERMS], f"{MAX_ENTRY + 1}:000"
    right = job_text(Job(3, "poly", 3, [0] * 3, [1] * 3, [0] * 9, 1, [[]] * 3))
    for terms in [
            full, full + all_terms[MAX_TERMS:][:1], full + ["1:00"], full + ["x:000"],
            full + [beyond], full + [beyond, "1:x00"], full + ["0:000"], full + [full[0]],
            ["1:300"], ["1:400"], ["1:310"], ["1:030"], ["1:004"], ["1:999"], ["1:900"],
            ["0:100"], ["1:100", "0:000"], ["1:100", "1:100"], ["1:100", "1:101"],
            ["1:101", "1:100"], ["1:100", "1:010", "1:011"],
            [f"{MAX_ENTRY + 1}:400"], ["0:999", beyond], ["0:999", "1:0"], [beyond, "-0:000"],
            ["1:1000"], ["1:10"], ["1:"], [":100"], ["1"], ["1:100", ""], ["", "1:100"]]:
        line = b"eq=" + ",".join(terms).encode()
        yield right.replace(b"eq=", line, 1)
        yield right[:-len(b"eq=\n")] + line + b"\n"


def fixed():
    """The cases that stand in every set."""
    for job in EXAMPLES + [largest_job(kind) for kind in KINDS]:
        text = job_text(job)
        yield "solve", text
        yield "job", text
        yield "image", text
        yield "result", answer("solve", text)
    for kind in KINDS:
        for n in range(1, MAX_N + 1):
            yield "solve", job_text(zero_job(kind, n, n))
    for operation in ("solve", "job", "result"):
        yield operation, b""
    two = JOB_41._replace(n=2, lo=[-1, -9], hi=[1, 9], inv=[0] * 4,
                          lines=[[(5, (1, 1)), (-7, (0, 0))], [(3, (0, 1))]])
    for job in (two, T11, T12):
        for text in at_limits(lines_of(job_text(job))):
            yield "job", text
    for text in (*equation_texts(), *every_spelling(lines_of(job_text(two)))):
        yield "job", text
    lines = lines_of(answer("solve", job_text(T11)))
    for text in (*at_limits(lines), *every_spelling(lines)):
        yield "result", text
    yield from fixed_steps()
    yield from fixed_pins()
    yield from fixed_parts()
    for job in EXAMPLES + [largest_job(kind) for kind in KINDS]:
        for words in ("halve 0 1", "halve 3 8"):
            yield words, job_text(job)
    yield from fixed_halvings()
    yield from fixed_sizes()
    yield from fixed_visits()


def visit_number(dice):
    """That of a job run alone, or any other, both ends often."""
    return dice.pick([ALONE, ALONE, 1, 8, MAX_VISIT, dice.between(1, MAX_VISIT)])


def random_result(dice):
    """A result that every check accepts; "the reader doesn't ask whether verdict
    and steps belong together"."""
    n = dice.between(1, MAX_N)
    size = dice.pick([0, 1, 9, MARK, MAX_END])
    ends = [sorted([dice.pick([size, -size, dice.around(size)]), dice.around(size)])
            for _ in range(n)]
    return Result(job_number(dice), visit_number(dice), dice.pick(VERDICTS), allowance(dice),
                  *ends_of(ends))


def random_case(dice):
    """One request."""
    throw = dice.below(100)
    if throw < 42:
        return "solve", job_text(random_job(dice))
    if throw < 46:
        return "job", job_text(random_job(dice))
    if throw < 78:
        return dice.pick(["job", "solve"]), damaged(dice, job_text(random_job(dice)))
    if throw < 84:
        return "result", result_text(random_result(dice))
    if throw < 98:
        return "result", damaged(dice, result_text(random_result(dice)))
    if throw == 98:
        return "result", job_text(random_job(dice))
    return "job", result_text(random_result(dice))


def random_cases(seed):
    """Requests without end.  Each tenth is a symmetric job, each tenth one of P7's and
    each tenth one of P2's; these have dice of their own, which leave the stream of the
    rest as it is."""
    dice, symmetric = Dice(seed), Dice(~seed)
    step, pin = Dice(seed + 2 ** 32), Dice(seed + 2 ** 33)
    for number in itertools.count():
        if number % 10 == 9:
            yield "solve", job_text(symmetric_job(symmetric))
        elif number % 10 == 4:
            yield random_step(step)
        elif number % 10 == 7:
            yield random_pin(pin)
        else:
            yield random_case(dice)


def put_among(others, every, place, maker, dice):
    """The others, as they are, with one that the maker makes in that place of every so many."""
    for number in itertools.count():
        yield maker(dice) if number % every == place else next(others)


def cases(seed, count):
    """count requests, the fixed ones first.  Of the others each twentieth is one of P8's,
    and of those that are left each tenth one of P1's; the rest are as they would be without
    them."""
    others = put_among(random_cases(seed), 10, 2, random_part, Dice(seed + 2 ** 34))
    others = put_among(others, 20, 16, random_halving, Dice(seed + 2 ** 35))
    yield from itertools.islice(itertools.chain(fixed(), others), count)


def write_case(request, text, requests, answers, answering=answer):
    """Writes a request and the expected answer to two binary files, and returns the
    answer's lines."""
    reply = answering(request, text)
    requests.write(b"%s %d\n" % (request.encode(), len(text)) + text)
    answers.write(b"%d\n" % len(reply) + reply)
    return reply.decode("ascii").split("\n")


def kind_of(request, lines):
    """What an answer is called: its fault, or the operation and, where there is one, the
    verdict."""
    if lines[0].startswith("fault"):
        return lines[0]
    said = next((line for line in lines if line.startswith("verdict=")), "right")
    return f"{request.split(' ')[0]} {said}"


def write_cases(seed, count, requests, answers):
    """Writes the batch input and the expected output, and returns how often each kind
    of answer came.  Behind the count comes the block of the table, with a random request
    for every eight of the count."""
    desk, mix = Desk(), Counter()
    block = room_cases(seed, count // 8)
    for request, text in itertools.chain(cases(seed, count), block):
        lines = write_case(request, text, requests, answers, desk.answer)
        mix[kind_of(request, lines)] += 1
    return mix

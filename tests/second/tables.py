"""What a call answers and leaves of a table of any bytes, written to two files that a program in C
reads with little trouble.  README.md says what stands in them.
"""

from collections import Counter

from breach import told
from room_cases import refusal
from rooms import Opened, call
from table_cases import table_cases

NEAR = 8                        # so few bytes between two that differ are written with them


def put_in(lent, patches):
    """Bytes with patches put in."""
    lent = bytearray(lent)
    for at, piece in patches:
        lent[at:at + len(piece)] = piece
    return bytes(lent)


def outcome(case):
    """What is told of a case, and the bytes before and after it, those behind the lent ones
    too."""
    before = put_in(case.base.bytes, case.patches)
    lent = bytearray(before[:case.lent])
    answered = told(call, lent, case.name, *case.words)
    return answered, before, bytes(lent) + before[case.lent:]


def changes(before, after):
    """The bytes that differ, as patches."""
    found = []
    for at in range(len(before)) if before != after else ():
        if before[at] != after[at]:
            if found and at - found[-1][1] < NEAR:
                found[-1][1] = at + 1
            else:
                found.append([at, at + 1])
    return [(at, after[at:end]) for at, end in found]


def record(words, patches, text):
    """A line of words and the numbers of patches and bytes, then these."""
    return b"".join([
        " ".join(map(str, (*words, len(patches), len(text)))).encode("ascii") + b"\n",
        *(b"%d %d\n" % (at, len(piece)) + piece for at, piece in patches), text])


def request_of(case):
    """A case as it is written."""
    slot = visit = room = 0
    text = b""
    if case.name == "open":
        text, = case.words
    elif case.name != "clear":
        slot, visit, room = (*case.words, 0)[:3]
    return record((case.name, slot, visit, room, case.lent), case.patches, text)


def answer_of(answered, patches):
    """What is answered, and the changes, as they are written."""
    if refusal(answered):
        return record((*answered, 0, 0), patches, b"")
    if isinstance(answered, Opened):
        return record((0, 0, *answered), patches, b"")
    return record((0, 0, 0, 0), patches, answered)


def write_tables(seed, count, requests, answers):
    """Writes count cases and what is expected of them to two binary files, and returns how often
    each kind of answer came."""
    base, mix = None, Counter()
    for case in table_cases(seed, count):
        if case.base is not base:
            base = case.base
            requests.write(b"base %d\n" % len(base.bytes) + base.bytes)
        answered, before, after = outcome(case)
        requests.write(request_of(case))
        answers.write(answer_of(answered, changes(before, after)))
        fault = refusal(answered)
        mix[f"{case.name} {f'fault={fault}' if fault else 'right'}"] += 1
    return mix

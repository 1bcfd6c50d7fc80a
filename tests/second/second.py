"""The second program: answers as the product does, from documents 01 and 02 alone, and for the
bytes of P12's table from docs/ROOMS.md.

    second.py solve [FILE]     the result text of a job text
    second.py job [FILE]       reads a job text and writes it again
    second.py result [FILE]    reads a result text and writes it again
    second.py image [FILE]     the image of a job's own box
    second.py step [FILE]      the image, and what is decided of it
    second.py halve DEPTH [FILE]
                               all closing positions of a job: the boxes that are listed
    second.py batch [FILE]     many requests in one run
    second.py cases --seed S --count K --requests R --answers A
                               requests of the batch, and the answers to them
    second.py tables --seed S --count K --requests R --answers A
                               calls on tables of any bytes, and what they leave

Without FILE, standard input is read.  A fault is answered by the two lines
`fault=N` and `line=L`.
"""

import argparse
import re
import sys

from answers import HEADER, Desk, answer
from arithmetic import MAX_BOXES, MAX_N, MAX_TEXT
from cases import write_cases
from tables import write_tables

COMMANDS = ("solve", "job", "result", "image", "step")
MAKERS = {"cases": write_cases, "tables": write_tables}
CHUNK = 65_536

# A number in a request: an optional minus, 1 to 18 digits, no leading zero, no minus
# zero.  A list has 1 to 6 of them, whatever n is.  N, LENGTH, the lengths of parts, SLOT and
# VISIT have any count of digits.
NUMBER = "(?:0|-?[1-9][0-9]{0,17})"
LIST = f"{NUMBER}(?:,{NUMBER}){{0,{MAX_N - 1}}}"
COUNT = "(?:0|[1-9][0-9]*)"
PARTS = f"parts {COUNT}(?:,{COUNT})*"
HALVE = f"halve {NUMBER} (?P<boxes>{COUNT})"
WITH_TEXT = f"solve|job|result|{PARTS}|image(?: {LIST} {LIST})?|{HALVE}|open"
DECIDE = f"decide {COUNT}(?: {LIST}){{4}}"
VISIT = f"{COUNT} {COUNT}"
WITHOUT = f"{DECIDE}|clear|step {VISIT}|reading {VISIT} (?P<bytes>{COUNT})|close {VISIT}"
LINE = re.compile(f"(?:(?:{WITH_TEXT}) {COUNT}|(?:{WITHOUT}) 0)\n")
# ROOM is at most as many boxes as are ever listed, or bytes as a text ever has.
MOST = {"boxes": MAX_BOXES, "bytes": MAX_TEXT}

EXPECTED_LINE = ("a line of solve, job, result, parts L1,L2,.., image, image LO HI, "
                 "decide N LO HI KLO KHI, halve DEPTH ROOM, clear, open, step SLOT VISIT, "
                 "reading SLOT VISIT ROOM or close SLOT VISIT, and a length in digits "
                 "(decide, clear, step, reading, close: 0), one space between words")
EXPECTED_TEXT = "as many bytes of text as the length says"


def take(source, length):
    """The next length bytes; of a text that is too long only one byte more than
    may be is kept, the others are passed over.  None where the input ends."""
    kept = b""
    while length:
        piece = source.read(min(length, CHUNK))
        if not piece:
            return None
        length -= len(piece)
        kept += piece[:MAX_TEXT + 1 - len(kept)]
    return kept


def is_request(line):
    """Whether a line is one of a request, its ROOM at most what it may be."""
    match = LINE.fullmatch(line)
    return bool(match) and all(int(match[name] or 0) <= most for name, most in MOST.items())


def batch(source, sink):
    """A request is a line `OP ARGS.. LENGTH` and LF, then LENGTH bytes; its answer is
    a line with the answer's length and LF, then the answer's bytes.  Broken framing
    ends the run with a line `error=` and what was expected."""
    desk = Desk()
    while True:
        header = source.readline(HEADER).decode("latin-1")
        if not header:
            return
        if not is_request(header):
            sink.write(f"error=expected {EXPECTED_LINE}\n".encode())
            return
        request, _, length = header[:-1].rpartition(" ")
        text = take(source, int(length))
        if text is None:
            sink.write(f"error=expected {EXPECTED_TEXT}\n".encode())
            return
        reply = desk.answer(request, text)
        sink.write(b"%d\n" % len(reply) + reply)


def depth(spelled):
    """DEPTH of the command line, spelled as in a request."""
    if not re.fullmatch(NUMBER, spelled):
        raise argparse.ArgumentTypeError(f"no number: {spelled!r}")
    return spelled


def main(arguments=None):
    """The command line."""
    parser = argparse.ArgumentParser(description=__doc__.split("\n\n", maxsplit=1)[0])
    commands = parser.add_subparsers(dest="command", required=True)
    for name in (*COMMANDS, "halve", "batch"):
        command = commands.add_parser(name)
        if name == "halve":
            command.add_argument("depth", type=depth, metavar="DEPTH")
        command.add_argument("file", nargs="?", metavar="FILE")
    for name in MAKERS:
        making = commands.add_parser(name)
        making.add_argument("--seed", type=int, required=True)
        making.add_argument("--count", type=int, required=True)
        making.add_argument("--requests", required=True)
        making.add_argument("--answers", required=True)
    given = parser.parse_args(arguments)
    if given.command in MAKERS:
        with open(given.requests, "wb") as requests, open(given.answers, "wb") as answers:
            mix = MAKERS[given.command](given.seed, given.count, requests, answers)
        for kind in sorted(mix):
            print(f"{mix[kind]:7} {kind}")
        return
    try:
        source = open(given.file, "rb") if given.file else sys.stdin.buffer
    except OSError as error:
        sys.exit(f"second.py: {given.file}: {error.strerror}")
    with source:
        if given.command == "batch":
            batch(source, sys.stdout.buffer)
        else:
            halving = given.command == "halve"
            request = f"halve {given.depth} {MAX_BOXES}" if halving else given.command
            sys.stdout.buffer.write(answer(request, source.read(MAX_TEXT + 1)))


if __name__ == "__main__":
    main()

"""Calls of ./floodrafter, as a user makes them."""

import os
import subprocess
import threading
import time
from collections import namedtuple
from pathlib import Path

ROOT = Path(__file__).resolve().parents[2]
PROGRAM = str(ROOT / "floodrafter")
EXAMPLES = ROOT / "examples"
WAIT = 60                      # seconds after which a call counts as stuck

JOB = (EXAMPLES / "job41.txt").read_bytes()
RESULT = (EXAMPLES / "job41.out").read_bytes()
IMAGE = b"klo=81919\nkhi=103766\n"
DECIDED = b"verdict=unique\nlo=81919\nhi=103766\n"

MAX_TEXT = 4_096
MAX_HEADER = 4_096

Ended = namedtuple("Ended", "status out err")


def call(*words, given=b"", **streams):
    """Runs the program to its end; what is given is its standard input."""
    if "stdin" not in streams:
        streams["input"] = given
    done = subprocess.run([PROGRAM, *words], stderr=subprocess.PIPE, timeout=WAIT, check=False,
                          **{"stdout": subprocess.PIPE, **streams})
    return Ended(done.returncode, done.stdout, done.stderr.decode())


def call_by_shell(redirections, *words, given=b""):
    """The same under redirections of the shell, as `>&-`."""
    done = subprocess.run(["sh", "-c", f'"$0" "$@" {redirections}', PROGRAM, *words], input=given,
                          capture_output=True, timeout=WAIT, check=False)
    return Ended(done.returncode, done.stdout, done.stderr.decode())


def start(*words, **streams):
    """A run that goes on: its process, with pipes where no stream is given."""
    pipes = {"stdin": subprocess.PIPE, "stdout": subprocess.PIPE, "stderr": subprocess.PIPE}
    return subprocess.Popen([PROGRAM, *words], **{**pipes, **streams})


def pipe_not_waiting(end):
    """A pipe whose end of that number, 0 to read and 1 to write, does not wait."""
    ends = os.pipe()
    os.set_blocking(ends[end], False)
    return ends


def request(words, text=b""):
    """A request of batch: an operation with its arguments, and a text."""
    return b"%s %d\n" % (words.encode(), len(text)) + text


def packet(text):
    """An answer of batch."""
    return b"%d\n" % len(text) + text


def answered_not_waiting(given):
    """What batch answers into a pipe that does not wait and is read late, and its exit status."""
    reading, writing = pipe_not_waiting(1)
    run = start("batch", stdout=writing)
    os.close(writing)
    feeding = threading.Thread(target=run.communicate, args=(given,))
    feeding.start()
    time.sleep(0.2)
    with open(reading, "rb") as answers:
        read = answers.read()
    feeding.join()
    return read, run.returncode

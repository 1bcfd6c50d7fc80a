"""The commands, FILE and standard input, wrong calls, and the script that makes the call."""

import os
import signal
import subprocess
import tempfile
import unittest
from decimal import Decimal
from pathlib import Path

from calls import (DECIDED, EXAMPLES, IMAGE, JOB, PROGRAM, RESULT, WAIT, call, call_by_shell, packet, request,
                   start)

JOB_FILE = str(EXAMPLES / "job41.txt")
RESULT_FILE = str(EXAMPLES / "job41.out")


class Commands(unittest.TestCase):
    """What each command writes."""

    def test_texts(self):
        for command, text, answer in (("solve", JOB, RESULT), ("job", JOB, JOB), ("result", RESULT, RESULT),
                                      ("image", JOB, IMAGE), ("step", JOB, IMAGE + DECIDED),
                                      ("batch", request("job", JOB), packet(JOB))):
            self.assertEqual(call(command, given=text), (0, answer, ""))
            self.assertEqual(call(command, "-", given=text), (0, answer, ""))

    def test_files(self):
        self.assertEqual(call("solve", JOB_FILE), (0, RESULT, ""))
        self.assertEqual(call("job", JOB_FILE), (0, JOB, ""))
        self.assertEqual(call("result", RESULT_FILE), (0, RESULT, ""))
        self.assertEqual(call("image", JOB_FILE), (0, IMAGE, ""))
        self.assertEqual(call("step", JOB_FILE), (0, IMAGE + DECIDED, ""))
        with tempfile.NamedTemporaryFile() as file:
            file.write(request("solve", JOB) * 2)
            file.flush()
            self.assertEqual(call("batch", file.name), (0, packet(RESULT) * 2, ""))

    def test_examples(self):
        for job in sorted(EXAMPLES.glob("*.txt")):
            answer = job.with_suffix(".out").read_bytes()
            ended = call("solve", str(job))
            self.assertEqual((ended.status, ended.out), (1 if answer.startswith(b"fault=") else 0, answer))

    def test_step(self):
        """Each of the four decisions; the allowance plays no part."""
        for old, new, answer in (
                (b"steps=8", b"steps=0", IMAGE + DECIDED),
                (b"inv=21845", b"inv=0", b"klo=65536\nkhi=131072\nverdict=stalled\nlo=65536\nhi=131072\n"),
                (b"65536:2,-131072:0", b"65536:0", b"klo=43691\nkhi=109227\nverdict=next\nlo=65536\nhi=109227\n"),
                (b"lo=65536", b"lo=131072", b"klo=87382\nkhi=87382\nverdict=none\nlo=131072\nhi=131072\n")):
            self.assertEqual(call("step", given=JOB.replace(old, new)), (0, answer, ""))

    def test_steps_of_the_examples(self):
        """A step prints the image first; where it decides it prints what a run of one step answers."""
        for job in sorted(EXAMPLES.glob("*.txt")):
            answer = job.with_suffix(".out").read_bytes()
            image, step = call("image", str(job)), call("step", str(job))
            if answer.startswith(b"fault="):
                self.assertEqual((image.status, image.out, step.status, step.out), (1, answer, 1, answer))
                continue
            self.assertEqual((image.status, image.err, step.status, step.err), (0, "", 0, ""))
            self.assertEqual(step.out[:len(image.out)], image.out)
            decided, (_, _, verdict, steps, *box) = step.out[len(image.out):].splitlines(), answer.splitlines()
            if steps == b"steps=1":
                self.assertEqual(decided, [verdict, *box])
            else:
                self.assertEqual(decided[0], b"verdict=next")

    def test_units(self):
        self.assertEqual(call("show", JOB_FILE).out, RESULT + b"unknown 1: 1.2499847412109375 to 1.583343505859375\n")
        for job in sorted(EXAMPLES.glob("*.txt")):
            answer = job.with_suffix(".out").read_text()
            shown = answer if answer.startswith("fault=") else answer + in_units(answer)
            self.assertEqual(call("show", str(job)).out.decode(), shown)

    def test_fault_of_a_file(self):
        ended = call("solve", RESULT_FILE)
        self.assertEqual(ended.status, 1)
        self.assertEqual(ended.err, f"{RESULT_FILE}:2: fault 2: line 2 begins with visit=, kind= is expected\n")

    def test_version(self):
        for word in ("version", "--version"):
            self.assertEqual(call(word), (0, b"floodrafter 5\n", ""))

    def test_help(self):
        page = call("help")
        self.assertEqual((page.status, page.err), (0, ""))
        for command in (b"solve", b"show", b"image", b"step", b"halve DEPTH", b"job", b"result", b"batch", b"help",
                        b"version"):
            self.assertIn(b"floodrafter " + command, page.out)
        self.assertIn(b"Exit status: 0 answered; 1 a fault; 2 not run", page.out)
        for words in (("--help",), ("-h",), ("help", "solve"), ("help", "halve"), ("help", "help")):
            self.assertEqual(call(*words), page)

    def test_help_on_batch(self):
        page = call("help", "batch")
        self.assertEqual((page.status, page.err), (0, ""))
        for fact in (b"LENGTH", b"image LO HI", b"decide N LO HI KLO KHI", b"halve DEPTH ROOM",
                     b"reading SLOT VISIT ROOM", b"4096", b"error="):
            self.assertIn(fact, page.out)


class WrongCalls(unittest.TestCase):
    """Each is told on standard error, with the help behind it."""

    def refuses(self, words, said):
        """Nothing on standard output, and exit status 2."""
        self.assertEqual(call(*words, given=JOB), (2, b"", said + call("help").out.decode()))

    def test_command(self):
        self.refuses((), "")
        for word in ("sovle", "", "Solve", "solve ", "--", "-", "-v"):
            self.refuses((word,), f"floodrafter: there is no command '{word}'\n")
        self.refuses(("sovle", JOB_FILE), "floodrafter: there is no command 'sovle'\n")
        self.refuses(("help", "sovle"), "floodrafter: there is no command 'sovle'\n")

    def test_arguments(self):
        for words in (("solve", JOB_FILE, JOB_FILE), ("image", JOB_FILE, "0"), ("step", "-", "-"), ("batch", "-", "-"),
                      ("version", "1"), ("help", "batch", "1")):
            self.refuses(words, "floodrafter: too many arguments\n")


class Script(unittest.TestCase):
    """./floodrafter from elsewhere, and what it makes of the program's end."""

    def test_from_elsewhere(self):
        with tempfile.TemporaryDirectory() as folder:
            link = Path(folder) / "link"
            link.symlink_to(PROGRAM)
            for command in ([PROGRAM], [str(link)], ["sh", PROGRAM]):
                done = subprocess.run([*command, "solve", "-"], input=JOB, cwd=folder, capture_output=True, check=True)
                self.assertEqual(done.stdout, RESULT)
            path = {**os.environ, "PATH": f"{Path(PROGRAM).parent}:{os.environ['PATH']}"}
            done = subprocess.run(["floodrafter", "solve", "-"], input=JOB, cwd=folder, capture_output=True, env=path,
                                  check=True)
            self.assertEqual(done.stdout, RESULT)

    def test_killed(self):
        run = start("batch")
        run.stdin.write(request("solve", JOB))
        run.stdin.flush()
        self.assertEqual(run.stdout.read(len(packet(RESULT))), packet(RESULT))
        os.kill(child_of(run.pid), signal.SIGTERM)
        self.assertEqual(run.wait(WAIT), 128 + signal.SIGTERM)
        for stream in (run.stdin, run.stdout, run.stderr):
            stream.close()

    def test_descriptors(self):
        for closed in ("3>&-", "3</dev/null 4</dev/null", "2>&-", "3>&- 4>&- 2>&-"):
            self.assertEqual(call_by_shell(closed, "solve", JOB_FILE), (0, RESULT, ""))
        self.assertEqual(call_by_shell("<&-", "solve", JOB_FILE), (0, RESULT, ""))


def in_units(result):
    """A line for each unknown of a result text, in decimals that are exact."""
    ends = [line.partition("=")[2].split(",") for line in result.splitlines()[4:]]
    units = [[format(Decimal(end) / 65_536, "f") for end in each] for each in ends]
    return "".join(f"unknown {number}: {low} to {high}\n" for number, (low, high) in enumerate(zip(*units), 1))


def child_of(pid):
    """The process that a process has started."""
    for entry in Path("/proc").glob("[0-9]*/stat"):
        try:
            fields = entry.read_text().rpartition(")")[2].split()
        except OSError:
            continue
        if int(fields[1]) == pid:
            return int(entry.parent.name)
    raise ProcessLookupError(pid)

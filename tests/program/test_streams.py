"""What cannot be read or written is told on standard error, with exit status 2; what is not ready is waited for."""

import os
import socket
import subprocess
import tempfile
import time
import unittest

from calls import EXAMPLES, JOB, MAX_TEXT, RESULT, WAIT
from calls import answered_not_waiting, call, call_by_shell, packet, pipe_not_waiting, request, start

JOB_FILE = str(EXAMPLES / "job41.txt")
READERS = ("solve", "show", "image", "step", "halve 2", "job", "result", "batch")


class Reading(unittest.TestCase):
    """A failed read is no empty text."""

    def refuses(self, file, why):
        """By every command that reads a FILE."""
        for command in READERS:
            self.assertEqual(call(*command.split(), file), (2, b"", f"floodrafter: {file}: {why}\n"))

    def test_missing(self):
        self.refuses("no/such/file", "No such file or directory")
        self.refuses("", "No such file or directory")
        self.refuses("x" * 300, "File name too long")
        self.assertEqual(call("solve", "x" * 5_000), (2, b"", "floodrafter: FILE: File name too long\n"))

    def test_directory(self):
        self.refuses(str(EXAMPLES), "Is a directory")

    def test_failing(self):
        self.refuses("/proc/self/mem", "Input/output error")

    @unittest.skipIf(os.geteuid() == 0, "root may read every file")
    def test_unreadable(self):
        with tempfile.NamedTemporaryFile() as file:
            os.chmod(file.name, 0)
            self.refuses(file.name, "Permission denied")

    def test_closed(self):
        for command in READERS:
            for words in (command.split(), [*command.split(), "-"]):
                self.assertEqual(call_by_shell("<&-", *words),
                                 (2, b"", "floodrafter: standard input: Bad file descriptor\n"))

    def test_in_pieces(self):
        for ends in (os.pipe(), pipe_not_waiting(0)):
            run = start("solve", stdin=ends[0])
            for byte in JOB:
                os.write(ends[1], bytes([byte]))
                time.sleep(0.001)
            os.close(ends[1])
            out, err = run.communicate(timeout=WAIT)
            self.assertEqual((run.returncode, out, err), (0, RESULT, b""))
            os.close(ends[0])

    def test_waiting_costs_nothing(self):
        reading, writing = pipe_not_waiting(0)
        before = os.times()
        run = start("batch", stdin=reading)
        time.sleep(1)
        os.close(writing)
        self.assertEqual(run.communicate(timeout=WAIT), (b"", b""))
        after = os.times()
        os.close(reading)
        spent = after.children_user + after.children_system - before.children_user - before.children_system
        self.assertLess(spent, 0.5)

    def test_socket(self):
        ours, its = socket.socketpair()
        its.setblocking(False)
        run = start("batch", stdin=its, stdout=its)
        for _ in range(3):
            ours.sendall(request("solve", JOB))
            self.assertEqual(ours.recv(1_000), packet(RESULT))
            time.sleep(0.05)
        ours.shutdown(socket.SHUT_WR)
        self.assertEqual(run.communicate(timeout=WAIT), (None, b""))
        self.assertEqual(run.returncode, 0)
        ours.close()
        its.close()

    def test_longest(self):
        self.assertEqual(call("job", given=b"x" * MAX_TEXT).out, b"fault=2\nline=1\n")


class Writing(unittest.TestCase):
    """No answer is lost without a word."""

    def refuses(self, redirection, why):
        """By every command that writes."""
        for words in (("solve", JOB_FILE), ("show", JOB_FILE), ("image", JOB_FILE), ("step", JOB_FILE),
                      ("halve", "2", JOB_FILE), ("job", JOB_FILE), ("result", JOB_FILE), ("batch",), ("help",),
                      ("help", "batch"), ("version",)):
            ended = call_by_shell(redirection, *words, given=request("solve", JOB))
            self.assertEqual(ended, (2, b"", f"floodrafter: standard output: {why}\n"))

    def test_full(self):
        self.refuses(">/dev/full", "No space left on device")

    def test_closed(self):
        self.refuses(">&-", "Bad file descriptor")

    def test_ended(self):
        for given in (request("solve", JOB), request("solve", JOB) * 5_000):
            reading, writing = os.pipe()
            os.close(reading)
            self.assertEqual(call("batch", given=given, stdout=writing),
                             (2, None, "floodrafter: standard output: Broken pipe\n"))
            os.close(writing)

    def test_ended_within(self):
        run = start("batch", stdin=subprocess.PIPE)
        run.stdin.write(request("solve", JOB))
        run.stdin.flush()
        self.assertEqual(run.stdout.read(len(packet(RESULT))), packet(RESULT))
        run.stdout.close()
        run.stdin.write(request("solve", JOB))
        run.stdin.flush()
        self.assertEqual(run.wait(WAIT), 2)
        self.assertEqual(run.stderr.read(), b"floodrafter: standard output: Broken pipe\n")
        run.stdin.close()
        run.stderr.close()

    def test_not_waiting(self):
        self.assertEqual(answered_not_waiting(request("solve", JOB) * 5_000), (packet(RESULT) * 5_000, 0))

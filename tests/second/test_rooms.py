"""Document 02, P12: the table of rooms by values and by bytes, its requests, its cases and its
claims."""

import unittest

from answers import HEADER, Desk
from arithmetic import MAX_TEXT, MAX_VISIT, Result
from breach import told
from dice import Dice
from examples import JOB_41, T7, T9, T11
from room_cases import room_cases
from room_claims import try_rooms
from rooms import (CLEARED, SLOTS, TABLE, Opened, Visit, call, closed, finished, opened, shown,
                   stepped, table_in)
from second import EXPECTED_LINE
from table_bases import (DIRTY, EIGHT, EMPTY, FULL_AND_LATE, LATE, LONGEST_TEXTS, MIXED, NEARLY,
                         ONE, SEVEN, rubbish)
from test_second import RESULT_41, TEXT_41
from test_whole import run_batch
from texts import job_text

TEXT_7, TEXT_9 = job_text(T7), job_text(T9)
BEGUN_41 = Result(41, 1, "spent", 0, [65_536], [131_072])
DONE_41 = BEGUN_41._replace(verdict="unique", steps=1, lo=[81_919], hi=[103_766])
READ_41 = b"job=41\nvisit=1\nverdict=spent\nsteps=0\nlo=65536\nhi=131072\n"       # 56 bytes
STEP_41 = b"job=41\nvisit=1\nverdict=unique\nsteps=1\nlo=81919\nhi=103766\n"      # 57


class Values(unittest.TestCase):
    """The calls on a table by values."""

    def test_one_visit(self):
        table, pair = opened(CLEARED, TEXT_41)
        self.assertEqual((table, pair), ((1, (Visit(JOB_41, BEGUN_41), *[None] * 7)), (0, 1)))
        self.assertEqual(shown(table, 0, 1, 56), (table, READ_41))
        after, text = stepped(table, 0, 1, 57)
        self.assertEqual((after.slots[0], text), (Visit(JOB_41, DONE_41), STEP_41))
        self.assertEqual(stepped(after, 0, 1, MAX_TEXT), (after, STEP_41))
        self.assertEqual(closed(after, 0, 1), (CLEARED._replace(last=1), b""))

    def test_finished(self):
        """"Decided or its steps are the job's allowance"."""
        for job, verdict, steps, wanted in [
                (T7, "spent", 0, False), (T7, "spent", 7, False), (T7, "spent", 8, True),
                (T7._replace(steps=0), "spent", 0, True), (T7, "stalled", 2, True),
                (T9, "none", 1, True), (JOB_41, "unique", 1, True), (T7, "none", 0, True)]:
            reading = Result(job.job, 1, verdict, steps, [0], [0])
            self.assertEqual(finished(Visit(job, reading)), wanted, reading)

    def test_refusals(self):
        """In their order."""
        full = MIXED._replace(last=MAX_VISIT)
        late, wrong = SEVEN._replace(last=MAX_VISIT), TEXT_41[:-1]
        for entry, words, wanted in [
                (opened, (full, wrong), (2, 8)), (opened, (full, b""), (2, 1)),
                (opened, (full, b"x" * (MAX_TEXT + 1)), (1, 0)), (opened, (full, TEXT_41), (13, 0)),
                (opened, (MIXED, TEXT_41), (13, 0)), (opened, (late, wrong), (2, 8)),
                (opened, (late, TEXT_41), (14, 0)),
                (stepped, (MIXED, 0, 12, 0), (7, 0)), (stepped, (MIXED, 0, 11, 0), (15, 0)),
                (stepped, (MIXED, 8, 12, 0), (15, 0)), (stepped, (MIXED, 0, 0, 0), (15, 0)),
                (stepped, (SEVEN, 5, 7, 0), (15, 0)), (shown, (SEVEN, 5, 0, 0), (15, 0)),
                # after 9 steps 57 bytes, after 10 there are 58; after 17 steps 58, after 18 57
                (stepped, (MIXED, 3, 10, 57), (7, 0)), (shown, (MIXED, 3, 10, 56), (7, 0)),
                (stepped, (MIXED, 7, 11, 56), (7, 0)), (shown, (MIXED, 7, 11, 57), (7, 0)),
                (closed, (MIXED, 0, 11), (15, 0)), (closed, (MIXED, 2 ** 64, 12), (15, 0))]:
            self.assertEqual(told(entry, *words), wanted, (entry, words[1:]))
        for slot, visit, room in ((3, 10, 58), (7, 11, 57)):
            self.assertEqual(len(stepped(MIXED, slot, visit, room)[1]), room)
        table, pair = opened(SEVEN._replace(last=MAX_VISIT - 1), TEXT_41)
        self.assertEqual((table.last, pair), (MAX_VISIT, (5, MAX_VISIT)))


class Bytes(unittest.TestCase):
    """The form, by the numbers of docs/ROOMS.md."""

    def test_calls(self):
        """Every byte after each call; those behind 18,436 stay."""
        lent = bytearray(rubbish(Dice(1)))
        wanted = bytearray(18_436) + lent[18_436:]
        self.assertEqual(call(lent, "clear"), b"")
        self.assertEqual(lent, wanted)
        lent[6:70] = wanted[6:70] = b"r" * 64              # a free slot may hold anything
        lent[330:350] = wanted[330:350] = b"j" * 20
        self.assertEqual(call(lent, "open", TEXT_41), Opened(0, 1))
        wanted[0], wanted[4:64] = 1, bytes([56, 0, 0, 0]) + READ_41
        wanted[260:343] = bytes([79, 0, 0, 0]) + TEXT_41
        self.assertEqual(lent, wanted)
        self.assertEqual(call(lent, "step", 0, 1, 57), STEP_41)
        wanted[4:65] = bytes([57, 0, 0, 0]) + STEP_41
        self.assertEqual(lent, wanted)
        self.assertEqual(call(lent, "reading", 0, 1, 57), STEP_41)
        self.assertEqual(lent, wanted)
        self.assertEqual(lent[65:70] + lent[343:350], b"r" * 5 + b"j" * 7)
        for slot in range(1, SLOTS):
            self.assertEqual(call(lent, "open", TEXT_7), Opened(slot, slot + 1))
        self.assertEqual(lent[16_388:16_451], bytes([59, 0, 0, 0]) + TEXT_7)      # slot 7
        self.assertEqual(call(lent, "close", 0, 1), b"")
        self.assertEqual(lent[:2_308], bytes([8, 0, 0, 0]) + bytes(2_304))

    def test_form(self):
        """Right forms are read as the values that they were made of; "16 exactly" where a
        byte breaks them."""
        for base in (EMPTY, DIRTY, ONE, EIGHT, LATE, NEARLY, FULL_AND_LATE, LONGEST_TEXTS):
            self.assertEqual(table_in(base.bytes), base.table)
            self.assertEqual(table_in(base.bytes[:18_436]), base.table)
            self.assertEqual(told(table_in, base.bytes[:18_435]), (16, 0))
        slot = 4 + 2_304 * 3                                # SLOW after 9 steps, visit 10 of 12
        job = slot + 256
        for at, old, new, right in [
                (0, b"\x0c", b"\x0d", True), (0, b"\x0c", b"\x0b", False),
                (0, b"\x0c\0\0\0", b"\xff\xc9\x9a\x3b", True),                    # 999,999,999
                (0, b"\x0c\0\0\0", b"\x00\xca\x9a\x3b", False),                   # and one more
                (slot, b"\x39", b"\x38", False), (slot, b"\x39", b"\x3a", False),
                (slot + 1, b"\0", b"\x01", False), (slot + 3, b"\0", b"\x80", False),
                (job, b"\x4f", b"\x50", False), (job, b"\x4f", b"\0", True),      # free
                (job + 2, b"\0", b"\x01", False),
                (slot + 4, b"job=41", b"job=40", False), (job + 4, b"job=41", b"job=40", False),
                (slot + 11, b"visit=10", b"visit=12", True),
                (slot + 11, b"visit=10", b"visit=13", False),
                (slot + 11, b"visit=10", b"visit=00", False),
                (slot + 20, b"verdict=spent", b"verdict=uniqu", False),
                (slot + 34, b"steps=9", b"steps=8", True),
                (slot + 61, b"", b"x", True), (job + 83, b"", b"x", True)]:
            lent = bytearray(EIGHT.bytes)
            self.assertEqual(lent[at:at + len(old)], old, (at, old))
            lent[at:at + len(new)] = new
            found = told(table_in, lent)
            self.assertEqual(found != (16, 0), right, (at, new))

    def test_refused(self):
        """First 16, then the others; no byte is changed."""
        broken = bytearray(EIGHT.bytes)
        broken[4 + 2_304 * 3] ^= 1
        for given, name, words, wanted in [
                (broken, "open", (b"",), (16, 0)), (broken, "step", (8, 0, 0), (16, 0)),
                (broken, "reading", (0, 12, 0), (16, 0)), (broken, "close", (9, 9), (16, 0)),
                (EIGHT.bytes[:-65], "clear", (), (16, 0)), (b"", "clear", (), (16, 0)),
                (b"", "open", (TEXT_41,), (16, 0)), (EIGHT.bytes, "open", (b"",), (2, 1)),
                (EIGHT.bytes, "open", (TEXT_41,), (13, 0)), (LATE.bytes, "open", (b"",), (2, 1)),
                (LATE.bytes, "open", (TEXT_41,), (14, 0)), (EIGHT.bytes, "close", (3, 11), (15, 0)),
                (EIGHT.bytes, "step", (3, 10, 57), (7, 0))]:
            lent = bytearray(given)
            self.assertEqual(told(call, lent, name, *words), wanted, (name, words))
            self.assertEqual(lent, given)


FAULT_7, FAULT_13, FAULT_15 = (b"fault=%d\nline=0\n" % fault for fault in (7, 13, 15))
READ_7 = b"job=7\nvisit=%d\nverdict=%s\nsteps=%d\nlo=0\nhi=%d\n"
HISTORY = [                          # a request's words, its text, its answer
    ("step 0 1", b"", FAULT_15), ("clear", b"", b""), ("reading 0 0 0", b"", FAULT_15),
    ("open", TEXT_41, b"slot=0\nvisit=1\n"), ("open", TEXT_7, b"slot=1\nvisit=2\n"),
    ("reading 0 1 4096", b"", READ_41), ("reading 0 1 56", b"", READ_41),
    ("reading 0 1 55", b"", FAULT_7), ("reading 0 1 0", b"", FAULT_7),
    ("step 0 1", b"", STEP_41), ("step 0 1", b"", STEP_41), ("reading 0 1 56", b"", FAULT_7),
    ("step 1 2", b"", READ_7 % (2, b"spent", 1, 0)), ("close 0 2", b"", FAULT_15),
    ("step 1 2", b"", READ_7 % (2, b"stalled", 2, 0)), ("close 0 1", b"", b""),
    ("close 0 1", b"", FAULT_15), ("step 0 1", b"", FAULT_15),
    ("open", TEXT_41[:-1], b"fault=2\nline=8\n"), ("open", TEXT_9, b"slot=0\nvisit=3\n"),
    ("step 0 1", b"", FAULT_15), ("reading 0 1 0", b"", FAULT_15),
    ("step 0 3", b"", b"job=9\nvisit=3\nverdict=none\nsteps=1\nlo=0\nhi=0\n"),
    *(("open", job_text(T11), b"slot=%d\nvisit=%d\n" % (slot, slot + 2)) for slot in range(2, 8)),
    ("open", TEXT_41, FAULT_13), ("open", b"", b"fault=2\nline=1\n"),
    ("open", b"x" * (MAX_TEXT + 1), b"fault=1\nline=0\n"), ("step 8 9", b"", FAULT_15),
    ("step 18446744073709551616 3", b"", FAULT_15), (f"step 0 {2 ** 64 + 3}", b"", FAULT_15),
    ("step " + "9" * 4_086 + " 0", b"", FAULT_15), ("solve", TEXT_41, RESULT_41),
    ("clear", b"", b""), ("reading 1 2 4096", b"", FAULT_15),
    ("open", job_text(T7._replace(steps=0)), b"slot=0\nvisit=1\n"),
    ("step 0 1", b"", READ_7 % (1, b"spent", 0, 2)), ("close 0 1", b"", b""),
]
NO_COUNTS = ["", "-", "-0", "-1", "00", "01", "+1", "x", "1.0", "1,1", "\xb2"]
BROKEN_LINES = [
    "clear", "clear ", "clear 1", "clear 00", "clear 0 0", "Clear 0", "clears 0", "clear\t0",
    "open", "open ", "open x", "open -1", "open 0 0", "Open 0", "step 0", "step 0 0",
    "step 0 0 1", "step 0 0 00", "step 0 0 0 0", "step 0 0 0 ", "step  0 0 0", "step 0,0 0 0",
    "step 0 0 0\r", "reading 0 0 0", "reading 0 0 0 1", "reading 0 0 0 0 0", "reading 0 0 4097 0",
    "reading 0 0 40960 0", "reading 0 0 18446744073709551616 0", "read 0 0 0 0", "close 0 0",
    "close 0 0 1", "close 0 0 0 0", "close 0 0 0 ", "closed 0 0 0", "step " + "9" * 4_087 + " 0 0",
    *(f"{name} {count} 0 0" for name in ("step", "close") for count in NO_COUNTS),
    *(f"{name} 0 {count} 0" for name in ("step", "close") for count in NO_COUNTS),
    *(f"reading 0 0 {count} 0" for count in NO_COUNTS)]


class Requests(unittest.TestCase):
    """The words of a request, and the table that a run keeps."""

    def test_history(self):
        given = b"".join(b"%s %d\n" % (words.encode(), len(text)) + text
                         for words, text, _ in HISTORY)
        wanted = b"".join(b"%d\n" % len(reply) + reply for _, _, reply in HISTORY)
        for _ in range(2):                      # a run begins with a table that is cleared
            self.assertEqual(run_batch(given), wanted)
        self.assertEqual(max(len(f"{words} 0\n") for words, *_ in HISTORY), HEADER)
        self.assertEqual(run_batch(b"clear 0\nclear 0\n"), b"0\n0\n")
        for room in (0, 9, 10, 999, 1_000, MAX_TEXT):
            self.assertEqual(run_batch(b"reading 0 1 %d 0\n" % room), b"16\n" + FAULT_15)

    def test_broken_lines(self):
        for line in BROKEN_LINES:
            self.assertEqual(run_batch(line.encode("latin-1") + b"\n"),
                             f"error=expected {EXPECTED_LINE}\n".encode(), line)


class Cases(unittest.TestCase):
    """The block of a seed."""

    def test_every_answer_is_met(self):
        asked, desk, met = room_cases(1, 500), Desk(), set()
        self.assertEqual((asked[0], asked[-1]), (("clear", b""), ("clear", b"")))
        self.assertEqual(asked, room_cases(1, 500))
        for request, text in asked:
            operation, reply = request.split(" ")[0], desk.answer(request, text).decode()
            first, *rest = reply.split("\n")
            met.add((operation, first if first.startswith("fault") else "".join(rest[1:2])))
            if operation == "open" and first.startswith("slot="):
                met |= {tuple(text.decode().split("\n")[1:3]), first}
        self.assertEqual(desk.table, bytes(TABLE))
        wanted = {("open", f"fault={fault}") for fault in (1, 2, 3, 4, 5, 6, 8, 9, 13)}
        wanted |= {(name, "fault=15") for name in ("step", "reading", "close")}
        wanted |= {(name, f"verdict={verdict}") for name in ("step", "reading")
                   for verdict in ("none", "unique", "stalled", "spent")}
        wanted |= {("reading", "fault=7"), ("clear", ""), ("close", "")}
        wanted |= {f"slot={slot}" for slot in range(SLOTS)}
        wanted |= {(f"kind={kind}", f"n={n}") for kind in ("poly", "linear", "eigen")
                   for n in range(1, 7)}
        self.assertLessEqual(wanted, met)
        self.assertNotIn(("step", "fault=7"), met)

    def test_claims(self):
        tried = try_rooms(2, 100)
        for name in ("clear, answered", "open, answered", "open, refused by 13", "step, answered",
                     "step, refused by 7", "step, refused by 15", "reading, refused by 7",
                     "close, answered", "readings that are none", "readings that are unique",
                     "readings that are stalled", "visits that read as one run",
                     "tables of any bytes, refused by 16", "tables of any bytes, answered"):
            self.assertGreater(tried[f"rooms: {name}"], 0, name)


if __name__ == "__main__":
    unittest.main()

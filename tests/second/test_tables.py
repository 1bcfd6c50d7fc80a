"""Document 02, P12: the cases of the table's bytes, as the C calls get them."""

import io
import unittest
from collections import Counter, namedtuple

from breach import told
from room_cases import refusal
from rooms import SLOT, SLOTS, TABLE, Opened, call, slot_at
from table_bases import BEHIND, EIGHT
from table_cases import NAMES, fixed_tables, table_cases
from tables import changes, outcome, put_in, write_tables

FIXED = list(fixed_tables())
TABLED = [(case, outcome(case)) for case in FIXED]

# A record of a file: the words of its line, its patches, its bytes.
Record = namedtuple("Record", "words patches text")


class File:
    """A file of records, read as a program in C would."""

    def __init__(self, written):
        self.file = io.BytesIO(written)

    def line(self):
        """The words of a line."""
        return self.file.readline().decode("ascii").split()

    def record(self, words):
        """What comes after a line whose last two words count patches and bytes."""
        patches = []
        for _ in range(int(words[-2])):
            at, length = map(int, self.line())
            patches.append((at, self.file.read(length)))
        return Record(words[:-2], patches, self.file.read(int(words[-1])))


def answered_as(answer):
    """What is answered by a record: a plain pair for a fault."""
    fault, line, slot, visit = map(int, answer.words)
    if fault:
        return fault, line
    return Opened(slot, visit) if visit else answer.text


class Files(unittest.TestCase):
    """What is written is what is asked and expected."""

    def test_read_again(self):
        """Each case done as it is written: the answer, and every byte after it."""
        written = io.BytesIO(), io.BytesIO()
        mix = write_tables(7, len(FIXED) + 80, *written)
        requests, answers = (File(file.getvalue()) for file in written)
        base, done = b"", Counter()
        while words := requests.line():
            if words[0] == "base":
                base = requests.file.read(int(words[1]))
                continue
            case, answer = requests.record(words), answers.record(answers.line())
            name, *numbers, lent = case.words[0], *map(int, case.words[1:])
            before = put_in(base, case.patches)
            part = bytearray(before[:lent])
            shown = {"clear": (), "open": (case.text,), "close": numbers[:2]}.get(name, numbers)
            self.assertEqual(told(call, part, name, *shown), answered_as(answer))
            self.assertEqual(bytes(part) + before[lent:], put_in(before, answer.patches))
            done[name] += 1
        self.assertEqual(sum(done.values()), sum(mix.values()))
        self.assertEqual(answers.line(), [])

    def test_same_bytes_again(self):
        """One seed, one pair of files; not too large ones."""
        sets = []
        for _ in range(2):
            written = io.BytesIO(), io.BytesIO()
            write_tables(3, 300, *written)
            sets.append([file.getvalue() for file in written])
        self.assertEqual(sets[0], sets[1])
        self.assertEqual(list(table_cases(3, 300)), FIXED[:300])

    def test_changes(self):
        for before, after, wanted in [
                (b"", b"", []), (b"abc", b"abc", []), (b"abc", b"abd", [(2, b"d")]),
                (b"abcabc", b"xbcabx", [(0, b"xbcabx")]),
                (b"a" * 99, b"b" + b"a" * 97 + b"b", [(0, b"b"), (98, b"b")]),
                (b"a" * 10, b"b" + b"a" * 8 + b"b", [(0, b"b"), (9, b"b")]),
                (b"a" * 9, b"b" + b"a" * 7 + b"b", [(0, b"b" + b"a" * 7 + b"b")])]:
            self.assertEqual(changes(before, after), wanted)
            self.assertEqual(put_in(before, wanted), after)


class Cases(unittest.TestCase):
    """The fixed cases."""

    def test_every_answer_is_met(self):
        met = Counter()
        for case, (answered, before, after) in TABLED:
            met[case.name, refusal(answered)] += 1
            met["changed"] += before != after
            self.assertTrue(before == after or not refusal(answered))
            self.assertEqual(before[TABLE:], after[TABLE:])
            self.assertEqual(len(before), TABLE + BEHIND)
        for name in NAMES:
            self.assertGreater(met[name, 16], 500, name)
            self.assertGreater(met[name, 0], 50, name)
        for name, fault in (("clear", 16), ("clear", 0), ("open", 14), ("open", 13), ("open", 1),
                            ("open", 6), ("open", 9), ("step", 7), ("reading", 7), ("step", 15),
                            ("reading", 15), ("close", 15)):
            self.assertGreater(met[name, fault], 5, (name, fault))
        self.assertGreater(met["changed"], 400)

    def test_every_byte(self):
        """Each byte of the header, of the lengths and of the texts of a full table is changed;
        some of them break the form and some do not."""
        changed = {at for case in FIXED if case.base is EIGHT for at, piece in case.patches
                   if len(piece) == 1 and piece[0] != EIGHT.bytes[at]}
        wanted = set(range(4))
        for slot in range(SLOTS):
            for at in (slot_at(slot), slot_at(slot) + 256):
                length = int.from_bytes(EIGHT.bytes[at:at + 4], "little")
                wanted |= set(range(at, at + 4 + length))
        self.assertLessEqual(wanted, changed)
        rest = changed - wanted
        self.assertEqual({(at - 4) // SLOT for at in rest if at < TABLE}, set(range(SLOTS)))
        self.assertTrue(any(at >= TABLE for case in FIXED for at, _ in case.patches))


if __name__ == "__main__":
    unittest.main()

"""Spellings of numbers and words, right ones among wrong ones: what damage is made of."""

from arithmetic import MAX_END, MAX_ENTRY, MAX_JOB, MAX_N, MAX_STEPS, MAX_VISIT

ODD_BYTES = [b"\0", b"\r", b"\n", b" ", b"\t", b"+", b"-", b"0", b"9", b",", b":",
             b"=", b".", b"x", b"\x7f", b"\x80", b"\xb2", b"\xff"]
# spelled in ways that are no number, or that are a number at the edge of a size
ODD_NUMBERS = ["", "-", "--1", "-0", "00", "01", "-01", "-00", "+1", " 1", "1 ",
               "1.0", "1e3", "0x1", "x", "1-", "\0", "1\r", "\xb2", "\xff",
               "1000000000", "-1000000000", "9" * 20, "0000000001",
               "999999999", "-999999999", "0", "-1"]
EDGES = [edge + beyond for size in (MAX_END, MAX_ENTRY)
         for edge in (size, -size) for beyond in (-1, 0, 1)]
WORDS = ["poly", "linear", "eigen", "Poly", "POLY", "pol", "polynomial", "", "poly ",
         "none", "unique", "stalled", "spent", "Spent", "spentt", "0", "\xe9igen"]

# The lines of one word or one number, each by its key.
SPELLINGS = {
    b"job": ["-1", "-5", "-0", "0", str(MAX_JOB), str(MAX_JOB + 1), "-999999999", "", "041",
             "41 ", "4,1"],
    b"visit": ["-1", "-0", "-", "0", "7", str(MAX_VISIT), str(MAX_VISIT + 1), "-999999999",
               "9" * 20, "", "00", "07", "+7", "7 ", "7,7"],
    b"kind": WORDS,
    b"verdict": WORDS,
    b"n": ["", "00", "01", "10", "-1", "-0", "+1", "x", "1 ", "\xb2", *"0123456789"],
    b"pin": [*"0123456789", "10", "11", "-1", "-2", *ODD_NUMBERS[:-2], "1,1", "1,", ",1"],
    b"steps": ["-1", "0", str(MAX_STEPS), str(MAX_STEPS + 1), "999999999", "-999999999",
               "1000000000", "-1000000000", "-0", "007", "", "8.", "8,8"],
}
# Well spelled, and wrong.
WRONG = {
    b"job": ["-1", "-5", "-999999999"],
    b"visit": ["-1", "-9", "-999999999"],
    b"n": ["0"] + [str(n) for n in range(MAX_N + 1, 10)],
    b"pin": ["0", "-1", *map(str, range(2, MAX_N + 2)), "10", "999999999", "-999999999"],
    b"steps": ["-1", str(MAX_STEPS + 1), "999999999", "-999999999"],
}
# The least and the greatest number of each line.
LIMITS = {b"job": (0, MAX_JOB), b"visit": (0, MAX_VISIT), b"n": (1, MAX_N),
          b"pin": (1, MAX_N - 1), b"steps": (0, MAX_STEPS),
          b"lo": (-MAX_END, MAX_END), b"hi": (-MAX_END, MAX_END),
          b"inv": (-MAX_ENTRY, MAX_ENTRY), b"row": (-MAX_ENTRY, MAX_ENTRY),
          b"eq": (-MAX_ENTRY, MAX_ENTRY)}

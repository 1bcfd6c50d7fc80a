#!/usr/bin/env python3
"""Turns this repository's own definitions and lemmas to today's spelling, once, after port.py.

usage: python3 tools/spell_names.py [ROOT]

In .antt files and in .rt files: a name with humps (stepOf, absZ) becomes snake case (step_of, abs_Z); what is in a string stays.
A lemma that would have its function's name gets `_lem`. The names of crates stay free: a definition that would take one gets `_of`.
Functions, fields and variants of src/ have no humps and stay.
"""
import os
import re
import sys

WORD = re.compile(r"(?<![\w'ℤℕ-])[a-z]['\w-]*", re.UNICODE)
# what port.py made of a name that only looked like one of the library's
BACK = {"is_IsWide": "is_wide", "stays_IsWide": "stays_wide"}
# (the file's name or what it imports from, a lemma's name): it would have the name of a definition that stands beside it
LEMMAS = [
    ("term_checks.proofs.RangeLaws", "is_within"),
    ("next_line.proofs.Fits", "read_fits"),
    ("reading.proofs.Narrower", "too_long"),
    ("result_form.proofs.Faults", "result_says"),
    ("room_form.proofs.Free", "is_free"),
    ("step.proofs.Decisions", "all_meet"),
    ("step.proofs.Given", "box_in"),
    ("term_round.proofs.ReadBack", "is_digit"),
    ("term_read.proofs.Digits", "no_digit"),
]
CRATES = {"jobForm": "job_form_of", "resultForm": "result_form_of", "stepText": "step_text_of", "checks": "checks"}
# in code a comment is turned, a string and a letter are not
PIECES = re.compile(r"""(//[^\n]*|b?'(?:\\.|[^'\\\n])'|"(?:[^"\\]|\\.)*")""", re.S)
KEPT = re.compile(r"""b?'.*'|".*\"""", re.S)
# the two parts of an integer, in integers/proofs/ alone
PARTS = re.compile(r"(?<![\w'])((?:neg-)?)([PN])(?![\w'])")


def snake(word):
    if word in BACK:
        return BACK[word]
    if word in CRATES:
        return CRATES[word]
    word = word.replace("getD", "get_or")
    word = re.sub(r"(?<=[a-z0-9'])([ℤℕ])", r"_\1", word)
    return re.sub(r"(?<=[a-z0-9ℤℕ])([A-Z])(?=[a-z0-9']|[-_]|$)", lambda m: "_" + m.group(1).lower(), word)


def turned(text):
    # a record of a variant's own, as is_Poly or in-None, keeps the variant's capital: only a hump after a small letter turns
    return WORD.sub(lambda m: snake(m.group()) if re.search(r"[a-z0-9][A-Zℤℕ]", m.group()) or m.group() in BACK else m.group(), text)


def lemmas(path, text):
    for module, name in LEMMAS:
        crate, _, file = module.split(".")
        own = path.endswith(os.path.join(crate, "proofs", file + ".antt"))
        line = re.compile(r"^use Rattle\." + re.escape(module) + r"\.\{[^}]*(?<![\w'-])" + name + r"(?![\w'-])", re.M)
        if own or line.search(text):
            text = re.sub(r"(?<![\w'.-])" + name + r"(?![\w'.-])", name + "_lem", text)
    return text


def main(root):
    for folder, dirs, files in os.walk(os.path.join(root, "crates")):
        dirs[:] = sorted(d for d in dirs if d not in ("out", ".git"))
        for f in sorted(files):
            path = os.path.join(folder, f)
            if not f.endswith((".rt", ".antt")):
                continue
            with open(path, encoding="utf-8") as it:
                old = it.read()
            if f.endswith(".antt"):
                new = turned(lemmas(path, old))
            else:
                new = "".join(p if KEPT.fullmatch(p) else turned(p) for p in PIECES.split(old))
            if "/integers/proofs" in folder:
                new = PARTS.sub(lambda m: m.group(1) + {"P": "pos_part", "N": "neg_part"}[m.group(2)], new)
            else:
                new = re.sub(r"(?<![\w'-])neg-([PN])(?![\w'-])", lambda m: "neg-" + {"P": "pos_part", "N": "neg_part"}[m.group(1)], new)
            if f == "Lows.antt" and "job_form" in folder:
                new = re.sub(r"(?<![\w'.-])checks(?= (?::|k =|\())", "Checks", new)
            if new != old:
                with open(path, "w", encoding="utf-8") as it:
                    it.write(new)


main(sys.argv[1] if len(sys.argv) > 1 else ".")

#!/usr/bin/env python3
"""Spells this repository's own definitions and lemmas as today's Rattle does: words in snake case.

usage: python3 tools/spelling.py     once, at the top of the repository, right after port.py

port.py respells what Rattle's library renamed. What is left is turned here: a name of specs/ or proofs/ in mixed case,
as isSchedule, becomes is_schedule. It goes over crates/*/specs, crates/*/proofs, crates/*/src (where a word in mixed
case stands in a clause, an import or a comment alone) and crates/*/must-fail. Types, predicates and the letters of the
paper (N, S, T, C) keep their spelling. Two lemmas whose names port.py gave the spelling that a definition gets now are
renamed first, as are three names that it cut in the middle of a word.
"""

import glob
import re

# Renamed in these files first, where a definition gets the name: (files, name, new name).
APART = [
    ("crates/lists/proofs/Cases.antt", "form_in", "form_in_lem"),
    ("crates/number/proofs/Cases.antt", "goes_on", "goes_on_lem"),
    ("crates/number/proofs/Counting.antt", "goes_on", "goes_on_lem"),
    ("crates/reason_line/proofs/Theorems.antt", "read_back", "read_back_lem"),
    ("crates/demands/proofs/Shams*.antt", "record_of", "record_of_kind"),
]

# getD is get_or today; in these names port.py read it as two words. port.py turns no edit, so getD still stands there.
CUT = {
    "getD": "get_or",
    "get_d_front": "get_or-front",
    "get_d_tabulate": "get_or-tabulate",
    "kept_get_d": "kept-get_or",
}

LETTER = "A-Za-z0-9_'₀-₉"
WORD = re.compile(r"(?<![%s])[a-z]+[0-9]*(?:[A-Z][a-z0-9]*)+(?![%s])" % (LETTER, LETTER))


def snake(name):
    return re.sub(r"[A-Z]", lambda m: "_" + m.group(0).lower(), name)


def whole(name):
    return re.compile(r"(?<![%s-])%s(?![%s-])" % (LETTER, re.escape(name), LETTER))


def turned(text):
    for name, new in CUT.items():
        text = whole(name).sub(new, text)
    return WORD.sub(lambda m: snake(m.group(0)), text)


def main():
    for pattern, name, new in APART:
        for path in sorted(glob.glob(pattern)):
            with open(path, encoding="utf-8") as f:
                text = f.read()
            with open(path, "w", encoding="utf-8") as f:
                f.write(whole(name).sub(new, text))
    count = 0
    kinds = ["specs/**/*.antt", "proofs/**/*.antt", "src/**/*.rt", "must-fail/*.edit"]
    for path in sorted(p for kind in kinds for p in glob.glob("crates/*/" + kind, recursive=True)):
        with open(path, encoding="utf-8") as f:
            text = f.read()
        new = turned(text)
        if new != text:
            count += 1
            with open(path, "w", encoding="utf-8") as f:
                f.write(new)
    print(f"spelling: {count} files turned")


if __name__ == "__main__":
    main()

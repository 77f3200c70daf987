#!/usr/bin/env python3
"""Lists what two commits name differently: definitions, lemmas, record fields and constructors.

usage: python3 tools/renamed.py OLD NEW     as python3 tools/renamed.py b2ced05 6f77c29

NEW has the files of crates/*/specs and crates/*/proofs/*.antt that OLD has, each with the same declarations in the same
order, under the same names or others: a port that only spells. Prints a line for each other name: the path, the old
name and the new one, with tabs between, and "local" behind it where the name stands inside a proof alone. Ends with
status 1 where a file cannot be paired, and where two old names of a file have one new name.
"""

import re
import subprocess
import sys

FILE = re.compile(r"crates/\w+/(?:specs/.*|proofs/[^/]*)\.antt")
TYPE = r"(?:record|data) ([^\s{(]+)"
NAME = r"([^\s({]\S*)(?= :(?:\s|$))"
DECLARED = re.compile(rf"^( *)(?:(?:pub|abbrev|unfoldable) )*(?:{TYPE}|{NAME})", re.M)
COMMENT = re.compile(r"(?<!\S)--.*")
DEEPEST = 2  # the columns before a declaration that is not inside a proof: in a module, a record or a type


def git(*words):
    return subprocess.run(["git", *words], stdout=subprocess.PIPE, text=True, check=True).stdout


def files(commit):
    return [path for path in git("ls-tree", "-r", "--name-only", commit, "crates").splitlines() if FILE.fullmatch(path)]


def declared(commit, path):
    """The declarations of a file: how far in each stands, and its name."""
    text = COMMENT.sub("", git("show", f"{commit}:{path}"))
    return [(len(columns), of_type or name) for columns, of_type, name in DECLARED.findall(text)]


def main(old, new):
    status, there = 0, {*files(new)}
    for path in files(old):
        if path not in there:
            print(f"{path} is gone")
            status = 1
            continue
        before, after = declared(old, path), declared(new, path)
        if [columns for columns, _ in before] != [columns for columns, _ in after]:
            print(f"{path}: the declarations cannot be paired")
            status = 1
            continue
        renamed = {}
        for (columns, name), (_, to) in zip(before, after):
            if renamed.setdefault(to, name) != name:
                print(f"{path}: {renamed[to]} and {name} are both {to}")
                status = 1
            if name != to:
                print(path, name, to, *(["local"] if columns > DEEPEST else []), sep="\t")
    return status


if __name__ == "__main__":
    if len(sys.argv) != 3:
        sys.exit(__doc__)
    sys.exit(main(*sys.argv[1:]))

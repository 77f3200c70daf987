#!/usr/bin/env python3
"""Holds the head of every file of specs/ and proofs/ to what the file holds: each begins with a comment, and each name that a line
--     name, name     what it is
of it gives is defined in the file below. Words after a name are its arguments; an operator stands between two of them. A name that ends
in .. stands for several. Where one space alone is after the names they are the words up to the first without a comma; a line there that
is a sentence, from a capital to a full stop or a colon, gives none. A file of specs/ that is not written by a script gives a name.
No line of src/, specs/ or proofs/ is longer than WIDTH characters.
"""
import sys

from verifying import ROOT, contents, defined, ended, entries, head_of, verdict

WRITTEN = "not edited by hand"
WIDTH = 120


def names(head):
    """What the lines of a head list, each with its arguments."""
    return [name for line in head for name in entries(line)]


def is_there(listed, own):
    name, *arguments = listed.split(" ")
    if name.endswith(".."):
        return sum(1 for other in own if other.startswith(name[:-2])) > 1
    return name in own or (len(arguments) == 2 and f"◌{arguments[0]}◌" in own)


def faults(path):
    head = head_of(path)
    listed = names(head)
    if not head:
        yield "has no head"
    elif "/specs/" in path and not listed and WRITTEN not in head[0]:
        yield "lists no name in its head"
    own = defined(path)
    for name in listed:
        if not is_there(name, own):
            yield f"defines no {name.split(' ')[0]}"


def long_lines(path):
    for number, line in enumerate(contents(path).splitlines(), 1):
        if len(line) > WIDTH:
            yield f"{path}:{number} is {len(line)} characters long"


def files(*patterns):
    return [str(path.relative_to(ROOT)) for pattern in patterns for path in sorted(ROOT.glob(f"crates/*/{pattern}"))]


def main():
    paths = [path for path in files("specs/**/*.antt", "proofs/**/*.antt") if not path.endswith("/Lib.antt")]
    found = [f"{path} {fault}" for path in paths for fault in faults(path)]
    found += [fault for path in [*files("src/**/*.rt"), *paths] for fault in long_lines(path)]
    listed = sum(len(names(head_of(path))) for path in paths)
    return verdict(found, listed and len(paths), f"heads, which list {listed} names")


if __name__ == "__main__":
    sys.exit(ended(main))

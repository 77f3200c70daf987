#!/usr/bin/env python3
"""Writes the column "where" of docs/CLAIMS.md, from the ids in brackets in the comments of the tree.

An id stands for the name that its comment is about: in the head of a proof or a definition file the names of its line there, elsewhere
what is defined on the same line, right below, or, in Python, by the function whose text it is. Where there is none, and in the head of
any other file, it stands for the whole file. The crates come in the order of crates.txt.
"""
import re
import sys
from typing import NamedTuple

from verifying import COMMENT, DEFINED, ROOT, Wrong, cells_of, contents, ended, entries, head_of, language

CLAIMS = "docs/CLAIMS.md"
HEADER = ("id", "claim", "kind", "where")
TAG = re.compile(r"\[([A-Za-z]+\d+[A-Za-z]?)\]")
PARTS = ("README.md", "crates.txt", ".ci", "include", "crates", "host", "bench", "docs")
MADE = {"__pycache__", "out"}  # folders that are no part of the tree
OF_CRATE = ("specs", "src", "proofs", "must-fail")
ATTRIBUTE = r"|#\[.*\]"  # it stands between a comment and what it is about
PYTHON = r"^(?:def |class )?(\w+)(?=\(|:| = )"


class Tag(NamedTuple):
    """An id, the file whose comment it stands in, and the name that it is about, or none."""

    claim: str
    path: str
    name: str


def order(path):
    """Where a file stands in the column."""
    first, *rest = path.split("/")
    crates = re.findall(r"^(\w+)", contents("crates.txt"), re.M)
    own = (crates.index(rest[0]), OF_CRATE.index(rest[1]) if rest[1] in OF_CRATE else len(OF_CRATE)) if first == "crates" else ()
    return PARTS.index(first), own, path


def files():
    found = [path for part in PARTS for path in ([ROOT / part] if (ROOT / part).is_file() else (ROOT / part).rglob("*"))]
    paths = [str(path.relative_to(ROOT)) for path in found if path.is_file() and not MADE & {*path.parts}]
    return sorted((path for path in paths if path != CLAIMS), key=order)


def name_of(kind, line):
    """The first name that a line defines, or none."""
    pattern = PYTHON if kind == "py" else DEFINED.get(kind)
    match = pattern and re.search(pattern, line)
    return next((name for name in match.groups() if name), "") if match else ""


def about(kind, text, comment):
    """The name that a comment is about."""
    above, _, before = text[: comment.start()].rpartition("\n")
    if before.strip():
        return name_of(kind, before)
    if not re.sub(rf"^#!.*|{COMMENT[kind]}|\n(?!\n)", "", above).strip(" "):
        return ""
    if comment.group().startswith('"""'):
        above = above.rpartition("\n")[2]
        return name_of(kind, above) if above.endswith(":") else ""
    below = text[comment.end() :].removeprefix("\n")
    while (more := re.match(rf"[ \t]*(?:{COMMENT[kind]}{ATTRIBUTE if kind == 'rt' else ''})", below)) and more.end():
        below = below[more.end() :].removeprefix("\n")
    return name_of(kind, below.partition("\n")[0])


def in_head(path):
    """The ids of a head, with the names of their lines, and how many bytes it has."""
    found, names, head = [], [], head_of(path)
    for line in head:
        names = entries(line) if line.startswith("--     ") and line[7:8].strip() else names
        listed = [name.split(" ") for name in names]
        own = [f"◌{words[1]}◌" if len(words) == 3 and not words[1].isalnum() else words[0] for words in listed]
        found += [Tag(claim, path, name) for claim in TAG.findall(line) for name in own or [""]]
    return found, sum(len(line) + 1 for line in head)


def marked(path):
    """The ids in the comments of a file, in their order."""
    kind = language(path)
    if kind not in COMMENT:
        return []
    text = contents(path)
    found, start = in_head(path) if kind == "antt" else ([], 0)
    for comment in re.finditer(COMMENT[kind], text):
        if comment.start() >= start:
            found += [Tag(claim, path, about(kind, text, comment)) for claim in TAG.findall(comment.group())]
    return found


def tagged():
    """Every id in brackets, with its places in the order of the column, each once."""
    found = {}
    for tag in (tag for path in files() for tag in marked(path)):
        places = found.setdefault(tag.claim, [])
        if tag not in places:
            places.append(tag)
    return found


def where(places):
    return " ".join(f"`{tag.path}#{tag.name}`" if tag.name else f"`{tag.path}`" for tag in places)


def main():
    tags = tagged()
    lines = contents(CLAIMS).splitlines()
    for at, line in enumerate(lines):
        cells = cells_of(line) if line.startswith("|") else []
        if len(cells) == len(HEADER) and cells[0] != HEADER[0] and cells[0].strip("-"):
            lines[at] = " | ".join(["| " + cells[0], *cells[1:3], where(tags.get(cells[0], []))]).rstrip() + " |"
    try:
        (ROOT / CLAIMS).write_text("\n".join(lines) + "\n", encoding="utf-8")
    except OSError as error:
        raise Wrong(f"{CLAIMS}: {error.strerror}") from error
    return 0


if __name__ == "__main__":
    sys.exit(ended(main))

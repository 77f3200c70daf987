#!/usr/bin/env python3
"""Holds docs/CLAIMS.md to the tree, and the tree to it.

A claim is a table row | id | what it says | kind | where |. No id stands twice. The column where is what host/claims.py makes of the ids
in comments, and each name in it is defined or declared in its file. A claim that is not open has a place. Each id in a comment of the
tree has its row, so that none can go; the open claims, which have no comment, are listed here.
"""
import re
import sys

from claims import CLAIMS, HEADER, tagged, where
from verifying import ROOT, defined, ended, tables, verdict

KINDS = {"definition", "contract", "theorem", "refused edit", "vector", "measured", "argued", "open"}
OPEN = {"F8", "F9"}
ID = re.compile(r"[A-Z]+\d+[a-z]?")


def faults(claim, says, kinds, column, places):
    """What is wrong with a row; places are those of its id in comments."""
    if not ID.fullmatch(claim):
        yield "no id, which is capitals, a number and perhaps a small letter"
    if not says:
        yield "says nothing"
    for kind in kinds:
        if kind not in KINDS:
            yield f"{kind!r} is no kind of claim"
    if (kinds == ["open"]) != (claim in OPEN):
        yield "the open claims are those that are listed in host/verify_claims.py"
    if bool(places) == (claim in OPEN):
        yield f"[{claim}] is in {'a' if places else 'no'} comment"
    if column != where(places):
        yield f"where is not what the comments say: host/claims.py writes {where(places)!r}"
    for place in places:
        if place.name and place.name not in defined(place.path):
            yield f"{place.path} defines no {place.name}"


def tag_faults(tags, claims):
    """What is wrong with the words in brackets. What is no id and is like none, as [u8], is none."""
    written = {claim.upper(): claim for claim in claims}
    for tag, (first, *_) in tags.items():
        if tag in claims:
            continue
        if tag.upper() in written:
            yield f"[{tag}] in {first.path} is written [{written[tag.upper()]}]"
        elif ID.fullmatch(tag):
            yield f"[{tag}] in {first.path} has no row in {CLAIMS}"


def main():
    rows, found = tables(CLAIMS, HEADER)
    tags = tagged()
    claims = [row.cells[0] for row in rows]
    for row in rows:
        claim, says, kinds, column = row.cells
        own = [*faults(claim, says, kinds.split(", "), column, tags.get(claim, []))]
        if claims.count(claim) > 1:
            own.append("stands twice")
        found += [f"{CLAIMS}:{row.line}: {claim}: {fault}" for fault in own]
    found += [f"the open claim {claim} has no row in {CLAIMS}" for claim in sorted(OPEN - set(claims))]
    found += tag_faults(tags, claims)
    return verdict(found, len(rows), "claims")


if __name__ == "__main__":
    sys.exit(ended(main))

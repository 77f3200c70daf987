#!/usr/bin/env python3
"""Holds the lists to what version 1.4.0 made of order records that were stored then. [K8]

  verify_earlier.py              holds host/earlier to what is worked out, and the programs to host/earlier
  verify_earlier.py --records    writes the records

host/earlier/records has records of kinds 1 and 2, accepted and refused. The files packing_list and explain beside it
are what the programs of version 1.4.0 wrote of them. Of each record the packing list has the same line, with the
number moved by one round the circle, and the explanations are the same. Ends with status 1 at the first difference.
"""
import itertools
import sys

import oracle
import packing
from listing import EXPLAINING, PACKING, Difference, missing
from verify_lists import MISCOUNTED, REFUSALS, Verifier, first_difference, from_file, in_pieces
from verifying import ROOT, Wrong, ended, sure

STORED = ROOT / "host/earlier"
LISTINGS = (PACKING, EXPLAINING)  # that version 1.4.0 had
SMALL = 5  # up to here the records have all forms
LARGE = ((32, 32), (32, 31), (32, 16), (32, 1), (32, 0), (20, 7), (9, 9), (7, 2), (6, 6), (4, 0), (1, 1), (0, 0))
DAMAGE = (0, 1, 2, 4, 32, 33, 255)  # no record gets kind 3 by these, which version 1.4.0 refused


def small_counts():
    return ((t, s) for t, s in oracle.pairs() if t <= SMALL)


def from_top(t, s, n):
    return packing.numbered(t, s, n, packing.FROM_TOP)


def both_kinds(t, s, n):
    """The two records of a form, by its number from the top."""
    return (from_top(t, s, n), packing.packed(t, s, oracle.form_from_top(t, s, n)))


def accepted():
    """Every form of the small counts, and of some others the two at each end and two between."""
    for t, s in small_counts():
        for n in range(oracle.forms(t, s)):
            yield from both_kinds(t, s, n)
    for t, s in LARGE:
        count = oracle.forms(t, s)
        for n in sorted({0, 1 % count, count // 3, count // 2, (count - 2) % count, count - 1}):
            yield from both_kinds(t, s, n)


def too_large():
    """Numbers that no form has, from the count itself on."""
    for t, s in LARGE:
        count = oracle.forms(t, s)
        yield from (from_top(t, s, n) for n in (count, count + 1, count | 1 << 63, 2**64 - 1))


def damaged():
    """A record of each kind with each byte after its length made another."""
    for record in both_kinds(3, 2, 2):
        for at, value in itertools.product(range(2, len(record)), DAMAGE):
            yield record[:at] + bytes([value]) + record[at + 1 :]


def misshapen():
    """Other lengths, no place for a kind, kinds that are unknown; and beats that are no schedule."""
    for body in (record[2:] for record in both_kinds(3, 2, 2)):
        yield from (packing.framed((body + bytes(1020))[:length]) for length in (*range(15), 1020))
        yield from (packing.framed(kind.to_bytes(2, "little") + body[2:]) for kind in (0, 4, 257, 258, 259, 65535))
    yield from (packing.packed(t, s, [1, 0] * (s - 1) + [0, 1] + [1] * (t - s)) for t, s in LARGE if s)
    yield from (record for record, *_ in MISCOUNTED)


def made():
    """The records, the last of them cut short."""
    return b"".join((*accepted(), *too_large(), *damaged(), *misshapen(), from_top(3, 2, 2)[:-1]))


def stored(name):
    try:
        return (STORED / name).read_bytes()
    except OSError as error:
        raise Wrong(f"host/earlier/{name}: {error.strerror}") from error


def earlier_line(body):
    """The packing list's line of version 1.4.0, by what stands after a record's length."""
    why, (t, s, _, beats) = packing.body_form(body)
    return packing.refused(why) if why else packing.accepted(t, s, oracle.number_from_top(t, s, beats), beats)


def moved(line):
    """A line of version 1.4.0 with the number of the catalogue."""
    if line.startswith("refused"):
        return line
    t, s, n, beats = line.split(" ")
    return f"{t} {s} {(int(n) - 1) % oracle.forms(int(t), int(s))} {beats}"


def hold_numbers():
    """The numbers from the top of the small counts are the steps from t ones then s zeros."""
    for t, s in small_counts():
        for n in range(oracle.forms(t, s)):
            _, _, walked = oracle.run(t, s, oracle.top(t, s), n)
            both = (oracle.form_from_top(t, s, n), oracle.number_from_top(t, s, walked))
            sure(both == (walked, n), f"{n} steps from the top of ({t}, {s}) lead to {walked}, worked out are {both}")


def hold_lists(records, earlier):
    right = {
        PACKING: "".join(moved(line) + "\n" for line in earlier.decode().splitlines()).encode(),
        EXPLAINING: stored(EXPLAINING.name),
    }
    for listing in LISTINGS:
        verifier = Verifier(listing, [lister.path for lister in listing.both], None)
        verifier.verify("the stored records", records, from_file, in_pieces, right=right[listing])
        sure(verifier.refusals == REFUSALS, f"refusals met are {sorted(verifier.refusals)}")
        print(f"{listing.name}: {len(right[listing].splitlines())} lines, {verifier.runs} runs")


def main():
    if sys.argv[1:] == ["--records"]:
        sys.stdout.buffer.write(made())
        return 0
    sure(not sys.argv[1:], "verify_earlier.py, or verify_earlier.py --records")
    lacking = missing(lister for listing in LISTINGS for lister in listing.both)
    sure(not lacking, lacking)
    hold_numbers()
    records, earlier = stored("records"), stored(PACKING.name)
    sure(records == made(), "host/earlier/records is not what verify_earlier.py --records writes")
    computed = packing.output(records, earlier_line)
    sure(computed == earlier, f"host/earlier/packing_list: {first_difference(records, earlier_line, computed, earlier)}")
    try:
        hold_lists(records, earlier)
    except Difference as difference:
        print(difference)
        return 1
    return 0


if __name__ == "__main__":
    sys.exit(ended(main))

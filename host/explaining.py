#!/usr/bin/env python3
"""The manual's explanations once more, on top of the oracle, for the tests: host/explaining.py < records > lines.

Records are read by host/packing.py, and refused as there. body_line(body) is the line of a record by what stands after
its length, or None, and output(data) what the list writes.
"""
import functools
import sys

import oracle
import packing


def refused(why, body):
    """The packing list's line; after a 6 also the ones asked for, and the ones that the beats have."""
    line = packing.refused(why)
    return f"{line} {body[2]} {packing.bits_of(body[4:]).count(1)}" if why.refusal == 6 else line


def accepted(t, s, beats):
    """The case, the place of the found 1, that of the moved beat and the changed places; - where there is none."""
    case, *places = oracle.explanation(t, s, beats)
    return " ".join([str(case), *(" ".join(map(str, some)) or "-" for some in places)])


# Streams of the tests repeat records.
@functools.lru_cache(1 << 16)
def body_line(body):
    why, (t, s, _, beats) = packing.body_form(body)
    return refused(why, body) if why else accepted(t, s, beats)


def output(data):
    return packing.output(data, body_line)


if __name__ == "__main__":
    sys.stdout.buffer.write(output(sys.stdin.buffer.read()))

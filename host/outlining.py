#!/usr/bin/env python3
"""The manual's list of outlines once more, on top of the oracle, for the tests: host/outlining.py < records > lines.

Records are read by host/packing.py, and refused as there; and a form that is not closed is refused. body_lines(body) is
what the list has of a record, by what stands after its length, or None: its lines, each with its line feed. An empty
line follows. output(data) is what the list writes.
"""
import functools
import sys

import oracle
import packing


# Streams of the tests repeat records.
@functools.lru_cache(1 << 16)
def body_lines(body):
    why, (t, s, _, beats) = packing.body_form(body)
    why = why or oracle.closed_why(t, s, beats)
    return f"{packing.refused(why)}\n" if why else oracle.outline_text(beats).decode()


def output(data):
    return packing.output(data, body_lines)


if __name__ == "__main__":
    sys.stdout.buffer.write(output(sys.stdin.buffer.read()))

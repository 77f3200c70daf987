#!/usr/bin/env python3
"""The manual's packing list once more, on top of the oracle, for the tests [E11]: host/packing.py < records > lines.

read(data) reads the record that data starts with, in the reading order of the document; line_of(data, at) is the line
of the one that starts at data[at:], and lines(data) the whole list. All that list take what says the line of a record,
so that a list of other lines is read in the same way. record(kind, t, s, beats) makes a record's bytes, of kind 1 too,
which is read and not written. The slice that a reader lends is taken to be large enough, so there is no 12.
"""
import functools
import sys

import oracle
from oracle import Why

LONGEST = 1020
FROM_TOP, PACKED, NUMBERED = KINDS = (1, 2, 3)  # what a record holds: a number from the top, the beats, the number
HOLDING = (FROM_TOP, NUMBERED)  # the kinds that hold a number
FORM_OF = {FROM_TOP: oracle.form_from_top, NUMBERED: oracle.form_of}  # what a number means that a record holds
NUMBER_OF = {FROM_TOP: oracle.number_from_top, NUMBERED: oracle.number_of}
NOTHING = (0, 0, 0, [])  # what a refused record says: t, s, number and beats


def framed(body):
    """A record: the length of everything after it, and that."""
    return len(body).to_bytes(2, "little") + body


def numbered(t, s, n, kind=NUMBERED):
    """A record that holds a number, any below 2^64: of kind 3, or of kind 1."""
    return framed(bytes([kind, 0, t, s]) + n.to_bytes(8, "little"))


def packed(t, s, beats):
    """A record of kind 2, of any beats: eight to a byte, the first in the highest bit."""
    width = -(-len(beats) // 8)
    text = "".join(map(str, beats)).ljust(8 * width, "0")
    return framed(bytes([PACKED, 0, t, s]) + int(text or "0", 2).to_bytes(width, "big"))


def record(kind, t, s, beats):
    """The record of a schedule."""
    return packed(t, s, beats) if kind == PACKED else numbered(t, s, NUMBER_OF[kind](t, s, beats), kind)


def refused(why):
    return f"refused {why.refusal} {why.place} {why.surplus}"


def accepted(t, s, n, beats):
    return f"{t} {s} {n} {''.join(map(str, beats)) or '-'}"


def numbered_form(kind, t, s, n):
    """What a record that holds a number says of allowed counts: why it is refused, and t, s, number and beats. What it
    holds is tested as it stands there, and the number is that of the form."""
    why = oracle.numbered(t, s, n)
    beats = [] if why else FORM_OF[kind](t, s, n)
    return (why, NOTHING if why else (t, s, oracle.number_of(t, s, beats), beats))


def bits_of(packs):
    return [int(digit) for byte in packs for digit in f"{byte:08b}"]


def packed_form(t, s, packs):
    """The same of kind 2."""
    bits = bits_of(packs)
    if len(packs) != -(-(t + s) // 8) or any(bits[t + s :]):
        return (Why(11), NOTHING)
    beats = bits[: t + s]
    why, n = oracle.number(t, s, beats)
    return (why, NOTHING if why else (t, s, n, beats))


def body_form(body):
    """The same of what stands after a length; None stands for a record that is cut short, or too long."""
    if body is None:
        return (Why(9), NOTHING)
    if len(body) < 2:
        return (Why(11), NOTHING)
    kind = int.from_bytes(body[:2], "little")
    if kind not in KINDS:
        return (Why(10), NOTHING)
    if len(body) < 4 if kind == PACKED else len(body) != 12:
        return (Why(11), NOTHING)
    t, s = body[2:4]
    why = oracle.allowed(t, s)
    if why:
        return (why, NOTHING)
    if kind == PACKED:
        return packed_form(t, s, body[4:])
    return numbered_form(kind, t, s, int.from_bytes(body[4:], "little"))


# Streams of the tests repeat records.
@functools.lru_cache(1 << 16)
def body_line(body):
    """The line of the same."""
    why, form = body_form(body)
    return refused(why) if why else accepted(*form)


def body_at(data, at):
    """What stands after the length of the record at data[at:]; None where it is cut short, or that is too large."""
    length = int.from_bytes(data[at : at + 2], "little")
    end = at + 2 + length
    return None if end > len(data) or length > LONGEST else data[at + 2 : end]


def read(data):
    """What the record says that data starts with: why it is refused; t, s, number and beats; the bytes it consumes."""
    body = body_at(data, 0)
    return (*body_form(body), 0 if body is None else 2 + len(body))


def line_of(data, at, says=body_line):
    """The line of the record at data[at:], the bytes it consumes, and whether the list stops after this line."""
    body = body_at(data, at)
    return (says(body), 0, True) if body is None else (says(body), 2 + len(body), False)


def lines(data, says=body_line):
    """Every line: up to the end of the bytes at a record's end, or to a 9."""
    at, stop = 0, False
    while at < len(data) and not stop:
        line, consumed, stop = line_of(data, at, says)
        at += consumed
        yield line


def output(data, says=body_line):
    """What the list writes."""
    return "".join(line + "\n" for line in lines(data, says)).encode()


if __name__ == "__main__":
    sys.stdout.buffer.write(output(sys.stdin.buffer.read()))

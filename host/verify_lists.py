#!/usr/bin/env python3
"""Holds a list to what is worked out for it [E11]: the same bytes out for the same bytes in, from a file and through a pipe in pieces.

  verify_lists.py LIST [--program FILE] [--seed NUMBER] [PART ..]

Both programs of a list of host/listing.py are run, or the one that --program names. The mixed records come from a new seed, which is
printed; --seed repeats one. Where parts are named they alone are run, and that every refusal was met is not asked. No variable of the
environment is read, and the programs get none. Prints a line for each part, and ends with status 1 at the first difference, 2 where the
call is wrong.
"""
import argparse
import fcntl
import functools
import itertools
import os
import random
import struct
import subprocess
import sys
import tempfile
import termios
import time
from typing import Callable, NamedTuple

import explained
import oracle
import outlined
import packing
import records
from listing import EXPLAINING, LIMIT, LISTINGS, OUTLINING, PACKING, Difference, missing

MIXED = 100_000
BLOCKS = (4096, 65536)
PIECES = (1, 7, 4095, 2, 65535, 13, 4096, 3, 1021)
REFUSALS = frozenset({1, 2, 5, 6, 7, 9, 10, 11})  # those that a record can get

# The input as the manual gives it.
SAMPLE = [
    bytes.fromhex(line)
    for line in (
        "0C 00 01 00 03 02 02 00 00 00 00 00 00 00",
        "05 00 02 00 03 02 A8",
        "0C 00 01 00 03 02 05 00 00 00 00 00 00 00",
        "0C 00 01 00 01 01 00 00 00 00 00 00 00 00",
    )
]

# 11010 of (3, 2) in each kind: it is number 2 from the top, and number 1. [K4]
ALIKE = [
    bytes.fromhex(line)
    for line in (
        "0C 00 01 00 03 02 02 00 00 00 00 00 00 00",
        "05 00 02 00 03 02 D0",
        "0C 00 03 00 03 02 01 00 00 00 00 00 00 00",
    )
]

# Records of kind 2 that are refused 6, with the surplus of each, the ones asked for and the ones found: the manual's, and those at the ends
# of what can occur.
MOST = oracle.LARGEST
FULL = oracle.forms(MOST, MOST)
FEWEST = packing.packed(MOST, 0, [1, 0] * (MOST // 2))
MISCOUNTED = [
    (packing.packed(2, 1, [1, 1, 1]), 1, 2, 3),
    (packing.packed(3, 1, [1, 0, 1, 0]), -1, 3, 2),
    (packing.packed(2, 0, [1, 0]), -1, 2, 1),
    (packing.packed(MOST, 0, [1] * (MOST - 1) + [0]), -1, MOST, MOST - 1),
    (FEWEST, -(MOST // 2), MOST, MOST // 2),
    (packing.packed(MOST, MOST - 1, [1] * (2 * MOST - 1)), MOST - 1, MOST, 2 * MOST - 1),
    (packing.packed(MOST, MOST, [1] * (MOST + 1) + [0] * (MOST - 1)), 1, MOST, MOST + 1),
    (packing.packed(MOST, MOST, [1] * (2 * MOST)), MOST, MOST, 2 * MOST),
]


class Known(NamedTuple):
    """What is known of a list without working it out: the list of the sample, the line of 11010, the line of a 6, and
    an accepted record with the longest line. Then records with short lines: that of the first is longer than the record,
    so that a block of output is full before one of input is used up, and lines of two of them leave every rest when
    their length is divided by its length. And what makes the mixed records, the refusals that a record can get, and the
    parts that this list alone has."""

    sample: bytes
    alike: bytes
    miscounted: str
    longest: bytes
    short: tuple
    stream: Callable = records.stream
    refusals: frozenset = REFUSALS
    parts: tuple = ()


UNKNOWN = packing.framed(b"\4\0")
SHORT = (*(packing.packed(t, s, oracle.top(t, s)) for t, s in ((0, 0), (2, 1), (9, 2), (10, 1))), UNKNOWN)  # the first has a line of 8 bytes
SHORT_OUTLINES = "", "10", "1010", "1100", "101100", "110100", "111000"  # one byte, three, up to thirteen with the empty line
SHORT_CLOSED = tuple(packing.packed(len(form) // 2, len(form) // 2, [*map(int, form)]) for form in SHORT_OUTLINES)

KNOWN = {
    PACKING: Known(
        b"3 2 1 11010\n3 2 2 10101\nrefused 7 0 0\n1 1 0 10\n",
        b"3 2 1 11010\n",
        "refused 6 0 {surplus}\n",
        packing.numbered(MOST, MOST, FULL - 1),
        SHORT,
    ),
    EXPLAINING: Known(
        b"3 3 4 1 2 3 4\n4 2 2 1 2\nrefused 7 0 0\n1 - - -\n",
        b"3 3 4 1 2 3 4\n",
        "refused 6 0 {surplus} {asked} {found}\n",
        packing.packed(MOST, MOST - 1, [1] * (MOST - 1) + [0] * (MOST - 2) + [1, 0]),
        SHORT,
        parts=explained.PARTS,
    ),
    OUTLINING: Known(
        b"refused 14 0 0\n\nrefused 14 0 0\n\nrefused 7 0 0\n\n1\n\n",
        b"refused 14 0 0\n\n",
        "refused 6 0 {surplus}\n\n",
        packing.numbered(MOST, MOST, FULL - 1),
        (packing.packed(1, 0, [1]), packing.packed(0, 1, [0]), *SHORT_CLOSED),
        records.stream_closed,
        REFUSALS | {14},
        outlined.PARTS,
    ),
}


def from_file(program, data):
    """What a program writes when its standard input is a file."""
    with tempfile.TemporaryFile() as file:
        file.write(data)
        file.seek(0)
        done = subprocess.run([program], stdin=file, stdout=subprocess.PIPE, timeout=LIMIT, env={})
    return (done.returncode, done.stdout)


def drain(process):
    """Waits until the program has taken all that the pipe holds, so that its next read meets the next piece alone."""
    until = time.monotonic() + LIMIT
    while process.poll() is None and struct.unpack("i", fcntl.ioctl(process.stdin, termios.FIONREAD, bytes(4)))[0]:
        if time.monotonic() > until:
            raise Difference("does not read on")
        time.sleep(0.00002)


def deliver(process, data, sizes):
    """Writes the bytes in pieces of these sizes, over and over. The program may end before all is written."""
    at = 0
    try:
        for size in itertools.cycle(sizes):
            if at >= len(data):
                break
            at += process.stdin.write(data[at : at + size])
            drain(process)
        process.stdin.close()
    except BrokenPipeError:
        pass


def in_pieces(program, data, sizes=PIECES):
    """The same through a pipe that delivers in pieces."""
    with tempfile.TemporaryFile() as file:
        with subprocess.Popen([program], stdin=subprocess.PIPE, stdout=file, bufsize=0, env={}) as process:
            try:
                deliver(process, data, sizes)
                status = process.wait(LIMIT)
            finally:
                process.kill()
        file.seek(0)
        return (status, file.read())


def bytewise(program, data):
    return in_pieces(program, data, (1,))


def in_two(place):
    """The way of feeding that delivers the bytes before a place first: the program's block ends there, whatever its size."""

    def feed(program, data):
        return in_pieces(program, data, (place, len(data)))

    feed.__name__ = f"in two pieces, at {place}"
    return feed


def places(data, says):
    """Where the record of each line starts."""
    at, stop = 0, False
    while at < len(data) and not stop:
        line, consumed, stop = packing.line_of(data, at, says)
        yield from [at] * (1 + line.count("\n"))
        at += consumed


def first_difference(data, says, right, got):
    """The first line that differs, with its record."""
    pairs = itertools.zip_longest(places(data, says), right.split(b"\n"), got.split(b"\n"))
    for line, (at, want, said) in enumerate(pairs, 1):
        if want != said:
            start = len(data) if at is None else at
            record = f"record at byte {start} of {len(data)}, {data[start : start + 32].hex(' ')}"
            return f"line {line}, {record}: {want!r} is right, got {said!r}"


class Verifier:
    """Runs inputs, and keeps how many runs there were and which refusals they should meet."""

    def __init__(self, listing, programs, seed):
        self.listing = listing
        self.known = KNOWN[listing]
        self.programs = programs
        self.seed = seed
        self.runs = 0
        self.refusals = set()

    def outputs(self, name, data, *feeds):
        """Each program's output for these bytes by each way of feeding them, and what to call the run."""
        for program, feed in itertools.product(self.programs, feeds or (from_file,)):
            self.runs += 1
            status, got = feed(program, data)
            yield f"{program}: {name}, {feed.__name__}", got
            if status != 0:
                raise Difference(f"{program}: {name}, {feed.__name__}: ended with status {status}")

    def verify(self, name, data, *feeds, right=None):
        """Each of these outputs to what is worked out; right is the output where it is known otherwise."""
        computed = self.listing.output(data)
        if right is not None and computed != right:
            raise Difference(f"{name}: worked out wrongly: {first_difference(data, self.listing.says, right, computed)}")
        self.refusals |= {int(line.split()[1]) for line in computed.splitlines() if line.startswith(b"refused")}
        for run, got in self.outputs(name, data, *feeds):
            if got != computed:
                raise Difference(f"{run}: {first_difference(data, self.listing.says, computed, got)}")


def sample(verifier):
    verifier.verify("sample", b"".join(SAMPLE), from_file, in_pieces, bytewise, right=verifier.known.sample)
    verifier.verify("each kind", b"".join(ALIKE), from_file, in_pieces, bytewise, right=verifier.known.alike * 3)
    verifier.verify("empty input", b"", from_file, in_pieces, right=b"")


def cuts(verifier):
    """Each record cut at every byte, alone and after the ones before it; and shorter rests."""
    for name, some in (("sample", SAMPLE), ("each kind", ALIKE)):
        for number, record in enumerate(some, 1):
            for length in range(len(record)):
                before = b"".join(some[: number - 1])
                verifier.verify(f"{name}, record {number} cut to {length}", record[:length])
                verifier.verify(f"{name} cut in record {number} to {length}", before + record[:length])
    long = ("FC030100", "FC030300", "FD030100", "FD030300", "FFFF")
    for rest in ("00", "01", "FF", "0100", "0200", "020001", "0400020000", *long):
        verifier.verify(f"rest {rest}", bytes.fromhex(rest))
        verifier.verify(f"sample and rest {rest}", b"".join(SAMPLE) + bytes.fromhex(rest))


def body_of(kind, length):
    """What stands after a length, zeros but for the kind."""
    return kind.to_bytes(2, "little") + bytes(length - 2)


def limits(verifier):
    """The longest record and what is longer; after a 9 nothing is read, whatever stands there."""
    after = SAMPLE[0] * 200
    for kind in (0, *packing.KINDS, 4, 65535):
        longest = packing.framed(body_of(kind, 1020))
        verifier.verify(f"L = 1020 of kind {kind}", longest + after, from_file, in_pieces)
        verifier.verify(f"L = 1020 of kind {kind}, cut", longest[:-1])
        for length in (1021, 1022, 1024, 65535):
            verifier.verify(f"L = {length} of kind {kind}", SAMPLE[0] + packing.framed(body_of(kind, length)) + after, from_file, in_pieces)


def surpluses():
    """Every surplus that can occur, with every pair of counts: the ones first, and each zero as early as it can be."""
    for t, s in oracle.pairs():
        for more in oracle.surpluses(t, s):
            ones, zeros = t + more, s - more
            yield packing.packed(t, s, [1] * ones + [0] * zeros)
            yield packing.packed(t, s, [1, 0] * zeros + [1] * (ones - zeros))


def each_value(record):
    """A record with each byte after its length set to each value."""
    for at in range(2, len(record)):
        for value in range(256):
            yield record[:at] + bytes([value]) + record[at + 1 :]


def miscounted(verifier):
    """Records that are refused 6: whole, in pieces and damaged, each byte of it and cut at each."""
    named = b"".join(record for record, *_ in MISCOUNTED)
    line = verifier.known.miscounted
    right = "".join(line.format(surplus=surplus, asked=asked, found=found) for _, surplus, asked, found in MISCOUNTED)
    verifier.verify("miscounted", named, from_file, in_pieces, bytewise, right=right.encode())
    verifier.verify("every surplus", b"".join(surpluses()), from_file, in_pieces)
    for record, surplus, *_ in MISCOUNTED:
        verifier.verify(f"surplus {surplus}, each byte", b"".join(each_value(record)), from_file, in_pieces)
        for length in range(len(record)):
            verifier.verify(f"surplus {surplus}, cut to {length}", named + record[:length])


def lengths():
    for kind in (0, *packing.KINDS, 4, 65535):
        for length in (*range(2, 40), *range(40, 1016, 61), *range(1016, 1021)):
            yield packing.framed(body_of(kind, length))
    yield from (packing.framed(bytes([b])) for b in range(4))
    yield packing.framed(b"")


def kinds():
    for kind in (*range(300), 511, 512, 513, 514, 32769, 32770, 65281, 65535):
        for record in SAMPLE[:2]:
            yield record[:2] + kind.to_bytes(2, "little") + record[4:]


def pairs_of_counts():
    """Every t with the s around the bounds, in each kind, with number 0 or its beats, or all bits 0."""
    for t in range(256):
        for s in {0, 1, max(0, t - 1), t, min(255, t + 1), oracle.LARGEST, oracle.LARGEST + 1, 255}:
            yield from (packing.numbered(t, s, 0, kind) for kind in packing.HOLDING)
            yield packing.packed(t, s, oracle.top(t, s))
            yield packing.packed(t, s, [0] * (t + s))


def numbers():
    """For every pair of counts the numbers at the ends, around the count, and such whose low or high part alone is small."""
    for t, s in oracle.pairs():
        n = oracle.forms(t, s)
        for number in (0, 1, n // 2, n - 2, n - 1, n, n + 1, n | 1 << 32, n - 1 | 1 << 56, n - 1 | 1 << 63, 2**63, 2**64 - 1):
            if number >= 0:
                yield from (packing.numbered(t, s, number, kind) for kind in packing.HOLDING)
            if 0 <= number < n:
                yield packing.packed(t, s, oracle.form_of(t, s, number))


def beats():
    """Every byte for counts of at most eight beats; each bit of the record turned, and each bare beat, for more."""
    for t, s in oracle.pairs():
        if 1 <= t + s <= 8:
            for byte in range(256):
                yield packing.framed(bytes([2, 0, t, s, byte]))
        if t + s in (9, 15, 16, 33, oracle.BEATS - 1, oracle.BEATS) and s > 2:
            record = packing.packed(t, s, oracle.form_of(t, s, oracle.forms(t, s) // 3))
            for bit in range(8 * (len(record) - 6)):
                yield record[:6] + (int.from_bytes(record[6:], "big") ^ 1 << bit).to_bytes(len(record) - 6, "big")
            for pairs in range(s):
                yield packing.packed(t, s, [1, 0] * pairs + [0] + [1] * (t - pairs) + [0] * (s - pairs - 1))


def faults_together():
    """Records with several faults: the order decides."""
    edges = (oracle.LARGEST, oracle.LARGEST + 1, 255)
    lengths_and_kinds = (0, 1, 2, 3, 4, 5, 6, 11, 12, 13, 14), (0, *packing.KINDS, 4, 256, 257, 259)
    counts_and_fills = (0, 1, 3, *edges), (0, 1, 2, *edges), (0, 1, 0xA8, 0xFF)
    for length, kind, t, s, fill in itertools.product(*lengths_and_kinds, *counts_and_fills):
        yield packing.framed((kind.to_bytes(2, "little") + bytes([t, s]) + bytes([fill] * 10))[:length])


def corners(verifier):
    for part in (lengths, kinds, pairs_of_counts, numbers, beats, faults_together):
        verifier.verify(part.__name__, b"".join(part()))


def of_length(length):
    """A valid record of 6 to 14 bytes."""
    half = 4 * (length - 6)
    return packing.packed(half, half, oracle.form_of(half, half, oracle.forms(half, half) // 3))


SOME = list(records.stream(7, 200, share=0))


def filler(length):
    """Valid records that together have this length, 6 or more."""
    some = itertools.cycle(SOME)
    made = []
    while length > 28:
        made.append(next(some))
        length -= len(made[-1])
    if length > 14:
        last = min(14, length - 6)
        made.append(of_length(length - last))
        length = last
    return b"".join(made) + of_length(length)


STRADDLERS = {
    **{f"kind {kind}": packing.numbered(MOST, MOST, FULL - 1, kind) for kind in packing.HOLDING},
    "kind 2": packing.packed(MOST, MOST, oracle.form_of(MOST, MOST, FULL // 2)),
    "longest": packing.framed(body_of(1, 1020)),
}
BEHIND = b"".join(records.stream(8, 40)) + SAMPLE[0]


def block_ends(verifier):
    """A record that starts at each place around the end of a block of a likely size, and goes on in the next; and one cut there."""
    for block in BLOCKS:
        before = filler(block - 1030)
        for name, record in STRADDLERS.items():
            far = range(-1024, -1018) if name == "longest" else ()
            for start in (*far, *range(-20, 3)):
                data = before + filler(1030 + start) + record + BEHIND
                verifier.verify(f"{name} from {block}{start:+}", data, from_file, in_pieces)
        for there in range(15):
            data = before + filler(1030 - there) + STRADDLERS["kind 1"][:there]
            verifier.verify(f"kind 1 cut to {there} at {block}", data)


def piece_ends(verifier):
    """A record of which a first read brings each number of bytes, or the bytes one by one."""
    before = filler(3000)
    for name, record in STRADDLERS.items():
        for there in sorted({*range(20), *range(1000, 1026)} & set(range(len(record) + 4))):
            verifier.verify(f"{name}, {there} bytes at first", before + record + BEHIND, in_two(len(before) + there))
    for name, record in STRADDLERS.items():
        verifier.verify(f"{name} by bytes", filler(1500) + record + BEHIND, bytewise)


@functools.cache
def pairs_by_rest(listing):
    """Two of the records with short lines for each rest."""
    first, *_ = short = KNOWN[listing].short
    whole = len(listing.output(first))
    return {len(listing.output(one + other)) % whole: one + other for one, other in itertools.product(short, repeat=2)}


def lines_of_length(listing, length):
    """Records whose lines together have this length."""
    first = KNOWN[listing].short[0]
    whole = len(listing.output(first))
    last = pairs_by_rest(listing)[length % whole]
    return first * ((length - len(listing.output(last))) // whole) + last


def starts(longest):
    """Where lines of a record start, before and after an end: everywhere around it, or, where they are many, at some places."""
    every = range(-longest - 2, 3)
    return every if longest < 200 else sorted({*every[:24], *every[::41], *every[-24:]})


def output_ends(verifier):
    """The longest line, and that of a refused record, at each place around the end of a block of output."""
    output = verifier.listing.output
    for record, block in itertools.product((verifier.known.longest, FEWEST), BLOCKS):
        longest = len(output(record))
        for start in starts(longest):
            before = lines_of_length(verifier.listing, block + start)
            if len(output(before)) != block + start:
                raise Difference(f"the lines before {block}{start:+} have another length")
            verifier.verify(f"line of {longest} bytes from {block}{start:+}", before + record + BEHIND)


def mixed(verifier):
    data = b"".join(verifier.known.stream(verifier.seed, MIXED))
    print(f"{MIXED} mixed records, {len(data)} bytes, --seed {verifier.seed}", flush=True)
    verifier.verify(f"mixed, --seed {verifier.seed}", data, from_file, in_pieces)


PARTS = (sample, cuts, limits, miscounted, corners, block_ends, piece_ends, output_ends, mixed)


def parts_of(listing):
    return {part.__name__: part for part in (*PARTS, *KNOWN[listing].parts)}


def arguments():
    """What was asked for: a list, and the rest."""
    lists = {listing.name: listing for listing in LISTINGS}
    parser = argparse.ArgumentParser(description="Holds a list to what is worked out for it.", allow_abbrev=False)
    parser.add_argument("--program", metavar="FILE", help="the program that is run; without it both of the list")
    parser.add_argument("--seed", metavar="NUMBER", type=int, help="repeats the mixed records of a run", default=None)
    parser.add_argument("list", metavar="LIST", choices=lists, help=", ".join(lists))
    parser.add_argument("parts", metavar="PART", nargs="*", help="a part that is run; without any all of them")
    given = parser.parse_intermixed_args()
    given.list = lists[given.list]
    for part in given.parts:
        if part not in parts_of(given.list):
            parser.error(f"no part {part}; the parts are {', '.join(parts_of(given.list))}")
    if given.program and not os.access(given.program, os.X_OK):
        parser.error(f"{given.program} is no program")
    return given


def main():
    given = arguments()
    if not given.program and missing(given.list.both):
        print(missing(given.list.both))
        return 1
    programs = [os.path.abspath(given.program)] if given.program else [lister.path for lister in given.list.both]
    verifier = Verifier(given.list, programs, random.SystemRandom().getrandbits(32) if given.seed is None else given.seed)
    parts = parts_of(given.list)
    for name in given.parts or parts:
        before = verifier.runs
        try:
            parts[name](verifier)
        except Difference as difference:
            print(difference)
            return 1
        except subprocess.TimeoutExpired:
            print(f"{name}: no end after {LIMIT} seconds")
            return 1
        print(f"{name}: {verifier.runs - before} runs", flush=True)
    if not given.parts and verifier.refusals != verifier.known.refusals:
        print(f"refusals met are {sorted(verifier.refusals)}")
        return 1
    return 0


if __name__ == "__main__":
    sys.exit(main())

"""The lists of order records, the programs that write them, what a run of one should be, and how it is held to that.

A list has two programs of its name. The command is installed, and is host/command.c over a function of the library. The
Rattle program does the same and has the same statuses, but takes no argument, leaves its standard output open and of
the signals SIGXFSZ as it is, and shows the system's number of a failure behind its text.
"""
import bisect
import functools
import os
import subprocess
import tempfile
from typing import Callable, NamedTuple

import explaining
import outlining
import packing
from header import HOW
from verifying import ROOT

LIMIT = 60  # seconds for a run
LISTED, NOT_READ, NOT_WRITTEN, WRONG_CALL = 0, 1, 2, 2  # the statuses
READING = "cannot read standard input"
WRITING = "cannot write standard output"
NOTHING_TAKEN = "no byte was taken"


class Lister(NamedTuple):
    """A program that lists, and how it is made."""

    kind: str
    name: str
    path: str
    how: str
    is_command: bool

    def __str__(self):
        return f"{self.kind} {self.name}"


class Listing(NamedTuple):
    """A list: the name of its programs, and what says the lines of a record, without their last line feed, by the bytes
    after its length."""

    name: str
    says: Callable

    @property
    def command(self):
        return Lister("command", self.name, str(ROOT / "target/host" / self.name), HOW, True)

    @property
    def program(self):
        built = ROOT / "crates" / self.name / "out" / self.name
        return Lister("Rattle program", self.name, str(built), f"(cd crates/{self.name} && rt run < stdin)", False)

    @property
    def both(self):
        return (self.command, self.program)

    @functools.lru_cache(16)
    def output(self, data):
        """What its programs should write for these records."""
        return packing.output(data, self.says)


PACKING = Listing("packing_list", packing.body_line)
EXPLAINING = Listing("explain", explaining.body_line)
OUTLINING = Listing("outline_list", outlining.body_lines)
LISTINGS = (PACKING, EXPLAINING, OUTLINING)


class Difference(Exception):
    """What is not as it should be."""


class Run(NamedTuple):
    """What a run left."""

    status: int
    said: bytes
    output: bytes


class Input:
    """Order records, their list, and the part of it that the first bytes give."""

    def __init__(self, listing, data):
        self.data = data
        self.list = listing.output(data)
        self.ends = [(0, 0)]
        at = lines = 0
        while at < len(data):
            line, consumed, stop = packing.line_of(data, at, listing.says)
            if stop:
                break
            at, lines = at + consumed, lines + len(line) + 1
            self.ends.append((at, lines))

    def listed(self, count):
        """The lines of the records that are whole within so many bytes, where nobody knows yet what follows."""
        _, lines = self.ends[bisect.bisect_right(self.ends, (count, len(self.list))) - 1]
        return self.list[:lines]


def run(lister, *words, data=b"", source=None, to=subprocess.PIPE, prepare=None, variables=None):
    """A run with arguments, its standard input a file of these bytes or a source, its standard output read or a file. What is to be
    prepared is called in the process before the program begins. It gets these variables of the environment, and no other."""
    with tempfile.TemporaryFile() as file:
        file.write(data)
        file.seek(0)
        done = subprocess.run(
            [lister.path, *words],
            stdin=file if source is None else source,
            stdout=to,
            stderr=subprocess.PIPE,
            preexec_fn=prepare,
            env=variables or {},
            cwd=ROOT,
            timeout=LIMIT,
        )
    return Run(done.returncode, done.stderr, done.stdout or b"")


class Told(NamedTuple):
    """What is told of a failure: what failed, and the reason, which is its text or the system's number for it."""

    what: str
    reason: str | int

    def line(self, lister):
        """The line, after the program's name."""
        if isinstance(self.reason, str):
            return f"{self.what}: {self.reason}\n".encode()
        number = "" if lister.is_command else f" (os error {self.reason})"
        return f"{self.what}: {os.strerror(self.reason)}{number}\n".encode()


def shown(text):
    return repr(text if len(text) < 200 else text[:100] + b" .. " + text[-100:])


def hold(case, lister, run, status=LISTED, said=b"", output=b""):
    """A run to its status, to what it says on standard error after its name, if anything, and to what it writes."""
    said = said.line(lister) if isinstance(said, Told) else said
    said = f"{lister.name}: ".encode() + said if said else b""
    name = f"{lister}, {case}"
    if run.said != said:
        raise Difference(f"{name}: {shown(said)} is right on standard error, got {shown(run.said)}")
    if run.status != status:
        raise Difference(f"{name}: status {status} is right, got {run.status}")
    if run.output != output:
        same = len(os.path.commonprefix((run.output, output)))
        where = f"{len(output)} bytes are right, got {len(run.output)}, the first {same} as they should be"
        raise Difference(f"{name}: {where}; then {shown(output[same:])} is right, got {shown(run.output[same:])}")


def missing(listers):
    """What to say of the first of these programs that is not there, or None."""
    for lister in listers:
        if not os.access(lister.path, os.X_OK):
            return f"there is no {lister.path}: {lister.how}"
    return None

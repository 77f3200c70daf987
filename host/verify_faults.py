#!/usr/bin/env python3
"""Holds the lists to what they owe where reading or writing fails: it is told in one line, the status tells, and no line is lost.

Both programs of each list of host/listing.py are run: with devices, descriptors, pipes and files as a user may hand them over, and with the
faults of host/injected.py. Prints a line for each part, and ends with status 1 at the first difference. [E17]
"""
import contextlib
import errno
import itertools
import os
import pathlib
import resource
import signal
import subprocess
import sys
import tempfile

import header
import injected
import packing
import records
from listing import LIMIT, LISTED, LISTINGS, NOT_READ, NOT_WRITTEN, READING, WRITING, WRONG_CALL
from listing import Difference, Input, Run, Told, hold, missing, run
from verifying import ROOT

SAMPLE = (ROOT / "crates/packing_list/stdin").read_bytes()
EMPTY = b""
LONG = b"".join(records.stream(2200, 10_000))
SETS = [set(), {0}, {1}, {2}, {0, 1}, {0, 2}, {1, 2}, {0, 1, 2}]  # of descriptors
LONGEST_NAME = 4096  # that is shown


def closing(descriptors):
    """Closes them before the program begins."""
    return lambda: [os.close(descriptor) for descriptor in descriptors]


def ignoring(number):
    return lambda: signal.signal(number, signal.SIG_IGN)


def unless_closed(closed, line):
    """What can be told where standard error may be closed."""
    return b"" if 2 in closed else line


def nothing_wrong(listing):
    for lister in listing.both:
        for data in (SAMPLE, EMPTY, LONG):
            yield hold("a file", lister, run(lister, data=data), LISTED, b"", listing.output(data))


def stop_behind_a_9(listing):
    """It is no failure, whether the record is cut short or too long, and whatever follows."""
    longest = packing.framed(bytes(1021))
    for lister in listing.both:
        for data in (SAMPLE[:-1], SAMPLE + b"\x0c", SAMPLE + longest + SAMPLE, longest[:2]):
            yield hold("a 9", lister, run(lister, data=data), LISTED, b"", listing.output(data))


def full_device(listing):
    for lister in listing.both:
        for data in (SAMPLE, LONG):
            with open("/dev/full", "wb") as full:
                done = run(lister, data=data, to=full)
            yield hold("a full device", lister, done, NOT_WRITTEN, Told(WRITING, errno.ENOSPC))


def closed_descriptors(listing):
    """Standard input closed, standard output, standard error, and several of them."""
    for lister in listing.both:
        for closed in SETS:
            done = run(lister, data=SAMPLE, prepare=closing(closed))
            if 0 in closed:
                right = (NOT_READ, Told(READING, errno.EBADF), b"")
            elif 1 in closed:
                right = (NOT_WRITTEN, Told(WRITING, errno.EBADF), b"")
            else:
                right = (LISTED, b"", listing.output(SAMPLE))
            yield hold(f"closed {closed}", lister, done, right[0], unless_closed(closed, right[1]), right[2])
    done = run(listing.command, prepare=closing({1}))
    yield hold("closed output for an empty list", listing.command, done, NOT_WRITTEN, Told(WRITING, errno.EBADF))


def one_way_descriptors(listing):
    """Standard input that can only be written, standard output that can only be read."""
    for lister in listing.both:
        with open(os.devnull, "wb") as out, open(os.devnull, "rb") as into:
            done = run(lister, source=out)
            yield hold("an input for writing", lister, done, NOT_READ, Told(READING, errno.EBADF))
            done = run(lister, data=SAMPLE, to=into)
            yield hold("an output for reading", lister, done, NOT_WRITTEN, Told(WRITING, errno.EBADF))


@contextlib.contextmanager
def opened(folder):
    descriptor = os.open(folder, os.O_RDONLY)
    try:
        yield descriptor
    finally:
        os.close(descriptor)


def directory(listing):
    for lister in listing.both:
        with opened(ROOT) as folder:
            yield hold("a directory", lister, run(lister, source=folder), NOT_READ, Told(READING, errno.EISDIR))
    yield hold("a directory by name", listing.command, run(listing.command, "host"), NOT_READ, Told("cannot read host", errno.EISDIR))


@contextlib.contextmanager
def not_ready(data):
    """A pipe that has these bytes, and then is not ready."""
    reader, writer = os.pipe()
    os.set_blocking(reader, False)
    os.write(writer, data)
    try:
        yield reader
    finally:
        os.close(reader)
        os.close(writer)


def input_not_ready(listing):
    """It is no end: what came is listed, the failure is told. A record of which a part came is not cut short; one that says that it is
    too long is refused at once, and the list has ended."""
    some = LONG[: Input(listing, LONG).ends[1500][0]]
    for lister in listing.both:
        for data in (b"", SAMPLE, some, SAMPLE + b"\x0c", SAMPLE + SAMPLE[:13]):
            with not_ready(data) as pipe:
                done = run(lister, source=pipe)
            listed = Input(listing, data).listed(len(data))
            yield hold(f"not ready after {len(data)} bytes", lister, done, NOT_READ, Told(READING, errno.EAGAIN), listed)
        too_long = SAMPLE + (1021).to_bytes(2, "little")
        with not_ready(too_long) as pipe:
            done = run(lister, source=pipe)
        yield hold("not ready after a 9", lister, done, LISTED, b"", listing.output(too_long))


def output_not_ready(listing):
    """A pipe that takes a part of the list and then no more."""
    for lister in listing.both:
        reader, writer = os.pipe()
        os.set_blocking(writer, False)
        done = run(lister, data=LONG, to=writer)
        os.close(writer)
        with open(reader, "rb") as pipe:
            taken = pipe.read()
        right = listing.output(LONG)[: len(taken)]
        yield hold("an output not ready", lister, Run(done.status, done.said, taken), NOT_WRITTEN, Told(WRITING, errno.EAGAIN), right)


def reader_gone(lister, prepare=None):
    """A run whose reader has left before it begins."""
    reader, writer = os.pipe()
    os.close(reader)
    try:
        return run(lister, data=SAMPLE, to=writer, prepare=prepare)
    finally:
        os.close(writer)


def reader_leaving(lister, prepare=None):
    """A run whose reader leaves after the first bytes of the list."""
    with tempfile.TemporaryFile() as file:
        file.write(LONG)
        file.seek(0)
        pipes = {"stdout": subprocess.PIPE, "stderr": subprocess.PIPE, "env": {}}
        with subprocess.Popen([lister.path], stdin=file, bufsize=0, preexec_fn=prepare, **pipes) as process:
            taken = process.stdout.read(1000)
            process.stdout.close()
            said = process.stderr.read()
            return Run(process.wait(LIMIT), said, taken)


def reader_leaves(listing):
    """It is told, whether the program begins with the signal ignored or not: none is ended by it."""
    for leave, lister in itertools.product((reader_gone, reader_leaving), listing.both):
        for prepare in (None, ignoring(signal.SIGPIPE)):
            done = leave(lister, prepare)
            right = (NOT_WRITTEN, Told(WRITING, errno.EPIPE), listing.output(LONG)[: len(done.output)])
            yield hold(leave.__name__, lister, done, *right)


def limit_of_size(listing):
    """A file that may not grow further: what fits is written, the rest is told, although a signal comes as well."""
    for lister in listing.both:
        for room in (0, 1000, 70_000):

            def prepare():
                resource.setrlimit(resource.RLIMIT_FSIZE, (room, room))
                if not lister.is_command:
                    ignoring(signal.SIGXFSZ)()

            with tempfile.TemporaryFile() as file:
                done = run(lister, data=LONG, to=file, prepare=prepare)
                file.seek(0)
                done = Run(done.status, done.said, file.read())
            yield hold(f"room for {room}", lister, done, NOT_WRITTEN, Told(WRITING, errno.EFBIG), listing.output(LONG)[:room])


def named_file(listing):
    """A file by its name; also where the program begins with descriptors closed, which the file may then get: nothing is written to it."""
    for data in (SAMPLE, EMPTY, LONG):
        for closed in SETS:
            with injected.stored(data) as name:
                done = run(listing.command, name, prepare=closing(closed))
                left = pathlib.Path(name).read_bytes()
            case = f"a file of {len(data)} bytes, closed {closed}"
            if 1 in closed:
                yield hold(case, listing.command, done, NOT_WRITTEN, unless_closed(closed, Told(WRITING, errno.EBADF)))
            else:
                yield hold(case, listing.command, done, LISTED, b"", listing.output(data))
            if left != data:
                raise Difference(f"{case}: the file is changed")
    for closed in ({0, 2}, {2}):
        yield hold("a directory as 2", listing.command, run(listing.command, "host", prepare=closing(closed)), NOT_READ)


def no_such_file(listing):
    """A name of no file, and how names are shown."""
    for name, shown in (
        ("", ""),
        ("no such file", "no such file"),
        ("a\nb\tc\x1b[1m\x7f", "a?b?c?[1m?"),
        ("é-1", "é-1"),
        ("host/packing.py/-", "host/packing.py/-"),
        ("x" * 300, "x" * 300),
        ("x/" * 2047 + "y", "x/" * 2047 + "y"),
        ("y" * 100_000, "y" * LONGEST_NAME),
    ):
        line = Told(f"cannot open {shown}", reason(name))
        yield hold(f"no file {name[:40]!r}", listing.command, run(listing.command, name), NOT_READ, line)


def reason(name):
    """Why the system opens no such file."""
    try:
        os.close(os.open(name, os.O_RDONLY))
    except OSError as error:
        return error.errno
    raise Difference(f"there is a file {name!r}")


def no_permission(listing):
    """A file that may not be read; the superuser may read it."""
    with injected.stored(SAMPLE) as name:
        os.chmod(name, 0)
        done = run(listing.command, name)
        if os.geteuid() == 0:
            yield hold("a file without permission", listing.command, done, LISTED, b"", listing.output(SAMPLE))
        else:
            yield hold("a file without permission", listing.command, done, NOT_READ, Told(f"cannot open {name}", errno.EACCES))


def wrong_calls(listing):
    """They are told in a line that names --help, and nothing is listed."""
    hint = f"; see {listing.name} --help\n"
    for word in ("-", "--", "-h", "-help", "--hel", "--helpful", "--Help", "--version=1", "--versio", "-\n", "-v", "---"):
        line = f"unknown option {word}".replace("\n", "?") + hint
        yield hold(word, listing.command, run(listing.command, word, data=SAMPLE), WRONG_CALL, line.encode())
    for words in (("a", "b"), ("--help", "--version"), ("--version", "x\ny"), ("host", "host", "host"), ("", ""), ("--", "a")):
        line = f"more than one argument: {words[1]}".replace("\n", "?") + hint
        yield hold(words, listing.command, run(listing.command, *words, data=SAMPLE), WRONG_CALL, line.encode())


def texts(listing):
    """What --help and --version print, and that it is told where that cannot be written."""
    version = ".".join(map(str, header.version()))
    yield hold("--version", listing.command, run(listing.command, "--version"), LISTED, b"", f"{listing.name} {version}\n".encode())
    done = run(listing.command, "--help")
    yield hold("--help", listing.command, done, LISTED, b"", done.output)
    for word in (f"usage: {listing.name} [FILE]\n", "--help", "--version", "standard input", "Status: 0 ", "the call is wrong.\n"):
        if word.encode() not in done.output:
            raise Difference(f"{listing.command}: --help does not say {word!r}")
    for word in ("--help", "--version"):
        with open("/dev/full", "wb") as full:
            yield hold(word, listing.command, run(listing.command, word, to=full), NOT_WRITTEN, Told(WRITING, errno.ENOSPC))
        done = run(listing.command, word, prepare=closing({1}))
        yield hold(word, listing.command, done, NOT_WRITTEN, Told(WRITING, errno.EBADF))


PARTS = (
    nothing_wrong,
    stop_behind_a_9,
    full_device,
    closed_descriptors,
    one_way_descriptors,
    directory,
    input_not_ready,
    output_not_ready,
    reader_leaves,
    limit_of_size,
    named_file,
    no_such_file,
    no_permission,
    wrong_calls,
    texts,
    *injected.PARTS,
)


def main():
    lacking = missing(lister for listing in LISTINGS for lister in listing.both)
    if lacking:
        print(lacking)
        return 1
    os.chdir(ROOT)
    injected.build()
    total = 0
    for part, listing in itertools.product(PARTS, LISTINGS):
        name = f"{part.__name__} of {listing.name}"
        try:
            held = sum(1 for _ in part(listing))
        except Difference as difference:
            print(f"{name}: {difference}")
            return 1
        except subprocess.TimeoutExpired as late:
            print(f"{name}: no end after {late.timeout} seconds")
            return 1
        if not held:
            print(f"{name}: nothing was run")
            return 1
        print(f"{name}: {held} runs", flush=True)
        total += held
    print(f"{total} runs, each with its fault told or its list whole")
    return 0


if __name__ == "__main__":
    sys.exit(main())

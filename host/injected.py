"""Faults put into the calls of the programs that list, by host/faults.c: every read and every write is made to fail, to move fewer bytes
and to be interrupted, one after the other, and all of them at once. Each part takes a list, and yields for every run that was as it should
be.

A fault that was asked for and did not happen is a difference too. [E17]
"""
import contextlib
import errno
import functools
import pathlib
import subprocess
import tempfile
from typing import NamedTuple

import records
from listing import LISTED, NOT_READ, NOT_WRITTEN, NOTHING_TAKEN, READING, WRITING, Difference, Input, Told, hold, run
from verifying import ROOT

LIBRARY = "target/host/faults.so"
READ_ERRORS = (errno.EIO, errno.EAGAIN, errno.EISDIR)
WRITE_ERRORS = (errno.EIO, errno.EAGAIN, errno.ENOSPC, errno.EPIPE)
CLOSE_ERRORS = (errno.EIO, errno.ENOSPC, errno.EDQUOT, errno.EINTR)
HARMLESS = (("most", 1), ("half", 0), ("less", 6), ("interrupt", 1), ("interrupt", 20))  # for a short text too
SHORT = {"most", "half", "few", "less"}


class Rule(NamedTuple):
    """A fault to put in; see host/faults.c. Every call is meant where there is no number."""

    call: str
    how: str
    value: int
    which: int = 0

    def __str__(self):
        return f"{self.call}:{self.which or '*'}:{self.how}={self.value}"


class Call(NamedTuple):
    """A call as it went."""

    name: str
    number: int
    asked: int
    answer: int
    error: int
    fault: str


def every(how, value=0):
    """The same fault for every read and every write."""
    return [Rule("read", how, value), Rule("write", how, value)]


@functools.cache
def blocks(listing):
    """Several blocks of records, good ones and such as are refused; no 9."""
    return Input(listing, b"".join(records.stream(2100, 21_500)))


@functools.cache
def stopped(listing):
    """Fewer, and the last one is cut: the list stops after a 9."""
    return Input(listing, blocks(listing).data[:1500] + b"\x0c\x00\x01\x00")


def build():
    options = ["-std=gnu99", "-O2", "-Wall", "-Wextra", "-Werror", "-shared", "-fPIC"]
    subprocess.run(["gcc", *options, "-o", LIBRARY, "host/faults.c"], cwd=ROOT, check=True)


def happened(rule, calls):
    """Whether a fault is in the log, and as often as it should be: for every call that is meant and that asks for enough to be short."""
    meant = [call for call in calls if call.name == rule.call and rule.which in (0, call.number)]
    hit = [call for call in meant if call.fault == rule.how]
    if rule.how in SHORT:
        enough = {"most": rule.value, "few": 64}.get(rule.how, 1)
        return bool(hit) and {call.number for call in meant if call.asked > enough} <= {call.number for call in hit}
    times = rule.value if rule.how == "interrupt" else 1
    return bool(hit) and len(hit) == times * len({call.number for call in meant})


def injected(lister, rules, *words, data=b"", sure=None):
    """A run with these faults, and its calls. All faults are sure to happen, or those that are said to be."""
    with tempfile.NamedTemporaryFile() as log:
        faults = ",".join(map(str, rules))
        variables = {"LD_PRELOAD": LIBRARY, "FAULTS": faults, "FAULTS_LOG": log.name}
        done = run(lister, *words, data=data, variables=variables)
        lines = [line.split() for line in pathlib.Path(log.name).read_text().splitlines()]
    calls = [Call(name, *map(int, numbers), fault) for name, *numbers, fault in lines]
    for rule in rules if sure is None else sure:
        if not happened(rule, calls):
            raise Difference(f"{lister}, {faults}: {rule} did not happen; status {done.status}, said {done.said!r}")
    return done, calls


def named(calls, name):
    return [call for call in calls if call.name == name]


def moved(calls):
    """The bytes that calls moved."""
    return sum(max(0, call.answer) for call in calls)


def whole(lister, rules, *words, own, data=b""):
    """A run whose faults do no harm: all is listed."""
    done, calls = injected(lister, rules, *words, data=data)
    hold(", ".join(map(str, rules)) or "no fault", lister, done, LISTED, b"", own.list)
    return calls


def not_read(lister, rules, *words, own, what=READING, data=b""):
    """A run in which the last rule makes a read fail: what had come is listed, it is told, and nothing is read afterwards."""
    done, calls = injected(lister, rules, *words, data=data, sure=rules[-1:])
    reads = named(calls, "read")
    case = ", ".join(map(str, rules))
    hold(case, lister, done, NOT_READ, Told(what, rules[-1].value), own.listed(moved(reads)))
    last(case, lister, reads, calls)


def not_written(lister, rules, *words, own, data=b""):
    """The same for a write: what was taken is the start of the list, and nothing is written afterwards."""
    done, calls = injected(lister, rules, *words, data=data, sure=rules[-1:])
    writes = named(calls, "write")
    case = ", ".join(map(str, rules))
    reason = NOTHING_TAKEN if rules[-1].how == "nothing" else rules[-1].value
    hold(case, lister, done, NOT_WRITTEN, Told(WRITING, reason), own.list[: moved(writes)])
    last(case, lister, writes, calls)


def last(case, lister, same, calls):
    """That the call that failed is the last of its name, and that the program tells by one write."""
    if same[-1].fault not in ("fail", "nothing"):
        raise Difference(f"{lister}, {case}: goes on with {same[-1]}")
    if len(named(calls, "tell")) != 1:
        raise Difference(f"{lister}, {case}: tells by {len(named(calls, 'tell'))} writes")


def numbers(calls, name):
    """The numbers of the calls of a name; there are several."""
    found = sorted({call.number for call in named(calls, name)})
    if len(found) < 4:
        raise Difference(f"only {len(found)} calls of {name}: more input is needed")
    return found


def each_call(listing):
    """Every read and every write in turn, with each fault."""
    own = blocks(listing)
    for lister in listing.both:
        calls = whole(lister, [], own=own, data=own.data)
        yield
        for number in numbers(calls, "read"):
            for error in READ_ERRORS:
                yield not_read(lister, [Rule("read", "fail", error, number)], own=own, data=own.data)
            for how, value in HARMLESS:
                yield whole(lister, [Rule("read", how, value, number)], own=own, data=own.data)
        for number in numbers(calls, "write"):
            for how, value in [("nothing", 0), *(("fail", error) for error in WRITE_ERRORS)]:
                yield not_written(lister, [Rule("write", how, value, number)], own=own, data=own.data)
            for how, value in HARMLESS:
                yield whole(lister, [Rule("write", how, value, number)], own=own, data=own.data)


def all_calls(listing):
    """Every call short, or interrupted, or both."""
    few = [Rule("read", "few", 1), Rule("write", "few", 2)]
    for lister in listing.both:
        for own in (blocks(listing), stopped(listing)):
            for rules in (every("half"), every("less", 3), every("interrupt", 1), few, [*every("interrupt", 2), *few]):
                yield whole(lister, rules, own=own, data=own.data)
        for own in (Input(listing, blocks(listing).data[:3000]), stopped(listing)):
            yield whole(lister, every("most", 1), own=own, data=own.data)
            yield whole(lister, [*every("most", 1), *every("interrupt", 1)], own=own, data=own.data)


def spread(values):
    """Some of many numbers: the ends, and places between."""
    return sorted({values[0], values[1], *values[:: max(1, len(values) // 9)], values[-1]})


def among_other_faults(listing):
    """A failure among calls that are short or interrupted: that they are, the run without the failure shows."""
    less, few = every("less", 8), [*every("few", 9), *every("interrupt", 1)]
    for lister in listing.both:
        for own, rules in ((blocks(listing), less), (Input(listing, blocks(listing).data[:20_000]), few)):
            calls = whole(lister, rules, own=own, data=own.data)
            yield
            for number in spread(numbers(calls, "read")):
                yield not_read(lister, [*rules, Rule("read", "fail", errno.EIO, number)], own=own, data=own.data)
            for number in spread(numbers(calls, "write")):
                yield not_written(lister, [*rules, Rule("write", "fail", errno.ENOSPC, number)], own=own, data=own.data)
                yield not_written(lister, [*rules, Rule("write", "nothing", 0, number)], own=own, data=own.data)


@contextlib.contextmanager
def stored(data):
    """The name of a file of these bytes."""
    with tempfile.NamedTemporaryFile() as file:
        file.write(data)
        file.flush()
        yield file.name


def of_a_named_file(listing):
    """The same of a file that the command opens itself; and the opening."""
    own = blocks(listing)
    with stored(own.data) as name:
        for times in (1, 20):
            yield whole(listing.command, [Rule("open", "interrupt", times, 1)], name, own=own)
        for error in (errno.EMFILE, errno.EACCES, errno.EIO):
            done, _ = injected(listing.command, [Rule("open", "fail", error, 1)], name)
            yield hold(f"open: {error}", listing.command, done, NOT_READ, Told(f"cannot open {name}", error))
        for number in numbers(whole(listing.command, [], name, own=own), "read"):
            for how, value in HARMLESS:
                yield whole(listing.command, [Rule("read", how, value, number)], name, own=own)
            for error in READ_ERRORS:
                yield not_read(listing.command, [Rule("read", "fail", error, number)], name, own=own, what=f"cannot read {name}")
        for rules in (every("half"), every("interrupt", 3)):
            yield whole(listing.command, rules, name, own=own)


def of_the_close(listing):
    """A fault that shows only when the command closes its standard output."""
    own = stopped(listing)
    for error in CLOSE_ERRORS:
        rules = [Rule("close", "fail", error, 1)]
        for words, output in (((), own.list), (("--help",), None), (("--version",), None)):
            done, _ = injected(listing.command, rules, *words, data=own.data)
            right = done.output if output is None else output
            yield hold(f"{words} {rules[0]}", listing.command, done, NOT_WRITTEN, Told(WRITING, error), right)


def of_the_telling(listing):
    """A line on standard error that the system takes in parts; and one that it does not take: the status still tells."""
    read = Rule("read", "fail", errno.EIO, 1)
    line = Told(READING, errno.EIO)
    for how, value in HARMLESS:
        done, _ = injected(listing.command, [read, Rule("tell", how, value)])
        yield hold(f"tell {how}", listing.command, done, NOT_READ, line)
    for how, value in (("fail", errno.EIO), ("fail", errno.EAGAIN), ("nothing", 0)):
        done, _ = injected(listing.command, [read, Rule("tell", how, value)])
        yield hold(f"tell {how}", listing.command, done, NOT_READ, b"")


def of_help_and_version(listing):
    """The two texts that the command prints, short, interrupted and not taken."""
    for word in ("--help", "--version"):
        text = run(listing.command, word).output
        for how, value in HARMLESS:
            done, _ = injected(listing.command, [Rule("write", how, value)], word)
            yield hold(f"{word}, {how}", listing.command, done, LISTED, b"", text)
        for how, value, reason in (("fail", errno.EIO, errno.EIO), ("nothing", 0, NOTHING_TAKEN)):
            done, _ = injected(listing.command, [Rule("write", how, value, 1)], word)
            yield hold(f"{word}, {how}", listing.command, done, NOT_WRITTEN, Told(WRITING, reason))


PARTS = (each_call, all_calls, among_other_faults, of_a_named_file, of_the_close, of_the_telling, of_help_and_version)

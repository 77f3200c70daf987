#!/usr/bin/env python3
"""Holds the shared library to the header, as it is installed, and calls it from C and from Python.

Its name and its soname have the header's version. It exports the header's functions and nothing else, needs what the
archive needs, runs nothing when it is loaded, and leaves no memory that can be written then; its code is not changed to
load it, and its stack is not run. By ctypes, with the types of the header's own declarations, the functions answer and
leave what host/oracle.py and the scripts of the lists work out, and a refusal leaves every lent byte, and those around
them. The commands of ghanveltri(3), LINKING, build host/example.c and a plugin, each linked as the page
says.

Prints each fault, and ends with status 1 if there is one.
"""
import contextlib
import ctypes
import errno
import functools
import os
import pathlib
import re
import shutil
import subprocess
import sys
import tempfile

import explaining
import oracle
import outlining
import packing
import records
from header import ARCHIVE, HOW, constants, declared, output, preprocessed, refusals, signatures, texts, version
from listing import LISTED, NOT_READ, NOT_WRITTEN
from verify_header import BORROWED
from verify_manual import sections
from verifying import ROOT, verdict

NAME = "libghanveltri.so"
MAJOR, FULL = f"{NAME}.{version()[0]}", f"{NAME}.{'.'.join(map(str, version()))}"
SHARED = ROOT / "target/host" / FULL
SAMPLE = ROOT / "crates/packing_list/stdin"
MADE_BY_THE_LINKER = {".dynamic", ".got", ".got.plt"}
AT_LOAD = ("INIT", "FINI", "INIT_ARRAY", "FINI_ARRAY", "PREINIT_ARRAY", "TEXTREL", "RPATH", "RUNPATH")
LISTS = {  # and what each writes
    "gv_packing_list": packing.output,
    "gv_explain_list": explaining.output,
    "gv_outline_list": outlining.output,
}
GUARD = bytes(range(0xA0, 0xB0))  # none is a beat
TOP = 2**64 - 1

TYPES = {
    "uint64_t": ctypes.c_uint64,
    "int32_t": ctypes.c_int32,
    "size_t": ctypes.c_size_t,
    "const uint8_t *": ctypes.POINTER(ctypes.c_uint8),
    "uint8_t *": ctypes.POINTER(ctypes.c_uint8),
    "const char *": ctypes.c_char_p,
}

PLUGIN = """
#include <ghanveltri.h>

uint64_t plugin_number(void) {
    uint8_t beats[5];
    return gv_form(3, 2, 4, beats, 5) == GV_ACCEPTED ? gv_number(3, 2, beats, 5) : 99;
}
"""
ASK_PLUGIN = "import ctypes, sys; print(ctypes.CDLL(sys.argv[1]).plugin_number())"


# The file.


def name_faults(lib):
    links = {NAME: MAJOR, MAJOR: FULL}
    for name, to in links.items():
        if not (lib / name).is_symlink() or os.readlink(lib / name) != to:
            yield f"{name} is no link to {to}"
    others = {path.name for path in lib.glob("*.so*")} - {*links, FULL}
    yield from (f"{name} is installed too" for name in sorted(others))


def dynamic_faults(file):
    """The soname, what is needed, and that loading runs no code and changes none."""
    text = output("readelf", "-dW", file)
    names = {kind: re.findall(rf"\({kind}\).*\[(.*)\]", text) for kind in ("SONAME", "NEEDED")}
    if names["SONAME"] != [MAJOR]:
        yield f"the soname is {names['SONAME']}, and {MAJOR} is right"
    if names["NEEDED"] != ["libc.so.6"]:
        yield f"the shared library needs {names['NEEDED']}"
    for kind in AT_LOAD:
        if re.search(rf"\b{kind}\b", text):
            yield f"the shared library has {kind}"


def memory_faults(file):
    """What can be written is made by the linker, and is shut when the library is loaded. The stack is not run."""
    text = output("readelf", "-SlW", file)
    segments = re.findall(r"^  (GNU_\w+) +0x\w+ 0x(\w+) 0x\w+ 0x\w+ 0x(\w+) (.{3}) ", text, re.M)
    stacks = [flags for kind, *_, flags in segments if kind == "GNU_STACK"]
    if stacks != ["RW "]:
        yield f"the stack is {stacks}"
    shut = [(int(at, 16), int(at, 16) + int(size, 16)) for kind, at, size, _ in segments if kind == "GNU_RELRO"]
    parts = re.findall(r"^  \[ *\d+\] (\S+) +\w+ +(\w{16}) \w+ (\w+) \w+ +(\w*) ", text, re.M)
    written = {name: (int(at, 16), int(at, 16) + int(size, 16)) for name, at, size, flags in parts if "W" in flags}
    for name, (start, end) in written.items():
        if name not in MADE_BY_THE_LINKER:
            yield f"the shared library has {end - start} bytes that can be written: {name}"
        if not any(first <= start and end <= last for first, last in shut):
            yield f"{name} can be written when the library is loaded"
    if not written:
        yield "no section is understood"


def symbol_faults(file):
    symbols = re.findall(r"^[0-9a-f ]{16} (\w) ([^@\n]+)", output("nm", "-D", file), re.M)
    exported = {name: kind for kind, name in symbols if kind != "U"}
    right = dict.fromkeys(declared(), "T")
    for name in sorted(exported.keys() | right.keys()):
        if exported.get(name) != right.get(name):
            yield f"the shared library has {name} as {exported.get(name)}, the header as {right.get(name)}"
    for kind, name in symbols:
        if kind == "U" and name not in BORROWED:
            yield f"the shared library needs {name}"


# From Python.


def loaded(file):
    """The library, each function with the types that the header declares."""
    library = ctypes.CDLL(str(file), use_errno=True)
    for name, (result, parameters) in signatures(preprocessed()).items():
        function = getattr(library, name)
        function.restype = TYPES[result]
        function.argtypes = [TYPES[kind] for kind, _ in parameters]
    return library


class Lent:
    """Bytes to lend to a call, between guards."""

    def __init__(self, beats):
        self.whole = (ctypes.c_uint8 * (len(beats) + 2 * len(GUARD)))(*GUARD, *beats, *GUARD)
        self.slice = (ctypes.cast(ctypes.byref(self.whole, len(GUARD)), TYPES["uint8_t *"]), len(beats))

    def left(self):
        """The bytes now; the guards with them where one has changed."""
        whole = bytes(self.whole)
        own = whole[len(GUARD) : -len(GUARD)]
        return [*own] if whole == GUARD + own + GUARD else [*whole]


class Caller:
    """Makes calls, holds each to what it should answer and leave, and keeps the faults."""

    def __init__(self, library):
        self.library, self.faults, self.calls = library, [], 0

    def hold(self, name, arguments, right, got):
        self.calls += 1
        if got != right:
            self.faults.append(f"by ctypes, {name}{arguments}: {right} is right, got {got}")

    def call(self, name, right, *numbers):
        """A call with numbers alone."""
        self.hold(name, numbers, right, getattr(self.library, name)(*numbers))

    def lend(self, name, right, t, s, beats, *more, left=None):
        """A call that is lent beats; what it leaves, where that is not what it was lent."""
        lent = Lent(beats)
        answer = getattr(self.library, name)(t, s, *lent.slice, *more)
        self.hold(name, (t, s, beats, *more), (right, beats if left is None else left), (answer, lent.left()))

    def outline(self, name, right, t, s, beats, text, left=None):
        """A call that is lent beats and a text, which it may write."""
        lent, lent_text = Lent(beats), Lent(text)
        answer = getattr(self.library, name)(t, s, *lent.slice, *lent_text.slice)
        right = (right, beats, [*(text if left is None else left)])
        self.hold(name, (t, s, beats, text), right, (answer, lent.left(), lent_text.left()))

    def outline_read(self, name, right, n, text, beats, left=None):
        """The same of the way back, which may write the beats."""
        lent, lent_text = Lent(beats), Lent(text)
        answer = getattr(self.library, name)(n, *lent_text.slice, *lent.slice)
        right = (right, beats if left is None else left, [*text])
        self.hold(name, (n, text, beats), right, (answer, lent.left(), lent_text.left()))

    def form(self, right, t, s, number, beats, left=None):
        """gv_form, which has its number before the slice."""
        lent = Lent(beats)
        answer = self.library.gv_form(t, s, number, *lent.slice)
        self.hold("gv_form", (t, s, number, beats), (right, beats if left is None else left), (answer, lent.left()))


def ask_counts(caller, t, s):
    why, forms = oracle.count(t, s)
    caller.call("gv_count_refusal", why.refusal, t, s)
    caller.call("gv_count_place", why.place, t, s)
    caller.call("gv_count", forms, t, s)


def ask_beats(caller, t, s, beats):
    """All that is asked of beats, be they a schedule or not."""
    why, number = oracle.number(t, s, beats)
    after = beats if why else oracle.successor(t, s, beats)
    for name in ("gv_check", "gv_number"):
        for part, right in why._asdict().items():
            caller.lend(f"{name}_{part}", right, t, s, beats)
    caller.lend("gv_number", number, t, s, beats)
    caller.lend("gv_next_changed", oracle.changed(beats, after), t, s, beats)
    caller.lend("gv_next", why.refusal, t, s, beats, left=after)
    _, changed, before = oracle.run_back(t, s, beats, 1)
    caller.lend("gv_previous_changed", changed, t, s, beats)
    caller.lend("gv_previous", why.refusal, t, s, beats, left=before)
    ask_explanation(caller, t, s, beats, (0, [], [], []) if why else oracle.explanation(t, s, beats))


def ask_explanation(caller, t, s, beats, right):
    """Every part of an explanation, and one changed place more than there are."""
    none = constants()["GV_NO_PLACE"]
    case, found, moved, changed = right
    caller.lend("gv_explain_case", case, t, s, beats)
    caller.lend("gv_explain_found", *(found or [none]), t, s, beats)
    caller.lend("gv_explain_moved", *(moved or [none]), t, s, beats)
    for which, place in (*enumerate([*changed, none]), (TOP, none)):
        caller.lend("gv_explain_changed_place", place, t, s, beats, which)


def ask_outline(caller, t, s, beats, text):
    """All that is asked of an outline, with a text lent for it."""
    why, written, left = oracle.outline(t, s, beats, text)
    for part, right in why._asdict().items():
        caller.outline(f"gv_outline_{part}", right, t, s, beats, text)
    caller.outline("gv_outline", written, t, s, beats, text, left)


def ask_outline_read(caller, n, text, beats):
    """The way back, with beats lent for it."""
    why, left = oracle.schedule_of_outline(n, text, beats)
    caller.outline_read("gv_outline_read_place", why.place, n, text, beats)
    caller.outline_read("gv_outline_read", why.refusal, n, text, beats, left)


def ask_run(caller, t, s, beats, steps):
    """A run on and a run back."""
    for name, run in (("gv_run", oracle.run), ("gv_run_back", oracle.run_back)):
        why, changed, left = run(t, s, beats, steps)
        caller.lend(f"{name}_changed", changed, t, s, beats, steps)
        caller.lend(name, why.refusal, t, s, beats, steps, left=left)


def ask_form(caller, t, s, number, beats):
    why, left = oracle.form(t, s, number, beats)
    caller.form(why.refusal, t, s, number, beats, left)


def ask_circles(caller):
    """Every form of small counts by its number, its number back, and the steps to the next and to the one before."""
    for t in range(6):
        for s in range(t + 1):
            ask_counts(caller, t, s)
            for n in range(oracle.forms(t, s)):
                ask_form(caller, t, s, n, [7] * (t + s))
                ask_beats(caller, t, s, oracle.form_of(t, s, n))
            ask_run(caller, t, s, oracle.form_of(t, s, 0), oracle.forms(t, s) + 1)


def ask_largest(caller):
    """The largest counts and numbers, which take all bits of their types."""
    t = constants()["GV_MAX_TASKS"]
    last = oracle.forms(t, t) - 1
    ends = (0, 1, last - 1, last)
    ask_counts(caller, t, t)
    for n in (*ends, last // 2, last + 1, last | 1 << 63, TOP):
        ask_form(caller, t, t, n, [7] * (2 * t))
    for n in ends:
        ask_beats(caller, t, t, oracle.form_of(t, t, n))


def ask_refused(caller):
    """Each refusal that these functions give, which leaves what was lent; and the longest run, the last number."""
    largest, most = constants()["GV_MAX_TASKS"], constants()["GV_MAX_STEPS"]
    for t, s in ((largest + 1, 0), (2, 3), (TOP, TOP), (1 << 32, 0), (2, 1 << 32)):
        ask_counts(caller, t, s)
        ask_beats(caller, t, s, [1, 1, 0])
        ask_form(caller, t, s, 0, [7, 7, 7])
    for t, s, beats in ((2, 1, [1, 1]), (2, 2, [1, 0, 2, 0]), (2, 2, [1, 0, 0, 1]), (2, 1, [1, 1, 1]), (2, 1, [])):
        ask_beats(caller, t, s, beats)
        ask_run(caller, t, s, beats, most + 1)
    for steps in (most, most + 1, TOP):
        ask_run(caller, 2, 1, [1, 0, 1], steps)
    for number, length in ((4, 5), (5, 5), (TOP, 5), (4, 4), (4, 6), (5, 0)):
        ask_form(caller, 3, 2, number, [7] * length)


def ask_outlines(caller):
    """Every closed schedule of few tasks there and back, and the deepest and the flattest of the most; with a byte less
    room, cut, and with something after it. Then refusals, and both sides of each limit."""
    most = constants()["GV_MAX_TASKS"]
    forms = [oracle.form_of(n, n, number) for n in range(6) for number in range(oracle.forms(n, n))]
    for beats in (*forms, oracle.top(most, most), [1, 0] * most):
        n, text = len(beats) // 2, oracle.outline_text(beats)
        for room in (len(text) - 1, len(text), len(text) + 3):
            ask_outline(caller, n, n, beats, b"\xfe" * max(0, room))
        for part in (text, text[:-1], text + b"1", text[:2], text.replace(b"1", b"01", 1)):
            ask_outline_read(caller, n, part, [7] * (2 * n))
    for t, s, beats in ((most + 1, 0, []), (2, 3, []), (2, 1, [1, 1]), (2, 2, [1, 0, 2, 0]), (2, 2, [1, 0, 0, 1]), (2, 1, [1, 1, 1])):
        ask_outline(caller, t, s, beats, b"text")
    ask_outline(caller, 3, 2, [1, 1, 0, 1, 0], b"")
    for n, length in ((most + 1, 2 * most + 2), (TOP, 0), (1 << 63, 0), (3, 5), (3, 7)):
        ask_outline_read(caller, n, b"1\n1.1\n1.2\n", [7] * length)


def ask_miscounted(caller):
    """Every surplus of small counts and of the largest, on both sides of 0."""
    most = constants()["GV_MAX_TASKS"]
    for t, s in ((2, 1), (3, 1), (2, 0), (5, 3), (most, 0), (most, most - 1), (most, most)):
        for more in oracle.surpluses(t, s):
            ask_beats(caller, t, s, [1] * (t + more) + [0] * (s - more))


def ask_version(caller):
    caller.call("gv_version", constants()["GV_VERSION"])
    for number, text in texts([*refusals().values(), max(refusals().values()) + 1, TOP]).items():
        caller.call("gv_refusal_text", text.encode(), number)


@contextlib.contextmanager
def pipe_with(data):
    """The end of a pipe that has these bytes, and no more; they are fewer than a pipe holds."""
    reader, writer = os.pipe()
    os.write(writer, data)
    os.close(writer)
    with open(reader, "rb") as pipe:
        yield pipe


@contextlib.contextmanager
def file_with(data):
    with tempfile.TemporaryFile() as file:
        file.write(data)
        file.seek(0)
        yield file


def ask_lists(caller):
    for name, output_of in LISTS.items():
        ask_list(caller, name, output_of)


def ask_list(caller, name, output_of):
    """A list from files and pipes to files, and where reading or writing fails."""
    sample = SAMPLE.read_bytes()
    inputs = [sample, b"", sample + sample[:5], b"".join(records.stream(5, 500))]
    for opened in (pipe_with, file_with):
        for data in inputs:
            with opened(data) as source, tempfile.TemporaryFile() as to:
                caller.call(name, LISTED, source.fileno(), to.fileno())
                to.seek(0)
                caller.hold(f"what {name} writes of", (len(data), "bytes"), output_of(data), to.read())
    with file_with(sample) as source, open("/dev/full", "wb", buffering=0) as full, opened_folder() as folder:
        for right, number, call in (
            (NOT_READ, errno.EISDIR, (folder, full.fileno())),
            (NOT_READ, errno.EBADF, (-1, full.fileno())),
            (NOT_WRITTEN, errno.ENOSPC, (source.fileno(), full.fileno())),
        ):
            ctypes.set_errno(0)
            caller.call(name, right, *call)
            caller.hold(f"errno after {name}", call, number, ctypes.get_errno())


@contextlib.contextmanager
def opened_folder():
    descriptor = os.open(ROOT, os.O_RDONLY)
    try:
        yield descriptor
    finally:
        os.close(descriptor)


def call_all(file):
    """The faults of all calls, and how many calls there were."""
    caller = Caller(loaded(file))
    for ask in (ask_version, ask_circles, ask_largest, ask_refused, ask_miscounted, ask_outlines, ask_lists):
        ask(caller)
    return caller.faults, caller.calls


# From C, by the commands of the manual.


def turned_away(t, s, beats):
    """The line of a sheet that host/example.c turns away."""
    why = oracle.check(t, s, beats)
    text = texts([why.refusal])[why.refusal]
    place = f" at beat {why.place}" if why.place else ""
    off = f", {abs(why.surplus)} {'missing' if why.surplus < 0 else 'too many'}" if why.surplus else ""
    return f"Sheet {''.join(map(str, beats))}: refused {why.refusal}{place}: {text}{off}"


@functools.cache
def example_lines():
    """What host/example.c prints, worked out."""
    t, s, n = 3, 2, 1
    shipped = oracle.form_of(t, s, n)
    after = oracle.successor(t, s, shipped)
    _, changed, on = oracle.run(t, s, after, 3)
    _, changed_back, back = oracle.run_back(t, s, on, 4)
    shown = ["".join(map(str, beats)) for beats in (shipped, after, on, back)]
    return [
        f"Form requested: {t} tasks taken up, {s} set down, No. {n}",
        f"Form shipped: {shown[0]}",
        f"{t} taken up, {s} set down: {oracle.forms(t, s)} forms",
        f"Sheet {shown[0]}: No. {oracle.number_of(t, s, shipped)}",
        f"Next form: {shown[1]}, {oracle.changed(shipped, after)} beats changed",
        f"3 steps on: {shown[2]}, {changed} beats changed",
        f"4 steps back: {shown[3]}, {changed_back} beats changed",
        turned_away(2, 2, [1, 0, 0, 1]),
        turned_away(2, 1, [1, 1, 1]),
        turned_away(3, 1, [1, 0, 1, 0]),
    ]


def commands():
    """The commands of the page, the lines of one joined."""
    text = sections("ghanveltri.3")["LINKING"].replace("\\\n", "")
    return [line for line in text.split("\n") if line.startswith("cc ")]


def ran(command, folder, **variables):
    """What a command prints in a folder, with these variables and no others but the path."""
    own = {"PATH": os.environ["PATH"], **variables}
    done = subprocess.run(command, cwd=folder, env=own, stdout=subprocess.PIPE, stderr=subprocess.STDOUT, text=True)
    return f"status {done.returncode}: {done.stdout}" if done.returncode else done.stdout


def asks_for(file):
    """The shared libraries of ours that a file asks for."""
    return [name for name in re.findall(r"NEEDED.*\[(.*)\]", output("readelf", "-dW", file)) if name.startswith(NAME)]


def way_faults(command, lib):
    """One command of the page: what it builds has the library as it should, and runs."""
    plugin, shared = "plugin.c" in command, "-static" not in command and "--libs " in command
    with tempfile.TemporaryDirectory() as folder:
        shutil.copy(ROOT / "host/example.c", pathlib.Path(folder, "program.c"))
        pathlib.Path(folder, "plugin.c").write_text(PLUGIN)
        said = ran(["sh", "-euc", command], folder, PKG_CONFIG_PATH=str(lib / "pkgconfig"))
        made = pathlib.Path(folder, "plugin.so" if plugin else "a.out")
        if said or not made.exists():
            yield f"{command!r} says {said!r}"
            return
        if asks_for(made) != ([MAJOR] if shared else []):
            yield f"{command!r} makes what asks for {asks_for(made)}"
        run = [sys.executable, "-c", ASK_PLUGIN, made] if plugin else [made]
        right = "4\n" if plugin else "".join(line + "\n" for line in example_lines())
        printed = ran(run, folder, **({"LD_LIBRARY_PATH": str(lib)} if shared else {}))
        if printed != right:
            yield f"what {command!r} makes prints {printed!r}, and {right!r} is right"
        if plugin and not shared and "gv_" in output("nm", "-D", made):
            yield f"{command!r} lets names of the library out"
        if "TEXTREL" in output("readelf", "-dW", made):
            yield f"{command!r} makes text relocations"


def linking_faults(lib):
    ways = commands()
    if len(ways) != 5 or len(ways) != len(set(ways)):
        yield f"ghanveltri.3: {len(ways)} ways to link: {ways}"
    for command in ways:
        yield from way_faults(command, lib)


def main():
    for path in (ARCHIVE, SHARED):
        if not path.exists():
            print(f"there is no {path}: {HOW}")
            return 1
    with tempfile.TemporaryDirectory() as folder:
        lib = pathlib.Path(folder, "lib")
        said = ran([ROOT / "host/install", folder], ROOT)
        faults = [f"host/install says {said}"] if said else [*name_faults(lib)]
        if not faults:
            file = lib / MAJOR
            faults += [*dynamic_faults(file), *memory_faults(file), *symbol_faults(file)]
        calls = 0
        if not faults:
            faults, calls = call_all(lib / MAJOR)
            faults += linking_faults(lib)
    return verdict(faults, calls, "calls by ctypes")


if __name__ == "__main__":
    sys.exit(main())

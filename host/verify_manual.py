#!/usr/bin/env python3
"""Holds the manual pages of host/man to the header and to the commands.

ghanveltri(3) declares each function of the header as it stands there and says something of it, gives each refusal with
its number and its text, names each limit, and names nothing else; a number after the name of a constant is its value.
The page of each command names the options of --help; its example is the sample, and prints what it shows. All have the
header's version, and groff formats them without a warning. Prints each fault, and ends with status 1 if there is one.
"""
import os
import pathlib
import re
import shlex
import subprocess
import sys
import tempfile

from header import ARCHIVE, HEADER, HOW, constants, declared, prototypes, refusals, texts, version
from listing import LISTINGS, missing
from verifying import ROOT, has, verdict

PAGES = ROOT / "host/man"
LISTED = re.compile(r"^(GV_\w+) \((\d+)\)\n(.*)[.:]$", re.M)  # a refusal, its number and its text
STACK = re.compile(r"(\d+) KB of stack")


def unescaped(text):
    """A text of roff as it is shown."""
    text = re.sub(r"\\f[A-Z]", "", text)
    return text.replace(r"\-", "-").replace(r"\e", "\\")


def shown(line):
    """What a line of roff shows: the words of a macro for fonts, side by side or apart, or the line itself."""
    macro = re.match(r"\.([A-Z]+)\b ?(.*)", line)
    if not macro:
        return unescaped(line)
    name, words = macro.groups()
    if name not in ("B", "I", "BI", "BR", "IR", "RI", "RB", "IB"):
        return ""
    return unescaped(("" if len(name) == 2 else " ").join(shlex.split(words.replace("\\", "\\\\"))))


def sections(name):
    """The text of each section of a page."""
    parts = re.split(r"^\.SH (.*)\n", (PAGES / name).read_text(), flags=re.M)
    return {title: "\n".join(map(shown, text.splitlines())) for title, text in zip(parts[1::2], parts[2::2])}


def differences(what, right, got):
    """What a page has otherwise than the header."""
    for name in sorted(right.keys() | got.keys()):
        if got.get(name) != right.get(name):
            is_now, should = got.get(name, "missing"), right.get(name, "missing")
            yield f"ghanveltri.3: {what} {name} is {is_now}, in the library {should}"


def refusal_faults(parts):
    """Each refusal stands once in its section, with its number and its text; the text of no refusal is said."""
    beyond = max(refusals().values()) + 1
    said = texts([*refusals().values(), beyond])
    right = {name: f"{number}, {said[number]!r}" for name, number in refusals().items()}
    given = LISTED.findall(parts["REFUSALS"])
    yield from differences("refusal", right, {name: f"{number}, {words!r}" for name, number, words in given})
    if len(given) != len({name for name, *_ in given}):
        yield "ghanveltri.3: a refusal stands twice"
    if not has(parts["DESCRIPTION"], said[beyond]):
        yield f"ghanveltri.3: {said[beyond]!r} is not said"


def number_faults(text):
    """A number after a constant's name is its value, each limit is named, major version and stack are the header's."""
    values = constants()
    for name, number in re.findall(r"\b(GV_\w+) \((\d+)\)", text):
        if int(number) != values.get(name):
            yield f"ghanveltri.3: {name} is {number}, in the header {values.get(name)}"
    for name in values:
        if name.startswith(("GV_MAX_", "GV_LONGEST_")) and not has(text, name):
            yield f"ghanveltri.3: nothing is said of {name}"
    for major in set(re.findall(r"libghanveltri\.so\.(\d+)", text)) - {str(version()[0])}:
        yield f"ghanveltri.3: libghanveltri.so.{major} is of another version"
    if STACK.findall(text) != STACK.findall(HEADER.read_text()):
        yield "ghanveltri.3: another stack than in the header"


def library_faults(functions):
    parts = sections("ghanveltri.3")
    text = "\n".join(parts.values())
    yield from differences("function", functions, prototypes(parts["SYNOPSIS"]))
    yield from refusal_faults(parts)
    yield from number_faults(text)
    for name in functions:
        if not has(parts["DESCRIPTION"], name):
            yield f"ghanveltri.3: nothing is said of {name}"
    for name in set(re.findall(r"\b(?:gv|GV)_\w+", text)) - functions.keys() - constants().keys():
        yield f"ghanveltri.3: there is no {name}"


def example_of(page):
    """The commands of a page's example, and what it shows that they print."""
    (text,) = re.findall(r"^\.EX\n(.*?)^\.EE\n", (PAGES / page).read_text().split(".SH EXAMPLES\n")[1], re.M | re.S)
    lines = [unescaped(line) for line in text.splitlines()]
    commands = [line[2:] for line in lines if line.startswith("$ ")]
    return commands, "".join(line + "\n" for line in lines[len(commands) :])


def example_faults(listing, page):
    """The example of a command's page, in a folder of its own, with the command as it was built."""
    commands, right = example_of(page)
    with tempfile.TemporaryDirectory() as folder:
        path = f"{pathlib.Path(listing.command.path).parent}:{os.environ['PATH']}"
        script = ["sh", "-euc", "\n".join(commands)]
        done = subprocess.run(script, cwd=folder, env=os.environ | {"PATH": path}, stdout=subprocess.PIPE, text=True)
        orders = pathlib.Path(folder, "orders")
        made = orders.read_bytes() if orders.exists() else b""
    if (done.returncode, done.stdout) != (0, right):
        yield f"{page}: the example ends with {done.returncode} and prints {done.stdout!r}"
    sample = ROOT / "crates" / listing.name
    if (made, right.encode()) != ((sample / "stdin").read_bytes(), (sample / "stdout").read_bytes()):
        yield f"{page}: the example is not the sample"


def command_faults(listing):
    options = re.compile(r"(?<![\w-])--[a-z]\w*")
    said = subprocess.run([listing.command.path, "--help"], stdout=subprocess.PIPE, text=True, check=True).stdout
    page = f"{listing.name}.1"
    for part in ("SYNOPSIS", "OPTIONS"):
        if set(options.findall(sections(page)[part])) != set(options.findall(said)):
            yield f"{page}: {part} has other options than --help"
    yield from example_faults(listing, page)


def page_faults(page):
    right = ".".join(map(str, version()))
    title = page.read_text().split("\n")[0]
    if f'"ghanveltri {right}"' not in title:
        yield f"{page.name}: another version than the header's, {right}"
    command = ["groff", "-man", "-Tascii", "-ww", "-z", page]
    done = subprocess.run(command, stdout=subprocess.PIPE, stderr=subprocess.STDOUT, text=True)
    if done.returncode or done.stdout:
        yield f"{page.name}: groff says {done.stdout.strip()}"


def main():
    lacking = missing(listing.command for listing in LISTINGS)
    if not ARCHIVE.exists() or lacking:
        print(lacking or f"there is no {ARCHIVE}: {HOW}")
        return 1
    functions = declared()
    pages = sorted(PAGES.iterdir())
    faults = [*library_faults(functions), *(fault for listing in LISTINGS for fault in command_faults(listing))]
    faults += [fault for page in pages for fault in page_faults(page)]
    return verdict(faults, len(functions), f"functions in {len(pages)} pages")


if __name__ == "__main__":
    sys.exit(main())

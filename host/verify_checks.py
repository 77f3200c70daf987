#!/usr/bin/env python3
"""The test of the tests: breaks one thing at a time in a copy of the tree, and sees that the right check fails and names it.

  verify_checks.py             every break
  verify_checks.py --sources   what is held of the sources alone: no assert decides, and no variable of the environment is read

Each check passes on the copy before something is broken; two that take long are only run broken, as the gate runs them whole. Every host
test has a break, but for one that is another one's again. Prints a line for each break, and ends with status 1 at the first that is not
seen, or that cannot be made: what it changes must be there as often as it says. The tree itself is only read.
"""
import ast
import contextlib
import os
import pathlib
import shutil
import subprocess
import sys
import tempfile
import time
from typing import Callable, NamedTuple

import verify_cases
from verifying import ROOT, Wrong, contents, ended, language, parsed, sure, verdict

LIMIT = 300  # seconds for a check
LISTS = ("packing_list", "explain", "outline_list")
# The programs that list.
PROGRAMS = tuple(path for name in LISTS for path in (f"target/host/{name}", f"crates/{name}/out/{name}"))
BUILT = ("crates/ghanveltri_c/out/libghanveltri_c.a", "target/host/libghanveltri.*", *PROGRAMS, "target/ci.log", "target/whole.log")
RIGHT = ".right"  # after the name of a program, as it was built

# What is held of the sources.


def named(node):
    """The name that a part of a Python program ends with, or None."""
    return getattr(node, "attr", getattr(node, "id", None))


def reads_a_variable(node):
    """Whether a part of a Python program reads a variable of the environment other than PATH."""
    if isinstance(node, ast.Subscript):
        return named(node.value) == "environ" and not (isinstance(node.slice, ast.Constant) and node.slice.value == "PATH")
    return named(node) == "getenv" or (isinstance(node, ast.Attribute) and named(node.value) == "environ")


def python_faults(path):
    for node in ast.walk(parsed(path)):
        if isinstance(node, ast.Assert):
            yield f"{path}:{node.lineno}: an assert, which Python may pass over; sure of host/verifying.py says it"
        elif path.startswith("host/") and reads_a_variable(node):
            yield f"{path}:{node.lineno}: reads a variable of the environment"


def shell_faults(path):
    for number, line in enumerate(contents(path).splitlines(), 1):
        if "$GV_" in line or "${GV_" in line:
            yield f"{path}:{number}: reads a variable of the environment"


def hold_sources():
    files = [str(path.relative_to(ROOT)) for part in ("host", "crates") for path in sorted(ROOT.glob(f"{part}/**/*")) if path.is_file()]
    files = [path for path in files if not {"__pycache__", "out"} & {*path.split("/")}]
    held = [(path, {"py": python_faults, "sh": shell_faults}.get(language(path))) for path in files]
    held = [(path, faults) for path, faults in held if faults]
    return verdict([fault for path, faults in held for fault in faults(path)], len(held), "scripts")


# Changes. Each takes the path of a file in the copy.


def written(change):
    """A change of a file's text."""
    return lambda path: path.write_text(change(path.read_text(encoding="utf-8")), encoding="utf-8")


def swapped(text, old, new):
    """A text with one part for another, which is there once."""
    sure(text.count(old) == 1, f"{old!r} is there {text.count(old)} times")
    return text.replace(old, new)


def line_of(path, words):
    """The number of the line of a file that has these words, which are there once."""
    before, *after = contents(path).split(words)
    sure(len(after) == 1, f"{words!r} is in {path} {len(after)} times")
    return 1 + before.count("\n")


def swap(old, new):
    return written(lambda text: swapped(text, old, new))


def drop(start, times=1):
    """Without the lines that begin so, or with one of these; there are so many."""

    def change(text):
        lines = text.splitlines(keepends=True)
        kept = [line for line in lines if not line.startswith(start)]
        sure(len(lines) - len(kept) == times, f"{len(lines) - len(kept)} lines begin with {start!r}, and not {times}")
        return "".join(kept)

    return written(change)


def misspell(start):
    """Another last sign of the first line that begins so."""

    def change(text):
        line = next((line for line in text.splitlines() if line.startswith(start)), "")
        sure(line, f"no line begins with {start!r}")
        return text.replace(f"{line}\n", f"{line[:-1]}{'1' if line[-1] == '0' else '0'}\n", 1)

    return written(change)


def retold(says):
    """A log in which rt says another thing of the edit that is broken here."""

    def change(text):
        lines = [line for line in text.splitlines() if line.startswith(ABOUT)]
        sure(len(lines) == 1, f"{len(lines)} lines begin with {ABOUT!r}")
        return text.replace(lines[0], ABOUT + says)

    return written(change)


def becomes(text):
    return lambda path: path.write_text(text)


def exchange(one, other):
    """An archive in which two functions have each other's name."""

    def change(path):
        names = [f"--redefine-sym={one}={other}", f"--redefine-sym={other}={one}"]
        before = path.read_bytes()
        subprocess.run(["objcopy", *names, path], check=True)
        sure(path.read_bytes() != before, f"there are no {one} and {other}")

    return change


def lists_by(script, old, new):
    """A program that lists as a script of the host works it out, with one part of the oracle for another."""

    def change(path):
        host = next(above / "host" for above in path.parents if (above / "host/oracle.py").is_file())
        oracle = swapped((host / "oracle.py").read_text(), old, new)
        begin = f"#!{sys.executable} -B\nimport sys\nsys.path.insert(0, {str(host)!r})\nimport oracle\nexec({oracle!r}, vars(oracle))\n"
        path.write_text(f"{begin}import {script}\nsys.stdout.buffer.write({script}.output(sys.stdin.buffer.read()))\n")

    return change


def explains_by(old, new):
    return lists_by("explaining", old, new)


def outlines_by(old, new):
    return lists_by("outlining", old, new)


def gone(path):
    path.unlink()


def shorter(path):
    """A byte less at the end."""
    path.write_bytes(path.read_bytes()[:-1])


# The checks and their breaks.

COMMANDS = {  # where it is not the host test as it stands
    "the gate": ("gate/.ci/run",),
    "checks_can_fail": ("host/tests/checks_can_fail", "--sources"),
    "functions_agree": ("host/tests/functions_agree", "--brief"),
    "packing_list_agrees": ("host/tests/packing_list_agrees", "sample"),
    "explain_agrees": ("host/tests/explain_agrees", "examples"),
    "outline_list_agrees": ("host/tests/outline_list_agrees", "examples"),
    "stored_outputs_right": ("host/tests/stored_outputs_right", "counts", "lists", "order", "check"),
}
ENDS = {"the gate": "\n2 passed, 0 failed\n"}  # what it says at last where nothing is broken
LONG = {"faults_are_told", "installed_example_runs"}
THE_SAME = {"functions_agree_sanitized"}  # as functions_agree, built otherwise

OUTSIDE = {name: "none" for name in ("GV_ARCHIVE", "GV_PACKING_LIST", "GV_SEED", "PYTHONPATH", "CPATH", "ASAN_OPTIONS")}
OUTSIDE |= {"PYTHONOPTIMIZE": "1"}
# The gate with a toolchain that proves nothing, and one test: no variable from outside has come to it.
ALL_WELL = "rt: ok; handles allowed: none; must-fail edits: 1 refused; every proof was done in this run"
GATE = {
    "gate/bin/rt": f"#!/bin/sh\n[ \"$1\" != ci ] || printf '%s\\n' '{ALL_WELL}' '1 passed, 0 failed'\n",
    "gate/crates/ghanveltri_c/src/lib.rt": "",
    **{f"gate/crates/{name}/stdin": "" for name in LISTS},
    "gate/host/build": "#!/bin/sh\n",
    "gate/host/try_whole.py": "#!/bin/sh\n",
    "gate/host/tests/one": f"#!/bin/sh\nenv | grep -E '^({'|'.join(OUTSIDE)})=' && exit 1\nexit 0\n",
}


def listed_through(script):
    """A program whose lines are edited before they are printed."""
    return f"#!/bin/sh\nPATH=/usr/bin:/bin\n\"$0{RIGHT}\" | sed '{script}'\n"


LESS = listed_through("2d")  # it loses its second line
UNSIGNED = listed_through(r"s/ -\([0-9]\)/ \1/")  # it prints no sign
NO_SURPLUS = listed_through("/^refused/s/ [^ ]*$//")  # it prints no third field
NO_ONES = listed_through("/^refused 6/s/ [^ ]* [^ ]*$//")  # it prints no fourth and fifth field
NOT_APART = listed_through("/^$/d")  # it prints no empty line
EARLIER = "#!/bin/sh\nexec /bin/cat host/earlier/packing_list\n"  # it has the numbers of version 1.4.0
SILENT = f'#!/bin/sh\nexec "$0{RIGHT}" "$@" 2>/dev/null\n'  # it tells no failure

CLAIMS, VACUITY, SHAMS, REQUIRES = "docs/CLAIMS.md", "docs/VACUITY.md", "docs/SHAMS.md", "docs/REQUIRES.md"
FIRST = "| claim | kind | where |\n|---|---|---|---|\n| D1a |"  # after the first id of a header
THEOREMS, CASES, BOUNDED = "crates/number/proofs/Theorems.antt", "crates/bounded/proofs/Cases.antt", "crates/bounded/specs/Bounded.antt"
TREE, TREES, LINES = "crates/tree/specs/Tree.antt", "crates/tree/proofs/Cases.antt", "crates/line/proofs/Cases.antt"
HEADINGS = "crates/outline/specs/Outline.antt"
EDIT, REFUSED = "accepted_has_a_place", "refused, as it must be"  # of the crate `refusal`
ABOUT = f"rt: must-fail refusal/{EDIT}.edit: "
ANOTHER = "./proofs/value/Answers.antt:1:1: error: `another`: the two types differ"
OF_VERDICT = line_of("crates/refusal/src/lib.rt", "why.number()")  # a line of Result::refusal
IN_CODE = f"note: src/lib.rt:{OF_VERDICT}:9: it is not proved that it holds (`returns`)"
SHAM, LOG, WHOLE = f"crates/refusal/must-fail/{EDIT}.edit", "target/ci.log", "target/whole.log"
SEVERAL = "refusal/accepted_calls_misreported"  # an edit of two wrong programs: of `Result::refusal`, and of `value`
BY_ANOTHER = ANOTHER.replace("proofs/value", "proofs/Refusal/place")
FOR_A_NAME, BY_A_LIMIT = (ANOTHER.replace("the two types differ", what) for what in ("it has no field `value`", "antt ran out of stack"))
BY_A_NAME = "a name that the edit took away"  # what a comment may not say
HEADER, ARCHIVE, README = "include/ghanveltri.h", "target/host/libghanveltri.a", "README.md"
EXPORTS, CALLER = "crates/ghanveltri_c/src/lib.rt", "host/lists.c"  # the passes that are exported, and the C that calls them
BYTES, ENDED = "const uint8_t *src, size_t length,", "bool ended,"  # what a pass is given, in C
PAGE, LIST_PAGE, EXAMPLE = "host/man/ghanveltri.3", "host/man/packing_list.1", "host/example.c"
COMMAND, PROGRAM, EXPLAIN, EXPLAIN_PROGRAM, OUTLINE, OUTLINE_PROGRAM = PROGRAMS
EXPLAIN_PAGE, EXPLAINING, OUTLINE_PAGE = "host/man/explain.1", "host/explaining.py", "host/man/outline_list.1"
CHANGES, BEFORE = "changes(beats, own.after)", "form_of(t, s, (number_of(t, s, beats) - 1) % forms(t, s))"  # of the oracle; and the form before
PRINTED, FROM_RIGHT = "in numbers_of(beats)", "in numbers_of([1 - beat for beat in beats[::-1]])"  # of the oracle
LOOK, LOOKUP, STREAM = "| `lookup` | `Table::look` |", "crates/lookup/src/lib.rt", "crates/stream/src/lib.rt"
STORE, CIRCLE = "| `circle_back` | `Back::store` |", "crates/circle/src/lib.rt"  # of an impl of a trait of another crate; and the trait
GROUND, WALK, ORACLE, PACKING = "crates/cases_ground/stdout", "crates/cases_walk/stdout", "host/oracle.py", "host/packing.py"
NUMBER, RECORD, OUTLINES = (f"crates/cases_{of}/stdout" for of in ("number", "record", "outline"))
VERIFY_CASES, INDEPENDENT, STDIO = "host/verify_cases.py", "host/independent.c", "bench/packing_stdio.c"
EARLIER_LIST, EARLIER_EXPLAIN, PLAIN = "host/earlier/packing_list", "host/earlier/explain", "bench/plain.c"
COUNT, COUNTS = "crates/triangle/specs/Count.antt", "crates/triangle/src/table.rt"
LARGEST = "LARGEST: u64 = "  # before the number that follows it in the table of counts
TABLE_1, FIGURE = "Table 1 of source 000", "Figure 2.3 of source 001"
OPTIMIZED = {"PYTHONOPTIMIZE": "1"}


class Break(NamedTuple):
    """What is broken, where and how; what the check then says; variables of the environment and words that it gets."""

    what: str
    path: str
    change: Callable
    says: tuple
    variables: dict = {}
    words: tuple = ()


def kind_1_as_kind_3(*says):
    """What a record of kind 1 holds, taken for the number of the form."""
    return Break("kind 1 taken for kind 3", PACKING, swap("P: oracle.form_from_top", "P: oracle.form_of"), says)


def kinds_gone():
    """All lines of one kind deleted, for each kind of each program."""
    for program, stated in verify_cases.STATED.items():
        through = {kind: len(inputs) for kind, inputs in verify_cases.THROUGH[program].items()}
        for kind, lines in (stated | through).items():
            yield Break(f"no lines {kind!r}", f"crates/{program}/stdout", drop(f"{kind} ", lines), (program, repr(kind)))


def lines_wrong(path, *kinds):
    """A wrong line of each kind."""
    for kind in kinds:
        yield Break(f"a wrong line {kind!r}", path, misspell(f"{kind} "), (f"{kind} ", "should say"), OPTIMIZED, (kind,))


def turned(says, *names):
    """A function of the archive that goes on and the one that goes back, exchanged."""
    for name in names:
        back = name.replace("next", "previous").replace("run", "run_back")
        yield Break(f"{name} and {back} exchanged", ARCHIVE, exchange(f"gv_{name}", f"gv_{back}"), (says.format(name),))


def off_the_other_way(path, ones, t, *says):
    """A surplus of the other sign, in a file that has the ones and t by these words."""
    return Break("a surplus of the other sign", path, swap(f"{ones} - {t}", f"{t} - {ones}"), says)


def moved_as_found(says):
    """The places of the found 1 and of the moved beat, exchanged in the archive."""
    return Break("found and moved exchanged", ARCHIVE, exchange("gv_explain_found", "gv_explain_moved"), (says,))


def surplus_as_place(says):
    """The surplus and the place of the check, exchanged in the archive."""
    return Break("surplus and place exchanged", ARCHIVE, exchange("gv_check_surplus", "gv_check_place"), (says,))


def outline_parts_exchanged(says):
    """The refusal and the place of an outline, exchanged in the archive."""
    return Break("an outline's refusal and place exchanged", ARCHIVE, exchange("gv_outline_refusal", "gv_outline_place"), (says,))


def way_back_exchanged(says):
    """The refusal and the place of the way back, exchanged in the archive."""
    return Break("the way back and its place exchanged", ARCHIVE, exchange("gv_outline_read", "gv_outline_read_place"), (says,))


BREAKS = {
    "claims_name_what_exists": [
        Break("a row deleted", CLAIMS, drop("| D2b |"), ("[D2b]", "has no row")),
        Break("an open row deleted", CLAIMS, drop("| F8 |"), ("F8 has no row",)),
        Break("an id in another case", CLAIMS, swap("| D2b |", "| d2b |"), ("d2b: no id",)),
        Break("a row without its kind", CLAIMS, swap("has number n | theorem |", "has number n |"), ("4 columns", "D2b")),
        Break("a kind that is none", CLAIMS, swap("has number n | theorem |", "has number n | theorm |"), ("D2b", "'theorm'")),
        Break("another header", CLAIMS, swap(f"| id {FIRST}", f"| no {FIRST}"), ("no header",)),
        Break("a name only in a comment", THEOREMS, swap("\n  pub form-number :", "\n  -- form-number :"), ("D2b", "no form-number")),
        Break("a file gone", THEOREMS, gone, ("D2b: [D2b] is in no comment",)),
        Break("a tag gone", THEOREMS, swap(" [D2b]\n", "\n"), ("D2b: [D2b] is in no comment",)),
        Break("a tag of another name", THEOREMS, swap("[D2b]", "[D2b] [M3]"), ("M3: where is not", "#form-number")),
        Break("a place by hand", CLAIMS, swap(f"has number n | theorem | `{THEOREMS}#", "has number n | theorem | `"), ("D2b: where is",)),
        Break("a tag of no claim", THEOREMS, swap("[D2b]", "[D2b] [D9]"), ("[D9]", "has no row")),
        Break("a tag in another case", THEOREMS, swap("[D2b]", "[D2b] [d2c]"), ("[d2c]", "[D2c]")),
    ],
    "definitions_have_examples": [
        Break("a row deleted", VACUITY, drop(f"| `{TREE}#Tree` |"), (f"{TREE}#Tree has no example",)),
        Break("a row without its outside", VACUITY, swap(f" `{TREES}#one` |", ""), ("3 columns", f"{TREE}#Tree")),
        Break("a row of no example", VACUITY, swap(f"`{TREES}#one`", f"`{TREES}#two`"), ("Tree: ", "no theorem or line two")),
        Break("a row too many", VACUITY, swap(f"| `{TREE}#Tree` |", f"| `{TREE}#size` |"), ("size: ", "need no row", f"{TREE}#Tree has")),
        Break("two examples of one value", CASES, swap("(λ k. eqb k 7) 5 ≡ 5", "(λ k. eqb k 7) 5 ≡ 2"), (f"{BOUNDED}#first has no example",)),
        Break("a predicate that is only premised", LINES, swap("beats-10 : Beats (1 ∷ 0 ∷ [])", "beats-10 : Beats (1 ∷ 0 ∷ []) → ℕ"), ("#Beats has no",)),
        Break("an example only in a comment", CASES, swap("\nfirst-nowhere :", "\n-- first-nowhere :"), (f"{BOUNDED}#first has no",)),
        Break("a new definition", BOUNDED, swap("abbrev pub first ", "abbrev pub third "), ("third has no example",)),
        Break("a new one beside another", HEADINGS, swap("  pub below :", "  pub beneath :"), ("beneath has no example",)),
        Break("a new one in two lines", BOUNDED, swap("\nabbrev", "\npub Odd :\n  ℕ → Type 0\n\nabbrev"), ("Odd has no example",)),
    ],
    "heads_name_what_is_there": [
        Break("a name that is not there", BOUNDED, swap("--     every f n ", "--     evry f n "), (f"{BOUNDED} defines no evry",)),
        Break("a name only in a comment", BOUNDED, swap("unfoldable pub every :", "-- every :"), (f"{BOUNDED} defines no every",)),
        Break("one space after a name", BOUNDED, swap("--     every f n     the", "--     evry the"), ("defines no evry",)),
        Break("no name listed", BOUNDED, drop("--     ", 2), (f"{BOUNDED} lists no name",)),
        Break("no head", BOUNDED, drop("--", 3), (f"{BOUNDED} has no head",)),
        Break("a long line", BOUNDED, swap("unfoldable pub every :", f"unfoldable pub every :{' ' * 100}"), (f"{BOUNDED}:", "characters long")),
    ],
    "requires_are_listed": [
        Break("a row deleted", REQUIRES, drop(LOOK), ("Table::look of lookup has a `requires` and no row",)),
        Break("a row of no such function", REQUIRES, swap(LOOK, "| `lookup` | `luok` |"), ("no function `luok`", "Table::look of lookup")),
        Break("a row twice", REQUIRES, swap("`table::in_low`", "`table::inside`"), ("table::inside of triangle stands twice",)),
        Break("a row in another form", REQUIRES, swap(LOOK, "| lookup | `Table::look` |"), (REQUIRES, "a row is `crate`")),
        Break("a row without a column", REQUIRES, swap(f"{LOOK} public |", LOOK), ("5 columns", "`Table::look`")),
        Break("a row that does not say why", REQUIRES, swap("| it copies them |", "| |"), ("none is empty",)),
        Break("a public one said to be private", REQUIRES, swap(f"{LOOK} public |", f"{LOOK} private |"), ("look` of `lookup` is public",)),
        Break("a trait's said to be private", REQUIRES, swap("`Way::plan` | public", "`Way::plan` | private"), ("`Way::plan` of `circle` is public",)),
        Break("an impl's said to be private", REQUIRES, swap(f"{STORE} public |", f"{STORE} private |"), ("`Back::store` of `circle_back` is public",)),
        Break("a row of an impl deleted", REQUIRES, drop(STORE), ("Back::store of circle_back has a `requires` and no row",)),
        Break("a trait no longer public", CIRCLE, swap("\npub trait Way", "\ntrait Way"), ("`Way::store` of `circle` is private", "`On::plan` of")),
        Break("a private one said to be public", REQUIRES, swap("`reads::kind` | private", "`reads::kind` | public"), ("is private",)),
        Break("one that is no longer lent on", STREAM, drop("pub use moving::exchange;"), ("`moving::exchange` of `stream` is private",)),
        Break("a `requires` gone", LOOKUP, drop("        requires {", 2), ("`lookup` has no function `Table::look` with a `requires`",)),
        Break("a new `requires`", STREAM, swap("Front\n    ensures", "Front\n    requires { none }\n    ensures"), ("at_front of stream",)),
    ],
    "edits_are_listed": [
        Break("no log", LOG, gone, (LOG, "rt must-fail", "rt ci")),
        Break("an edit that is not tried", LOG, drop(ABOUT), (EDIT, "nothing, by the log")),
        Break("a refusal without a fact", LOG, retold(f"{REFUSED}: what"), (EDIT, "as it must be: what")),
        Break("a refusal of another need", LOG, retold(f"{REFUSED}: {ANOTHER}"), (EDIT, "`value`: `another`")),
        Break("a refusal in the code", LOG, retold(f"{REFUSED}: {IN_CODE}"), (EDIT, "`Result::refusal`: `returns`")),
        Break("one cut short", LOG, retold(f"{REFUSED}: {IN_CODE[:-4]}"), (EDIT, "`Result::refusal`: `retur..")),
        Break("a refusal for names alone", LOG, retold(f"{REFUSED} (only because"), (EDIT, "only because")),
        Break("a refusal by a limit", LOG, retold(f"{REFUSED} (only by a limit"), (EDIT, "only by a limit")),
        Break("a bad edit", LOG, retold("BAD EDIT: why"), (EDIT, "BAD EDIT")),
        Break("an edit that is proved", LOG, retold("NOT REFUSED: why"), (EDIT, "NOT REFUSED")),
        Break("no log of the edits tried whole", WHOLE, gone, (WHOLE, "host/try_whole.py")),
        Break("an edit not tried whole", WHOLE, swap(f"{SEVERAL}\n", "refusal/another\n"), (SEVERAL, "`value`: `returns`, and")),
        Break("a wrong program of several refused at another fact", WHOLE, swap(f"{SEVERAL}\n", f"{SEVERAL}\n{ANOTHER}\n"), (SEVERAL, "at `value`: `another`")),
        Break("another function refused too", WHOLE, swap(f"{SEVERAL}\n", f"{SEVERAL}\n{BY_ANOTHER}\n"), (SEVERAL, "`Refusal::place`: `another`")),
        Break("one of several refused for a name", WHOLE, swap(f"{SEVERAL}\n", f"{SEVERAL}\n{FOR_A_NAME}\n"), (SEVERAL, "a name that the edit took")),
        Break("one of several refused by a limit", WHOLE, swap(f"{SEVERAL}\n", f"{SEVERAL}\n{BY_A_LIMIT}\n"), (SEVERAL, "a limit of the prover")),
        Break("a sham deleted", SHAMS, drop("| P6b "), (SHAMS, "P6b")),
        Break("another count", SHAMS, swap(" wrong programs in ", "0 wrong programs in "), (SHAMS, "it says")),
        Break("another fact", SHAM, swap("`accepted-place`.", "`accepted`."), (EDIT, "refused at `proofs/Cases`: `accepted-place`")),
        Break("an edit that says that it took a name away", SHAM, swap("`accepted-place`.", f"`{BY_A_NAME}`."), (EDIT, f"`{BY_A_NAME}`, which shows")),
        Break("an edit that says no fact", SHAM, drop("# Refused at"), (f"{EDIT}: a wrong program says",)),
        Break("an edit that says nothing else", SHAM, drop("# An accepted call"), (f"{EDIT}: a wrong program says",)),
        Break("an edit gone", SHAM, gone, (SHAMS, "it says")),
    ],
    "stored_outputs_right": [
        Break("no row of Table 1", GROUND, drop(tuple(f"counts of {t}:" for t in range(9)), 9), (TABLE_1, "'counts of 0'")),
        Break("no count of lists", GROUND, drop("lists of ", 9), (TABLE_1, "'lists of 0'")),
        Break("no Figure 2.3", WALK, drop("order 4 4:"), (FIGURE, "'order 4 4'")),
        Break("a row of Table 1 gone from the oracle", ORACLE, drop("    [1, 5, 14, 28, 42, 42],"), (ORACLE, TABLE_1)),
        Break("another number in Table 1", ORACLE, swap("[1, 5, 14, 28,", "[1, 5, 14, 29,"), (TABLE_1, "row 5"), OPTIMIZED),
        Break("another word in Figure 2.3", ORACLE, swap('"11001100 ', '"11001010 '), (FIGURE,), OPTIMIZED),
        Break("a wrong line", GROUND, swap("check 2 2 1001: refused 5 2 0", "check 2 2 1001: refused 5 1 0"), ("check 2 2 1001",), OPTIMIZED),
        Break("a sign lost", GROUND, swap("check 3 1 1010: refused 6 0 -1", "check 3 1 1010: refused 6 0 1"), ("check 3 1 1010",), OPTIMIZED),
        Break("a surplus lost", GROUND, swap("check 2 1 111: refused 6 0 1", "check 2 1 111: refused 6 0"), ("check 2 1 111",), OPTIMIZED),
        off_the_other_way(ORACLE, "beats.count(1)", "t", "check 2 1 111", "should say 'refused 6 0 -1'"),
        Break("another sign folded", VERIFY_CASES, swap("why.surplus < 0)", "why.surplus > 0)"), ("off 1 1", "should say"), {}, ("off",)),
        Break("surpluses that cannot be", ORACLE, swap("s - more <= t + more", "True"), ("off 1 0", "these surpluses"), OPTIMIZED, ("off",)),
        Break("a line of no kind", GROUND, swap("count 2 3:", "cuont 2 3:"), ("'cuont'",)),
        Break("a stored output gone", WALK, gone, (WALK,)),
        *lines_wrong(GROUND, "off"),
        *lines_wrong(NUMBER, "number", "form", "ends"),
        *lines_wrong(RECORD, "read", "write"),
        *lines_wrong(OUTLINES, "outline", "outline_read", "outlines", "outline_bytes", "outline_rows", "outline_damage"),
        *lines_wrong(WALK, "order_back", "round_back", "previous", "previous_changed", "run_back", "run_back_changed"),
        *lines_wrong(WALK, "explain", "explain_number", "explain_round"),
        Break("an example gone", WALK, drop("explain 3 2 11010:"), ("the manual's 'explain 3 2 11010' is missing",)),
        Break("found and moved exchanged", WALK, swap("accepted 3 3 4 1 2 3 4", "accepted 3 4 3 1 2 3 4"), ("explain 3 2 11010",), OPTIMIZED, ("explain",)),
        Break("no place folded as 0", VERIFY_CASES, swap("NO_PLACE = 2**64 - 1", "NO_PLACE = 0"), ("explain_round 0 0", "should say"), {}, ("explain_round",)),
        Break("the rightmost 1 worked out", ORACLE, swap("rises[0]", "rises[-1]"), ("finds another 1 than that at 2",), OPTIMIZED, ("explain_round",)),
        *kinds_gone(),
    ],
    "table_as_generated": [
        Break("another number in the table", COUNTS, swap(LARGEST, f"{LARGEST}1"), ("src/table.rt is not",)),
        Break("no largest count", COUNT, drop("largest = "), ("has not one line 'largest = NUMBER'",)),
    ],
    "header_agrees": [
        Break("another constant", HEADER, swap("#define GV_RUN_TOO_LONG 13", "#define GV_RUN_TOO_LONG 14"), ("GV_RUN_TOO_LONG",)),
        Break("a function gone", HEADER, drop("uint64_t gv_version(void);"), ("gv_version",)),
        Break("a surplus gone", HEADER, drop("int32_t gv_check_surplus("), ("gv_check_surplus is not in the header",)),
        Break("a surplus without a sign", HEADER, swap("\nint32_t gv_number_s", "\nuint32_t gv_number_s"), ("gv_number_surplus of the header is",)),
        Break("other words of a surplus", HEADER, swap("never 0 after that", "never 1 after that"), ("nothing holds the 1", "'never 0 ")),
        Break("a place for no place", HEADER, swap("GV_NO_PLACE 18446744073709551615u", "GV_NO_PLACE 64"), ("GV_NO_PLACE of the header is 64",)),
        Break("another number of a case", HEADER, swap("4: the found 1 moves", "5: the found 1 moves"), ("nothing holds the 5", "'4: the found 1")),
        Break("another length of the longest outline", HEADER, swap("(GV_MAX_TASKS + 1))", "GV_MAX_TASKS)"), ("OUTLINE of the header is 1024",)),
        Break("the length of a text called otherwise", HEADER, swap("uint8_t *text, size_t room);", "uint8_t *text, size_t size);"), ("gv_outline of",)),
        Break("fewer calls inside each other", HEADER, swap("at most 65 calls", "at most 33 calls"), ("nothing holds the 33", "'at most 65 calls")),
        Break("less stack said", HEADER, swap("up to 6 KB", "up to 4 KB"), ("bytes of stack, and the header says 4000",)),
        Break("numbers moved the other way", HEADER, swap("(n + N - 1) % N", "(n + 1) % N"), ("(n + N - 1) % N here",)),
        Break("parameters of the passes exchanged in C", CALLER, swap(f"{BYTES} {ENDED}", f"{ENDED} {BYTES}"), ("list_packing of the C of the",)),
        Break("a length of another width in C", CALLER, swap("uint8_t *text, size_t room", "uint8_t *text, int32_t room"), ("list_explaining of the C",)),
        Break("a pass not declared in C", CALLER, swap("list_explaining, list_outlining;", "list_explaining;"), ("list_outlining is not in the C",)),
        Break("fields exchanged in C", CALLER, swap("consumed, bytes, front;", "bytes, consumed, front;"), ("struct passed of the C of the lists is",)),
        Break("a narrower field in C", CALLER, swap("    uint64_t consumed,", "    uint32_t consumed,"), ("struct passed of the C of the lists is",)),
        Break("parameters of a pass exchanged", EXPORTS, swap("outlining(src: &[u8], ended: bool,", "outlining(ended: bool, src: &[u8],"), ("list_outlining of",)),
        Break("a field of another width", EXPORTS, swap("    pub front: u64,", "    pub front: i32,"), ("struct passed of the C of the lists is",)),
        Break("a layout that is not C's", EXPORTS, swap("#[repr(C)]\n", ""), ("struct passed of the C of the lists is not in the source",)),
        Break("the archive gone", ARCHIVE, gone, ("(cd crates/ghanveltri_c && rt lib)",)),
    ],
    "manual_agrees": [
        Break("a function gone from the page", PAGE, drop('.BI "uint64_t gv_version('), ("gv_version",)),
        Break("a surplus gone from the page", PAGE, drop('.BI "int32_t gv_check_surplus('), ("gv_check_surplus is missing",)),
        Break("no surplus in the example", LIST_PAGE, swap("\nrefused 7 0 0\n", "\nrefused 7 0\n"), ("packing_list.1: the example",)),
        Break("another place in the example", EXPLAIN_PAGE, swap("\n4 2 2 1 2\n", "\n4 2 2 1 3\n"), ("explain.1: the example",)),
        Break("no empty line in the example", OUTLINE_PAGE, swap("\n1.2\n\n", "\n1.2\n"), ("outline_list.1: the example",)),
        Break("another longest outline", PAGE, swap('OUTLINE " (1056)"', 'OUTLINE " (1055)"'), ("GV_LONGEST_OUTLINE is 1055",)),
        Break("an option gone from a command's page", EXPLAIN_PAGE, drop(".B \\-\\-version"), ("explain.1: OPTIONS has other options",)),
        Break("another number of a refusal", PAGE, swap('GV_RUN_TOO_LONG " (13)"', 'GV_RUN_TOO_LONG " (14)"'), ("GV_RUN_TOO_LONG",)),
    ],
    "shared_library_agrees": [
        Break("a function more in the header", HEADER, swap("gv_version(void);", "gv_version(void);\nint gv_more(void);"), ("gv_more",)),
        Break("a surplus of another type", HEADER, swap("\nint32_t gv_check_s", "\nuint64_t gv_check_s"), ("by ctypes, gv_check_surplus(",)),
        Break("a place of another type", HEADER, swap("\nuint64_t gv_explain_m", "\nint32_t gv_explain_m"), ("by ctypes, gv_explain_moved(",)),
        off_the_other_way(ORACLE, "beats.count(1)", "t", "by ctypes, gv_check_surplus(", "by ctypes, gv_number_surplus("),
        Break("a byte more room worked out", ORACLE, swap("len(own) > len(text)", "len(own) >= len(text)"), ("gv_outline_refusal(", "gv_outline(")),
        Break("bytes after n lines passed over", ORACLE, swap("or len(lines) > n or rest", "or len(lines) > n"), ("by ctypes, gv_outline_read(",)),
    ],
    "functions_agree": [
        Break("two functions exchanged", ARCHIVE, exchange("gv_count_place", "gv_count_refusal"), ("gv_count_refusal",)),
        *turned("gv_{}(", "next", "next_changed", "run", "run_changed"),
        surplus_as_place("gv_check_place("),
        moved_as_found("gv_explain_found("),
        outline_parts_exchanged("gv_outline_refusal("),
        way_back_exchanged("gv_outline_read_place("),
        Break("numbers from 1", INDEPENDENT, swap("return forms_b", "return 1 + forms_b"), ("number otherwise",)),
        Break("sisters numbered on", INDEPENDENT, swap("counters[last.depth--] = 0;", "last.depth--;"), ("an example's outline differs",)),
        Break("a byte more room worked out", INDEPENDENT, swap("text) > room", "text) >= room"), ("refusal of the outline differs",)),
        Break("a second child read first", INDEPENDENT, swap("last->depth ? 1 :", "last->depth ? 2 :"), ("an example's refusal of a text differs",)),
        Break("bytes after n lines passed over", INDEPENDENT, swap("read < room ? refused(15, n) : ", ""), ("refusal of a text differs",)),
        Break("another case worked out", INDEPENDENT, swap("found + 1 ? 3 : 4", "found + 1 ? 4 : 3"), ("an example's case differs",)),
        Break("another 1 found", INDEPENDENT, swap("NO_PLACE : found - 1", "NO_PLACE : found"), ("an example's found 1 differs",)),
        off_the_other_way(INDEPENDENT, "(int64_t)ones", "(int64_t)t", "an example's surplus differs"),
    ],
    "functions_programs_agree": [
        Break("two functions exchanged", ARCHIVE, exchange("gv_count_place", "gv_count_refusal"), ("count_refusal",)),
        *turned("{} by ", "next", "run_changed"),
        surplus_as_place("check_place by "),
        moved_as_found("explain_found by "),
        outline_parts_exchanged("outline_refusal by "),
        way_back_exchanged("outline_read by "),
        Break("bytes after n lines passed over", PLAIN, swap("return at == end ? n + 1 : n;", "return n + 1;"), ("outline_read by loop answers",)),
        Break("a byte more room needed", PLAIN, swap("length) <= room ? 0 : 12", "length) < room ? 0 : 12"), ("outline_refusal by loop answers",)),
        Break("numbers from 1", PLAIN, swap("[ups][downs] - 1;", "[ups][downs];"), ("number by bytes answers",)),
    ],
    "packing_list_agrees": [
        Break("a line lost", COMMAND, becomes(LESS), ("sample", "line 2")),
        Break("a line lost by the Rattle program", PROGRAM, becomes(LESS), ("sample", "line 2"), OPTIMIZED),
        Break("a line lost, and a right program named from outside", COMMAND, becomes(LESS), ("line 2",), {"GV_PACKING_LIST": PROGRAM}),
        Break("no command", COMMAND, gone, (COMMAND, "host/build")),
        Break("a third field lost", COMMAND, becomes(NO_SURPLUS), ("sample", "line 3")),
        kind_1_as_kind_3("sample: worked out wrongly: line 1"),
        Break("kind 3 taken for kind 1", PACKING, swap(".form_of}", ".form_from_top}"), ("each kind", "line 3")),
        Break("a sign lost", PROGRAM, becomes(UNSIGNED), ("line 2", "b'refused 6 0 -1' is right"), {}, ("miscounted",)),
        Break("no sign worked out", PACKING, swap("{why.surplus}", "{abs(why.surplus)}"), ("miscounted: worked out wrongly: line 2",), {}, ("miscounted",)),
    ],
    "explain_agrees": [
        Break("a line lost", EXPLAIN, becomes(LESS), ("examples", "line 2")),
        Break("a line lost by the Rattle program", EXPLAIN_PROGRAM, becomes(LESS), ("examples", "line 2"), OPTIMIZED),
        Break("no Rattle program", EXPLAIN_PROGRAM, gone, (EXPLAIN_PROGRAM, "cd crates/explain && rt run")),
        Break("case 4 where both shifts agree", EXPLAIN, explains_by("if k + 1 <=", "if beats[k:][:1] == [0] and k + 1 <="), ("line 2", "got b'4 2")),
        Break("case 2 for one form", EXPLAIN_PROGRAM, explains_by("forms(t, s) == 1", "s == 0"), ("b'1 - - -' is right, got b'2 - 1 -'",)),
        Break("the found 1 counted from 1", EXPLAIN, explains_by("[k - 1 for k in own.found]", "own.found"), ("line 2", "got b'3 3 3 1 2'")),
        Break("changed places counted from 1", EXPLAIN, explains_by("enumerate(zip(old, new))", "enumerate(zip(old, new), 1)"), ("got b'2 - 4 2 4'",)),
        Break("changed places of the form before", EXPLAIN, explains_by(CHANGES, f"changes({BEFORE}, beats)"), ("changes to another",), {}, ("steps",)),
        Break("changed places that descend", EXPLAIN, explains_by(CHANGES, f"{CHANGES}[::-1]"), ("do not ascend",), {}, ("steps",)),
        Break("a changed place lost", EXPLAIN, explains_by(CHANGES, f"{CHANGES}[:1]"), ("steps", "no line of this form"), {}, ("steps",)),
        Break("the rightmost 1 found", EXPLAIN_PROGRAM, explains_by("rises[0]", "rises[-1]"), ("finds another 1 than that at 2",), {}, ("steps",)),
        Break("the found 1 said to move", EXPLAIN, explains_by("Step(3, [k], [k + 1]", "Step(4, [k], [k]"), ("moves to another",), {}, ("steps",)),
        Break("another case for the same places", EXPLAIN, explains_by("Step(3, [k]", "Step(4, [k]"), ("the places of case 3",), {}, ("steps",)),
        Break("the rightmost 1 worked out", ORACLE, swap("rises[0]", "rises[-1]"), ("examples: worked out wrongly: line 4",)),
        Break("no ones asked for and found", EXPLAIN, becomes(NO_ONES), ("got b'refused 6 0 1'",), {}, ("miscounted",)),
        Break("the zeros asked for", EXPLAINING, swap("{body[2]}", "{body[3]}"), ("miscounted: worked out wrongly: line 1",), {}, ("miscounted",)),
    ],
    "outline_list_agrees": [
        Break("a line lost", OUTLINE, becomes(LESS), ("examples", "line 2")),
        Break("a line lost by the Rattle program", OUTLINE_PROGRAM, becomes(LESS), ("examples", "line 2"), OPTIMIZED),
        Break("no Rattle program", OUTLINE_PROGRAM, gone, (OUTLINE_PROGRAM, "cd crates/outline_list && rt run")),
        Break("no empty lines", OUTLINE, becomes(NOT_APART), ("examples", "line 1,", "b'' is right, got b'1'")),
        Break("sisters numbered on", OUTLINE, outlines_by("(*parent, below[parent])", "(*parent, below[parent] + len(parent))"), ("got b'1.2'",)),
        Break("another refusal", OUTLINE_PROGRAM, outlines_by("Why(14)", "Why(12)"), ("b'refused 14 0 0' is right, got b'refused 12 0 0'",)),
        Break("outlines from right to left", OUTLINE, outlines_by(PRINTED, FROM_RIGHT), ("is read back to",), {}, ("read_back",)),
        Break("places from 0 worked out", ORACLE, swap("(*parent, below[parent])", "(*parent, below[parent] - 1)"), ("examples: worked out wrongly: line 2",)),
        Break("a third field lost", OUTLINE, becomes(NO_SURPLUS), ("got b'refused 6 0'",), {}, ("miscounted",)),
    ],
    "packing_programs_agree": [
        Break("a line lost", PROGRAM, becomes(LESS), ("packing_list",)),
        off_the_other_way(STDIO, "ones", "t", "packing_stdio does not write"),
        Break("kinds 1 and 3 exchanged", STDIO, swap("kind == 3 ?", "kind == 1 ?"), ("packing_stdio does not write",)),
        Break("sisters numbered on", STDIO, swap("last[level--] = 0;", "level--;"), ("outline_list does not write",)),
        Break("a case explained otherwise", STDIO, swap("one - zero < zero", "one - zero <= zero"), ("explain does not write",)),
    ],
    "earlier_records_read": [
        Break("a record cut", "host/earlier/records", shorter, ("host/earlier/records is not what",)),
        Break("another form stored", EARLIER_LIST, misspell("5 3 27 "), (EARLIER_LIST, "got b'5 3 27 11110000'")),
        Break("another place stored", EARLIER_EXPLAIN, misspell("2 - 7 "), ("stored records", "b'2 - 7 1 0' is right")),
        Break("numbers not moved", COMMAND, becomes(EARLIER), ("b'2 1 1 110' is right, got b'2 1 0 110'",)),
        Break("an explanation lost", EXPLAIN_PROGRAM, becomes(LESS), ("explain: the stored records, from_file: line",)),
        kind_1_as_kind_3(f"{EARLIER_LIST}: line"),
        Break("numbers from the top moved on", ORACLE, swap("(n - 1) %", "(n + 1) %"), ("from the top of (3, 1)",)),
    ],
    "faults_are_told": [
        Break("a failure not told", COMMAND, becomes(SILENT), ("stop_behind_a_9 of packing_list: ", "full_device of packing_list: command ")),
        Break("a failure not told by explain", EXPLAIN, becomes(SILENT), ("full_device of packing_list: ", "full_device of explain: command ")),
        Break("a failure not told by outline_list", OUTLINE, becomes(SILENT), ("full_device of explain: ", "full_device of outline_list: command ")),
    ],
    "installed_example_runs": [
        Break("no command", COMMAND, gone, (COMMAND,)),
        Break("no command to explain", EXPLAIN, gone, (EXPLAIN,)),
        Break("another place stored", "crates/explain/stdout", swap("4 2 2 1 2", "4 2 2 1 3"), ("the installed explain does not list",)),
        Break("no command for outlines", OUTLINE, gone, (OUTLINE,)),
        Break("another number stored", "crates/outline_list/stdout", swap("1.2", "1.3"), ("the installed outline_list does not list",)),
        Break("another line shown", README, swap("\n    4 steps back: 11010,", "\n    4 steps back: 11100,"), ("README.md does not show",)),
        Break("a surplus shown otherwise", EXAMPLE, swap("-surplus);", "surplus);"), ("does not print what it should",)),
    ],
    "checks_can_fail": [
        Break("an assert", ORACLE, swap("    sure(n == 0, ", "    assert (n == 0, "), (ORACLE, "an assert")),
        Break("a variable read", PACKING, swap("\nimport sys\n", "\nimport os, sys\nos.environ.get('X')\n"), (PACKING, "reads a variable")),
    ],
    "the gate": [
        Break("the project's variables let in", "gate/.ci/run", swap("GV_* | ", ""), ("GV_ARCHIVE", "GV_PACKING_LIST", "GV_SEED"), OUTSIDE),
        Break("Python's variables let in", "gate/.ci/run", swap("PYTHON* | ", ""), ("PYTHONOPTIMIZE",), OUTSIDE),
        Break("a crate not proved", "gate/bin/rt", swap("1 passed, 0 failed", "1 passed, 1 failed"), ("1 passed, 1 failed",)),
        Break("a bad edit", "gate/bin/rt", swap("1 refused;", "1 refused, 1 bad;"), ("1 bad;", "edit is bad")),
        Break("an edit that cannot be tried whole", "gate/host/try_whole.py", becomes("#!/bin/sh\necho broken\nexit 1\n"), ("broken",)),
        Break("a toolchain that fails", "gate/bin/rt", swap("0 failed'", "0 failed'; exit 1"), ("1 passed, 0 failed",)),
        Break("a test that fails", "gate/host/tests/one", becomes("#!/bin/sh\necho broken\nexit 1\n"), ("broken",)),
    ],
}


# The copy, and the runs.


def copied(folder):
    """The tree without what is built, what the checks need of that, and the gate with nothing to prove."""
    copy = folder / "tree"
    shutil.copytree(ROOT, copy, ignore=shutil.ignore_patterns("target", "out", ".git", "__pycache__"))
    for path in (path for pattern in BUILT for path in ROOT.glob(pattern)):
        to = copy / path.relative_to(ROOT)
        to.parent.mkdir(parents=True, exist_ok=True)
        shutil.copy2(path, to)
        if str(path.relative_to(ROOT)) in PROGRAMS:
            shutil.copy2(path, f"{to}{RIGHT}")
    for name, text in GATE.items():
        (copy / name).parent.mkdir(parents=True, exist_ok=True)
        (copy / name).write_text(text)
        (copy / name).chmod(0o755)
    shutil.copytree(copy / ".ci", copy / "gate/.ci")
    return copy


@contextlib.contextmanager
def broken(copy, each):
    """The copy with one thing changed, and afterwards as it was."""
    path, aside = copy / each.path, copy.parent / "aside"
    sure(path.exists(), f"there is no {each.path}")
    path.rename(aside)
    try:
        if each.change is not gone:
            shutil.copy2(aside, path)
            each.change(path)
        yield
    finally:
        path.unlink(missing_ok=True)
        aside.rename(path)


def run(copy, test, variables, words=()):
    """The status and the output of a check. It gets these variables of the environment, and the path; and words for those of COMMANDS."""
    path = f"{copy}/gate/bin:{os.environ['PATH']}" if test == "the gate" else os.environ["PATH"]
    own = {"PATH": path, "PYTHONDONTWRITEBYTECODE": "1", **variables}
    command = COMMANDS.get(test, (f"host/tests/{test}",))
    command = (command[0], *words) if words else command
    pipes = {"stdout": subprocess.PIPE, "stderr": subprocess.STDOUT}
    try:
        done = subprocess.run(command, cwd=copy, env=own, text=True, timeout=LIMIT, **pipes)
    except subprocess.TimeoutExpired as late:
        raise Wrong(f"{test}: no end after {LIMIT} seconds") from late
    return done.returncode, done.stdout


def see(copy, test, each):
    """Breaks one thing, and sees that the check fails and says what it should."""
    try:
        with broken(copy, each):
            status, said = run(copy, test, each.variables, each.words)
    except Wrong as wrong:
        raise Wrong(f"{test}: {each.what}: this break cannot be made in {each.path}: {wrong}") from wrong
    sure(status != 0, f"{test}: {each.what}: not seen; it passes although {each.path} is broken, and says\n{said}")
    missing = [word for word in each.says if word not in said]
    sure(not missing, f"{test}: {each.what}: it fails and does not name {missing}, but says\n{said}")


def hold_breaks():
    tests = {path.name for path in ROOT.glob("host/tests/*")}
    unbroken = tests - BREAKS.keys() - THE_SAME
    sure(not unbroken, f"no break of {', '.join(sorted(unbroken))}")
    count = 0
    with tempfile.TemporaryDirectory() as folder:
        copy = copied(pathlib.Path(folder))
        for test, breaks in BREAKS.items():
            if test not in LONG:
                status, said = run(copy, test, OUTSIDE if test == "the gate" else {})
                passes = status == 0 and said.endswith(ENDS.get(test, ""))
                sure(passes, f"{test}: it does not pass on what is not broken, but says\n{said}")
            for each in breaks:
                start = time.monotonic()
                see(copy, test, each)
                print(f"{test}: {each.what}: seen, {time.monotonic() - start:.1f} s", flush=True)
                count += 1
    print(f"{count} breaks of {len(BREAKS)} checks, each seen")
    return 0


def main():
    sure(sys.argv[1:] in ([], ["--sources"]), "verify_checks.py, or verify_checks.py --sources")
    status = hold_sources()
    return status or (0 if sys.argv[1:] else hold_breaks())


if __name__ == "__main__":
    sys.exit(ended(main))

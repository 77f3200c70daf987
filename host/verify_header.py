#!/usr/bin/env python3
"""Holds include/ghanveltri.h to the library.

The header alone compiles as C99 and as C++11. Each function gv_* that crates/ghanveltri_c exports, or that the C of
the library defines, stands in the header with the same parameters, in the same order, under the same names and in the same
widths, and it stands in the archive; neither has another. The exports without gv_, which the C of the lists calls, are
declared there in the same way, and the struct that they fill has the same fields, in the same order and widths. A slice
is a pointer and then its length, which is called room for a text. The constants have the values of the crates. Every refusal has a text of its own. Every number in a comment is computed
here, or listed with what holds it, and every mark is a claim. The archive brings no other name and no memory that can
be written, and it needs nothing but the C library's memory functions, its read and write, and errno.

Prints each fault, and ends with status 1 if there is one.
"""
import math
import pathlib
import re
import subprocess
import sys
import tempfile

import oracle
import packing
from header import ARCHIVE, HEADER, HOW, constants, declarator, declared, output, parameter, prototype, prototypes
from header import refusals, texts
from listing import LISTED, NOT_READ, NOT_WRITTEN
from verifying import ROOT, verdict

CRATES = ROOT / "crates"
BUILD = ROOT / "host/build"  # its line joined=(..) has the C of the library
IN_C = ROOT / "host/lists.c"  # the C that calls the exports without gv_
SAMPLE = CRATES / "packing_list/stdin"

STRICT = ("-pedantic", "-Wall", "-Wextra", "-Werror")
LANGUAGES = {
    "C99": ("gcc", "-x", "c", "-std=c99", "-Wstrict-prototypes", *STRICT),
    "C++11": ("g++", "-x", "c++", "-std=c++11", *STRICT),
}
INCLUDES = {"stddef.h", "stdint.h"}
BORROWED = {"memcpy", "memmove", "memset", "memcmp", "bcmp", "read", "write", "__errno_location"}
LENGTHS = {"text": "room"}  # of slices, where they are not called length
UNKNOWN = "unknown refusal"

EXPORT = re.compile(r'#\[unsafe\(no_mangle\)\]\s*pub extern "C" fn (\w+)\s*\(([^)]*)\)(?:\s*->\s*(\w+))?')
SHARED = re.compile(r"#\[repr\(C\)\]\s*(?:#\[[^]]*\]\s*)*pub struct (\w+) \{([^}]*)\}")
FUNCTION_TYPE = re.compile(r"\btypedef (\w+) (\w+)\(([^)]*)\);")
STRUCT = re.compile(r"\bstruct (\w+) \{([^}]*)\};")
HIDDEN = re.escape('__attribute__((visibility("hidden")))')
SYMBOL = re.compile(r"^[0-9a-f ]{16} (\w) (.+)$", re.M)
COMMENT = re.compile(r"/\*.*?\*/|//[^\n]*", re.S)
MARK = re.compile(r"\[([A-Z]+\d+[a-z]?)\]")
NUMBER = re.compile(r"[\w-]*\d[\w-]*")
STACK = re.compile(r"up to (\d+) KB of stack")

# What the comment on explain says with a number. functions_agree holds it, by the examples of host/explaining.c.
EXPLAINED = (
    "The found 1 is the 1 of the leftmost 0 followed by 1",
    "1: the counts have one form only",
    "2: no 0 is followed by 1,",
    "3: the beat after the found 1 moves",
    "if it is a 1, moving the found 1 would",
    "4: the found 1 moves",
    "the found 1 in the cases 3 and 4",
    "moves in the cases 2 to 4",
    "counted by `which` from 0",
)

# Makes CALL on a stack of its own, which may read standard input, write standard output and use the beats of the deepest
# outline, its text and room for others. Tells on standard error how many bytes of the stack were written, and fails
# where the answer is not RIGHT.
STACK_PROGRAM = """
#include <stdio.h>
#include <string.h>
#include <ucontext.h>

static char stack[1 << 20];
static uint8_t beats[GV_MAX_BEATS], out[GV_MAX_BEATS], deepest[GV_LONGEST_OUTLINE], text[GV_LONGEST_OUTLINE];
static uint64_t answer;

static void make_call(void) {
    answer = CALL;
}

int main(void) {
    static ucontext_t back, call;
    size_t at = 0;
    memset(beats, 1, GV_MAX_TASKS);
    gv_outline(GV_MAX_TASKS, GV_MAX_TASKS, beats, GV_MAX_BEATS, deepest, GV_LONGEST_OUTLINE);
    memset(stack, 0x55, sizeof stack);
    getcontext(&call);
    call.uc_stack.ss_sp = stack;
    call.uc_stack.ss_size = sizeof stack;
    call.uc_link = &back;
    makecontext(&call, make_call, 0);
    swapcontext(&back, &call);
    while (stack[at] == 0x55)
        at++;
    fprintf(stderr, "%zu", sizeof stack - at);
    return answer != RIGHT;
}
"""
SCHEDULE = "GV_MAX_TASKS, GV_MAX_TASKS, beats, GV_MAX_BEATS, text"
# The calls that a stack is said of, and what each answers: those of the outline, then the lists.
OUTLINES = {
    f"gv_outline({SCHEDULE}, GV_LONGEST_OUTLINE)": "GV_LONGEST_OUTLINE",
    f"gv_outline({SCHEDULE}, GV_LONGEST_OUTLINE - 1)": "0",
    f"gv_outline_refusal({SCHEDULE}, GV_LONGEST_OUTLINE - 1)": "GV_NO_ROOM",
    "gv_outline_read(GV_MAX_TASKS, deepest, GV_LONGEST_OUTLINE, out, GV_MAX_BEATS)": "GV_ACCEPTED",
    "gv_outline_read_place(GV_MAX_TASKS, deepest, GV_LONGEST_OUTLINE - 1, out, GV_MAX_BEATS)": "GV_MAX_TASKS - 1",
}
LISTS = dict.fromkeys(("gv_packing_list(0, 1)", "gv_explain_list(0, 1)", "gv_outline_list(0, 1)"), "0")


def source(path):
    """A file of the crates without its comments."""
    return re.sub(r"//.*", "", (CRATES / path).read_text())


def number_in(path, pattern):
    """The one number that a pattern finds in a file of the crates."""
    found = re.findall(pattern, source(path))
    if len(found) != 1:
        raise SystemExit(f"crates/{path}: {len(found)} matches of {pattern}")
    return int(found[0].replace("_", ""))


# What the source says.


def in_c(name, kind):
    """The C parameters of one of Rattle's."""
    length = ("size_t", LENGTHS.get(name, "length"))
    return {
        "u64": [("uint64_t", name)],
        "i32": [("int32_t", name)],
        "bool": [("_Bool", name)],
        "usize": [("size_t", name)],
        "&[u8]": [("const uint8_t *", name), length],
        "&mut [u8]": [("uint8_t *", name), length],
        "&mut Passed": [("struct passed *", name)],
    }.get(kind, [(f"no C type for {kind}", name)])


def pairs(text):
    """The names and the types in Rattle's list of parameters or fields."""
    return [[part.strip() for part in one.split(":", 1)] for one in text.split(",") if one.strip()]


def exported():
    """The C view of each exported function: those of the header, and those that the C of the lists calls."""
    outer, inner = {}, {}
    for path in sorted(CRATES.glob("ghanveltri_c/src/**/*.rt")):
        text = source(path.relative_to(CRATES))
        found = EXPORT.findall(text)
        if len(found) != text.count("no_mangle"):
            raise SystemExit(f"{path.relative_to(ROOT)}: an exported function is not understood")
        for name, parameters, result in found:
            answer = in_c("", result)[0][0] if result else "void"
            functions = outer if name.startswith("gv_") else inner
            functions[name] = prototype(name, answer, [c for own, kind in pairs(parameters) for c in in_c(own, kind)])
    return outer, inner


def shared():
    """The C view of each struct of the crates that has C's layout: its fields, in their order."""
    text = source("ghanveltri_c/src/lib.rt")
    structs = {}
    for name, body in SHARED.findall(text):
        fields = pairs(re.sub(r"\bpub ", "", body))
        structs[name.lower()] = [declarator(*c) for own, kind in fields for c in in_c(own, kind)]
    return structs


def called_by_c():
    """The functions that the C of the lists declares by a type of functions, and the structs that these are given."""
    text = re.sub(r"\s+", " ", output("gcc", "-E", "-P", "-std=c99", f"-I{HEADER.parent}", IN_C))
    functions, structs = {}, {}
    for result, kind, parameters in FUNCTION_TYPE.findall(text):
        for names in re.findall(rf"(?<=[;}}] )(?:{HIDDEN} )?{kind} (\w+(?:, \w+)*);", text):
            each = [parameter(part) for part in parameters.split(",")]
            functions |= {name: prototype(name, result, each) for name in names.split(", ")}
    for name, body in STRUCT.findall(text):
        if any(f"struct {name} *" in function for function in functions.values()):
            parts = [part.strip().split(" ", 1) for part in body.split(";") if part.strip()]
            structs[name] = [declarator(kind, own) for kind, names in parts for own in names.split(", ")]
    return functions, structs


def defined_in_c():
    """The functions that are C."""
    joined = re.findall(r"^joined=\((.*)\)$", BUILD.read_text(), re.M)
    if len(joined) != 1:
        raise SystemExit("host/build does not say the C of the library in one line joined=(..)")
    sources = [ROOT / f"host/{name}.c" for name in joined[0].split()]
    texts = [output("gcc", "-E", "-P", "-std=c99", f"-I{HEADER.parent}", source) for source in sources]
    return {name: own for text in texts for name, own in prototypes(text, "{").items()}


def longest_outline(largest):
    """The bytes that the crate has for every outline."""
    said = re.findall(r"pub const LONGEST: usize = (.*) as usize;", source("outline/src/lib.rt"))
    if said != ["(LARGEST * (LARGEST + 1))"]:
        raise SystemExit(f"crates/outline/src/lib.rt: the longest outline is {said}")
    return largest * (largest + 1)


def constants_of_crates():
    """Every constant of the header with its value."""
    numbers = source("refusal/src/lib.rt").split("pub fn number")[1].split("pub fn place")[0]
    cases = re.findall(r"Refusal::(\w+)(?:\(_\))? => (\d+),", numbers)
    named = {"GV_" + re.sub(r"(?<!^)(?=[A-Z])", "_", case).upper(): int(number) for case, number in cases}
    accepted = r"Ok\(_\) => (\d+),(?=\s*Err\(why\) => why.number)"
    largest = number_in("triangle/src/table.rt", r"pub const LARGEST: u64 = ([\d_]+);")
    version = number_in("ghanveltri/src/lib.rt", r"const VERSION: u64 = ([\d_]+);")
    return named | {
        "GV_ACCEPTED": number_in("refusal/src/lib.rt", accepted),
        "GV_MAX_TASKS": largest,
        "GV_MAX_BEATS": 2 * largest,
        "GV_MAX_STEPS": number_in("circle/src/lib.rt", r"pub const LONGEST_RUN: u64 = ([\d_]+);"),
        "GV_LONGEST_OUTLINE": longest_outline(largest),
        "GV_NO_PLACE": number_in("reason/specs/Explanation.antt", r"\nno_place = (\d+)\n"),
        "GV_VERSION": version,
        "GV_VERSION_MAJOR": version // 1000000,
        "GV_VERSION_MINOR": version // 1000 % 1000,
        "GV_VERSION_PATCH": version % 1000,
    }


# The numbers in the comments.


def comments():
    """Each comment of the header as one line, without the marks."""
    for comment in COMMENT.findall(HEADER.read_text()):
        yield " ".join(MARK.sub("", re.sub(r"^/\*|^ \*/?|^//|\*/$", "", comment, flags=re.M)).split())


def in_code(pattern):
    """What a pattern finds in the header outside its comments."""
    return re.search(pattern, COMMENT.sub("", HEADER.read_text())).group(1)


def largest_count():
    """N(t, t) of the largest t, by the formula of the manual."""
    t = constants()["GV_MAX_TASKS"]
    return math.comb(2 * t, t) - math.comb(2 * t, t + 1)


def changes(steps):
    """The changed beats of one step from all forms of small counts, on or back, by the rule of the manual."""
    some = [(t, s, oracle.form_of(t, s, n)) for t in range(6) for s in range(t + 1) for n in range(oracle.forms(t, s))]
    *most, last = sorted({steps(t, s, form, 1)[1] for t, s, form in some})
    return f"{', '.join(map(str, most))} or {last}"


def version_formula():
    """How a version is made of its parts, in the words of the macro."""
    return in_code(r"#define GV_VERSION \((.*)\)").replace("GV_VERSION_", "").lower()


def machine():
    """The kind of machine that the archive is for."""
    return re.search(r"Machine:.*?(\S+)$", output("readelf", "-h", ARCHIVE), re.M).group(1).lower()


def page_section():
    """The section of the manual that has the library's page."""
    (page,) = ROOT.glob("host/man/ghanveltri.*")
    return page.suffix[1:]


def from_version_1():
    """What a caller of the version before is told to change. [K7]"""
    here, before = constants()["GV_VERSION_MAJOR"], constants()["GV_VERSION_MAJOR"] - 1
    stored, written = packing.FROM_TOP, packing.NUMBERED
    return {
        f"Version {here} differs from version {before} in": "the macro",
        f"the number n of version {before} is (n + N - 1) % N here": "earlier_records_read",
        f"Order records of kind {stored} need no change": "earlier_records_read",
        f"write kind {written} in place of kind {stored}.": "stored_outputs_right, by the lines of cases_record",
        f"the shared library of version {before} is not given version {here}": "shared_library_agrees, by the soname",
    }


def held():
    """The words with a number that comments may say, each computed, or with what holds it."""
    first = oracle.number_of(3, 2, oracle.successor(3, 2, oracle.top(3, 2)))
    return {
        f"for {next(iter(LANGUAGES))} and C++": "the header is compiled as these",
        f"({machine()})": "the archive's own head",
        f"ghanveltri({page_section()})": "the page is there",
        "t of them are 1 (": "the manual, A schedule",
        "s are 0 (": "the manual, A schedule",
        f"the form after t ones and s zeros, the form of number {first}": "the oracle's number of it",
        f"The form after t ones and s zeros has number {first} too": "the oracle's number of it",
        **from_version_1(),
        "places are counted from 0": "functions_agree, by the places of host/independent.c",
        "or 0 where there is none": "functions_agree",
        "0 after a refusal": "functions_agree",
        "and else 0": "functions_agree",
        "never 0 after that refusal": "functions_agree",
        "both 0 after GV_RUN_TOO_LONG": "functions_agree",
        "not named here is 0": "functions_agree",
        "gv_count_place answers 0:": "functions_agree",
        "Its place and its surplus are 0": "there is no function that answers another",
        "even if the length is 0": "what a caller owes, of the empty schedule too",
        "neither 0 nor 1": "the manual, Refusal numbers, 4",
        "unused bits are not 0": "the manual, Refusal numbers, 11",
        f"lengths of {8 * int(in_code(r'sizeof.size_t. == (.)'))} bits": "the line below it, which would not compile",
        version_formula(): "the macro",
        f"answers how many, 1 to {largest_count()}": "the formula",
        f"gv_next would change, {changes(oracle.run)}, and": "the rule",
        f"gv_previous would change, {changes(oracle.run_back)}, and": "the rule",
        f"Answers {LISTED} when all was listed": "faults_are_told",
        f"; {NOT_READ} when reading failed": "faults_are_told",
        f"; {NOT_WRITTEN} when writing failed": "faults_are_told",
        f"After {NOT_READ} and {NOT_WRITTEN} errno": "faults_are_told",
        "sets it to 0 before finds 0 then": "faults_are_told",
        **outlined(),
        **{f"up to {said} KB of stack": "measured, see stack_faults" for said in stacks_said()},
        **dict.fromkeys(EXPLAINED, "functions_agree"),
    }


def outlined():
    """What the comments on the outline say."""
    shown = oracle.outline_text([1, 1, 0, 1, 0, 0]).decode().split()
    most = constants()["GV_MAX_TASKS"]
    return {
        "A 1 opens a heading one level down, and a 0 goes back up": "functions_agree",
        "place among those there, from 1 on": "functions_agree",
        f"So 110100 is printed as the lines {', '.join(shown[:-1])} and {shown[-1]}": "the oracle's outline",
        "The schedule without beats has 0 bytes too": "functions_agree",
        "which no 0 ends": "functions_agree",
        f"at most {2 * most + 1} calls deep for {most} headings inside each other": "a list, and for each two calls more",
        "after GV_NO_SUCH_OUTLINE, counted from 0, and": "functions_agree",
    }


def stacks_said():
    """The stacks that the comments say, in units of 1000 bytes: that of the outline, and that of the lists."""
    return [int(found) for comment in comments() for found in STACK.findall(comment)]


def stack_used(call, right):
    """The bytes of stack that a call needs; a list is given the sample and the record of the deepest outline."""
    most = constants()["GV_MAX_TASKS"]
    given = SAMPLE.read_bytes() + packing.packed(most, most, oracle.top(most, most))
    with tempfile.TemporaryDirectory() as folder:
        program = pathlib.Path(folder, "program")
        text = f'#include "{HEADER}"\n{STACK_PROGRAM}'
        command = ["gcc", f"-DCALL={call}", f"-DRIGHT={right}", "-x", "c", "-", "-x", "none", ARCHIVE, "-o", program]
        subprocess.run(command, input=text, text=True, check=True)
        done = subprocess.run([program], input=given, stdout=subprocess.DEVNULL, stderr=subprocess.PIPE, check=True)
    return int(done.stderr)


# Faults.


def compile_faults():
    for language, command in LANGUAGES.items():
        twice = f'#include "{HEADER}"\n' * 2
        if subprocess.run([*command, "-fsyntax-only", "-"], input=twice, text=True).returncode:
            yield f"the header does not compile as {language}"
    if 'extern "C" {' not in output("g++", "-E", "-P", "-x", "c++", HEADER):
        yield "the header has no C linkage in C++"
    for name in set(re.findall(r"#include\s*[<\"](.*?)[>\"]", HEADER.read_text())) - INCLUDES:
        yield f"the header includes {name}"


def differences(what, right, got, where):
    """What two dictionaries differ in."""
    for name in sorted(right.keys() | got.keys()):
        if name not in got:
            yield f"{what} {name} is not in the {where}"
        elif name not in right:
            yield f"{what} {name} of the {where} is not in the source"
        elif got[name] != right[name]:
            yield f"{what} {name} of the {where} is {got[name]}, in the source {right[name]}"


def pass_faults(functions):
    """Where the C of the lists declares an export, or the struct that it fills, otherwise than the source has it."""
    got, structs = called_by_c()
    yield from differences("function", functions, got, "C of the lists")
    yield from differences("struct", shared(), structs, "C of the lists")


def number_faults():
    """A number in a comment that is in no words that are held, and such words that no comment says."""
    said, right = [*comments()], held()
    for comment in said:
        spans = [match.span() for words in right for match in re.finditer(re.escape(words), comment)]
        for number in NUMBER.finditer(comment):
            if not any(start <= number.start() and number.end() <= end for start, end in spans):
                around = comment[max(0, number.start() - 30) : number.end() + 30]
                yield f"nothing holds the {number.group()} of a comment: .. {around} .."
    for words, by in right.items():
        if not any(words in comment for comment in said):
            yield f"no comment says {words!r} ({by})"


def stack_faults():
    """The stack that is said is enough for each call that it is said of, and at most a quarter more than the most."""
    if len(stacks_said()) != 2:
        yield f"the header says {len(stacks_said())} stacks, and not that of the outline and that of the lists"
    for said, calls in zip(stacks_said(), (OUTLINES, LISTS)):
        used = {call: stack_used(call, right) for call, right in calls.items()}
        for call, needed in used.items():
            if not needed <= 1000 * said <= max(used.values()) * 5 / 4:
                yield f"{call} needs {needed} bytes of stack, and the header says {1000 * said}"


def mark_faults():
    claims = (ROOT / "docs/CLAIMS.md").read_text()
    for mark in sorted({mark for comment in COMMENT.findall(HEADER.read_text()) for mark in MARK.findall(comment)}):
        if f"\n| {mark} |" not in claims:
            yield f"[{mark}] of the header is no claim"


def text_faults():
    """Each refusal has a text of its own, one line of printable ASCII, and any other number has that of none."""
    named = refusals()
    last = max(named.values())
    others = {last + 1, last + 2, 2**31, 2**63, 2**64 - 1} | {n + 2**k for n in named.values() for k in (8, 16, 32)}
    said = texts([*named.values(), *sorted(others)])
    owners = {UNKNOWN: "no refusal"}
    for name, number in named.items():
        text = said[number]
        if owners.setdefault(text, name) != name:
            yield f"{name} has the text of {owners[text]}: {text!r}"
        if not re.fullmatch(r"[!-~]([ -~]*[!-~])?", text):
            yield f"the text of {name} is no line of printable ASCII: {text!r}"
    for number in sorted(others):
        if said[number] != UNKNOWN:
            yield f"{number}, which is no refusal, has the text {said[number]!r}"


def archive_faults(functions):
    symbols = SYMBOL.findall(output("nm", ARCHIVE))
    got = {name: kind for kind, name in symbols if name.startswith("gv_")}
    yield from differences("symbol", dict.fromkeys(functions, "T"), got, "archive")
    for kind, name in symbols:
        if kind == "U" and name not in BORROWED:
            yield f"the archive needs {name}"
        elif kind.isupper() and kind != "U" and name not in got:
            yield f"the archive also defines {name}"
    for member in output("size", ARCHIVE).splitlines()[1:]:
        data, bss = member.split()[1:3]
        if (data, bss) != ("0", "0"):
            yield f"the archive has memory that can be written: {data} and {bss} bytes"


def main():
    if not ARCHIVE.exists():
        print(f"there is no {ARCHIVE}: {HOW}")
        return 1
    outer, inner = exported()
    functions = outer | defined_in_c()
    faults = [*compile_faults()]
    if not faults:
        faults += differences("function", functions, declared(), "header")
        faults += pass_faults(inner)
        faults += differences("constant", constants_of_crates(), constants(), "header")
        faults += [*mark_faults(), *number_faults()]
    faults += archive_faults(functions)
    if not faults:
        faults += [*text_faults(), *stack_faults()]
    return verdict(faults, len(functions) + len(inner), "functions")


if __name__ == "__main__":
    sys.exit(main())

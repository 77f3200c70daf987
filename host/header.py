"""What include/ghanveltri.h says, as a C compiler reads it: functions, constants, version, refusals and their texts."""
import functools
import pathlib
import re
import subprocess
import tempfile

from verifying import ROOT

HEADER = ROOT / "include/ghanveltri.h"
ARCHIVE = ROOT / "target/host/libghanveltri.a"
FUNCTION = r"(\w+(?: \w+)*[ *]*)\b(gv_\w+) ?\(([^)]*)\) ?"
NO_REFUSALS = re.compile(r"GV_(VERSION|MAX_|LONGEST_|NO_PLACE$)")
HOW = "(cd crates/ghanveltri_c && rt lib) && host/build"


def output(*command):
    """What a command prints."""
    return subprocess.run(command, stdout=subprocess.PIPE, text=True, check=True).stdout


def declarator(kind, name):
    """A type and what is of it, as C writes them."""
    return kind + name if kind.endswith("*") else f"{kind} {name}"


def prototype(name, result, parameters):
    """A function as C declares it; parameters are pairs of a type and a name."""
    each = [declarator(kind, own) for kind, own in parameters]
    return f"{declarator(result, name)}({', '.join(each) or 'void'})"


def parameter(text):
    """The type and the name of a parameter."""
    kind, name = re.fullmatch(r"(.*?)(\w*)", text.strip()).groups()
    return (kind.strip(), name)


def signatures(text, end=";"):
    """The result and the parameters of each function that a text of C declares, or, where the end is {, defines."""
    functions = {}
    for result, name, parameters in re.findall(FUNCTION + re.escape(end), re.sub(r"\s+", " ", text)):
        each = [parameter(part) for part in parameters.split(",") if part.strip() != "void"]
        functions[name] = (result.strip(), each)
    return functions


def prototypes(text, end=";"):
    """The same as C declares it."""
    return {name: prototype(name, *each) for name, each in signatures(text, end).items()}


@functools.cache
def preprocessed():
    return output("gcc", "-E", "-P", "-x", "c", "-std=c99", HEADER)


def declared():
    """Each function of the header."""
    functions = prototypes(preprocessed())
    if set(functions) != set(re.findall(r"\b(gv_\w+)\s*\(", preprocessed())):
        raise SystemExit("a function of the header is not understood")
    return functions


def printed(statements, *libraries):
    """What a C program of these statements prints."""
    lines = [f'#include "{HEADER}"', "#include <stdio.h>", "int main(void) {", *statements, "return 0; }\n"]
    with tempfile.TemporaryDirectory() as folder:
        program = pathlib.Path(folder, "program")
        command = ["gcc", "-x", "c", "-", "-x", "none", *libraries, "-o", program]
        subprocess.run(command, input="\n".join(lines), text=True, check=True)
        return output(program)


@functools.cache
def constants():
    """The header's constants with their values, as a C program sees them."""
    macros = output("gcc", "-E", "-dM", "-x", "c", HEADER)
    names = re.findall(r"#define (GV_\w+)", macros)
    lines = printed(f'printf("{name} %llu\\n", (unsigned long long)({name}));' for name in names).splitlines()
    return {name: int(value) for name, value in map(str.split, lines)}


def refusals():
    """The numbers of the refusals, and of no refusal, by their names."""
    return {name: value for name, value in constants().items() if not NO_REFUSALS.match(name)}


def texts(numbers):
    """What gv_refusal_text says of each number, from the archive; NULL shows as a byte that is no text."""
    calls = (f"gv_refusal_text({number}u)" for number in numbers)
    said = printed((f'printf("%s%c", {call} ? {call} : "\\1", 0);' for call in calls), ARCHIVE)
    return dict(zip(numbers, said.split("\0")))


def version():
    """The parts of the version."""
    values = constants()
    return [values[f"GV_VERSION_{part}"] for part in ("MAJOR", "MINOR", "PATCH")]

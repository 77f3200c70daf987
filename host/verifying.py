"""What the scripts share that hold a document or a file to the tree: files as texts, their comments and what they define, the tables of
a document, and the verdict. What must hold is said by sure, and not by assert, which Python passes over where it is told to optimize."""
import ast
import pathlib
import re
from typing import NamedTuple

ROOT = pathlib.Path(__file__).resolve().parent.parent


class Wrong(Exception):
    """What keeps a check from going on, in words."""


def sure(fact, what):
    """Goes on where a fact holds; what is said where it does not."""
    if not fact:
        raise Wrong(what)


def contents(path):
    """The text of a file, by its path in the tree."""
    try:
        return (ROOT / path).read_text(encoding="utf-8")
    except OSError as error:
        raise Wrong(f"{path}: {error.strerror}") from error
    except UnicodeDecodeError as error:
        raise Wrong(f"{path}: byte {error.start} is no UTF-8") from error


def has(text, name):
    return re.search(rf"(?<![\w′-]){re.escape(name)}(?![\w′-])", text)


# What a file defines, and what its comments say, by its language.

HASH = r"(?<!\S)#.*"
IN_C = r"/\*(?:.|\n)*?\*/|//.*"
COMMENT = {
    "antt": r"(?<!\S)--.*",
    "rt": r"//.*",
    "c": IN_C,
    "h": IN_C,
    "py": rf'{HASH}|"""(?:.|\n)*?"""',
    "sh": HASH,
    "edit": HASH,
    "txt": HASH,
    "md": r"(?:.|\n)+",
    "1": r"(?:.|\n)+",
    "3": r"(?:.|\n)+",
}
FUNCTION_OR_CONSTANT = r"^#define (\w+)|^(?:\w+[ *]+)+(\w+)\(|^(?:static )?const .*?(\w+)(?:\[\w*\])* ="
ENUMERATED = (r"^ *enum(?: \w+)? \{([^}]*)\}", r"(?:^|,)\s*(\w+)")
DEFINED = {
    "antt": r"^ *(?:(?:pub|abbrev|unfoldable) )*(?:(?:record|data) ([^\s{]+)|(\S+)(?= :(?:\s|$)))",
    "rt": r"^ *(?:pub )?(?:extern \"C\" )?(?:fn|const|struct|enum) (\w+)",
    "c": FUNCTION_OR_CONSTANT,
    "h": FUNCTION_OR_CONSTANT,
    "sh": r"^(\w+)\(\)",
}
MEMBERS = {
    "rt": (r"^ *(?:pub )?(?:struct|enum) \w+ \{\n((?:.*\n)*?) *\}", r"^ +(?:pub )?(\w+)(?=[:,({])"),
    "c": ENUMERATED,
    "h": ENUMERATED,
}


def language(path):
    """By the name of a file, or by its first line; a stored input or output has none."""
    path = ROOT / path
    if path.suffix:
        return path.suffix[1:]
    with path.open("rb") as file:
        first = file.readline()
    return None if not first.startswith(b"#!") else "py" if b"python" in first else "sh"


def code(path):
    """A file without its comments."""
    pattern = COMMENT.get(language(path))
    return re.sub(pattern, "", contents(path)) if pattern else contents(path)


def parsed(path):
    """A program in Python."""
    try:
        return ast.parse(contents(path))
    except SyntaxError as error:
        raise Wrong(f"{path}:{error.lineno}: {error.msg}") from error


def names_of_python(path):
    """The functions, classes and constants of a module."""
    for part in parsed(path).body:
        if isinstance(part, (ast.FunctionDef, ast.ClassDef)):
            yield part.name
        elif isinstance(part, ast.Assign):
            yield from (name.id for target in part.targets for name in ast.walk(target) if isinstance(name, ast.Name))


def defined(path):
    """The names that a file defines or declares; a name that is only used there, or stands in a comment, is none."""
    kind, text = language(path), code(path)
    if kind == "py":
        return set(names_of_python(path))
    if kind not in DEFINED:
        return set()
    names = {name for match in re.finditer(DEFINED[kind], text, re.M) for name in match.groups() if name}
    block, member = MEMBERS.get(kind, (r"(?!)", ""))
    return names.union(*(re.findall(member, body, re.M) for body in re.findall(block, text, re.M)))


# The functions of a source file. They stand by themselves, in an impl of a type, or in a trait.

TYPE = r"^(?:impl\b(?:<.*>)? (?:(?P<trait>.*) for )?|(?P<open>pub )?(?P<law>trait) )(?P<type>\w+)\b.*\{$"
END = r"^(?P<end>\})"
FUNCTION = r"^ *(?P<pub>pub )?(?:unsafe )?(?:extern \"C\" )?fn (?P<name>\w+)"
NAMED = re.compile("|".join((TYPE, END, FUNCTION)), re.M)


def module_of(path):
    """The names of a source file's module, by its path in src/: none for lib.rt and main.rt."""
    parts = path.removesuffix(".rt").split("/")
    return [] if parts in (["lib"], ["main"]) else parts


def function_at(text, path, line):
    """The function, by its module and its type or trait, that a line of a source file is in; its text, and its path in the crate. A line
    of attributes or comments is in the function that it stands before."""
    owner, function = None, None
    lines = text.split("\n")
    while line < len(lines) and lines[line - 1].lstrip().startswith(("#[", "//")):
        line += 1
    for match in NAMED.finditer("\n".join(lines[:line])):
        if match["type"] or match["end"]:
            owner = match["type"]
        else:
            function = "::".join(name for name in (*module_of(path.removeprefix("src/")), owner, match["name"]) if name)
    return function


# The head of a file of specs/ or proofs/, whose lines give names: host/verify_heads.py says how.

LISTED = re.compile(r"--     (?=\S)(.*)")
APART = re.compile(r"(.*?)\s{2,}\S.*")
SENTENCE = re.compile(r"[A-Z].*[.:]")
WORDS = re.compile(r"[^\s,]+(?:, [^\s,]+)*")


def head_of(path):
    """The comment that a file begins with, by lines."""
    lines = contents(path).splitlines()
    length = next((at for at, line in enumerate(lines) if not line.startswith("--")), len(lines))
    return lines[:length]


def entries(line):
    """What a line of a head lists, each with its arguments."""
    listed = LISTED.fullmatch(line)
    apart = listed and APART.fullmatch(listed.group(1))
    if apart:
        return apart.group(1).split(", ")
    return WORDS.match(listed.group(1)).group().split(", ") if listed and not SENTENCE.fullmatch(listed.group(1)) else []


# The tables of a document.

PLACE = re.compile(r"`([\w./-]+)(?:#([^`]+))?`")


class Row(NamedTuple):
    """A row of a table: its line, the heading that it stands under, the header and the cells."""

    line: int
    section: str
    header: tuple
    cells: list


def cells_of(line):
    """What stands between the bars of a line that begins and ends with one; else nothing."""
    return [cell.strip() for cell in line[1:-1].split("|")] if line.endswith("|") else []


def barred(path):
    """The lines of a document that begin with a bar, those that follow each other together, with the heading above."""
    section, lines = "", []
    for number, line in enumerate([*contents(path).splitlines(), ""], 1):
        if line.lstrip().startswith("|"):
            lines.append((number, line.strip()))
        elif lines:
            yield section, lines
            lines = []
        if line.startswith("## "):
            section = line[3:].strip()


def tables(path, *headers):
    """The rows of the tables of a document, and its faults: of the lines that begin with a bar the first is one of these headers, dashes
    stand below it, and each other one is a row with as many cells."""
    rows, faults = [], []
    for section, ((top, line), *below) in barred(path):
        header = tuple(cells_of(line))
        if header not in headers:
            faults.append(f"{path}:{top}: {line!r} is no header of a table that is known")
            continue
        dashes = "|" + "---|" * len(header)
        if [line for _, line in below[:1]] != [dashes] or len(below) < 2:
            faults.append(f"{path}:{top}: below a header stand {dashes} and rows")
        for number, line in below[1:]:
            cells = cells_of(line)
            if len(cells) == len(header):
                rows.append(Row(number, section, header, cells))
            else:
                faults.append(f"{path}:{number}: a row has {len(header)} columns, and this one {len(cells)}: {line}")
    return rows, faults


def places(column):
    """The files and names that a column gives, as `file#name`; None where there is anything else in it."""
    return None if PLACE.sub("", column).strip() else PLACE.findall(column)


def verdict(faults, held, what):
    """Prints each fault and what was held; the exit status, 1 where there is a fault or nothing was held."""
    for fault in faults:
        print(fault)
    print(f"{held} {what}")
    return 1 if faults or not held else 0


def ended(main):
    """The exit status of a check; what kept it from going on is printed."""
    try:
        return main()
    except Wrong as wrong:
        print(wrong)
        return 1

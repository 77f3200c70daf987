#!/usr/bin/env python3
"""Holds docs/REQUIRES.md to the sources: each function of crates/*/src that has a `requires` has one row
| crate | function | public or private | it requires | why |, and there is no other row.

A function is named by its module and its type or trait, as `reads::long`. It is public where another crate can call it: it is `pub`, or of
a trait that is, and its type and its module are, or the module above lends its name on by `pub use`. A function of an impl of a trait has
the `requires` of the trait's function too.
"""
import re
import sys
from dataclasses import dataclass

from verifying import END, FUNCTION, ROOT, TYPE, code, ended, module_of, tables, verdict

REQUIRES = "docs/REQUIRES.md"
HEADER = ("crate", "function", "public or private", "it requires", "why")
KINDS = ("public", "private")
NAME = re.compile(r"`\w+(?:::\w+)*`")
CONTRACT = r"\brequires\b(?P<rest>.*)"
CLAUSE = re.compile(r" (?:\w+ )?\{")  # a clause may have a name
LINE = re.compile("|".join((TYPE, END, FUNCTION, CONTRACT)), re.M)


def source(crate, module):
    """The code of a module, without comments."""
    paths = [f"crates/{crate}/src/{name}.rt" for name in (["/".join(module)] if module else ["lib", "main"])]
    return next((code(path) for path in paths if (ROOT / path).is_file()), "")


def is_public(crate, module, name):
    """Whether another crate can name what is `pub` in a module."""
    if not module:
        return True
    above, own = module[:-1], module[-1]
    text = source(crate, above)
    if re.search(rf"^pub mod {own};", text, re.M) and is_public(crate, above, own):
        return True
    return bool(re.search(rf"^pub use (?:\w+::)*{own}::{name};", text, re.M)) and is_public(crate, above, name)


@dataclass
class Function:
    """A function: its name alone, the trait that it is of, by crate and name, and whether that is declared there; whether it is `pub`, and
    whether a `requires` stands at it."""

    name: str
    trait: tuple | None
    declared: bool
    public: bool
    asks: bool = False


def trait_of(crate, text, written):
    """A trait, by crate and name, as an impl of a file writes it. That of std or of the kit is of no crate here."""
    *before, name = re.sub(r"<.*", "", written).split("::")
    if not before and not re.search(rf"^(?:pub )?trait {name}\b", text, re.M):
        before = re.findall(rf"^(?:pub )?use (\w+)::(?:[^;]*\W)?{name}\b[^;]*;", text, re.M)
    own = not before or before[0] in ("crate", "self", "super") or re.search(rf"^(?:pub )?mod {before[0]};", text, re.M)
    return crate if own else before[0], name


def is_closed(crate, module, name):
    """Whether a type is declared in a module, and not `pub`."""
    return bool(re.search(rf"^(?:struct|enum) {name}\b", source(crate, module), re.M))


def functions(path):
    """The functions of a file, by their modules and types; and what is not understood."""
    _, crate, _, below = path.split("/", 3)
    module, text = module_of(below), code(path)
    found, odd, block, function = {}, [], {}, None
    for match in LINE.finditer(text):
        if match["type"] or match["end"]:
            block, function = match.groupdict(), None
        elif match["name"]:
            owner, law = block.get("type"), block.get("law")
            trait = (crate, owner) if law else block.get("trait") and trait_of(crate, text, block["trait"])
            shown = block["open"] if law else (match["pub"] or trait) and not (owner and is_closed(crate, module, owner))
            public = bool(shown) and is_public(crate, module, owner or match["name"])
            name = "::".join(name for name in (*module, owner, match["name"]) if name)
            function = found[crate, name] = Function(match["name"], trait, bool(law), public)
        elif function and CLAUSE.match(match["rest"]):
            function.asks = True
        else:
            odd.append(f"{path}: a `requires` that is not understood: {match.group()}")
    return found, odd


def that_ask(found):
    """Of functions those that have a `requires`, of their own or of their trait, each with whether it is public."""
    declared = {(function.trait, function.name): function for function in found.values() if function.declared}
    for name, function in found.items():
        law = declared.get((function.trait, function.name), function)
        if function.asks or law.asks:
            yield name, "public" if function.public and law.public else "private"


def row_faults(cells, known):
    """What is wrong with a row; known are the functions that have a `requires`."""
    crate, function, kind, *words = cells
    if not NAME.fullmatch(crate) or not NAME.fullmatch(function) or kind not in KINDS or not all(words):
        return ["a row is `crate`, `function`, public or private, what it requires and why, and none is empty"]
    right = known.get((crate.strip("`"), function.strip("`")))
    if right is None:
        return [f"{crate} has no function {function} with a `requires`"]
    return [] if kind == right else [f"{function} of {crate} is {right}, and the row says {kind}"]


def main():
    every, found = {}, []
    for path in sorted(ROOT.glob("crates/*/src/**/*.rt")):
        own, odd = functions(str(path.relative_to(ROOT)))
        every |= own
        found += odd
    known = dict(that_ask(every))
    rows, faults = tables(REQUIRES, HEADER)
    found += faults
    listed = [(row.cells[0].strip("`"), row.cells[1].strip("`")) for row in rows]
    for row, name in zip(rows, listed):
        own = row_faults(row.cells, known)
        if listed.count(name) > 1:
            own.append(f"{name[1]} of {name[0]} stands twice")
        found += [f"{REQUIRES}:{row.line}: {fault}" for fault in own]
    missing = [name for name in known if name not in listed]
    found += [f"{function} of {crate} has a `requires` and no row in {REQUIRES}" for crate, function in missing]
    return verdict(found, len(rows), "functions with a `requires`")


if __name__ == "__main__":
    sys.exit(ended(main))

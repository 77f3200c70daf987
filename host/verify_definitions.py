#!/usr/bin/env python3
"""Holds the definitions to their examples: each public definition of specs/ that takes an argument, each data type, and what ALSO names
has an example inside and one outside. [P14]

An example is a theorem of a file proofs/Cases.antt whose statement names the definition, by a `use` line of that file. A predicate
(Type-valued) is said inside and denied outside (→ ⊥), not only premised; a test (Bool-valued) is ≡ true inside and ≡ false outside; of
any other definition two examples have two values. Where a definition is only computed through another, or in a line of a stored output, its
examples have a row | definition | inside | outside | in docs/VACUITY.md, and no other has one.
  verify_definitions.py          says what is wrong, and how many definitions there are
  verify_definitions.py --list   prints the examples of each
"""
import re
import sys

from verifying import ROOT, code, contents, ended, has, places, tables, verdict

VACUITY = "docs/VACUITY.md"
HEADER = ("definition", "inside", "outside")
ALSO = [("crates/refusal/proofs/Theorems.antt", "Given")]  # a predicate that stands in theorems alone
MUTUAL = re.compile(r"^(?:unfoldable )?mutual\n((?:(?: {2}.*)?\n)*)", re.M)
PUBLIC = re.compile(r"^(?!pub (?:mod|use) )(?:\S.* )?pub .*(?:\n +.*)*", re.M)
TYPE = re.compile(r"pub (?:record|data) (\S+) ((?:.|\n)*?) where(?: |\n|$)(?:.|\n)*")
FUNCTION = re.compile(r"(?:abbrev |unfoldable )?pub (?!record |data )(\S+) (:(?: .*)?(?:\n +.*)*)")
THEOREM = re.compile(r"^( {,2})(?:pub )?(?!abbrev |unfoldable |record |data |use |mod )(\S+) (:(?: .*)?(?:\n\1 +.*)*)", re.M)
USE = re.compile(r"^use Rattle\.(\w+)((?:\.\w+)+)(?: as (\w+)|\.\{([^}]*)\})", re.M)
EXAMPLE = re.compile(r"crates/\w+/(?:proofs/.*\.antt|stdout)")


def unnested(text):
    """A file with what is defined together, in a block `mutual`, as if it stood alone."""
    return MUTUAL.sub(lambda block: re.sub(r"^ {2}", "", block.group(1), flags=re.M), text)


def definitions(path):
    """The public definitions of a file, each with its signature on one line; None for one that is not understood."""
    found = {}
    for text in PUBLIC.findall(unnested(code(path))):
        match = TYPE.fullmatch(text) or FUNCTION.fullmatch(text)
        name, signature = match.groups() if match else (text.split("\n")[0], None)
        found[name] = signature and re.sub(r"\s+", " ", signature).strip()
    return found


def kind_of(signature):
    """Whether a definition is a constant, a data type, a predicate, a test or another function."""
    if signature == ": Type 0":
        return "data"
    if signature.endswith("Type 0"):
        return "predicate"
    if "→" not in signature:
        return "constant"
    return "test" if signature.endswith("Bool") else "function"


def theorems(path):
    """What each theorem of a file says, on one line."""
    return {name: re.sub(r"\s+", " ", said).strip() for _, name, said in THEOREM.findall(code(path))}


def used(path):
    """How a file writes the definitions that it uses: by the name, or after another for their file."""
    for crate, module, alias, names in USE.findall(code(path)):
        place = f"crates/{crate}{module.replace('.', '/')}.antt"
        if alias and (ROOT / place).is_file():
            yield from ((f"{alias}.{name}", (place, name)) for name in definitions(place))
        elif not alias:
            yield from ((name, (place, name)) for name in re.findall(r"[^\s,]+", names))


def side(kind, name, said):
    """On which side of a definition that it names an example stands; of a function, its value; None where on none."""
    if kind == "predicate":
        *_, last = said.removeprefix(": ").removesuffix(" → ⊥").split(" → ")
        where = "outside" if said.endswith(" → ⊥") else "inside"
        return where if re.match(rf"\(?{re.escape(name)}(?: |$)", last) else None
    _, equal, value = said.rpartition(" ≡ ")
    if kind == "test":
        return {"true": "inside", "false": "outside"}.get(value)
    return value if equal else None


def read_off(kinds):
    """The examples of each definition by their sides, as the files proofs/Cases.antt have them."""
    found = {}
    for file in sorted(ROOT.glob("crates/*/proofs/**/Cases.antt")):
        path = str(file.relative_to(ROOT))
        names = [(name, definition) for name, definition in used(path) if definition in kinds]
        for example, said in theorems(path).items():
            for name, definition in names:
                where = has(said, name) and side(kinds[definition], name, said)
                if where:
                    found.setdefault(definition, {}).setdefault(where, []).append(f"{path}#{example}")
    return found


def statement(path, name):
    """What a theorem says, or how a line of stored output begins; None where there is none such."""
    if not EXAMPLE.fullmatch(path) or not (ROOT / path).is_file() or not name:
        return None
    if path.endswith("/stdout"):
        return name if re.search(rf"^{re.escape(name)}(?!\S)", contents(path), re.M) else None
    return theorems(path).get(name)


def faults(inside, outside):
    """What is wrong with the examples of a row."""
    for column, where in ((inside, "inside"), (outside, "outside")):
        examples = places(column)
        if not examples:
            yield f"names no example {where}, or something that is none"
        for path, example in examples or ():
            if statement(path, example) is None:
                yield f"{path} has no theorem or line {example}"
    for place in set(places(inside) or ()) & set(places(outside) or ()):
        yield f"{place[1]} stands on both sides"


def wanted():
    """The kind of each definition that has to have examples; and what of specs/ is not understood."""
    kinds, odd = {}, []
    specs = [str(file.relative_to(ROOT)) for file in sorted(ROOT.glob("crates/*/specs/**/*.antt"))]
    for path, own in [*((path, None) for path in specs), *ALSO]:
        for name, signature in definitions(path).items():
            if own and name != own:
                continue
            if signature is None:
                odd.append(f"{path}: a public definition is not understood: {name}")
            elif kind_of(signature) != "constant":
                kinds[path, name] = kind_of(signature)
    return kinds, odd


def row_faults(row, kinds, read, seen):
    """What is wrong with a row of docs/VACUITY.md, where those before it are seen; and what it defines."""
    definition = (places(row.cells[0]) or [("", "")])[0]
    found = [*faults(*row.cells[1:])]
    if definition not in kinds:
        found.append(f"there is no definition {row.cells[0]}")
    if definition in read:
        found.append("its examples are read off the files proofs/Cases.antt, and need no row")
    if definition in seen:
        found.append("stands twice")
    return definition, [f"{VACUITY}:{row.line}: {definition[1]}: {fault}" for fault in found]


def listed(read):
    for (path, name), sides in sorted(read.items()):
        print(f"{path}#{name}", *(f"  {where}: {', '.join(examples)}" for where, examples in sides.items()), sep="\n")


def main(arguments):
    kinds, found = wanted()
    read = {definition: sides for definition, sides in read_off(kinds).items() if len(sides) > 1}
    if arguments == ["--list"]:
        listed(read)
    rows, odd = tables(VACUITY, HEADER)
    found += odd
    seen = []
    for row in rows:
        definition, own = row_faults(row, kinds, read, seen)
        seen.append(definition)
        found += own
    for path, name in kinds:
        if (path, name) not in seen and (path, name) not in read:
            found.append(f"{path}#{name} has no example on each side in proofs/Cases.antt, and no row in {VACUITY}")
    return verdict(found, len(kinds), "definitions")


if __name__ == "__main__":
    sys.exit(ended(lambda: main(sys.argv[1:])))

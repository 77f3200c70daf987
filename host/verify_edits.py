#!/usr/bin/env python3
"""Holds the must-fail edits to what rt says of them, and docs/SHAMS.md to the edits. An edit is one wrong program or
several, each a paragraph that changes a function of its own. Its comment says what is wrong, and then, in a line by
itself, what it is refused at:
# Refused at `place`: `fact`.
rt ci says of each edit what it refused first, in target/ci.log. Of an edit of one wrong program that is what its comment
says. Of several, target/whole.log has all that rt refused (host/try_whole.py), and each comment says the first fact of
its place. An edit that rt did not refuse, or refused only because a proof names what the edit took away, or only by a
limit of its own, is a fault, and so is a comment that says that. The document says how many there are, so that none goes
unseen, and its table of where each sham is tried has the manual's shams, by their claims.
  verify_edits.py            holds the edits to the logs
  verify_edits.py --list     prints what each edit was refused at, place by place
  verify_edits.py --write    writes that into the comments, to be read there
"""
import re
import sys
from typing import NamedTuple

from verifying import ROOT, contents, ended, function_at, sure, tables, verdict

SHAMS = "docs/SHAMS.md"
LOG, WHOLE = "target/ci.log", "target/whole.log"
WHOLE_OF = "whole {}/{}"
TRIED = ("sham", "tried on", "not tried on, and why")
FIVE = ["P3", "P5", "P6a", "P6b", "P6c", "P6d"]  # the manual's shams; a fixed number and a fixed form are one of them
REFUSED = re.compile(r"((?:# .+\n)+)# Refused at `(?P<place>[^`]+)`: `(?P<fact>[^`]+)`\.\n(?!#)")
COUNTS = re.compile(r"\b(\d+) wrong programs in (\d+) edits\b")
CLAIM = re.compile(r"\bP\d[a-z]?\b")
SAID = re.compile(r"^rt: must-fail (\w+)/([\w.-]+)\.edit: (.*)", re.M)
TRIED_WHOLE = re.compile(f"^{WHOLE_OF}\\n((?:.*:.*\\n)*)".format(r"(\w+)", r"([\w.-]+)"), re.M)
BY_A_FACT = "refused, as it must be: "
IN_A_PROOF = re.compile(r"(?:\./)?(proofs|specs)/(\S+)\.antt:\d+:\d+: error: `([^`]+)`")
IN_THE_CODE = re.compile(r"note: (?:\./)?(src/\S+\.rt):(\d+):\d+: .*?\(`([^`]+)(`?)")
NO_FACT = {  # what an error may say that shows nothing of the contract
    "a name that the edit took away": re.compile(r".*(has no field|is not in scope|has no `|was not admitted)"),
    "a limit of the prover": re.compile(r".*(antt ran out of|outgrew the memory limit|stopped at the step limit)"),
}
OF_A_FUNCTION = ("/Answers", "/Invariants", "/Proof")
IMPL = re.compile(r"^impl(?:<[^>]*>)? (\w+)(?:<[^>]*>)? for (\w+)", re.M)


def changed(crate, edit):
    """The texts of the files that an edit changes, by their paths in the crate."""
    texts, path, old = {}, None, None
    for line in contents(f"crates/{crate}/must-fail/{edit}.edit").splitlines():
        if line.startswith("file: "):
            path = line.removeprefix("file: ").strip()
        elif line.startswith("old: "):
            old = line.removeprefix("old: ")
        elif line.startswith("new:") and path and old:
            text = texts.get(path) or contents(f"crates/{crate}/{path}")
            texts[path] = text.replace(old, line.removeprefix("new:").removeprefix(" "))
    return texts


def of_its_type(crate, function):
    """A function of an impl of a trait by its type, where rt names it by the type and the trait in one."""
    *before, function = function.split("::")
    for path in sorted((ROOT / "crates" / crate / "src").rglob("*.rt")):
        for trait, kind in IMPL.findall(contents(str(path.relative_to(ROOT)))):
            if before and before[-1].startswith(kind) and before[-1].endswith(trait):
                before[-1] = kind
    return "::".join((*before, function))


def fact_in(crate, edit, line):
    """What has a fact that is not proved, by a line of rt, and the fact: a function by its module and type, or a file of
    lemmas. A fact that rt cut short has two dots at its end; None where the line tells of no fact."""
    if match := IN_A_PROOF.match(line):
        part, file, name = match.groups()
        of = [file.removesuffix(end).replace("/", "::") for end in OF_A_FUNCTION if file.endswith(end)]
        none = [what for what, pattern in NO_FACT.items() if pattern.match(line)]
        return of_its_type(crate, of[0]) if of else f"{part}/{file}", none[0] if none else name
    if match := IN_THE_CODE.match(line):
        path, at, name, whole = match.groups()
        text = changed(crate, edit).get(path) or contents(f"crates/{crate}/{path}")
        return function_at(text, path, int(at)), f"{name}{'' if whole else '..'}"
    return None


def all_facts(crate, edit, lines):
    """Where an edit was refused, and at what: of a function its first fact, and of a file of lemmas each, a law of its own."""
    found = []
    for place, fact in filter(None, (fact_in(crate, edit, line) for line in lines)):
        if "/" in place or place not in dict(found):
            found.append((place, fact))
    return found


class Tried(NamedTuple):
    """What rt ci says of an edit, and where it was refused, with the facts: all of them where it was tried whole."""

    said: str = "nothing, by the log"
    found: tuple = ()


def all_tried():
    """What is known of each edit. One that rt ci did not refuse by a fact was refused nowhere."""
    tried = {}
    for crate, edit, said in SAID.findall(contents(LOG)):
        lines = [said.removeprefix(BY_A_FACT)] if said.startswith(BY_A_FACT) else []
        tried[crate, edit] = Tried(said, all_facts(crate, edit, lines))
    for crate, edit, lines in TRIED_WHOLE.findall(contents(WHOLE)):
        if (crate, edit) in tried and tried[crate, edit].found:
            tried[crate, edit] = Tried("nothing else", all_facts(crate, edit, lines.splitlines()))
    return tried


def is_said(found, said):
    """Whether a comment says what was found. rt cuts a long line short: a name without its end has two dots here."""
    return said.startswith(found.removesuffix("..")) if found.endswith("..") else said == found


def refused_at(path):
    """Where each wrong program of an edit says that it is refused, and at what, or None where its comment is not as it
    should be."""
    said = [REFUSED.match(lines) for lines in contents(path).strip().split("\n\n")]
    return [match and match.group("place", "fact") for match in said]


def faults(edit, said, tried):
    """What is wrong with an edit, and where rt says another thing. What was refused is what is said, each once, and no more,
    and by a fact."""
    if not all(said):
        yield f"{edit}: a wrong program says what is wrong, and then in a line what it is refused at"
        return
    left = list(tried.found)
    for place, fact in said:
        if fact in NO_FACT:
            yield f"{edit}: it says `{place}`: `{fact}`, which shows nothing of the contract"
        held = next((each for each in left if each[0] == place and is_said(each[1], fact)), None)
        if held:
            left.remove(held)
        else:
            where = [each for each in left if each[0] == place] or left
            yield f"{edit}: it says `{place}`: `{fact}`, and is refused at {listed(where) or tried.said}"
    if left and len(said) > 1:
        yield f"{edit}: refused elsewhere too, at {listed(left)}"


def listed(found):
    """Where an edit was refused, and at what, in a line."""
    return ", ".join(f"`{place}`: `{fact}`" for place, fact in found)


def page_faults(programs, edits):
    """What is wrong with the document."""
    rows, found = tables(SHAMS, TRIED)
    yield from found
    tried = sorted(claim for row in rows if all(row.cells) for claim in CLAIM.findall(row.cells[0]))
    if tried != FIVE:
        yield f"{SHAMS}: the shams {', '.join(FIVE)} are tried, and the table has {', '.join(tried)}"
    counts = COUNTS.findall(contents(SHAMS))
    if counts != [(str(programs), str(edits))]:
        yield f"{SHAMS}: there are {programs} wrong programs in {edits} edits, and it says {counts}"


def write(path, said, found):
    """Writes what was found into the comments of an edit: each function's fact, or of one wrong program what rt ci says."""
    text = contents(path)
    for place, fact in filter(None, said):
        now = [each for each in found if each[0] == place or len(said) == 1]
        if len(now) == 1 and not (now[0][0] == place and is_said(now[0][1], fact)):
            text = text.replace(f"\n# Refused at `{place}`: `{fact}`.\n", f"\n# Refused at {listed(now)}.\n")
    if text != contents(path):
        (ROOT / path).write_text(text, encoding="utf-8")
        print(f"{path}: written")


def main(arguments):
    sure(arguments in ([], ["--list"], ["--write"]), "verify_edits.py [--list | --write]")
    for log, how in ((LOG, "keep there what rt ci or rt must-fail prints"), (WHOLE, "run host/try_whole.py")):
        sure((ROOT / log).is_file(), f"there is no {log}, which .ci/run leaves: {how}")
    paths = {(path.parts[-3], path.stem): str(path.relative_to(ROOT)) for path in sorted(ROOT.glob("crates/*/must-fail/*.edit"))}
    known = all_tried()
    if arguments == ["--list"]:
        print(*(f"{'/'.join(name)}: {listed(tried.found) or tried.said}" for name, tried in sorted(known.items())), sep="\n")
    if arguments == ["--write"]:
        for name, path in paths.items():
            write(path, refused_at(path), known.get(name, Tried()).found)
    edits = {name: refused_at(path) for name, path in paths.items()}
    programs = sum(map(len, edits.values()))
    found = []
    for name, said in edits.items():
        found += faults("/".join(name), said, known.get(name, Tried()))
    found += page_faults(programs, len(edits))
    return verdict(found, programs, f"wrong programs in {len(edits)} edits, each held to the fact that refuses it")


if __name__ == "__main__":
    sys.exit(ended(lambda: main(sys.argv[1:])))

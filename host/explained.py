"""What the lines of the explanations mean, for the tests: some are typed here, and others are done to their forms.

To move the beat that a line names, and to change the places that it names, has to lead to the form of the next number. That form comes
from the groups of host/oracle.py, and not from its step. Each part takes the verifier of host/verify_lists.py.
"""
import re

import oracle
import packing
from listing import Difference

SMALL = 8  # up to here all forms are explained
LINE = re.compile(r"([1-4]) (-|\d+) (-|\d+) (-|\d+(?: \d+)+)")

# Worked out by hand: the forms of (3, 2), the only forms of some counts, and the ends of the largest.
EXAMPLES = {
    "11100": "2 - 4 1 3",
    "10110": "3 2 3 1 2",
    "11010": "3 3 4 1 2 3 4",
    "10101": "4 2 2 1 2",
    "11001": "4 4 4 2 4",
    "110": "2 - 2 1 2",
    "101": "4 2 2 1 2",
    "": "1 - - -",
    "10": "1 - - -",
    "1": "1 - - -",
    "1" * 32: "1 - - -",
    "1" * 32 + "0" * 32: "2 - 63 1 32",
    "10" * 32: "4 2 2 1 2",
    "10" + "1" * 31 + "0" * 31: "3 2 3 1 2",
    "1" * 31 + "0" * 31 + "10": "4 62 62 31 62",
    "1" * 31 + "0" * 30 + "10": "3 61 62 1 31 61 62",
    "1" * 31 + "0" * 31 + "1": "4 62 62 31 62",
    "1" * 31 + "0" + "1" + "0" * 31: "3 32 33 1 31 32 33",
}


def records_of(forms):
    """The records of forms, each by its counts and its beats, of each kind."""
    for kind in packing.KINDS:
        yield b"".join(packing.record(kind, t, s, beats) for t, s, beats in forms)


def examples(verifier):
    forms = [(form.count("1"), form.count("0"), [*map(int, form)]) for form in EXAMPLES]
    right = "".join(line + "\n" for line in EXAMPLES.values()).encode()
    for data in records_of(forms):
        verifier.verify("examples", data, right=right)


def case_of(found, moved):
    """The case that the places of a line say."""
    if moved == "-":
        return "1"
    return "2" if found == "-" else "4" if found == moved else "3"


def found_in(beats):
    """The place of the 1 after the leftmost 0 that has one right after it, as a line shows it."""
    before = "".join(map(str, beats)).find("01")
    return "-" if before < 0 else str(before + 1)


def faults(beats, line, right):
    """What a line says wrongly of a form whose next form is right."""
    parts = LINE.fullmatch(line)
    if not parts or any(int(place) >= len(beats) for place in line.split()[1:] if place != "-"):
        yield "is no line of this form"
        return
    case, found, moved, changed = parts.groups()
    places = [] if changed == "-" else [*map(int, changed.split())]
    if case != case_of(found, moved):
        yield f"has the places of case {case_of(found, moved)}"
    if found != found_in(beats):
        yield f"finds another 1 than that at {found_in(beats)}"
    if (beats if moved == "-" else oracle.shifted(beats, int(moved) + 1)) != right:
        yield f"moves to another form than {right}"
    if [1 - beat if place in places else beat for place, beat in enumerate(beats)] != right:
        yield f"changes to another form than {right}"
    if places != sorted(set(places)):
        yield "has places that do not ascend"


def some_forms():
    """Every form of the small counts, and some of each other pair. [X14]"""
    for t, s in oracle.pairs():
        count = oracle.forms(t, s)
        some = range(count) if t <= SMALL else {0, 1 % count, count // 3, count // 2, count - 1}
        yield from ((t, s, n, oracle.form_of(t, s, n)) for n in some)


def steps(verifier):
    """What each line says, done to its form."""
    forms = [*some_forms()]
    after = [oracle.form_of(t, s, (n + 1) % oracle.forms(t, s)) for t, s, n, _ in forms]
    for data in records_of([(t, s, beats) for t, s, _, beats in forms]):
        for run, got in verifier.outputs("steps", data):
            lines = got.decode().splitlines()
            if len(lines) != len(forms):
                raise Difference(f"{run}: {len(forms)} lines are right, got {len(lines)}")
            for (t, s, _, beats), line, right in zip(forms, lines, after):
                for fault in faults(beats, line, right):
                    raise Difference(f"{run}: {line!r}, of {beats} of ({t}, {s}), {fault}")
        verifier.verify("steps", data)


PARTS = (examples, steps)

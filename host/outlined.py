"""What the outlines mean, for the tests: some are typed here, and others are read back to their schedules.

The schedules come from the groups of host/oracle.py, and its reader, which looks an outline up or goes by what may
follow, has to bring each of them back. Each part takes the verifier of host/verify_lists.py.
"""
import oracle
import packing
from listing import Difference

SMALL = 8  # up to here all closed schedules are read back
DEEP = [".".join("1" * level) for level in range(1, oracle.LARGEST + 1)]

# Worked out by hand. [H4] [I6]
EXAMPLES = {
    "": "",
    "10": "1",
    "1010": "1 2",
    "1100": "1 1.1",
    "101010": "1 2 3",
    "101100": "1 2 2.1",
    "110010": "1 1.1 2",
    "110100": "1 1.1 1.2",
    "111000": "1 1.1 1.1.1",
    "11100100110110001100": "1 1.1 1.1.1 1.2 2 2.1 2.2 2.2.1 3 3.1",
    "1" + "10" * 11 + "0": "1 1.1 1.2 1.3 1.4 1.5 1.6 1.7 1.8 1.9 1.10 1.11",
    "10" * 9 + "1100": "1 2 3 4 5 6 7 8 9 10 10.1",
    "1" * 31 + "0" * 30 + "10" + "0": f"{' '.join(DEEP[:31])} 1.2",
    "10" * oracle.LARGEST: " ".join(map(str, range(1, oracle.LARGEST + 1))),
    "1" * oracle.LARGEST + "0" * oracle.LARGEST: " ".join(DEEP),
}
NOT_CLOSED = ("1", "110", "101", "11010", "1" * oracle.LARGEST, "1" * oracle.LARGEST + "0" * (oracle.LARGEST - 1))


def records_of(forms):
    """The records of forms by their beats, of each kind."""
    for kind in packing.KINDS:
        yield b"".join(packing.record(kind, beats.count(1), beats.count(0), beats) for beats in forms)


def shown(numbers):
    """What the list has of an outline by its numbers, with a space between."""
    return "".join(line + "\n" for line in [*numbers.split(), ""])


def examples(verifier):
    forms = [[*map(int, form)] for form in (*EXAMPLES, *NOT_CLOSED)]
    right = "".join([*map(shown, EXAMPLES.values()), *["refused 14 0 0\n\n"] * len(NOT_CLOSED)]).encode()
    for data in records_of(forms):
        verifier.verify("examples", data, right=right)


def some_forms():
    """Every closed schedule of few tasks, and some of each other number of them."""
    for t in range(oracle.LARGEST + 1):
        count = oracle.forms(t, t)
        some = range(count) if t <= SMALL else {0, 1, count // 3, count // 2, count - 1}
        yield from (oracle.form_of(t, t, n) for n in some)


def pieces(output):
    """The text of each record of a list of outlines: what stands before the empty line that ends it."""
    text = b""
    for line in output.splitlines(keepends=True):
        if line == b"\n":
            yield text
            text = b""
        else:
            text += line


def read_back(verifier):
    """What the list has of each form, read back to it."""
    forms = [*some_forms()]
    for data in records_of(forms):
        for run, got in verifier.outputs("read back", data):
            texts = [*pieces(got)]
            if len(texts) != len(forms):
                raise Difference(f"{run}: {len(forms)} outlines are right, got {len(texts)}")
            for beats, text in zip(forms, texts):
                why, left = oracle.schedule_of_outline(len(beats) // 2, text, [9] * len(beats))
                if why or left != beats:
                    raise Difference(f"{run}: {text!r}, of {beats}, is read back to {left}, {why}")
        verifier.verify("read back", data)


PARTS = (examples, read_back)

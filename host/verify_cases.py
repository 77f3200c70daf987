#!/usr/bin/env python3
"""Holds every line of the stored outputs crates/cases_*/stdout to the oracle: verify_cases.py [KIND ..].

Each program has the lines that it must have: all of Table 1 of source 000, the words of Figure 2.3 of source 001, every
pair of counts or every count where a kind of line goes through them, the manual's examples that are no theorems, and of
every other kind as many lines as are stated here. Then what a line says of its input is worked out anew; of these kinds
alone, where some are given. Prints a line for each kind that was verified, and fails on a line that is missing, that is
wrong, or that it cannot read.
"""
import collections
import itertools
import re
import sys

import explained
import explaining
import oracle
import packing
from oracle import ACCEPTED, Why
from packing import refused
from verifying import ROOT, Wrong, contents, ended, sure


LARGEST = oracle.LARGEST
PLACES = oracle.BEATS + 2  # that the programs lend to a reader, where a line does not say how many
ROOM = 16  # and to a writer
NO_PLACE = 2**64 - 1  # what an explanation answers where there is no place
WRITTEN = (packing.PACKED, packing.NUMBERED)  # the kinds of records that are written


def pairs(largest, beats=oracle.BEATS):
    """The allowed counts t, s with t up to a number and up to so many beats, as the programs print them."""
    return [f"{t} {s}" for t in range(largest + 1) for s in range(t + 1) if t + s <= beats]


def spread(s):
    """The largest t, an s, and the first number, three between and the last, as the programs print them."""
    n = oracle.forms(LARGEST, s)
    return [f"{LARGEST} {s} {number}" for number in (0, n // 3, n // 2, n // 3 * 2, n - 1)]


# The lines of each program by how they begin, of the kinds that go through all of something.
TABLE_1 = range(9)  # the rows t of Table 1 of source 000; row t has the columns s from 0 to t
FIGURE_2_3, WORDS = "4 4", 14  # the counts of the words of Figure 2.3 of source 001, and how many words there are
# The forms of some counts in the order of their numbers, written down by hand.
CATALOGUES = {
    (3, 2): "10110 11010 10101 11001 11100",
    (3, 3): "101100 110100 101010 110010 111000",
    (2, 1): "101 110",
    (1, 1): "10",
    (4, 0): "1111",
    (0, 0): "-",
}
THROUGH = {
    "cases_ground": {
        "counts": [f"of {t}" for t in range(LARGEST + 1)],
        "lists": [f"of {t}" for t in TABLE_1],
        "off": pairs(12, beats=12),
    },
    "cases_walk": {
        "order": pairs(4),
        "round": pairs(8),
        "order_back": pairs(4),
        "round_back": pairs(8),
        "explain_number": [f"{LARGEST} 0 0", *spread(LARGEST - 1), *spread(LARGEST)],
        "explain_round": pairs(8),
    },
    "cases_number": {"both": pairs(8), "ends": pairs(LARGEST)},
    "cases_tree": {"trees": [*range(8)], "combinations": [1, 2]},
    "cases_outline": {"outlines": [*range(9)], "outline_bytes": [*range(5)], "outline_rows": [*range(5)]},
    "cases_record": {"records": pairs(7), "scattered": [*range(8, LARGEST + 1)]},
}
# How many lines each program has of the other kinds, and those of them that the manual gives.
STATED = {
    "cases_ground": {"count": 8, "check": 49},
    "cases_walk": {
        "next": 13,
        "changed": 13,
        "run": 20,
        "previous": 17,
        "previous_changed": 17,
        "run_back": 27,
        "run_back_changed": 27,
        "explain": 33,
    },
    "cases_number": {"number": 38, "form": 28, "sheet": 26},
    "cases_tree": {"tree": 69, "back": 98, "damage": 12},
    "cases_outline": {"outline": 101, "outline_read": 134, "outline_damage": 6},
    "cases_record": {"write": 290, "read": 389, "filled": 20, "changes": 11},
}
EXAMPLES = {
    "cases_ground": (
        f"count {LARGEST + 1} 0",
        "count 2 3",
        "check 2 1 111",
        "check 3 1 1010",
        "check 2 2 1001",
        "check 2 1 11",
    ),
    "cases_walk": (
        "run 65535 3 2 11100",
        "run 65536 2 1 110",
        "explain 3 2 11010",
        "explain 3 2 11100",
        "explain 3 2 10110",
        "explain 3 2 10101",
        "explain 3 2 11001",
        "explain 0 0 -",
        "explain 1 1 10",
        "explain 3 0 111",
    ),
    "cases_number": ("form 3 2 0 5", "form 3 2 4 5", "form 3 2 5 5", "number 3 2 10110", "number 3 2 11100"),
    "cases_tree": ("tree 6 111001001100 6 6 6", "back 1 0 0 1 2"),
    "cases_outline": (
        "outline 3 3 110100 12",
        "outline 3 3 110100 9",
        "outline 0 0 - 0",
        "outline 2 1 110 6",
        "outline 2 1 111 0",
        "outline_read 3 1/1.1/1.2/ 6",
        "outline_read 3 1/1.1/1.3/ 6",
        "outline_read 3 1/1.1/ 6",
        "outline_read 3 1/1.1/1.2 6",
        "outline_read 2 1/1.1/1.2/ 4",
        "outline_read 2 1/02/ 4",
        "outline_read 2 1// 4",
        "outline_read 1 1/2/ 2",
        "outline_read 0 1/ 0",
    ),
    "cases_record": ("write 1 3 2 10110 16", "read (12)0103220000000 66", "read (12)0303210000000 66"),
}
SOURCES = {"counts": "Table 1 of source 000", "lists": "Table 1 of source 000", "order": "Figure 2.3 of source 001"}


def beats_of(text):
    """The beats that show::beats prints: digits run together, a larger number in brackets, "-" for none."""
    return [] if text == "-" else [int(b or d) for b, d in re.findall(r"\((\d+)\)|(\d)", text)]


def counts_of(t):
    t = int(t)
    row = [oracle.forms(t, s) for s in range(t + 1)]
    sure(t not in TABLE_1 or row == oracle.TABLE_1[t], f"Table 1 of source 000 has another row {t}")
    return " ".join(map(str, row))


# [P8]
def lists_of(t):
    t = int(t)
    found = []
    for s in range(9):
        lists = itertools.product((0, 1), repeat=t + s) if s <= t else []
        found.append(sum(1 for beats in lists if oracle.is_schedule(t, s, list(beats))))
    sure(found[: t + 1] == oracle.TABLE_1[t], f"Table 1 of source 000 has another row {t}")
    return " ".join(map(str, found))


def with_value(why, value):
    return refused(why) if why else str(value)


def count(t, s):
    return with_value(*oracle.count(int(t), int(s)))


def said_of(why):
    return refused(why) if why else "accepted"


def check(t, s, text):
    return said_of(oracle.check(int(t), int(s), beats_of(text)))


def text_of(beats):
    return "".join(str(b) if b < 10 else f"({b})" for b in beats) or "-"


def circle(t, s):
    """The forms from t ones then s zeros on, until that form comes again."""
    forms = [oracle.top(t, s)]
    while (after := oracle.successor(t, s, forms[-1])) != forms[0]:
        forms.append(after)
    sure(len(forms) == oracle.forms(t, s), f"the circle of ({t}, {s}) has {len(forms)} forms")
    sure(all(oracle.is_schedule(t, s, f) for f in forms), f"the circle of ({t}, {s}) leaves the schedules")
    return forms


def order(t, s):
    forms = [text_of(f) for f in circle(int(t), int(s))]
    sure(f"{t} {s}" != FIGURE_2_3 or forms == oracle.FIGURE_2_3, "Figure 2.3 of source 001 has other words")
    return " ".join(forms + forms[:1])


def catalogue(t, s):
    """The forms in the order of their numbers: from the form after t ones and s zeros on."""
    first, *others = circle(t, s)
    return [*others, first]


def digest(forms):
    """What the programs fold of all beats of some forms in their order."""
    value = 0
    for beat in itertools.chain(*forms):
        value = (value * 31 + beat) % 4294967291
    return value


def folded(why):
    """The numbers of a verdict that the programs fold; of the surplus, how large it is and whether it is negative."""
    return [why.refusal, why.place, abs(why.surplus), int(why.surplus < 0)]


def off(t, s):
    """How many lists of t + s zeros and ones are refused 6, and the digest of what all are refused for. Those with a
    surplus are the schedules of as many more ones and fewer zeros, and no surplus but these is there."""
    t, s = int(t), int(s)
    lists = (list(reversed(beats)) for beats in itertools.product((0, 1), repeat=t + s))
    whys = [oracle.check(t, s, beats) for beats in lists]
    found = dict(collections.Counter(why.surplus for why in whys if why.refusal == 6))
    right = {more: oracle.forms(t + more, s - more) for more in oracle.surpluses(t, s)}
    sure(found == right, f"the lists of ({t}, {s}) have these surpluses: {found}, and {right} is right")
    return f"{sum(found.values())} {digest(map(folded, whys))}"


def turned(forms):
    """The forms of a circle in their order back, from the same form."""
    return forms[:1] + forms[:0:-1]


def order_back(t, s):
    forms = [text_of(f) for f in turned(circle(int(t), int(s)))]
    return " ".join(forms + forms[:1])


def round_through(t, s, forms):
    """What is said of a round of these forms, in their order."""
    worked = sum(oracle.changed(a, b) for a, b in zip(forms, forms[1:] + forms[:1]))
    if t >= 2 and s >= 1:
        right = 2 * len(forms) + 2 * oracle.forms(t - 1, s - 1) - 2
        sure(worked == right, f"the round of ({t}, {s}) changes {worked} beats, and by the manual {right}")
    return f"{len(forms)} {worked} {digest(forms)} {text_of(forms[0])}"


def round_of(t, s):
    t, s = int(t), int(s)
    return round_through(t, s, circle(t, s))


def round_back(t, s):
    t, s = int(t), int(s)
    return round_through(t, s, turned(circle(t, s)))


def with_answer(why, value, left):
    return f"{with_value(why, value)} {text_of(left)}"


def without_left(line):
    return line.rsplit(" ", 1)[0]


def run(k, t, s, text):
    return with_answer(*oracle.run(int(t), int(s), beats_of(text), int(k)))


def step(t, s, text):
    return run("1", t, s, text)


def changed(t, s, text):
    return without_left(step(t, s, text))


def run_back(k, t, s, text):
    return with_answer(*oracle.run_back(int(t), int(s), beats_of(text), int(k)))


def run_back_changed(k, t, s, text):
    return without_left(run_back(k, t, s, text))


def step_back(t, s, text):
    return run_back("1", t, s, text)


def step_back_changed(t, s, text):
    return run_back_changed("1", t, s, text)


def form_after(t, s, beats):
    """The form of the next number, by the groups and by no step."""
    return oracle.form_of(t, s, (oracle.number_of(t, s, beats) + 1) % oracle.forms(t, s))


def told(t, s, beats):
    """What is said of a form: what was worked out by hand, where it was, and by its meaning the form of the next number.
    """
    line = explaining.accepted(t, s, beats)
    by_hand = explained.EXAMPLES.get("".join(map(str, beats)), line)
    sure(line == by_hand, f"{line!r} of {text_of(beats)}: {by_hand!r} by hand")
    faults = [*explained.faults(beats, line, form_after(t, s, beats))]
    sure(not faults, f"{line!r} of {text_of(beats)}: {'; '.join(faults)}")
    return line


def explain(t, s, text):
    t, s, beats = int(t), int(s), beats_of(text)
    why = oracle.check(t, s, beats)
    return f"{said_of(why)} {'0 - - -' if why else told(t, s, beats)}"


def explain_number(t, s, n):
    """The form of a number, what is said of it, and the form that this leads to."""
    t, s = int(t), int(s)
    beats = oracle.form_of(t, s, int(n))
    return f"{text_of(beats)} accepted {told(t, s, beats)} {text_of(form_after(t, s, beats))}"


def places_folded(t, s, beats):
    """The numbers of an explanation that the programs fold: at the last of the five indices is no changed place."""
    case, found, moved, places = oracle.explanation(t, s, beats)
    return [case, *(found or [NO_PLACE]), *(moved or [NO_PLACE]), *(places + [NO_PLACE] * 5)[:5]]


def explain_round(t, s):
    """Every form, from t ones then s zeros on: how many explanations lead to the next form, and the digest of each and
    of the form that it leads to."""
    t, s = int(t), int(s)
    forms = [oracle.form_from_top(t, s, n) for n in range(oracle.forms(t, s))]
    right = [told(t, s, beats) for beats in forms]
    calls = [(places_folded(t, s, beats), form_after(t, s, beats)) for beats in forms]
    return f"{len(right)} {digest(itertools.chain(*calls))}"


def both(t, s):
    """Every form by its number: the circle as it is walked, which the groups of the list give too, both ways. [E7b]"""
    t, s = int(t), int(s)
    forms = catalogue(t, s)
    listed = " ".join(map(text_of, forms))
    sure(listed == CATALOGUES.get((t, s), listed), f"the forms of ({t}, {s}) are others by hand, or in another order")
    sure(forms == [oracle.form_of(t, s, n) for n in range(len(forms))], "the circle is not the list of the groups")
    numbers = [oracle.number_of(t, s, f) for f in forms]
    sure(numbers == list(range(len(forms))), "the groups do not give the numbers of the circle")
    return f"{len(forms)} {digest(forms)}"


def chosen(n):
    """The numbers below n that the program asks for."""
    if n < 2:
        return [0] * 21
    return [0, 1, n // 2, n - 1, n - 2] + [k * 11400714819323198485 % 2**64 % n for k in range(5, 21)]


def ends(t, s):
    """The last number, which t ones then s zeros have, the refusal of the next, and the digest of some forms, each of
    which has its number and is a step on from the form of the number before. [E7b]"""
    t, s = int(t), int(s)
    n = oracle.forms(t, s)
    forms = [oracle.form_of(t, s, x) for x in chosen(n)]
    before = [oracle.form_of(t, s, (x - 1) % n) for x in chosen(n)]
    sure(all(oracle.is_schedule(t, s, f) for f in forms), "the groups have a form that is no schedule")
    sure([oracle.number_of(t, s, f) for f in forms] == chosen(n), "a form of the groups has another number")
    sure([oracle.successor(t, s, f) for f in before] == forms, "a step does not lead to the next number")
    return f"{oracle.number_of(t, s, oracle.top(t, s))} {oracle.numbered(t, s, n).refusal} {digest(forms)}"


def number(t, s, text):
    return with_value(*oracle.number(int(t), int(s), beats_of(text)))


def with_left(why, *slices):
    return " ".join([said_of(why), *map(text_of, slices)])


def form(t, s, n, length):
    return with_left(*oracle.form(int(t), int(s), int(n), [7] * int(length)))


def sheet(t, s, n, column, length):
    return with_left(*oracle.form_on_sheet(int(t), int(s), int(n), [7] * int(length), int(column)))


def tree(n, text, *lengths):
    why, tables = oracle.tree(int(n), beats_of(text), [[7] * int(length) for length in lengths])
    return with_left(why, *tables)


def back(n, left, right, parent, length):
    tables = [beats_of(text) for text in (left, right, parent)]
    return with_left(*oracle.schedule_of_tree(int(n), tables, [7] * int(length)))


def after_tree(n, beats):
    """The verdict of the way there, then the bytes that were lent to it as they are after it."""
    why, tables = oracle.tree(n, beats, [[7] * n] * 3)
    return [folded(why), *tables, beats]


def after_back(n, tables):
    """The same of the way back."""
    why, left = oracle.schedule_of_tree(n, tables, [7] * (2 * n))
    return [folded(why), *tables, left]


def tally(backs, calls, refusal=8):
    """How many ways back were accepted and how many were refused so, and the digest of some calls."""
    refusals = [verdict[0] for verdict, *_ in backs]
    return f"{refusals.count(0)} {refusals.count(refusal)} {digest(itertools.chain(*calls))}"


def trees(n):
    """Every closed schedule there and back, in the order of the numbers."""
    n = int(n)
    forms = catalogue(n, n)
    there = [after_tree(n, beats) for beats in forms]
    backs = [after_back(n, tables) for _, *tables, _ in there]
    sure([left for *_, left in backs] == forms, "the ways there and back do not undo each other")
    return tally(backs, itertools.chain(*zip(there, backs)))


def combinations(n):
    """Every three tables of n entries out of five; the first entry changes fastest."""
    n = int(n)
    backs = []
    for entries in itertools.product((0, 1, 2, 3, 255), repeat=3 * n):
        entries = list(reversed(entries))
        backs.append(after_back(n, [entries[:n], entries[n : 2 * n], entries[2 * n :]]))
    return tally(backs, backs)


def damaged(tables):
    """The tables with one entry changed, each entry to each value that the program takes."""
    for which, table in enumerate(tables):
        for node, entry in enumerate(table, 1):
            for value in (0, (entry + 1) % 256, (entry - 1) % 256, node, LARGEST + 1 - node, LARGEST + 1, 255):
                if value != entry:
                    other = table[: node - 1] + [value] + table[node:]
                    yield tables[:which] + [other] + tables[which + 1 :]


def damage(text):
    beats = beats_of(text)
    sure(oracle.is_schedule(LARGEST, LARGEST, beats), f"the beats are no schedule of ({LARGEST}, {LARGEST})")
    whole = oracle.tables_of(oracle.tree_of(beats))
    backs = [after_back(LARGEST, tables) for tables in damaged(whole)]
    return tally(backs, backs)


PLAIN = b"0123456789.#"  # the bytes of a text that a line shows as they are


def text_in(shown):
    """The bytes of a text that a line shows: / is a line feed, a number in brackets any byte, "-" no byte at all."""
    parts = [] if shown == "-" else re.findall(r"\((\d+)\)|(.)", shown)
    return bytes(int(code) if code else ord("\n" if plain == "/" else plain) for code, plain in parts)


def shown_text(text):
    return "".join("/" if b == ord("\n") else chr(b) if b in PLAIN else f"({b})" for b in text) or "-"


def outline(t, s, text, room):
    why, length, left = oracle.outline(int(t), int(s), beats_of(text), b"#" * int(room))
    return f"{with_value(why, length)} {shown_text(left)}"


def outline_read(n, text, length):
    return with_left(*oracle.schedule_of_outline(int(n), text_in(text), [7] * int(length)))


def after_outline(n, beats, room):
    """The verdict of writing an outline, its length, then the bytes that were lent for it as they are after it."""
    why, length, left = oracle.outline(n, n, beats, b"#" * room)
    return [folded(why), [length], left]


def after_read(n, text):
    """The verdict of reading an outline, then the bytes that were lent to it as they are after it."""
    why, left = oracle.schedule_of_outline(n, text, [7] * (2 * n))
    return [folded(why), text, left]


def outlines(n):
    """Every closed schedule there and back, in the order of the numbers: in a byte too much, in as many, and in a byte
    too few."""
    n = int(n)
    calls, backs = [], []
    for beats in catalogue(n, n):
        text = oracle.outline_text(beats)
        calls += [after_outline(n, beats, len(text) + more) for more in (1, 0, -1) if len(text) + more >= 0]
        backs.append(after_read(n, text))
        calls.append(backs[-1])
    sure([left for *_, left in backs] == catalogue(n, n), "the ways there and back do not undo each other")
    return tally(backs, calls, refusal=15)


def read_all(n, texts):
    """What is said of reading each of some texts."""
    backs = [after_read(n, text) for text in texts]
    return tally(backs, backs, refusal=15)


def texts_of(n):
    """The texts of all outlines of n lines, in the order of the numbers of their schedules."""
    return [oracle.outline_text(beats) for beats in catalogue(n, n)]


def one_byte_off(text):
    """At each place and at the end: the text up to there, without the byte there, and for each value with it for the
    byte there and with it before that byte. The whole text is one of the first."""
    for at in range(len(text) + 1):
        yield text[:at]
        yield from [text[:at] + text[at + 1 :]] * (at < len(text))
        for value in range(256):
            yield from [text[:at] + bytes([value]) + text[at + 1 :]] * (at < len(text) and text[at] != value)
            yield text[:at] + bytes([value]) + text[at:]


def outline_bytes(n):
    return read_all(int(n), (other for text in texts_of(int(n)) for other in one_byte_off(text)))


def outline_rows(n):
    """Every row of up to n + 1 lines of each outline; the first line changes fastest."""
    n = int(n)
    rows = [row[::-1] for count in range(n + 2) for row in itertools.product(range(n), repeat=count)]
    lines = [text.splitlines(keepends=True) for text in texts_of(n)]
    return read_all(n, (b"".join(own[line] for line in row) for own in lines for row in rows))


def outline_damage(text):
    """Of a text of the most lines each part that ends early, and each byte raised by one."""
    own = oracle.outline_text(beats_of(text))
    pairs = ((own[:at], own[:at] + bytes([(own[at] + 1) % 256]) + own[at + 1 :]) for at in range(len(own)))
    return read_all(LARGEST, itertools.chain(*pairs))


def writing(kind, t, s, beats, room):
    """What writing into so many bytes that are 7 answers (why, and the value), and the bytes left."""
    why = oracle.check(t, s, beats) if kind in WRITTEN else Why(10)
    record = [] if why else list(packing.record(kind, t, s, beats))
    if len(record) > room:
        why, record = Why(12), []
    return why, len(record), record + [7] * (room - len(record))


def write(kind, t, s, text, room):
    return with_answer(*writing(int(kind), int(t), int(s), beats_of(text), int(room)))


def reading(data, room):
    """What reading in so many places that are 7 answers (why; t, s, number and bytes consumed), and the places left."""
    lent = room >= oracle.BEATS
    why, (t, s, n, beats), consumed = packing.read(bytes(data)) if lent else (Why(12), packing.NOTHING, 0)
    return why, [t, s, n, consumed], beats + [7] * (room - len(beats))


def read_line(data, room):
    why, said, left = reading(data, room)
    return " ".join([said_of(why), *map(str, said), text_of(left)])


def read(text, room):
    return read_line(beats_of(text), int(room))


def filled(text, length):
    """Some bytes, and zeros after them."""
    head = beats_of(text)
    return read_line(head + [0] * (int(length) - len(head)), PLACES)


def there_and_back(forms):
    """How many records of some forms, in each kind, say the form again, and the digest of each call: writing, where the
    kind is written, and reading."""
    same, calls = 0, []
    for (t, s, beats), kind in itertools.product(forms, (*WRITTEN, packing.FROM_TOP)):
        record = packing.record(kind, t, s, beats)
        form = (ACCEPTED, [t, s, oracle.number_of(t, s, beats), len(record)], beats)
        if kind in WRITTEN:
            why, size, record = writing(kind, t, s, beats, ROOM)
            calls += [folded(why), [size], record]
        verdict, said, left = reading(record, PLACES)
        calls += [folded(verdict), said, left]
        same += (verdict, said, left[: t + s]) == form
    sure(same == 3 * len(forms), "a record does not say its form again")
    return f"{same} {digest(calls)}"


def records(t, s):
    """Every form of two counts, in the order of the numbers."""
    t, s = int(t), int(s)
    return there_and_back([(t, s, beats) for beats in catalogue(t, s)])


def scattered(t):
    """Four forms of every s."""
    t = int(t)
    numbers = [(s, k * 11400714819323198485 % 2**64 % oracle.forms(t, s)) for s in range(t + 1) for k in range(4)]
    return there_and_back([(t, s, oracle.form_of(t, s, n)) for s, n in numbers])


def changes(text):
    """Each byte of a record set to each value: how many of these are accepted, and the digest."""
    data = beats_of(text)
    others = (data[:at] + [value] + data[at + 1 :] for at in range(len(data)) for value in range(256))
    readings = [reading(other, PLACES) for other in others]
    accepted = sum(1 for why, *_ in readings if not why)
    return f"{accepted} {digest(part for why, *parts in readings for part in (folded(why), *parts))}"


KINDS = [
    ("order", re.compile(r"order (\d+) (\d+): (.*)"), order),
    ("round", re.compile(r"round (\d+) (\d+): (.*)"), round_of),
    ("run", re.compile(r"run (\d+) (\d+) (\d+) (\S+): (.*)"), run),
    ("next", re.compile(r"next (\d+) (\d+) (\S+): (.*)"), step),
    ("changed", re.compile(r"changed (\d+) (\d+) (\S+): (.*)"), changed),
    ("order_back", re.compile(r"order_back (\d+) (\d+): (.*)"), order_back),
    ("round_back", re.compile(r"round_back (\d+) (\d+): (.*)"), round_back),
    ("run_back", re.compile(r"run_back (\d+) (\d+) (\d+) (\S+): (.*)"), run_back),
    ("run_back_changed", re.compile(r"run_back_changed (\d+) (\d+) (\d+) (\S+): (.*)"), run_back_changed),
    ("previous", re.compile(r"previous (\d+) (\d+) (\S+): (.*)"), step_back),
    ("previous_changed", re.compile(r"previous_changed (\d+) (\d+) (\S+): (.*)"), step_back_changed),
    ("explain", re.compile(r"explain (\d+) (\d+) (\S+): (.*)"), explain),
    ("explain_number", re.compile(r"explain_number (\d+) (\d+) (\d+): (.*)"), explain_number),
    ("explain_round", re.compile(r"explain_round (\d+) (\d+): (.*)"), explain_round),
    ("counts", re.compile(r"counts of (\d+): (.*)"), counts_of),
    ("lists", re.compile(r"lists of (\d+): (.*)"), lists_of),
    ("off", re.compile(r"off (\d+) (\d+): (.*)"), off),
    ("count", re.compile(r"count (\d+) (\d+): (.*)"), count),
    ("check", re.compile(r"check (\d+) (\d+) (\S+): (.*)"), check),
    ("both", re.compile(r"both (\d+) (\d+): (.*)"), both),
    ("ends", re.compile(r"ends (\d+) (\d+): (.*)"), ends),
    ("number", re.compile(r"number (\d+) (\d+) (\S+): (.*)"), number),
    ("form", re.compile(r"form (\d+) (\d+) (\d+) (\d+): (.*)"), form),
    ("sheet", re.compile(r"sheet (\d+) (\d+) (\d+) (\d+) (\d+): (.*)"), sheet),
    ("tree", re.compile(r"tree (\d+) (\S+) (\d+) (\d+) (\d+): (.*)"), tree),
    ("back", re.compile(r"back (\d+) (\S+) (\S+) (\S+) (\d+): (.*)"), back),
    ("trees", re.compile(r"trees (\d+): (.*)"), trees),
    ("combinations", re.compile(r"combinations (\d+): (.*)"), combinations),
    ("damage", re.compile(r"damage (\S+): (.*)"), damage),
    ("outline", re.compile(r"outline (\d+) (\d+) (\S+) (\d+): (.*)"), outline),
    ("outline_read", re.compile(r"outline_read (\d+) (\S+) (\d+): (.*)"), outline_read),
    ("outlines", re.compile(r"outlines (\d+): (.*)"), outlines),
    ("outline_bytes", re.compile(r"outline_bytes (\d+): (.*)"), outline_bytes),
    ("outline_rows", re.compile(r"outline_rows (\d+): (.*)"), outline_rows),
    ("outline_damage", re.compile(r"outline_damage (\S+): (.*)"), outline_damage),
    ("write", re.compile(r"write (\d+) (\d+) (\d+) (\S+) (\d+): (.*)"), write),
    ("read", re.compile(r"read (\S+) (\d+): (.*)"), read),
    ("filled", re.compile(r"filled (\S+) (\d+): (.*)"), filled),
    ("records", re.compile(r"records (\d+) (\d+): (.*)"), records),
    ("scattered", re.compile(r"scattered (\d+): (.*)"), scattered),
    ("changes", re.compile(r"changes (\S+): (.*)"), changes),
]


def verify(line):
    """What is wrong with a line, or None."""
    for _, pattern, answer in KINDS:
        match = pattern.fullmatch(line)
        if match:
            *inputs, said = match.groups()
            try:
                right = answer(*inputs)
            except (Wrong, ArithmeticError, LookupError, ValueError) as error:
                return f"{line!r} cannot be worked out: {error}"
            return None if said == right else f"{line!r} should say {right!r}"
    return f"{line!r} is a line of no known kind"


def kind_of(line):
    return line.split(" ")[0]


def source_faults():
    """Where the oracle has not all of what it has from the sources."""
    if [len(row) for row in oracle.TABLE_1] != [t + 1 for t in TABLE_1]:
        yield "host/oracle.py: Table 1 of source 000 has the rows 0 to 8, and the columns 0 to t in row t"
    if len(set(oracle.FIGURE_2_3)) != WORDS or len(oracle.FIGURE_2_3) != WORDS:
        yield f"host/oracle.py: Figure 2.3 of source 001 has {WORDS} words"


def missing_faults(program, lines):
    """What a program's stored output has not that it must have, or has in another number."""
    begun = {line.split(":")[0] for line in lines}
    through = {kind: [f"{kind} {own}" for own in inputs] for kind, inputs in THROUGH[program].items()}
    for kind, needed in through.items():
        missing = [start for start in needed if start not in begun]
        if missing:
            source = f", of {SOURCES[kind]}" if kind in SOURCES else ""
            yield f"{len(missing)} of {len(needed)} lines {kind!r}{source} are missing, first {missing[0]!r}"
    for start in EXAMPLES[program]:
        if start not in begun:
            yield f"the manual's {start!r} is missing"
    right = STATED[program] | {kind: len(needed) for kind, needed in through.items()}
    got = collections.Counter(map(kind_of, lines))
    for kind in sorted(right.keys() | got.keys()):
        if got[kind] != right.get(kind, 0):
            yield f"{got[kind]} lines {kind!r}, and {right.get(kind, 0)} should be there"


def stored():
    """The lines of each program's stored output, by its path."""
    programs = {path.name for path in ROOT.glob("crates/cases_*")}
    sure(programs == STATED.keys(), f"the programs are {sorted(programs)}, and {sorted(STATED)} are known here")
    paths = [f"crates/{program}/stdout" for program in sorted(programs)]
    return {path: contents(path).splitlines() for path in paths}


def main():
    chosen = sys.argv[1:] or [kind for kind, *_ in KINDS]
    unknown = set(chosen) - {kind for kind, *_ in KINDS}
    kinds = " ".join(kind for kind, *_ in KINDS)
    sure(not unknown, f"no kind of line: {' '.join(sorted(unknown))}; the kinds are {kinds}")
    outputs = stored()
    found = [*source_faults()]
    for path, lines in outputs.items():
        found += [f"{path}: {fault}" for fault in missing_faults(path.split("/")[1], lines)]
    if not found:
        numbered = [(f"{path}:{at}", line) for path, lines in outputs.items() for at, line in enumerate(lines, 1)]
        verified = [(kind_of(line), where, verify(line)) for where, line in numbered if kind_of(line) in chosen]
        found += [f"{where}: {fault}" for _, where, fault in verified if fault]
        for kind, count in sorted(collections.Counter(kind for kind, *_ in verified).items()):
            print(f"{kind}: {count} lines")
    for fault in found:
        print(fault)
    return 1 if found else 0


if __name__ == "__main__":
    sys.exit(ended(main))

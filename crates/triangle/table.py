#!/usr/bin/env python3
"""Writes the table of counts, src/table.rt and specs/Table.antt, from the addition rule of the manual.

The largest count is read from specs/Count.antt, the one place of the definitions that names it. The look-up has the counts with s up to t row after
row, in three parts of whole rows, since a match of all of them is more than one function's check takes.
  table.py           writes the two files
  table.py --check   exits with 1 where a file is not what would be written
"""
import pathlib
import re
import sys
import textwrap

HERE = pathlib.Path(__file__).resolve().parent
WIDTH = 120
WHY_THREE = (
    "Three functions and not one with a parameter: they differ in the arms of a match, which are literals. A list of "
    "counts as an argument would be an array, built anew at each read (200 ns, bench/RESULTS.md), and one match of all "
    "is more than one function's check takes."
)
OF_CODE, SHORT = 99, 10  # as `rt fmt` lays out an array: the width of a line, and the longest entries that share one


def largest():
    """What specs/Count.antt says."""
    found = re.findall(r"^largest = (\d+)$", (HERE / "specs/Count.antt").read_text(), re.M)
    if len(found) != 1:
        sys.exit("specs/Count.antt has not one line 'largest = NUMBER'")
    return int(found[0])


LARGEST = largest()
SIZE = LARGEST + 1


def triangle():
    rows = []
    for t in range(SIZE):
        row = [1]
        for s in range(1, SIZE):
            row.append(row[s - 1] + rows[t - 1][s] if s <= t else 0)
        rows.append(row)
    return rows


def start(t):
    """How many counts with s up to t the rows before row t have."""
    return t * (t + 1) // 2


def parts(rows):
    """The three parts of about as many counts: name, first row, and the rows up to s = t."""
    cuts = [min(range(SIZE), key=lambda t: abs(3 * start(t) - k * start(SIZE))) for k in range(3)] + [SIZE]
    return [
        (name, low, [rows[t][: t + 1] for t in range(low, high)])
        for name, low, high in zip(("low", "middle", "high"), cuts, cuts[1:])
    ]


def entries(row):
    """The entries of an array as lines: as many to a line as it holds where all are short, else each on its own."""
    own = textwrap.wrap(" ".join(row), OF_CODE - 8) if all(len(entry) <= SHORT + 1 for entry in row) else row
    return [f"        {line}" for line in own]


def rattle(rows):
    out = ["// The counts N(t, s), a row for each t: the table, and the look-up that reads no table."]
    out += ["// Written by table.py from the largest count in specs/Count.antt; not edited by hand."]
    out += ["ghost use Rattle.std.specs.Prelude.{◌≡◌, ◌≤◌, get_or};"]
    out += ["ghost use Rattle.triangle.specs.Count.{largest};"]
    out += ["ghost use Rattle.triangle.specs.Table.{table, at, low, middle, high};", ""]
    out += ["// The largest number of tasks that a schedule takes up.", f"pub const LARGEST: u64 = {LARGEST};", ""]
    out += ["// One row for each t from 0 to LARGEST, each row with LARGEST + 1 counts, zeros past s = t. [N6] [F2]"]
    out += [f"const FORMS: [[u64; {SIZE}]; {SIZE}] = ["]
    for row in rows:
        out += ["    ["] + entries([f"{n}," for n in row]) + ["    ],"]
    out += ["];", ""]
    out += ["// The table's own entry, and 0 outside the table. A const array is rebuilt wherever it is read, so this is slow. [N6]"]
    out += ["fn listed(t: u64, s: u64) -> u64", "    ensures { result ≡ at t s }", "{"]
    out += ["    if LARGEST < t {", "        return 0;", "    }", "    if LARGEST < s {", "        return 0;", "    }"]
    out += ["    FORMS[t as usize][s as usize]", "}", ""]
    out += ["// The whole table. [F2]"]
    out += [f"pub fn rows() -> [[u64; {SIZE}]; {SIZE}]", "    ensures { result ≡ table }", "{", "    FORMS", "}", ""]
    out += [f"// {line}" for line in textwrap.wrap(WHY_THREE, WIDTH - 3)]
    for name, first, part in parts(rows):
        counts = [n for row in part for n in row]
        out += [f"// The entry at t, s, which stands at i among the counts with s up to t from row {first} on."]
        out += [f"fn in_{name}(t: u64, s: u64, i: u64) -> u64", f"    requires {{ at t s ≡ get_or {name} i 0 }}"]
        out += [f"    ensures {{ result ≡ get_or {name} i 0 }}", "{", "    match i {"]
        out += [f"        {i} => {n}," for i, n in enumerate(counts)]
        out += ["        _ => listed(t, s),", "    }", "}", ""]
    (_, middle, _), (_, high, _) = parts(rows)[1:]
    out += ["// The entry with s up to t, by matches whose arms are literals: one load from read-only memory."]
    out += ["pub fn inside(t: u64, s: u64) -> u64", "    requires { (t ≤ largest) × (s ≤ t) }"]
    out += ["    ensures { result ≡ at t s }", "{", "    let i = t * (t + 1) / 2 + s;"]
    out += [f"    if i < {start(middle)} {{", "        return in_low(t, s, i);", "    }"]
    out += [f"    if i < {start(high)} {{", f"        return in_middle(t, s, i - {start(middle)});", "    }"]
    out += [f"    in_high(t, s, i - {start(high)})", "}", ""]
    out += ["// The table's entry, and 0 outside the table and past s = t."]
    out += ["pub fn entry(t: u64, s: u64) -> u64", "    ensures { result ≡ at t s }", "{"]
    out += ["    if LARGEST < t {", "        return 0;", "    }", "    if t < s {", "        return 0;", "    }"]
    out += ["    inside(t, s)", "}"]
    return "\n".join(out) + "\n"


def broken(rows):
    """A list of rows as lines of at most WIDTH characters, those of a row as few and then as short as can be: each row begins one, and a
    sign ∷ stands at the end of each but the last."""
    rows[-1] += " []"
    out = []
    for row in rows:
        tries = [textwrap.wrap(row.replace(" ∷", "_∷"), width) for width in range(WIDTH // 2, WIDTH - 3)]
        out += ["    " + line.replace("_", " ") for line in min(tries, key=len)]
    return out


def antt(rows):
    out = ["-- The table of counts as a list of rows: what the array of src/table.rt holds. Written by table.py; not edited by hand."]
    out += ["-- proofs/Rule.antt proves that its entries are N(t, s), so nothing here has to be believed. Definitions only."]
    out += ["use Rattle.std.specs.Prelude.{List, [], ◌∷◌, ℕ, get_or}", ""]
    out += ["abbrev pub table : List (List ℕ)", "table ="]
    out += broken(["(" + " ∷ ".join(str(n) for n in row) + " ∷ []) ∷" for row in rows])
    out += ["", "-- the entry in row t and column s, and 0 outside the table", "abbrev pub at : ℕ → ℕ → ℕ", "at t s = get_or (get_or table t []) s 0"]
    out += ["", "-- the counts with s up to t, row after row: what the look-up's three parts hold"]
    for name, _, part in parts(rows):
        out += ["", f"abbrev pub {name} : List ℕ", f"{name} ="]
        out += broken([" ∷ ".join(str(n) for n in row) + " ∷" for row in part])
    for name, first, _ in parts(rows)[1:]:
        out += ["", f"-- the row that {name} starts with", f"abbrev pub {name}_row : ℕ", f"{name}_row = {first}"]
    return "\n".join(out) + "\n"


def main():
    if sys.argv[1:] not in ([], ["--check"]):
        return "table.py, or table.py --check; nothing was written"
    rows = triangle()
    stale = 0
    for name, text in (("src/table.rt", rattle(rows)), ("specs/Table.antt", antt(rows))):
        path = HERE / name
        if sys.argv[1:] == ["--check"]:
            if not path.exists() or path.read_text() != text:
                print(f"{name} is not what table.py writes")
                stale = 1
        else:
            path.write_text(text)
    return stale


if __name__ == "__main__":
    sys.exit(main())

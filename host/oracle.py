"""The manual once more, as plainly as it can be written, for the tests: slow, and sharing no code and no idea with
crates/.

What a call is refused for is one value, a Why, and each call passes it on whole: check(t, s, beats) answers it alone,
count(t, s) and the others before all else. successor(t, s, beats) is the form that a step leads to, and
explanation(t, s, beats) what the step does. form_of(t, s, n) and number_of(t, s, beats) are the form of a number and
the number of a form, by the groups of source 000's list and not by walking; form_from_top and number_from_top are the
same in the earlier numbering, which records of kind 1 hold. No step is undone: run_back(t, s, beats, k) takes the form
of an earlier number and walks on from it. tree(n, ..) and schedule_of_tree(n, ..) go by nested pairs, read from the
beats or from the tables. outline(t, s, ..) and schedule_of_outline(n, ..) go by the numbers of the headings, each of
them a tuple, and a text is bytes.
"""
from collections import Counter
from functools import cache
from itertools import product
from math import comb
from typing import NamedTuple

from verifying import sure

LARGEST = 32  # the largest number of tasks that a schedule takes up, here and in all that takes it from here
BEATS = 2 * LARGEST  # of the longest schedule
MOST_STEPS = 65535  # of a run


class Why(NamedTuple):
    """What a call is refused for: the number, the beat at fault, and how many ones are above t. All are 0, and it is
    false, where the call is accepted."""

    refusal: int
    place: int = 0
    surplus: int = 0

    def __bool__(self):
        return self.refusal != 0


ACCEPTED = Why(0)

# Table 1 of source 000, as printed there: row t, column s. [P8]
TABLE_1 = [
    [1],
    [1, 1],
    [1, 2, 2],
    [1, 3, 5, 5],
    [1, 4, 9, 14, 14],
    [1, 5, 14, 28, 42, 42],
    [1, 6, 20, 48, 90, 132, 132],
    [1, 7, 27, 75, 165, 297, 429, 429],
    [1, 8, 35, 110, 275, 572, 1001, 1430, 1430],
]


# The words of Figure 2.3 of source 001, as printed there: the circle from the top, source 000's list R. [P9]
FIGURE_2_3 = (
    "11110000 10111000 11011000 11101000 10110100 11010100 10101100 "
    "11001100 11100100 10110010 11010010 10101010 11001010 11100010"
).split()


def is_schedule(t, s, beats):
    """The definition: t + s beats, each 0 or 1, exactly t ones, every prefix with at least as many ones as zeros."""
    prefixes = [beats[:k] for k in range(len(beats) + 1)]
    return (
        len(beats) == t + s
        and all(b in (0, 1) for b in beats)
        and beats.count(1) == t
        and all(p.count(1) >= p.count(0) for p in prefixes)
    )


@cache
def forms(t, s):
    """N(t, s) by the closed formula."""
    if s > t:
        return 0
    return 1 if s == 0 else comb(t + s, t) - comb(t + s, t + 1)


def allowed(t, s):
    """What a pair of counts is refused for."""
    return Why(1) if t > LARGEST else Why(2) if s > t else ACCEPTED


def pairs():
    """All allowed pairs of counts."""
    return ((t, s) for t in range(LARGEST + 1) for s in range(t + 1))


def count(t, s):
    """Why, and the count."""
    why = allowed(t, s)
    return (why, 0 if why else forms(t, s))


def check(t, s, beats):
    """What beats are refused for; 4 over all beats before 5."""
    why = allowed(t, s)
    if why:
        return why
    if len(beats) != t + s:
        return Why(3)
    for place, beat in enumerate(beats):
        if beat not in (0, 1):
            return Why(4, place)
    for place, beat in enumerate(beats):
        before = beats[:place]
        if beat == 0 and before.count(1) - before.count(0) == 0:
            return Why(5, place)
    return ACCEPTED if beats.count(1) == t else Why(6, surplus=beats.count(1) - t)


def surpluses(t, s):
    """The surpluses that beats of these counts can be refused with. By as much there are fewer zeros: no fewer than
    none, and no more than the ones."""
    return [more for more in range(-t, s + 1) if more != 0 and s - more <= t + more]


def shifted(beats, k):
    """The k-th prefix shift, with positions from 1: the symbol at k goes to position 2."""
    return beats[:1] + [beats[k - 1]] + beats[1 : k - 1] + beats[k:]


class Step(NamedTuple):
    """A step: the case of the rule, the positions of the found 1 and of the symbol that moves, and the next form. Each
    position is in a list, which is empty where the case has none."""

    case: int
    found: list
    moved: list
    after: list


def step(t, s, beats):
    """The step from a schedule, by the rule as the manual words it."""
    if forms(t, s) == 1:
        return Step(1, [], [], beats)
    rises = [k for k in range(2, len(beats) + 1) if beats[k - 2] == 0 and beats[k - 1] == 1]
    if not rises:
        return Step(2, [], [len(beats)], shifted(beats, len(beats)))
    k = rises[0]
    if k + 1 <= len(beats) and is_schedule(t, s, shifted(beats, k + 1)):
        return Step(3, [k], [k + 1], shifted(beats, k + 1))
    return Step(4, [k], [k], shifted(beats, k))


def successor(t, s, beats):
    """The next form of a schedule."""
    return step(t, s, beats).after


def changes(old, new):
    """The places, from 0, at which two forms differ."""
    return [place for place, (a, b) in enumerate(zip(old, new)) if a != b]


def changed(old, new):
    return len(changes(old, new))


def explanation(t, s, beats):
    """What the step from a schedule does: its case, and lists of places, from 0: of the found 1, of the moved beat and
    of the changed beats."""
    own = step(t, s, beats)
    return (own.case, [k - 1 for k in own.found], [k - 1 for k in own.moved], changes(beats, own.after))


def may_run(t, s, beats, k):
    """What a run is refused for, on or back."""
    return check(t, s, beats) or (Why(13) if k > MOST_STEPS else ACCEPTED)


@cache
def walked(t, s, beats, k):
    """Changed beats and the schedule left of k steps. The beats are a tuple, so that no walk is made twice."""
    worked, beats = 0, [*beats]
    for _ in range(k):
        after = successor(t, s, beats)
        worked += changed(beats, after)
        beats = after
    return worked, tuple(beats)


# [E6]
def run(t, s, beats, k):
    """Why, changed beats and the schedule left."""
    why = may_run(t, s, beats, k)
    if why:
        return (why, 0, beats)
    worked, left = walked(t, s, tuple(beats), k)
    return (why, worked, [*left])


@cache
def group_sizes(t, s):
    """The groups of source 000's list S(t, s), (7a) and (7b): i, and how many forms end in a 1 and then s - i zeros."""
    last = s - 1 if t == s else s
    return [(i, forms(t - 1, i)) for i in range(1, last + 1)]


def top(t, s):
    """The form that takes everything up first."""
    return [1] * t + [0] * s


def form_of(t, s, n):
    """The form of a number below N(t, s): that at this place, from 0, of source 000's list S(t, s), which has its
    groups and at last t ones then s zeros. [E7b]"""
    for i, size in group_sizes(t, s):
        if n < size:
            return form_of(t - 1, i, n) + [1] + [0] * (s - i)
        n -= size
    sure(n == 0, f"the list S of ({t}, {s}) has no form so far after its groups")
    return top(t, s)


def number_of(t, s, beats):
    """The number of a schedule: its place, from 0, in the list S(t, s)."""
    if beats == top(t, s):
        return forms(t, s) - 1
    last = max(k for k in range(t + s) if beats[k] == 1)
    before = beats[:last]
    group = before.count(0)
    return sum(size for i, size in group_sizes(t, s) if i < group) + number_of(t - 1, group, before)


def form_from_top(t, s, n):
    """The form of a number from the top, which counts from t ones then s zeros, as records of kind 1 do: the list S
    turned by one, so that its last form has the number 0."""
    return form_of(t, s, (n - 1) % forms(t, s))


def number_from_top(t, s, beats):
    """The number from the top of a schedule."""
    return (number_of(t, s, beats) + 1) % forms(t, s)


def run_back(t, s, beats, k):
    """What run gives, of k steps back: the form k numbers before this one, and what k steps on from there change."""
    why = may_run(t, s, beats, k)
    if why:
        return (why, 0, beats)
    earlier = form_of(t, s, (number_of(t, s, beats) - k) % forms(t, s))
    _, worked, arrived = run(t, s, earlier, k)
    sure(arrived == beats, f"{k} steps on from the form {k} numbers before one of ({t}, {s}) do not lead to it")
    return (why, worked, earlier)


def number(t, s, beats):
    """Why, and the number."""
    why = check(t, s, beats)
    return (why, 0 if why else number_of(t, s, beats))


def numbered(t, s, n):
    """What a number is refused for."""
    return allowed(t, s) or (Why(7) if n >= forms(t, s) else ACCEPTED)


# [E7b]
def form(t, s, n, out):
    """Why, and the bytes left."""
    why = numbered(t, s, n) or (Why(3) if len(out) != t + s else ACCEPTED)
    return (why, out if why else form_of(t, s, n))


def form_on_sheet(t, s, n, sheet, column):
    """Why, and the sheet left."""
    why = numbered(t, s, n) or (Why(12) if column + t + s > len(sheet) else ACCEPTED)
    return (why, sheet if why else sheet[:column] + form_of(t, s, n) + sheet[column + t + s :])


def tree_of(beats):
    """The binary tree of a closed schedule, its final leaf put back: None for a leaf, for a node the pair of its parts.
    """
    word = iter(beats + [0])

    def read():
        return (read(), read()) if next(word) else None

    root = read()
    sure(next(word, None) is None, "beats go on after the tree")
    return root


def word_of(node):
    """The beats of a tree in preorder, its final leaf too."""
    return [0] if node is None else [1] + word_of(node[0]) + word_of(node[1])


def tables_of(root):
    """Left children, right children and parents, by node numbers in preorder from 1."""
    left, right, parent = {}, {}, {}

    def visit(node, above):
        if node is None:
            return 0
        own = len(parent) + 1
        parent[own] = above
        left[own] = visit(node[0], own)
        right[own] = visit(node[1], own)
        return own

    visit(root, 0)
    return [[table[own] for own in sorted(table)] for table in (left, right, parent)]


def tree(n, beats, tables):
    """Why, and the three tables left."""
    why = allowed(n, n)
    if not why and [len(table) for table in tables] != [n] * 3:
        why = Why(3)
    why = why or check(n, n, beats)
    return (why, tables if why else tables_of(tree_of(beats)))


def key(tables):
    return tuple(map(tuple, tables))


@cache
def closed(n):
    """All closed schedules of n tasks, by their tables."""
    words = [list(word) for word in product((0, 1), repeat=2 * n)]
    found = {key(tables_of(tree_of(word))): word for word in words if is_schedule(n, n, word)}
    sure(len(found) == forms(n, n), f"two closed schedules of {n} tasks have the same tables")
    return found


def tree_at(node, left, right, seen):
    """The tree below a node of two tables of children; KeyError where a number is no node or comes twice."""
    if node == 0:
        return None
    if node > len(left) or node in seen:
        raise KeyError(node)
    seen.add(node)
    return (tree_at(left[node - 1], left, right, seen), tree_at(right[node - 1], left, right, seen))


def schedule_with(n, tables):
    """The closed schedule that has three tables, or None: looked up among all, and for large n read from node 1 on."""
    if n <= 7:
        return closed(n).get(key(tables))
    try:
        root = tree_at(1, tables[0], tables[1], set())
    except KeyError:
        return None
    return word_of(root)[:-1] if tables_of(root) == tables else None


def schedule_of_tree(n, tables, out):
    """Why, and the bytes left."""
    if n > LARGEST:
        return (Why(1), out)
    if [len(table) for table in tables] != [n] * 3 or len(out) != 2 * n:
        return (Why(3), out)
    beats = schedule_with(n, tables)
    return (Why(8), out) if beats is None else (ACCEPTED, beats)


# The outline.


def numbers_of(beats):
    """The numbers of the headings of a closed schedule, each one that of its parent, the last that is open, and its
    place among its sisters."""
    numbers, unclosed, below = [], [()], Counter()
    for beat in beats:
        if beat:
            parent = unclosed[-1]
            below[parent] += 1
            numbers.append((*parent, below[parent]))
            unclosed.append(numbers[-1])
        else:
            unclosed.pop()
    sure(unclosed == [()], "a heading is not closed")
    return numbers


def line_of(number):
    """A number as a line shows it, without the line feed."""
    return ".".join(map(str, number)).encode()


def outline_text(beats):
    """The text of the outline of a closed schedule."""
    return b"".join(line_of(number) + b"\n" for number in numbers_of(beats))


def closed_why(t, s, beats):
    """What beats are refused for that are to be a closed schedule."""
    return check(t, s, beats) or (Why(14) if t != s else ACCEPTED)


def outline(t, s, beats, text):
    """Why, the bytes written and the text left."""
    why = closed_why(t, s, beats)
    own = b"" if why else outline_text(beats)
    why = why or (Why(12) if len(own) > len(text) else ACCEPTED)
    return (why, 0, text) if why else (why, len(own), own + text[len(own) :])


def may_follow(number):
    """The numbers of which one comes after a number: the first below it, and the next sister of it or of one above."""
    return [(*number, 1), *((*number[:k], number[k] + 1) for k in range(len(number)))]


def leading_numbers(n, lines):
    """The numbers of leading lines, up to n, that each come after the one before."""
    numbers, last = [], ()
    for line in lines[:n]:
        found = [number for number in may_follow(last) if line_of(number) == line]
        if not found:
            break
        last = found[0]
        numbers.append(last)
    return numbers


def beats_of_numbers(numbers):
    """The beats of an outline by its numbers: before a heading those are closed that are as deep, or deeper."""
    beats, depth = [], 0
    for number in numbers:
        beats += [0] * (depth + 1 - len(number)) + [1]
        depth = len(number)
    return beats + [0] * depth


@cache
def beginnings(n):
    """The leading lines, of every number, of all outlines of n lines."""
    texts = (outline_text(beats).splitlines() for beats in closed(n).values())
    return {tuple(lines[:k]) for lines in texts for k in range(n + 1)}


def good_lines(n, lines):
    """How many leading lines are those of some outline of n lines: looked up among all, and for large n by what may
    follow."""
    followed = len(leading_numbers(n, lines))
    if n > 7:
        return followed
    found = max(k for k in range(len(lines) + 1) if tuple(lines[:k]) in beginnings(n))
    sure(found == followed, f"of {lines} the first {found} begin an outline of {n} lines, and {followed} follow")
    return found


def schedule_of_outline(n, text, out):
    """Why, and the bytes left."""
    if n > LARGEST:
        return (Why(1), out)
    if len(out) != 2 * n:
        return (Why(3), out)
    *lines, rest = text.split(b"\n")
    good = good_lines(n, lines)
    if good < n or len(lines) > n or rest:
        return (Why(15, good), out)
    return (ACCEPTED, beats_of_numbers(leading_numbers(n, lines)))

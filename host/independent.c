/* What independent.h declares. Positions are counted from 1 in the rule's part, as in the manual. */
#include "independent.h"

#include <string.h>

static struct verdict refused(uint64_t refusal, uint64_t place) {
    struct verdict verdict = {refusal, place, 0};
    return verdict;
}

static struct verdict miscounted(int64_t surplus) {
    struct verdict verdict = {6, 0, surplus};
    return verdict;
}

static struct verdict accepted(void) {
    return refused(0, 0);
}

struct verdict judge_counts(uint64_t t, uint64_t s) {
    if (t > MOST_TASKS)
        return refused(1, 0);
    if (s > t)
        return refused(2, 0);
    return accepted();
}

/* How many of the beats before a place are a 1, or a 0. */
static size_t how_many(const uint8_t *beats, size_t place, uint8_t beat) {
    size_t at, found = 0;
    for (at = 0; at < place; at++)
        found += beats[at] == beat;
    return found;
}

/* The first beat that is neither 0 nor 1, or the length. */
static size_t first_bad_beat(const uint8_t *beats, size_t length) {
    size_t at;
    for (at = 0; at < length; at++)
        if (beats[at] != 0 && beats[at] != 1)
            return at;
    return length;
}

/* The first beat that sets down although as many were set down before it as were taken up, or the length. */
static size_t first_empty_hand(const uint8_t *beats, size_t length) {
    size_t at;
    for (at = 0; at < length; at++)
        if (beats[at] == 0 && how_many(beats, at, 1) == how_many(beats, at, 0))
            return at;
    return length;
}

struct verdict judge_schedule(uint64_t t, uint64_t s, const uint8_t *beats, size_t length) {
    struct verdict counts = judge_counts(t, s);
    size_t bad, empty, ones;
    if (counts.refusal != 0)
        return counts;
    if (length != t + s)
        return refused(3, 0);
    bad = first_bad_beat(beats, length);
    if (bad < length)
        return refused(4, bad);
    empty = first_empty_hand(beats, length);
    if (empty < length)
        return refused(5, empty);
    ones = how_many(beats, length, 1);
    if (ones != t)
        return miscounted((int64_t)ones - (int64_t)t);
    return accepted();
}

struct verdict judge_form(uint64_t t, uint64_t s, uint64_t number, size_t length) {
    struct verdict counts = judge_counts(t, s);
    if (counts.refusal != 0)
        return counts;
    if (number >= count_by_formula(t, s))
        return refused(7, 0);
    if (length != t + s)
        return refused(3, 0);
    return accepted();
}

struct verdict judge_run(uint64_t t, uint64_t s, const uint8_t *beats, size_t length, uint64_t steps) {
    struct verdict schedule = judge_schedule(t, s, beats, length);
    if (schedule.refusal != 0)
        return schedule;
    if (steps > MOST_STEPS)
        return refused(13, 0);
    return accepted();
}

/* The ones and zeros of each prefix are counted on from those of the prefix before it. */
int is_schedule(uint64_t t, uint64_t s, const uint8_t *beats, size_t length) {
    size_t at;
    uint64_t ones = 0, zeros = 0;
    for (at = 0; at < length; at++) {
        ones += beats[at] == 1;
        zeros += beats[at] == 0;
        if (ones + zeros != at + 1 || zeros > ones)
            return 0;
    }
    return length == t + s && ones == t;
}

/* The greatest common divisor. */
static uint64_t shared_part(uint64_t a, uint64_t b) {
    return b == 0 ? a : shared_part(b, a % b);
}

/* A fraction of a number, which comes out whole. Nothing on the way is larger than the greater of the two. */
static uint64_t fraction(uint64_t number, uint64_t above, uint64_t below) {
    uint64_t shared = shared_part(above, below);
    return number / (below / shared) * (above / shared);
}

/*
 * C(t + s, t) - C(t + s, t + 1) is C(t + s, t) (t + 1 - s) / (t + 1), and so the count of t, s - 1 times
 * (t + s) (t + 1 - s) / (s (t + 2 - s)). The binomials themselves would not fit 64 bits from C(68, 34) on.
 */
uint64_t count_by_formula(uint64_t t, uint64_t s) {
    static uint64_t counts[MOST_TASKS + 1][MOST_TASKS + 1];
    if (counts[t][s] == 0 && s == 0)
        counts[t][s] = 1;
    else if (counts[t][s] == 0)
        counts[t][s] = fraction(count_by_formula(t, s - 1), (t + s) * (t + 1 - s), s * (t + 2 - s));
    return counts[t][s];
}

void write_last(uint64_t t, uint64_t s, uint8_t *out) {
    memset(out, 1, t);
    memset(out + t, 0, s);
}

/* The k-th prefix shift: the symbol at position k goes to position 2, and those from 2 on move up. */
static void prefix_shift(const uint8_t *beats, size_t length, size_t k, uint8_t *out) {
    memcpy(out, beats, length);
    out[2 - 1] = beats[k - 1];
    memcpy(out + (3 - 1), beats + (2 - 1), k - 2);
}

/* The position of the 1 of the leftmost 0 followed by 1, or 0 where there is none. */
static size_t leftmost_rise(const uint8_t *beats, size_t length) {
    size_t k;
    for (k = 2; k <= length; k++)
        if (beats[k - 2] == 0 && beats[k - 1] == 1)
            return k;
    return 0;
}

/* The next form, into a place of its own; answers the k of the prefix shift that gives it, or 0 where none does. */
static size_t next_form(uint64_t t, uint64_t s, const uint8_t *beats, uint8_t *out) {
    size_t length = t + s;
    size_t k = leftmost_rise(beats, length);
    if (k == 0 && s == 0) {
        memcpy(out, beats, length);
        return 0;
    }
    if (k == 0) {
        prefix_shift(beats, length, length, out);
        return length;
    }
    if (k + 1 <= length) {
        prefix_shift(beats, length, k + 1, out);
        if (is_schedule(t, s, out, length))
            return k + 1;
    }
    prefix_shift(beats, length, k, out);
    return k;
}

uint64_t step(uint64_t t, uint64_t s, uint8_t *beats) {
    uint8_t next[MOST_BEATS];
    uint64_t changed = 0;
    size_t at;
    next_form(t, s, beats, next);
    for (at = 0; at < t + s; at++) {
        changed += beats[at] != next[at];
        beats[at] = next[at];
    }
    return changed;
}

void write_first(uint64_t t, uint64_t s, uint8_t *out) {
    write_last(t, s, out);
    step(t, s, out);
}

/* How many forms begin with so many ones and zeros, each made on to its end; no more than `most` are made. */
static uint64_t forms_from(uint64_t t, uint64_t s, uint64_t ones, uint64_t zeros, uint64_t most) {
    uint64_t forms = 0;
    if (ones == t && zeros == s)
        return 1;
    if (ones < t)
        forms = forms_from(t, s, ones + 1, zeros, most);
    if (forms < most && zeros < s && zeros < ones)
        forms += forms_from(t, s, ones, zeros + 1, most - forms);
    return forms;
}

void explain_step(uint64_t t, uint64_t s, const uint8_t *beats, struct explanation *why) {
    uint8_t next[MOST_BEATS];
    size_t at, found = leftmost_rise(beats, t + s), moved = next_form(t, s, beats, next);
    int only = forms_from(t, s, 0, 0, 2) == 1;
    why->reason = only ? 1 : found == 0 ? 2 : moved == found + 1 ? 3 : 4;
    why->found = only || found == 0 ? NO_PLACE : found - 1;
    why->moved = only ? NO_PLACE : moved - 1;
    why->changes = 0;
    for (at = 0; at < t + s; at++)
        if (beats[at] != next[at])
            why->changed[why->changes++] = at;
}

uint64_t changed_place(const struct explanation *why, uint64_t which) {
    return which < why->changes ? why->changed[which] : NO_PLACE;
}

uint64_t walk(uint64_t t, uint64_t s, uint8_t *beats, uint64_t steps) {
    uint64_t changed = 0;
    for (; steps > 0; steps--)
        changed += step(t, s, beats);
    return changed;
}

/* The last i of the groups of list S. */
static uint64_t last_group(uint64_t t, uint64_t s) {
    return t == s && s > 0 ? s - 1 : s;
}

/* How many forms of list S are in groups before i. */
static uint64_t forms_before_group(uint64_t t, uint64_t i) {
    uint64_t group, forms = 0;
    for (group = 1; group < i; group++)
        forms += count_by_formula(t - 1, group);
    return forms;
}

/* A number is a place in list S, from 0. */
uint64_t number_by_groups(uint64_t t, uint64_t s, const uint8_t *beats) {
    size_t last = t + s;
    uint64_t i;
    while (last > 0 && beats[last - 1] == 0)
        last--;
    /* The last 1 is at position `last`; after it are s - i zeros. */
    i = last - t;
    if (i == 0)
        return count_by_formula(t, s) - 1;
    return forms_before_group(t, i) + number_by_groups(t - 1, i, beats);
}

void form_by_groups(uint64_t t, uint64_t s, uint64_t number, uint8_t *out) {
    uint64_t i, last = last_group(t, s);
    for (i = 1; i <= last; i++) {
        uint64_t forms = count_by_formula(t - 1, i);
        if (number < forms) {
            form_by_groups(t - 1, i, number, out);
            out[t - 1 + i] = 1;
            memset(out + t + i, 0, s - i);
            return;
        }
        number -= forms;
    }
    write_last(t, s, out);
}

/* Its number is as many below, and after 0 comes the last one. */
void form_before(uint64_t t, uint64_t s, const uint8_t *beats, uint64_t steps, uint8_t *out) {
    uint64_t forms = count_by_formula(t, s), number = number_by_groups(t, s, beats), fewer = steps % forms;
    form_by_groups(t, s, number >= fewer ? number - fewer : number + (forms - fewer), out);
}

/* A heading's number: the places on the way to it, the topmost first. Of the start of an outline there are none. */
struct heading {
    size_t depth;
    unsigned places[MOST_TASKS];
};

/* For each level two digits at most, and a dot or the line feed. */
enum { LINE_ROOM = 3 * MOST_TASKS };

/* Writes the line of a heading, with its line feed, and answers its bytes. */
static size_t write_line(const struct heading *heading, uint8_t *out) {
    size_t level, length = 0;
    for (level = 0; level < heading->depth; level++) {
        unsigned place = heading->places[level];
        if (place > 9)
            out[length++] = (uint8_t)('0' + place / 10);
        out[length++] = (uint8_t)('0' + place % 10);
        out[length++] = level + 1 < heading->depth ? '.' : '\n';
    }
    return length;
}

/* The counter of a level has its last heading's place. A 1 counts on; a 0 closes a heading, and the next one below its
   sister is the first there. */
size_t write_outline(const uint8_t *beats, size_t length, uint8_t *out) {
    struct heading last = {0, {0}};
    unsigned counters[MOST_TASKS + 1] = {0};
    size_t at, written = 0;
    for (at = 0; at < length; at++) {
        if (beats[at] == 0) {
            counters[last.depth--] = 0;
            continue;
        }
        last.places[last.depth] = ++counters[last.depth];
        last.depth++;
        written += write_line(&last, out + written);
    }
    return written;
}

struct verdict judge_outline(uint64_t t, uint64_t s, const uint8_t *beats, size_t length, size_t room) {
    struct verdict schedule = judge_schedule(t, s, beats, length);
    uint8_t text[MOST_TEXT];
    if (schedule.refusal != 0)
        return schedule;
    if (t != s)
        return refused(14, 0);
    if (write_outline(beats, length, text) > room)
        return refused(12, 0);
    return accepted();
}

/* The heading of this depth that may come after one: the first below it, or the next sister of it or of one above. */
static struct heading next_heading(const struct heading *last, size_t depth) {
    struct heading next = *last;
    next.depth = depth;
    next.places[depth - 1] = depth > last->depth ? 1 : last->places[depth - 1] + 1;
    return next;
}

/* Whether a text begins with the line of a heading; how many bytes that has, or 0. */
static size_t begins_with(const uint8_t *text, size_t room, const struct heading *heading) {
    uint8_t line[LINE_ROOM];
    size_t length = write_line(heading, line);
    return length <= room && memcmp(text, line, length) == 0 ? length : 0;
}

/* Takes the line that a text begins with for the next heading, whichever depth it has; answers its bytes, or 0. */
static size_t read_line(const uint8_t *text, size_t room, struct heading *last) {
    size_t depth, length;
    for (depth = 1; depth <= last->depth + 1; depth++) {
        struct heading next = next_heading(last, depth);
        length = begins_with(text, room, &next);
        if (length > 0) {
            *last = next;
            return length;
        }
    }
    return 0;
}

struct verdict read_outline(uint64_t n, const uint8_t *text, size_t room, size_t length, uint8_t *out) {
    struct heading last = {0, {0}};
    size_t bytes, read = 0, at = 0;
    uint64_t lines;
    if (n > MOST_TASKS)
        return refused(1, 0);
    if (length != 2 * n)
        return refused(3, 0);
    for (lines = 0; lines < n; lines++) {
        size_t depth = last.depth;
        bytes = read_line(text + read, room - read, &last);
        if (bytes == 0)
            return refused(15, lines);
        read += bytes;
        for (; depth >= last.depth; depth--)
            out[at++] = 0;
        out[at++] = 1;
    }
    memset(out + at, 0, last.depth);
    return read < room ? refused(15, n) : accepted();
}

/* What outlining.h declares. */
#include "outlining.h"

#include <string.h>

#include "asking.h"
#include "choosing.h"
#include "independent.h"

/* Random closed schedules of each number of tasks, and damages of the text of each. */
enum { SOME = 24, DAMAGES = 40 };

/* What a byte of a text is made: the bytes of outlines, and such as are near to them or end a line elsewhere. */
static const uint8_t MARKS[] = {'0', '1', '2', '9', '.', ',', '/', ':', '\n', '\r', ' ', '-', 0, 11, 128 + '1', 255};

/* A number has a space after it in place of its line feed. [H4] */
static const struct {
    const char *digits, *numbers;
} EXAMPLES[] = {
    {"", ""},
    {"10", "1 "},
    {"1010", "1 2 "},
    {"1100", "1 1.1 "},
    {"101100", "1 2 2.1 "},
    {"110010", "1 1.1 2 "},
    {"110100", "1 1.1 1.2 "},
    {"111000", "1 1.1 1.1.1 "},
    {"11100100110110001100", "1 1.1 1.1.1 1.2 2 2.1 2.2 2.2.1 3 3.1 "},
    {"110101010101010101010100", "1 1.1 1.2 1.3 1.4 1.5 1.6 1.7 1.8 1.9 1.10 1.11 "},
    {"1010101010101010101100", "1 2 3 4 5 6 7 8 9 10 10.1 "},
};

/* Schedules that are refused, with so much room. Where two refusals hold the first one is given. [H7] */
static const struct {
    uint64_t t, s;
    const char *digits;
    size_t room;
    struct verdict known;
} REFUSED[] = {
    {GV_MAX_TASKS + 1, GV_MAX_TASKS + 2, "2", 0, {1, 0, 0}},
    {GV_MAX_TASKS + 1, GV_MAX_TASKS + 1, "", 0, {1, 0, 0}},
    {UINT64_MAX, UINT64_MAX, "10", 9, {1, 0, 0}},
    {2, 3, "2", 0, {2, 0, 0}},
    {2, 2, "012", 0, {3, 0, 0}},
    {3, 2, "1101", 9, {3, 0, 0}},
    {2, 2, "0120", 0, {4, 2, 0}},
    {2, 1, "012", 0, {4, 2, 0}},
    {3, 1, "1001", 0, {5, 2, 0}},
    {2, 2, "1001", 9, {5, 2, 0}},
    {2, 1, "111", 0, {6, 0, 1}},
    {3, 1, "1010", 0, {6, 0, -1}},
    {2, 2, "1110", 9, {6, 0, 1}},
    {2, 1, "110", 0, {14, 0, 0}},
    {1, 0, "1", 9, {14, 0, 0}},
    {1, 1, "10", 0, {12, 0, 0}},
    {1, 1, "10", 1, {12, 0, 0}},
    {1, 1, "10", 2, {0, 0, 0}},
    {3, 3, "110100", 9, {12, 0, 0}},
    {3, 3, "110100", 10, {0, 0, 0}},
    {0, 0, "", 0, {0, 0, 0}},
};

/* Texts that are refused, for n lines and so many lent beats. A space stands for a line feed, and _ for a space. [H10]
   [H11] [H12] */
static const struct {
    uint64_t n;
    size_t length;
    const char *numbers;
    uint64_t refusal, place;
} MISREAD[] = {
    {GV_MAX_TASKS + 1, 0, "x", 1, 0},
    {GV_MAX_TASKS + 1, 2 * GV_MAX_TASKS + 2, "", 1, 0},
    {UINT64_C(1) << 63, 0, "", 1, 0},
    {UINT64_MAX, 0, "", 1, 0},
    {3, 5, "x", 3, 0},
    {3, 7, "1 1.1 1.2 ", 3, 0},
    {3, 6, "1 1.1 1.2 ", 0, 0},
    {0, 1, "", 3, 0},
    {0, 0, "", 0, 0},
    {0, 0, " ", 15, 0},
    {0, 0, "1 ", 15, 0},
    {1, 2, "", 15, 0},
    {1, 2, "1", 15, 0},
    {1, 2, "2 ", 15, 0},
    {1, 2, "01 ", 15, 0},
    {1, 2, "1 2 ", 15, 1},
    {1, 2, "1 1", 15, 1},
    {1, 2, "1  ", 15, 1},
    {2, 4, "1 1.1", 15, 1},
    {2, 4, "1 1 ", 15, 1},
    {2, 4, "1 3 ", 15, 1},
    {2, 4, "1 1.2 ", 15, 1},
    {2, 4, "1 1.01 ", 15, 1},
    {2, 4, "1 1.1. ", 15, 1},
    {2, 4, "1 .1.1 ", 15, 1},
    {2, 4, "1  2 ", 15, 1},
    {2, 4, "1 1.1\r ", 15, 1},
    {2, 4, "1\r 1.1 ", 15, 0},
    {2, 4, "1 _2 ", 15, 1},
    {2, 4, "1 2_ ", 15, 1},
    {2, 4, "+1 2 ", 15, 0},
    {3, 6, "1 1.1 ", 15, 2},
    {3, 6, "1 1.1 1.1.1.1 ", 15, 2},
    {3, 6, "1 1.1 3 ", 15, 2},
    {3, 6, "1 1.1 2 3 ", 15, 3},
    {3, 6, "2 2.1 2.2 ", 15, 0},
};

/* A text by its numbers. */
static struct text text_of(const char *numbers) {
    struct text text = {strlen(numbers), {0}};
    size_t at;
    for (at = 0; at < text.room; at++)
        text.bytes[at] = (uint8_t)(numbers[at] == ' ' ? '\n' : numbers[at] == '_' ? ' ' : numbers[at]);
    return text;
}

/* The text of a closed schedule. */
static struct text outline_of(const struct input *in) {
    struct text text = {0, {0}};
    text.room = write_outline(in->beats, in->length, text.bytes);
    return text;
}

/* A slice for the beats of so many lines. */
static struct input slice_for(uint64_t n) {
    struct input out = {n, n, 2 * n, {0}};
    memset(out.beats, 7, sizeof out.beats);
    return out;
}

/* Little room and much for a text, with other bytes in it before. */
static void verify_rooms(const struct input *in, size_t needed) {
    const size_t short_by_one = needed > 0 ? needed - 1 : 0;
    const size_t rooms[] = {0, 1, needed / 2, short_by_one, needed, needed + 1, GV_LONGEST_OUTLINE, TEXT_ROOM};
    struct text text;
    size_t at;
    memset(text.bytes, (int)(2 + 7 * needed % 240), sizeof text.bytes);
    for (at = 0; at < sizeof rooms / sizeof rooms[0]; at++) {
        text.room = rooms[at];
        verify_outline(in, &text);
    }
}

/* The library's own text of a closed schedule, read by it, and printed again. */
static void verify_both_ways(const struct input *in) {
    struct text text = {GV_LONGEST_OUTLINE, {0}}, again = {GV_LONGEST_OUTLINE, {0}};
    struct input out = slice_for(in->t);
    uint64_t written = gv_outline(in->t, in->s, in->beats, in->length, text.bytes, text.room);
    uint64_t refusal = gv_outline_read(in->t, text.bytes, written, out.beats, out.length);
    require(refusal == GV_ACCEPTED, "the outline that was printed is not read", in);
    require(memcmp(out.beats, in->beats, in->length) == 0, "the outline is read as another schedule", in);
    require(gv_outline(in->t, in->s, out.beats, out.length, again.bytes, again.room) == written &&
                memcmp(again.bytes, text.bytes, written) == 0,
            "what was read is printed otherwise", in);
}

/* A closed schedule there and back. */
static void verify_closed(const struct input *in) {
    struct text text = outline_of(in);
    struct input out = slice_for(in->t);
    struct verdict read = read_outline(in->t, text.bytes, text.room, out.length, out.beats);
    rely(read.refusal == 0, "an outline is not read back", in->t, in->s);
    rely(memcmp(out.beats, in->beats, in->length) == 0, "an outline is read back to another form", in->t, in->s);
    rely(text.room <= in->t * (in->t + 1), "an outline is longer than it may be", in->t, in->s);
    out = slice_for(in->t);
    verify_rooms(in, text.room);
    verify_outline_read(&out, &text);
    verify_both_ways(in);
}

/* A text for each number of lines around its own. */
static void verify_lines(uint64_t n, const struct text *text) {
    uint64_t lines;
    for (lines = n > 2 ? n - 2 : 0; lines <= n + 2 && lines <= GV_MAX_TASKS + 1; lines++) {
        struct input out = slice_for(lines);
        verify_outline_read(&out, text);
    }
}

/* Damages. A text has room for one more line. */

/* Where a line begins, and after the last one the end; lines are counted from 0. */
static size_t line_start(const struct text *text, uint64_t line) {
    size_t at;
    for (at = 0; line > 0; at++)
        line -= text->bytes[at] == '\n';
    return at;
}

/* The text with so many of its bytes from a place on gone, and others in their place. */
static struct text with_part(const struct text *text, size_t at, size_t gone, const uint8_t *bytes, size_t length) {
    struct text changed = {text->room - gone + length, {0}};
    memcpy(changed.bytes, text->bytes, at);
    memcpy(changed.bytes + at, bytes, length);
    memcpy(changed.bytes + at + length, text->bytes + at + gone, text->room - at - gone);
    return changed;
}

static void verify_damaged(uint64_t n, const struct text *text) {
    struct input out = slice_for(n);
    verify_outline_read(&out, text);
}

/* Each byte made each other one of these, and one of these put in before it. */
static void verify_bytes(uint64_t n, const struct text *text, const uint8_t *marks, size_t count) {
    size_t at, mark;
    for (at = 0; at <= text->room; at++)
        for (mark = 0; mark < count; mark++) {
            struct text changed = with_part(text, at, at < text->room, marks + mark, 1);
            verify_damaged(n, &changed);
            changed = with_part(text, at, 0, marks + mark, 1);
            verify_damaged(n, &changed);
        }
}

/* The text cut at each byte, and without each byte. */
static void verify_cuts(uint64_t n, const struct text *text) {
    struct text cut = *text;
    size_t at;
    for (cut.room = 0; cut.room < text->room; cut.room++)
        verify_lines(n, &cut);
    for (at = 0; at < text->room; at++) {
        cut = with_part(text, at, 1, MARKS, 0);
        verify_damaged(n, &cut);
    }
}

/* A line left out, doubled, and exchanged with each one after it. */
static void verify_line(uint64_t n, const struct text *text, uint64_t line) {
    size_t start = line_start(text, line), end = line_start(text, line + 1);
    struct text changed = with_part(text, start, end - start, MARKS, 0);
    uint64_t other;
    verify_lines(n, &changed);
    changed = with_part(text, end, 0, text->bytes + start, end - start);
    verify_lines(n, &changed);
    for (other = line + 1; other < n; other++) {
        size_t from = line_start(text, other), to = line_start(text, other + 1);
        changed = with_part(text, from, to - from, text->bytes + start, end - start);
        changed = with_part(&changed, start, end - start, text->bytes + from, to - from);
        verify_damaged(n, &changed);
    }
}

static void verify_damages(const struct input *in) {
    struct text text = outline_of(in);
    uint64_t line;
    verify_lines(in->t, &text);
    verify_bytes(in->t, &text, MARKS, sizeof MARKS);
    verify_cuts(in->t, &text);
    for (line = 0; line < in->t; line++)
        verify_line(in->t, &text, line);
}

static void verify_every_byte(const struct input *in) {
    struct text text = outline_of(in);
    uint8_t all[256];
    size_t value;
    for (value = 0; value < sizeof all; value++)
        all[value] = (uint8_t)value;
    verify_bytes(in->t, &text, all, sizeof all);
}

/* Damages of which there are too many to try all: a byte or two made others, one put in, one left out, a line. */
static void verify_some_damage(const struct input *in) {
    struct text text = outline_of(in);
    uint64_t line = below(in->t + 1);
    size_t place = below(text.room + 1), start, end;
    switch (below(4)) {
    case 0:
        text = with_part(&text, place, place < text.room, MARKS + below(sizeof MARKS), 1);
        break;
    case 1:
        text = with_part(&text, place, 0, MARKS + below(sizeof MARKS), 1);
        break;
    case 2:
        text = with_part(&text, place, place < text.room, MARKS, 0);
        break;
    default:
        start = line_start(&text, line);
        end = line < in->t ? line_start(&text, line + 1) : start;
        text = with_part(&text, start, end - start, MARKS, 0);
    }
    verify_lines(in->t, &text);
}

/* Examples. */

static void verify_printed(const char *digits, const char *numbers) {
    struct input in = {0};
    struct text known = text_of(numbers), own;
    read_digits(&in, strlen(digits) / 2, strlen(digits) / 2, digits);
    own = outline_of(&in);
    rely(own.room == known.room && memcmp(own.bytes, known.bytes, own.room) == 0, "an example's outline differs", in.t,
         in.s);
    verify_closed(&in);
    verify_damages(&in);
}

static void verify_refused(size_t at) {
    struct input in = {0};
    struct text text = {REFUSED[at].room, {0}};
    struct verdict verdict, known = REFUSED[at].known;
    read_digits(&in, REFUSED[at].t, REFUSED[at].s, REFUSED[at].digits);
    verdict = judge_outline(in.t, in.s, in.beats, in.length, text.room);
    rely(verdict.refusal == known.refusal, "an example's refusal of the outline differs", in.t, in.s);
    rely(verdict.place == known.place, "an example's place differs", in.t, in.s);
    rely(verdict.surplus == known.surplus, "an example's surplus differs", in.t, in.s);
    verify_outline(&in, &text);
}

static void verify_misread(size_t at) {
    struct input out = slice_for(MISREAD[at].n);
    struct text text = text_of(MISREAD[at].numbers);
    struct verdict verdict;
    uint8_t beats[ROOM];
    out.length = MISREAD[at].length;
    verdict = read_outline(out.t, text.bytes, text.room, out.length, beats);
    rely(verdict.refusal == MISREAD[at].refusal && verdict.place == MISREAD[at].place,
         "an example's refusal of a text differs", at, MISREAD[at].n);
    verify_outline_read(&out, &text);
}

void outlined_examples(void) {
    size_t at;
    for (at = 0; at < sizeof REFUSED / sizeof REFUSED[0]; at++)
        verify_refused(at);
    for (at = 0; at < sizeof MISREAD / sizeof MISREAD[0]; at++)
        verify_misread(at);
    for (at = 0; at < sizeof EXAMPLES / sizeof EXAMPLES[0]; at++)
        verify_printed(EXAMPLES[at].digits, EXAMPLES[at].numbers);
}

/* All, and some. */

/* [H13] [H16] [I5] */
void outlines(uint64_t small, uint64_t damaged, uint64_t every) {
    uint64_t n, number;
    for (n = 0; n <= small; n++)
        for (number = 0; number < count_by_formula(n, n); number++) {
            struct input in = {n, n, 2 * n, {0}};
            form_by_groups(n, n, number, in.beats);
            verify_closed(&in);
            if (n <= damaged)
                verify_damages(&in);
            if (n <= every)
                verify_every_byte(&in);
        }
}

/* So many headings below each other, and then sisters of the topmost. */
static void verify_chain(uint64_t n, uint64_t deep) {
    struct input in = {n, n, 2 * n, {0}};
    size_t at;
    write_last(deep, deep, in.beats);
    for (at = 2 * deep; at < in.length; at++)
        in.beats[at] = at % 2 == 0;
    verify_closed(&in);
    if (n == GV_MAX_TASKS && deep % n == 0)
        verify_damages(&in);
}

/* The longest outline. [H8] */
static void verify_largest(void) {
    struct input in = {GV_MAX_TASKS, GV_MAX_TASKS, GV_MAX_BEATS, {0}};
    write_last(in.t, in.s, in.beats);
    rely(outline_of(&in).room == GV_LONGEST_OUTLINE && GV_LONGEST_OUTLINE == MOST_TEXT,
         "the longest outline has another length", in.t, in.s);
    verify_closed(&in);
}

void large_outlines(void) {
    uint64_t n, deep;
    unsigned turn, damages;
    verify_largest();
    for (n = 0; n <= GV_MAX_TASKS; n++) {
        for (deep = 0; deep <= n; deep++)
            verify_chain(n, deep);
        for (turn = 0; turn < SOME; turn++) {
            struct input in = {0};
            some_form(&in, n, n);
            verify_closed(&in);
            for (damages = 0; damages < DAMAGES; damages++)
                verify_some_damage(&in);
        }
    }
}

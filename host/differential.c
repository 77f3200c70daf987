/*
 * Holds every function of include/ghanveltri.h to host/independent.c: differential [--brief] [SEED].
 *
 * Exhaustive for small counts and short lists, random for the rest: host/choosing.c chooses, host/asking.c makes
 * the calls, and the parts of the explanations and of the outlines are host/explaining.c and host/outlining.c. The
 * random part comes from a new seed, which is printed; giving it repeats a run. --brief makes every part smaller.
 * Ends with status 1 at the first difference.
 */
#define _POSIX_C_SOURCE 200809L
#include <inttypes.h>
#include <stdio.h>
#include <stdlib.h>
#include <string.h>
#include <time.h>

#include "asking.h"
#include "choosing.h"
#include "explaining.h"
#include "independent.h"
#include "outlining.h"

/* How far each part goes. */
static struct extent {
    uint64_t small_count;  /* every form of counts up to this */
    uint64_t damage_count; /* every damage of every form of counts up to this */
    size_t two, three;     /* every list of 0 and 1, and of 0, 1 and 2, up to these lengths */
    unsigned large;        /* random forms for each pair of counts */
    unsigned mixed;        /* random calls of every kind */
    unsigned runs;         /* long runs */
    uint64_t outlines;     /* every outline of lines up to this */
    uint64_t texts, bytes; /* every damage of its text, and every value of its bytes, up to these */
} extent = {9, 7, 12, 7, 100, 200000, 100, 9, 8, 8};

static const struct extent BRIEF = {9, 6, 8, 6, 20, 20000, 16, 8, 5, 3};

/* As many steps on and back. */
static void verify_runs(const struct input *in, uint64_t steps) {
    verify_run(in, steps);
    verify_run_back(in, steps);
}

/* The examples of the manual. */

/* The forms of t, s in the order of their numbers, and the beats that the step from each changes. */
struct example {
    uint64_t t, s;
    const char *forms[6];
    uint64_t changed[5];
};

/* "Examples on both sides". The changed beats of (3, 3) are counted by hand. */
static const struct example EXAMPLES[] = {
    {3, 2, {"10110", "11010", "10101", "11001", "11100"}, {2, 4, 2, 2, 2}},
    {3, 3, {"101100", "110100", "101010", "110010", "111000"}, {2, 4, 2, 2, 2}},
    {2, 1, {"101", "110"}, {2, 2}},
    {1, 1, {"10"}, {0}},
    {4, 0, {"1111"}, {0}},
    {0, 0, {""}, {0}},
};

static void verify_example(const struct example *example) {
    uint64_t number, forms = count_by_formula(example->t, example->s);
    for (number = 0; example->forms[number] != NULL; number++) {
        struct input in = {0}, before = {0};
        uint64_t number_before = number > 0 ? number - 1 : forms - 1;
        uint8_t left[ROOM];
        read_digits(&in, example->t, example->s, example->forms[number]);
        read_digits(&before, example->t, example->s, example->forms[number_before]);
        rely(number_by_groups(in.t, in.s, in.beats) == number, "an example has another number", in.t, in.s);
        memcpy(left, in.beats, in.length);
        rely(step(in.t, in.s, left) == example->changed[number], "an example's step differs", in.t, in.s);
        verify_schedule(&in);
        verify_previous(&in, 0, example->changed[number_before], before.beats);
        verify_runs(&in, number);
        verify_form(&in, number);
    }
    rely(forms == number, "an example's count", example->t, example->s);
    verify_counts(example->t, example->s);
}

/* An input to the refusal, the place and the surplus that are known of it. */
static void verify_known(const struct input *in, struct verdict known) {
    struct verdict verdict = judge_schedule(in->t, in->s, in->beats, in->length);
    rely(verdict.refusal == known.refusal, "an example's refusal differs", in->t, in->s);
    rely(verdict.place == known.place, "an example's place differs", in->t, in->s);
    rely(verdict.surplus == known.surplus, "an example's surplus differs", in->t, in->s);
    verify_schedule(in);
    verify_counts(in->t, in->s);
}

static void verify_refusal(uint64_t t, uint64_t s, const char *digits, uint64_t refusal, uint64_t place,
                           int64_t surplus) {
    struct input in = {0};
    struct verdict known = {refusal, place, surplus};
    read_digits(&in, t, s, digits);
    verify_known(&in, known);
}

static void refused_examples(void) {
    struct input in = {0};
    verify_refusal(GV_MAX_TASKS + 1, 0, "", 1, 0, 0);
    verify_refusal(200, 0, "", 1, 0, 0);
    verify_refusal(2, 3, "", 2, 0, 0);
    verify_refusal(2, 1, "111", 6, 0, 1);
    verify_refusal(3, 1, "1010", 6, 0, -1);
    verify_refusal(2, 0, "10", 6, 0, -1);
    verify_refusal(2, 2, "1001", 5, 2, 0);
    verify_refusal(2, 1, "11", 3, 0, 0);
    read_digits(&in, 3, 2, "11010");
    rely(judge_form(3, 2, 4, 5).refusal == 0 && judge_form(3, 2, 5, 5).refusal == 7, "number 4 or 5", 3, 2);
    rely(judge_run(3, 2, in.beats, 5, 65535).refusal == 0, "run 65535", 3, 2);
    rely(judge_run(3, 2, in.beats, 5, 65536).refusal == 13, "run 65536", 3, 2);
}

static void examples(void) {
    size_t at;
    explained_examples();
    outlined_examples();
    for (at = 0; at < sizeof EXAMPLES / sizeof EXAMPLES[0]; at++)
        verify_example(&EXAMPLES[at]);
    refused_examples();
    rely(count_by_formula(5, 3) == 28 && count_by_formula(8, 5) == 572, "an example's count", 8, 5);
    rely(count_by_formula(32, 31) == UINT64_C(55534064877048198), "an example's count", 32, 31);
    rely(count_by_formula(32, 32) == UINT64_C(55534064877048198), "an example's count", 32, 32);
}

/* The two ways of host/independent.c. */

/* How many of all lists of zeros and ones are schedules of t, s. */
static uint64_t count_by_trying(uint64_t t, uint64_t s) {
    uint64_t list, found = 0;
    for (list = 0; list >> (t + s) == 0; list++) {
        uint8_t beats[ROOM];
        size_t at;
        for (at = 0; at < t + s; at++)
            beats[at] = list >> at & 1;
        found += is_schedule(t, s, beats, t + s);
    }
    return found;
}

/* The formula has the addition rule, up to the largest count. */
static void hold_addition_rule(void) {
    uint64_t t, s;
    for (t = 0; t <= GV_MAX_TASKS; t++)
        for (s = 0; s <= t; s++) {
            uint64_t fewer_up = s < t ? count_by_formula(t - 1, s) : 0;
            uint64_t count = s == 0 ? 1 : fewer_up + count_by_formula(t, s - 1);
            rely(count_by_formula(t, s) == count && count >= fewer_up, "the counts have no addition rule", t, s);
        }
}

/* The form of each number is what as many steps lead to, and the circle closes when all forms were met, after t ones
   and s zeros. */
static void hold_ways_together(uint64_t t, uint64_t s) {
    uint8_t first[ROOM], last[ROOM], walked[ROOM], grouped[ROOM];
    uint64_t number, forms = count_by_formula(t, s);
    rely(forms == count_by_trying(t, s), "the formula counts otherwise than trying all lists", t, s);
    write_first(t, s, first);
    write_last(t, s, last);
    memcpy(walked, first, t + s);
    for (number = 0; number < forms; number++) {
        rely(number == 0 || memcmp(walked, first, t + s) != 0, "the circle closes early", t, s);
        rely((memcmp(walked, last, t + s) == 0) == (number == forms - 1), "ones and then zeros are not the last", t, s);
        form_by_groups(t, s, number, grouped);
        rely(memcmp(walked, grouped, t + s) == 0, "walking and the groups differ", t, s);
        rely(number_by_groups(t, s, walked) == number, "walking and the groups number otherwise", t, s);
        step(t, s, walked);
    }
    rely(memcmp(walked, first, t + s) == 0, "the circle does not close", t, s);
}

static void two_ways(void) {
    uint64_t t, s;
    rely(MOST_TASKS == GV_MAX_TASKS && MOST_BEATS == GV_MAX_BEATS && MOST_STEPS == GV_MAX_STEPS,
         "the header has other limits", MOST_TASKS, MOST_TASKS);
    rely(NO_PLACE == GV_NO_PLACE, "the header has another number for no place", 0, 0);
    hold_addition_rule();
    for (t = 0; t <= extent.small_count; t++)
        for (s = 0; s <= t; s++)
            hold_ways_together(t, s);
}

/* Small counts and short lists: everything. */

/* The most forms of small counts. */
enum { KEPT = 4862 };

/* The circle is walked on and kept, and then walked back from its first form. */
static void verify_circle_back(uint64_t t, uint64_t s) {
    static uint8_t order[KEPT][ROOM];
    static uint64_t changed[KEPT];
    uint64_t number, forms = count_by_formula(t, s);
    struct input in = {t, s, t + s, {0}};
    rely(forms <= KEPT, "the circle is too long to keep", t, s);
    write_first(t, s, in.beats);
    for (number = 0; number < forms; number++) {
        memcpy(order[number], in.beats, t + s);
        changed[number] = step(t, s, in.beats);
    }
    for (number = forms; number > 0; number--) {
        verify_previous(&in, 0, changed[number - 1], order[number - 1]);
        memcpy(in.beats, order[number - 1], t + s);
    }
}

static void small_outlines(void) {
    outlines(extent.outlines, extent.texts, extent.bytes);
}

/* Every circle of small counts. [V15] */
static void circles_back(void) {
    uint64_t t, s;
    for (t = 0; t <= extent.small_count; t++)
        for (s = 0; s <= t; s++)
            verify_circle_back(t, s);
}

/* The two numbers at each end and those past the last form, with every length up to past t + s. */
static void verify_form_edges(uint64_t t, uint64_t s) {
    uint64_t forms = count_by_formula(t, s), several = forms > 1;
    uint64_t numbers[] = {
        0, several, forms - 1 - several, forms - 1, forms, forms + 1, forms - 1 + (UINT64_C(1) << 32), UINT64_MAX,
    };
    struct input in = {t, s, 0, {0}};
    size_t at;
    memset(in.beats, 2, ROOM);
    for (in.length = 0; in.length <= t + s + 4; in.length++)
        for (at = 0; at < sizeof numbers / sizeof numbers[0]; at++)
            verify_form(&in, numbers[at]);
}

static void verify_small_form(uint64_t t, uint64_t s, uint64_t number, const uint8_t *beats) {
    struct input in = {t, s, t + s, {0}};
    memset(in.beats, (int)(number % 7), t + s);
    verify_form(&in, number);
    memcpy(in.beats, beats, t + s);
    verify_schedule(&in);
    verify_runs(&in, 0);
    verify_runs(&in, 1);
    verify_runs(&in, 2);
    verify_runs(&in, 3 + below(40));
    verify_runs(&in, GV_MAX_STEPS + 1);
    verify_runs(&in, UINT64_MAX);
    if (number % 16 == 0) {
        uint64_t forms = count_by_formula(t, s);
        verify_runs(&in, forms);
        verify_runs(&in, number);
        verify_runs(&in, number + 1);
        verify_runs(&in, forms + number + 1);
    }
}

static void small_forms(void) {
    uint64_t t, s, number;
    uint8_t beats[ROOM];
    for (t = 0; t <= extent.small_count; t++)
        for (s = 0; s <= t; s++) {
            verify_form_edges(t, s);
            write_first(t, s, beats);
            for (number = 0; number < count_by_formula(t, s); number++) {
                verify_small_form(t, s, number, beats);
                step(t, s, beats);
            }
        }
}

/* A form with each of its beats made another, and with one beat fewer or more. */
static void verify_damages(struct input *in) {
    static const uint8_t wrong[] = {2, 3, 128, 129, 254, 255};
    size_t at, length = in->length;
    for (at = 0; at < length; at++) {
        uint8_t right = in->beats[at];
        in->beats[at] = !right;
        verify_schedule(in);
        in->beats[at] = wrong[below(sizeof wrong)];
        verify_schedule(in);
        in->beats[at] = right;
    }
    in->beats[length] = (uint8_t)below(3);
    in->length = length + 1;
    verify_schedule(in);
    in->length = length > 0 ? length - 1 : 2;
    verify_schedule(in);
}

static void damaged_forms(void) {
    uint64_t t, s, number;
    for (t = 0; t <= extent.damage_count; t++)
        for (s = 0; s <= t; s++)
            for (number = 0; number < count_by_formula(t, s); number++) {
                struct input in = {t, s, t + s, {0}};
                form_by_groups(t, s, number, in.beats);
                verify_damages(&in);
            }
}

/* Surpluses. */

/* So many ones, and then zeros, as beats of t, s. */
static struct input ones_first(uint64_t t, uint64_t s, uint64_t ones) {
    struct input in = {t, s, t + s, {0}};
    write_last(ones, t + s - ones, in.beats);
    return in;
}

/* The largest counts with all ones, with as few as keep something in hand, with t, and with one more or one fewer. */
static void largest_surpluses(void) {
    static const struct {
        uint64_t s, ones;
        struct verdict known;
    } named[] = {
        {0, GV_MAX_TASKS, {0, 0, 0}},
        {0, GV_MAX_TASKS - 1, {6, 0, -1}},
        {0, GV_MAX_TASKS / 2, {6, 0, -(GV_MAX_TASKS / 2)}},
        {GV_MAX_TASKS - 1, GV_MAX_BEATS - 1, {6, 0, GV_MAX_TASKS - 1}},
        {GV_MAX_TASKS - 1, GV_MAX_TASKS + 1, {6, 0, 1}},
        {GV_MAX_TASKS - 1, GV_MAX_TASKS, {0, 0, 0}},
        {GV_MAX_TASKS - 1, GV_MAX_TASKS - 1, {5, GV_MAX_BEATS - 2, 0}},
        {GV_MAX_TASKS, GV_MAX_BEATS, {6, 0, GV_MAX_TASKS}},
        {GV_MAX_TASKS, GV_MAX_TASKS + 1, {6, 0, 1}},
        {GV_MAX_TASKS, GV_MAX_TASKS, {0, 0, 0}},
        {GV_MAX_TASKS, GV_MAX_TASKS - 1, {5, GV_MAX_BEATS - 2, 0}},
    };
    size_t at;
    for (at = 0; at < sizeof named / sizeof named[0]; at++) {
        struct input in = ones_first(GV_MAX_TASKS, named[at].s, named[at].ones);
        verify_known(&in, named[at].known);
    }
}

/* So many ones, and each zero as early as it can be; the zeros are no more than the ones. */
static struct input zeros_early(uint64_t t, uint64_t s, uint64_t ones) {
    struct input in = ones_first(t, s, t + s);
    uint64_t zero;
    for (zero = 0; zero < t + s - ones; zero++)
        in.beats[2 * zero + 1] = 0;
    return in;
}

/* Every number of ones with every pair of counts. [Q7] */
static void surpluses(void) {
    uint64_t t, s, ones;
    struct input in;
    largest_surpluses();
    for (t = 0; t <= GV_MAX_TASKS; t++)
        for (s = 0; s <= t; s++)
            for (ones = 0; ones <= t + s; ones++) {
                in = ones_first(t, s, ones);
                verify_schedule(&in);
                if (t + s - ones > ones)
                    continue;
                in = zeros_early(t, s, ones);
                verify_schedule(&in);
            }
}

/* The list after this one, of beats below base, and whether there is one; the first is all zeros. */
static int next_list(struct input *in, uint8_t base) {
    size_t at;
    for (at = 0; at < in->length; at++) {
        in->beats[at]++;
        if (in->beats[at] < base)
            return 1;
        in->beats[at] = 0;
    }
    return 0;
}

/* A list for all counts up to past the limit. */
static void verify_list(struct input *in) {
    static const uint64_t steps[] = {0, 1, 2, GV_MAX_STEPS + 1, UINT64_MAX};
    for (in->t = 0; in->t <= GV_MAX_TASKS + 1; in->t++)
        for (in->s = 0; in->s <= GV_MAX_TASKS + 2; in->s++) {
            verify_schedule(in);
            verify_runs(in, steps[(in->t + in->beats[0]) % 5]);
        }
}

static void lists_of_two(void) {
    struct input in = {0};
    for (in.length = 0; in.length <= extent.two; in.length++)
        do
            verify_list(&in);
        while (next_list(&in, 2));
}

static void lists_of_three(void) {
    struct input in = {0};
    for (in.length = 0; in.length <= extent.three; in.length++)
        do
            for (in.t = 0; in.t <= in.length; in.t++) {
                in.s = in.length - in.t;
                verify_schedule(&in);
                verify_runs(&in, GV_MAX_STEPS + 1);
            }
        while (next_list(&in, 3));
}

/* The rest: random. */

static void counts(void) {
    uint64_t t, s;
    unsigned turn;
    for (t = 0; t <= 300; t++)
        for (s = 0; s <= 300; s++)
            verify_counts(t, s);
    for (turn = 0; turn < extent.mixed; turn++) {
        t = some_number(below(GV_MAX_TASKS + 8));
        verify_counts(t, some_number(below(GV_MAX_TASKS + 8)));
    }
}

/* The forms on both sides of the closing step, there and back, and runs up to it and past it, on and back. */
static void verify_closing(uint64_t t, uint64_t s) {
    uint64_t steps, turn, forms = count_by_formula(t, s);
    for (turn = 0; turn < 5; turn++) {
        struct input in = {t, s, t + s, {0}};
        uint64_t number = (2 * forms - 2 + turn) % forms;
        form_by_groups(t, s, number, in.beats);
        rely(number_by_groups(t, s, in.beats) == number, "the form of a number has another", t, s);
        verify_form(&in, number);
        verify_schedule(&in);
        for (steps = 0; steps < 5; steps++)
            verify_runs(&in, steps);
    }
}

static void large_forms(void) {
    uint64_t t, s;
    unsigned turn;
    struct input in = {0};
    for (t = 0; t <= GV_MAX_TASKS; t++)
        for (s = 0; s <= t; s++) {
            verify_form_edges(t, s);
            verify_closing(t, s);
            for (turn = 0; turn < extent.large; turn++) {
                some_form(&in, t, s);
                verify_schedule(&in);
                verify_runs(&in, below(100));
                if (turn % 2 == 0)
                    verify_run(&in, some_number(GV_MAX_STEPS + 1));
                else
                    verify_run_back(&in, some_number(GV_MAX_STEPS + 1));
                verify_form(&in, below(count_by_formula(t, s)));
                damage(&in);
                verify_schedule(&in);
            }
        }
}

/* A number around the last form of counts, which may not be allowed. */
static uint64_t some_form_number(const struct input *in) {
    if (judge_counts(in->t, in->s).refusal != 0)
        return some_number(below(100));
    return some_number(below(count_by_formula(in->t, in->s) + 1));
}

/* Counts, slices, numbers and steps of every kind, most of them allowed or nearly so. */
static void mixed(void) {
    unsigned turn;
    struct input in = {0};
    for (turn = 0; turn < extent.mixed; turn++) {
        uint64_t t = below(GV_MAX_TASKS + 1);
        some_form(&in, t, below(t + 1));
        if (turn % 2 == 0)
            damage(&in);
        if (turn % 4 == 3)
            in.t = some_number(in.t);
        if (turn % 8 > 5)
            in.s = some_number(in.s);
        verify_schedule(&in);
        verify_runs(&in, turn % 3 == 0 ? UINT64_MAX - below(UINT64_MAX - GV_MAX_STEPS) : below(20));
        verify_form(&in, some_form_number(&in));
    }
}

/* The longest runs from the first form, and those past them. */
static void verify_longest(uint64_t t, uint64_t s) {
    struct input in = {t, s, t + s, {0}};
    write_first(t, s, in.beats);
    verify_runs(&in, GV_MAX_STEPS);
    verify_runs(&in, GV_MAX_STEPS + 1);
}

/* The same of the smallest and the largest counts, and from forms of all sizes. */
static void long_runs(void) {
    static const uint64_t named[][2] = {
        {0, 0}, {1, 0}, {1, 1}, {2, 1}, {GV_MAX_TASKS, 0}, {GV_MAX_TASKS, 1}, {GV_MAX_TASKS, GV_MAX_TASKS},
    };
    unsigned turn;
    for (turn = 0; turn < sizeof named / sizeof named[0]; turn++)
        verify_longest(named[turn][0], named[turn][1]);
    for (turn = 0; turn < extent.runs; turn++) {
        struct input in = {0};
        uint64_t t = turn % 4 == 0 ? below(6) : below(GV_MAX_TASKS + 1);
        some_form(&in, t, turn % 4 == 1 ? t : below(t + 1));
        verify_runs(&in, turn % 8 == 7 ? below(GV_MAX_STEPS + 1) : GV_MAX_STEPS);
        verify_runs(&in, GV_MAX_STEPS + 1);
        verify_runs(&in, ((uint64_t)GV_MAX_STEPS << 32) + below(3));
        verify_runs(&in, UINT64_MAX);
    }
}

static const struct {
    const char *name;
    void (*run)(void);
} PARTS[] = {
    {"version", verify_version},
    {"two ways of the independent side", two_ways},
    {"examples", examples},
    {"circles back", circles_back},
    {"explanations", explanations},
    {"small outlines", small_outlines},
    {"large outlines", large_outlines},
    {"small forms", small_forms},
    {"damaged forms", damaged_forms},
    {"surpluses", surpluses},
    {"lists of 0 and 1", lists_of_two},
    {"lists of 0, 1 and 2", lists_of_three},
    {"counts", counts},
    {"large forms", large_forms},
    {"mixed", mixed},
    {"long runs", long_runs},
    {"long slice", verify_long_slice},
};

static void run_parts(void) {
    size_t at;
    for (at = 0; at < sizeof PARTS / sizeof PARTS[0]; at++) {
        uint64_t before = calls_made();
        PARTS[at].run();
        printf("%s: %" PRIu64 " calls\n", PARTS[at].name, calls_made() - before);
        fflush(stdout);
    }
}

static uint64_t seed_of_clock(void) {
    struct timespec now;
    clock_gettime(CLOCK_REALTIME, &now);
    return (uint64_t)now.tv_sec * 1000000000 + (uint64_t)now.tv_nsec;
}

int main(int argc, char **argv) {
    char *end = "";
    uint64_t seed = seed_of_clock();
    int brief = argc > 1 && strcmp(argv[1], "--brief") == 0;
    if (brief)
        extent = BRIEF;
    if (argc > 1 + brief)
        seed = strtoull(argv[1 + brief], &end, 10);
    if (argc > 2 + brief || *end != '\0') {
        fprintf(stderr, "usage: differential [--brief] [SEED]\n");
        return 2;
    }
    printf("seed %" PRIu64 "\n", seed);
    begin_choosing(seed);
    begin_asking(seed);
    run_parts();
    printf("%" PRIu64 " calls, no difference\n", calls_made());
    return EXIT_SUCCESS;
}

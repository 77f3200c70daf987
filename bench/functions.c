/* Calls the library's functions and their twins of bench/plain.h on the same inputs, for bench/functions.
     functions agree         holds every answer and every lent byte to the library's, refused calls too;
                             status 1 where one differs
     functions time COUNTS   prints for each function and each way its nanoseconds a call, of a run a step,
                             the best of many passes
     functions once COUNTS   makes one pass, for a counter of instructions, and prints for each way how many
                             calls, or steps, the pass has
   COUNTS are t and s, or the word mixed. After them the word off is for forms with a one too many or too few, on
   which the functions are called that answer a surplus. After equal counts the word closed is for closed schedules,
   deep for t headings inside each other and flat for t beside each other, on which the outlines are printed and read.
   The twins are compiled apart, so that no call is inlined or left out. The seeds are fixed: every run has the same
   inputs. */
#include <stdio.h>
#include <stdlib.h>
#include <string.h>
#include <time.h>

#include "ghanveltri.h"
#include "limits.h"
#include "plain.h"

enum {
    MIXED = LARGEST + 1, /* as t: the counts of each form are scattered */
    LINE = 64,           /* bytes of a cache line */
    ROOM = (BEATS + LINE - 1) / LINE * LINE,
    TEXT = (LONGEST_TEXT + LINE - 1) / LINE * LINE,
    FORMS = 2048,        /* forms of a pass */
    TEXTS = 256,         /* outlines of a pass */
    WALKS = 16,          /* runs of a pass, and the steps of each */
    STEPS = 4096,
    PASSES = 100,
    GUARD = 16,          /* bytes after the beats that no call may touch */
    MOST_WAYS = 4
};

typedef uint64_t counting(uint64_t t, uint64_t s);
typedef uint64_t reading(uint64_t t, uint64_t s, const uint8_t *beats, size_t length);
typedef int32_t exceeding(uint64_t t, uint64_t s, const uint8_t *beats, size_t length);
typedef uint64_t stepping(uint64_t t, uint64_t s, uint8_t *beats, size_t length);
typedef uint64_t forming(uint64_t t, uint64_t s, uint64_t number, uint8_t *out, size_t length);
typedef uint64_t running(uint64_t t, uint64_t s, uint8_t *beats, size_t length, uint64_t steps);
typedef uint64_t tracing(uint64_t t, uint64_t s, const uint8_t *beats, size_t length, uint64_t steps);
typedef uint64_t printing(uint64_t t, uint64_t s, const uint8_t *beats, size_t length, uint8_t *text, size_t room);
typedef uint64_t fitting(uint64_t t, uint64_t s, const uint8_t *beats, size_t length, const uint8_t *text, size_t room);
typedef int32_t misfitting(uint64_t t, uint64_t s, const uint8_t *beats, size_t length, const uint8_t *text,
                           size_t room);
typedef uint64_t taking(uint64_t n, const uint8_t *text, size_t room, uint8_t *out, size_t length);
typedef uint64_t looking(uint64_t n, const uint8_t *text, size_t room, const uint8_t *out, size_t length);

/* What the inputs are: forms, forms with a one too many or too few, and closed schedules, of any shape, with all
   headings inside each other, or beside each other. */
enum shape { FORM, OFF, CLOSED, DEEP, FLAT, SHAPES };

static const char *const SHAPE_NAMES[SHAPES] = {"", "off", "closed", "deep", "flat"};

/* One way to do a function: exactly one of the twelve is there. */
struct way {
    const char *function, *how;
    int measured;
    counting *count;
    reading *read;
    exceeding *exceed;
    stepping *step;
    forming *form;
    running *run;
    tracing *trace;
    printing *print;
    fitting *fit;
    misfitting *misfit;
    taking *take;
    looking *look;
};

/* The ways of a function stand together, the library's first. */
static const struct way ways[] = {
    {"check_refusal", "gv", 1, .read = gv_check_refusal},
    {"check_refusal", "bytes", 1, .read = bytes_check_refusal},
    {"check_refusal", "words", 1, .read = words_check_refusal},
    {"check_place", "gv", 1, .read = gv_check_place},
    {"check_place", "bytes", 1, .read = bytes_check_place},
    {"check_place", "words", 1, .read = words_check_place},
    {"check_surplus", "gv", 1, .exceed = gv_check_surplus},
    {"check_surplus", "bytes", 1, .exceed = bytes_check_surplus},
    {"count_refusal", "gv", 0, .count = gv_count_refusal},
    {"count_refusal", "table", 0, .count = table_count_refusal},
    {"count_place", "gv", 0, .count = gv_count_place},
    {"count_place", "table", 0, .count = table_count_place},
    {"count", "gv", 1, .count = gv_count},
    {"count", "table", 1, .count = table_count},
    {"next", "gv", 1, .step = gv_next},
    {"next", "bytes", 1, .step = bytes_next},
    {"next", "words", 1, .step = words_next},
    {"next_changed", "gv", 1, .read = gv_next_changed},
    {"next_changed", "bytes", 1, .read = bytes_next_changed},
    {"next_changed", "words", 1, .read = words_next_changed},
    {"explain_case", "gv", 1, .read = gv_explain_case},
    {"explain_case", "bytes", 1, .read = bytes_explain_case},
    {"explain_case", "words", 1, .read = words_explain_case},
    {"explain_found", "gv", 0, .read = gv_explain_found},
    {"explain_found", "bytes", 0, .read = bytes_explain_found},
    {"explain_moved", "gv", 1, .read = gv_explain_moved},
    {"explain_moved", "bytes", 1, .read = bytes_explain_moved},
    {"explain_moved", "words", 1, .read = words_explain_moved},
    {"explain_changed_place", "gv", 0, .trace = gv_explain_changed_place},
    {"explain_changed_place", "bytes", 0, .trace = bytes_explain_changed_place},
    {"previous", "gv", 1, .step = gv_previous},
    {"previous", "bytes", 1, .step = bytes_previous},
    {"previous", "words", 1, .step = words_previous},
    {"previous_changed", "gv", 1, .read = gv_previous_changed},
    {"previous_changed", "bytes", 1, .read = bytes_previous_changed},
    {"previous_changed", "words", 1, .read = words_previous_changed},
    {"run", "gv", 1, .run = gv_run},
    {"run", "scan", 1, .run = scan_run},
    {"run", "loopless", 1, .run = loopless_run},
    {"run_changed", "gv", 1, .trace = gv_run_changed},
    {"run_changed", "scan", 1, .trace = scan_run_changed},
    {"run_changed", "loopless", 1, .trace = loopless_run_changed},
    {"run_back", "gv", 1, .run = gv_run_back},
    {"run_back", "scan", 1, .run = scan_run_back},
    {"run_back_changed", "gv", 1, .trace = gv_run_back_changed},
    {"run_back_changed", "scan", 1, .trace = scan_run_back_changed},
    {"number_refusal", "gv", 0, .read = gv_number_refusal},
    {"number_refusal", "bytes", 0, .read = bytes_check_refusal},
    {"number_place", "gv", 0, .read = gv_number_place},
    {"number_place", "bytes", 0, .read = bytes_check_place},
    {"number_surplus", "gv", 1, .exceed = gv_number_surplus},
    {"number_surplus", "bytes", 1, .exceed = bytes_number_surplus},
    {"number", "gv", 1, .read = gv_number},
    {"number", "bytes", 1, .read = bytes_number},
    {"number", "masks", 1, .read = masks_number},
    {"number", "words", 1, .read = words_number},
    {"form", "gv", 1, .form = gv_form},
    {"form", "bytes", 1, .form = bytes_form},
    {"form", "masks", 1, .form = masks_form},
    {"outline_refusal", "gv", 0, .fit = gv_outline_refusal},
    {"outline_refusal", "loop", 0, .fit = loop_outline_refusal},
    {"outline_place", "gv", 0, .fit = gv_outline_place},
    {"outline_place", "loop", 0, .fit = loop_outline_place},
    {"outline_surplus", "gv", 0, .misfit = gv_outline_surplus},
    {"outline_surplus", "loop", 0, .misfit = loop_outline_surplus},
    {"outline", "gv", 1, .print = gv_outline},
    {"outline", "loop", 1, .print = loop_outline},
    {"outline_read", "gv", 1, .take = gv_outline_read},
    {"outline_read", "loop", 1, .take = loop_outline_read},
    {"outline_read_place", "gv", 0, .look = gv_outline_read_place},
    {"outline_read_place", "loop", 0, .look = loop_outline_read_place},
};

enum { WAYS = sizeof ways / sizeof *ways };

/* The inputs of a pass, and the room in which they are changed. A form starts a cache line. */
static uint64_t ts[FORMS], ss[FORMS], numbers[FORMS];
static _Alignas(LINE) uint8_t beats[FORMS][ROOM];
static _Alignas(LINE) uint8_t work[FORMS][ROOM];
static _Alignas(LINE) uint8_t texts[TEXTS][TEXT];
static _Alignas(LINE) uint8_t printed[TEXTS][TEXT];
static size_t rooms[TEXTS]; /* of the texts */

static uint64_t seed;

/* The next of a fixed sequence of scattered numbers (splitmix64), below a bound. */
static uint64_t scattered(uint64_t bound) {
    uint64_t z = seed += 0x9E3779B97F4A7C15;
    z = (z ^ z >> 30) * 0xBF58476D1CE4E5B9;
    z = (z ^ z >> 27) * 0x94D049BB133111EB;
    return (z ^ z >> 31) % bound;
}

/* Makes the last 0 of a form a 1, or, where two are in hand at the end, its last 1 a 0. A form of one beat or none
   stays as it is. */
static void miscount(uint64_t t, uint64_t s, uint8_t *form) {
    uint8_t fewer = t >= s + 2 && (s == 0 || scattered(2));
    size_t place = t + s;
    if (place < 2) return;
    while (form[--place] != fewer)
        ;
    form[place] = !fewer;
}

/* Makes a form of t, t one whose headings are all inside each other, or all beside each other. */
static void reshape(uint64_t t, uint8_t *form, enum shape shape) {
    for (uint64_t k = 0; k < 2 * t; k++)
        form[k] = shape == DEEP ? k < t : k % 2 == 0;
}

/* Fills the inputs of counts t, s. Closed schedules have their texts with them. */
static void prepare(uint64_t t, uint64_t s, enum shape shape) {
    seed = 64 * t + s;
    for (int k = 0; k < FORMS; k++) {
        ts[k] = t == MIXED ? scattered(LARGEST + 1) : t;
        ss[k] = t == MIXED ? scattered(ts[k] + 1) : s;
        numbers[k] = scattered(table_count(ts[k], ss[k]));
        bytes_form(ts[k], ss[k], numbers[k], beats[k], ts[k] + ss[k]);
        if (shape == OFF) miscount(ts[k], ss[k], beats[k]);
        if (shape == DEEP || shape == FLAT) reshape(ts[k], beats[k], shape);
        if (shape >= CLOSED && k < TEXTS)
            rooms[k] = loop_outline(ts[k], ss[k], beats[k], ts[k] + ss[k], texts[k], TEXT);
    }
}

/* ---- passes: the calls that are timed, each kind in a function of its own, which a counter knows by its name ---- */

#define APART __attribute__((noipa)) static

APART uint64_t pass_counts(counting *call) {
    uint64_t sum = 0;
    for (int k = 0; k < FORMS; k++)
        sum += call(ts[k], ss[k]);
    return sum;
}

APART uint64_t pass_reads(reading *call) {
    uint64_t sum = 0;
    for (int k = 0; k < FORMS; k++)
        sum += call(ts[k], ss[k], beats[k], ts[k] + ss[k]);
    return sum;
}

APART uint64_t pass_surpluses(exceeding *call) {
    uint64_t sum = 0;
    for (int k = 0; k < FORMS; k++)
        sum += (uint64_t)call(ts[k], ss[k], beats[k], ts[k] + ss[k]);
    return sum;
}

APART uint64_t pass_steps(stepping *call) {
    uint64_t sum = 0;
    for (int k = 0; k < FORMS; k++)
        sum += call(ts[k], ss[k], work[k], ts[k] + ss[k]);
    return sum;
}

APART uint64_t pass_forms(forming *call) {
    uint64_t sum = 0;
    for (int k = 0; k < FORMS; k++)
        sum += call(ts[k], ss[k], numbers[k], work[k], ts[k] + ss[k]);
    return sum;
}

APART uint64_t pass_runs(running *call) {
    uint64_t sum = 0;
    for (int k = 0; k < WALKS; k++)
        sum += call(ts[k], ss[k], work[k], ts[k] + ss[k], STEPS);
    return sum;
}

APART uint64_t pass_traces(tracing *call) {
    uint64_t sum = 0;
    for (int k = 0; k < WALKS; k++)
        sum += call(ts[k], ss[k], beats[k], ts[k] + ss[k], STEPS);
    return sum;
}

APART uint64_t pass_prints(printing *call) {
    uint64_t sum = 0;
    for (int k = 0; k < TEXTS; k++)
        sum += call(ts[k], ss[k], beats[k], ts[k] + ss[k], printed[k], TEXT);
    return sum;
}

APART uint64_t pass_takes(taking *call) {
    uint64_t sum = 0;
    for (int k = 0; k < TEXTS; k++)
        sum += call(ts[k], texts[k], rooms[k], work[k], ts[k] + ss[k]);
    return sum;
}

/* The answers of a pass added up. */
static uint64_t pass(const struct way *way) {
    if (way->count) return pass_counts(way->count);
    if (way->read) return pass_reads(way->read);
    if (way->exceed) return pass_surpluses(way->exceed);
    if (way->step) return pass_steps(way->step);
    if (way->form) return pass_forms(way->form);
    if (way->run) return pass_runs(way->run);
    if (way->print) return pass_prints(way->print);
    if (way->take) return pass_takes(way->take);
    return pass_traces(way->trace);
}

/* How many calls, or steps of a run, a pass has. */
static int units(const struct way *way) {
    if (way->print || way->take) return TEXTS;
    return way->run || way->trace ? WALKS * STEPS : FORMS;
}

/* Whether a way is measured: of forms that are off, those that answer a surplus; of closed schedules, those that print
   or read an outline. */
static int measured(const struct way *way, enum shape shape) {
    if (shape == OFF) return way->exceed != NULL;
    return way->measured && (shape != FORM) == (way->print || way->take);
}

/* How many ways, from the first on, are of its function. */
static int ways_of(const struct way *first) {
    int count = 1;
    while (first + count < ways + WAYS && strcmp(first[count].function, first->function) == 0)
        count++;
    return count;
}

/* ---- time ---- */

static double now(void) {
    struct timespec time;
    clock_gettime(CLOCK_MONOTONIC, &time);
    return time.tv_sec * 1e9 + time.tv_nsec;
}

/* The nanoseconds of a pass, whose answers and bytes are folded into a number. */
static double timed(const struct way *way, uint64_t *fold) {
    memcpy(work, beats, sizeof work);
    if (way->print) memset(printed, 7, sizeof printed);
    if (way->take) memset(work, 7, sizeof work);
    double start = now();
    *fold = pass(way);
    double end = now();
    for (int k = 0; k < FORMS; k++)
        for (uint64_t j = 0; j < ts[k] + ss[k]; j++)
            *fold = *fold * 31 + work[k][j];
    for (int k = 0; way->print && k < TEXTS; k++)
        for (int j = 0; j < TEXT; j++)
            *fold = *fold * 31 + printed[k][j];
    return end - start;
}

/* The ways take turns, so that a busy moment of the machine falls on all of them. */
static void measure(const struct way *first) {
    int count = ways_of(first);
    double best[MOST_WAYS];
    for (int round = 0; round < PASSES; round++) {
        uint64_t ours = 0, its;
        for (int k = 0; k < count; k++) {
            double time = timed(&first[k], &its);
            if (round == 0 || time < best[k]) best[k] = time;
            if (k == 0) ours = its;
            if (its != ours) {
                printf("%s by %s does not do what the library does\n", first->function, first[k].how);
                exit(1);
            }
        }
    }
    for (int k = 0; k < count; k++)
        printf("%s %s %.3f\n", first->function, first[k].how, best[k] / units(first));
}

static void measure_all(enum shape shape) {
    for (const struct way *first = ways; first < ways + WAYS; first += ways_of(first))
        if (measured(first, shape)) measure(first);
}

/* ---- one pass, under a counter ---- */

static void once(enum shape shape) {
    for (const struct way *way = ways; way < ways + WAYS; way++)
        if (measured(way, shape)) {
            memcpy(work, beats, sizeof work);
            pass(way);
            printf("%s %s %d\n", way->function, way->how, units(way));
        }
}

/* ---- agreement ---- */

/* Everything that a call may be given; each function takes its part. The steps also say which changed place, and t how
   many lines a text has. */
struct input {
    uint64_t t, s, number, steps;
    size_t length, room;
    uint8_t beats[BEATS + GUARD];
    uint8_t text[TEXT + GUARD];
};

/* What a call leaves of its beats, and of its text where it is lent one. */
struct left {
    uint8_t beats[BEATS + GUARD];
    uint8_t text[TEXT + GUARD];
};

static unsigned long calls;

static int has_text(const struct way *way) {
    return way->print || way->fit || way->misfit || way->take || way->look;
}

/* What a way that is lent a text answers, and leaves in a copy of it. */
static uint64_t answered_of_text(const struct way *way, const struct input *in, struct left *left) {
    memcpy(left->text, in->text, sizeof left->text);
    if (way->print) return way->print(in->t, in->s, left->beats, in->length, left->text, in->room);
    if (way->fit) return way->fit(in->t, in->s, left->beats, in->length, left->text, in->room);
    if (way->misfit) return (uint64_t)way->misfit(in->t, in->s, left->beats, in->length, left->text, in->room);
    if (way->take) return way->take(in->t, left->text, in->room, left->beats, in->length);
    return way->look(in->t, left->text, in->room, left->beats, in->length);
}

/* What a way answers, and leaves in a copy of the input's beats. */
static uint64_t answered(const struct way *way, const struct input *in, struct left *own) {
    uint8_t *left = own->beats;
    memcpy(left, in->beats, BEATS + GUARD);
    calls++;
    if (has_text(way)) return answered_of_text(way, in, own);
    if (way->count) return way->count(in->t, in->s);
    if (way->read) return way->read(in->t, in->s, left, in->length);
    if (way->exceed) return (uint64_t)way->exceed(in->t, in->s, left, in->length);
    if (way->step) return way->step(in->t, in->s, left, in->length);
    if (way->form) return way->form(in->t, in->s, in->number, left, in->length);
    if (way->run) return way->run(in->t, in->s, left, in->length, in->steps);
    return way->trace(in->t, in->s, left, in->length, in->steps);
}

/* Whether two calls of a way left the same. */
static int left_alike(const struct way *way, const struct left *one, const struct left *other) {
    return memcmp(one->beats, other->beats, sizeof one->beats) == 0 &&
           (!has_text(way) || memcmp(one->text, other->text, sizeof one->text) == 0);
}

static void fail(const struct way *way, const struct input *in, uint64_t ours, uint64_t its) {
    printf("%s by %s answers %lld, the library %lld", way->function, way->how, (long long)its, (long long)ours);
    printf("%s; t %llu, s %llu, number %llu, steps %llu, beats", its == ours ? ", and leaves other bytes" : "",
           (unsigned long long)in->t, (unsigned long long)in->s, (unsigned long long)in->number,
           (unsigned long long)in->steps);
    for (size_t k = 0; k < in->length; k++)
        printf(" %d", in->beats[k]);
    if (has_text(way)) printf(", room %zu, text\n%.*s", in->room, (int)in->room, in->text);
    printf("\n");
    exit(1);
}

/* Calls every way on the input, and fails where one differs from its function's first. */
static void agree_on(const struct input *in) {
    const struct way *first = NULL;
    uint64_t ours = 0;
    struct left expected, left;
    for (const struct way *way = ways; way < ways + WAYS; way++) {
        if (!first || strcmp(way->function, first->function) != 0) {
            first = way;
            ours = answered(way, in, &expected);
            continue;
        }
        uint64_t its = answered(way, in, &left);
        if (its != ours || !left_alike(way, &left, &expected)) fail(way, in, ours, its);
    }
}

/* Fills the text: the outline of a closed schedule, and about as much room as it needs, or more; of others little. */
static void fill_text(struct input *in) {
    memset(in->text, 9, sizeof in->text);
    size_t needed = loop_outline(in->t, in->s, in->beats, in->length, in->text, TEXT);
    in->room = scattered(4) == 0 ? TEXT : needed + scattered(3);
    if (in->room > 0) in->room--;
}

static struct input input_of(uint64_t t, uint64_t s, uint64_t number, uint64_t steps) {
    struct input in = {.t = t, .s = s, .number = number, .steps = steps, .length = t + s};
    memset(in.beats, 9, sizeof in.beats);
    bytes_form(t, s, number, in.beats, t + s);
    fill_text(&in);
    return in;
}

/* The forms of counts as they are measured, a few steps each, and from the first as many as a run may have. */
static void agree_on_measured(uint64_t t, uint64_t s) {
    prepare(t, s, FORM);
    for (int k = 0; k < FORMS; k++) {
        struct input in = input_of(ts[k], ss[k], numbers[k], k == 0 ? LONGEST_RUN : scattered(100));
        agree_on(&in);
        miscount(ts[k], ss[k], in.beats);
        agree_on(&in);
    }
}

/* A form with a beat set to a mark, and then a second one somewhere. */
static void agree_on_marked(struct input in, size_t place) {
    static const uint8_t marks[] = {0, 1, 2, 255};
    const struct input right = in;
    for (int k = 0; k < 4; k++) {
        in = right;
        in.beats[place] = marks[k];
        agree_on(&in);
        in.beats[scattered(in.length)] = marks[scattered(4)];
        agree_on(&in);
    }
}

/* A closed schedule with its text whole, and then damaged at a place or two. */
static void agree_on_text(uint64_t t) {
    static const uint8_t marks[] = "0129.\n\r ";
    struct input in = input_of(t, t, scattered(table_count(t, t)), 2);
    size_t whole = loop_outline(t, t, in.beats, in.length, in.text, TEXT);
    in.room = whole;
    agree_on(&in);
    for (int k = 0; k < 8; k++) {
        in.text[scattered(whole + 1)] = marks[scattered(sizeof marks)];
        in.room = whole + scattered(2);
        agree_on(&in);
        if (k % 2 == 0) continue;
        loop_outline(t, t, in.beats, in.length, in.text, TEXT);
        in.room = scattered(whole + 1);
        agree_on(&in);
    }
}

/* A form with each number in turn far from what fits it. */
static void agree_on_far(const struct input *right, uint64_t far) {
    struct input t = *right, s = *right, both = *right, steps = *right, number = *right;
    t.t = far;
    s.s = far;
    both.t += far;
    both.s -= far;
    steps.steps = far;
    number.number = table_count(right->t, right->s) - 1 + far;
    agree_on(&t);
    agree_on(&s);
    agree_on(&both);
    agree_on(&steps);
    agree_on(&number);
}

/* One form of the counts, spoilt at each beat, in its length and in its numbers. */
static void agree_on_spoilt(uint64_t t, uint64_t s) {
    static const uint64_t far[] = {0, 1, LARGEST + 1, BEATS + 1, LONGEST_RUN + 1, UINT64_MAX - LARGEST, UINT64_MAX};
    const struct input right = input_of(t, s, scattered(table_count(t, s)), 2);
    struct input in = right;
    for (size_t place = 0; place < right.length; place++)
        agree_on_marked(right, place);
    for (in.length = 0; in.length <= BEATS; in.length++)
        agree_on(&in);
    for (size_t k = 0; k < sizeof far / sizeof *far; k++)
        agree_on_far(&right, far[k]);
}

/* The two forms at each end of the numbers. */
static void agree_on_ends(uint64_t t, uint64_t s) {
    uint64_t last = table_count(t, s) - 1, several = last > 0;
    const uint64_t ends[] = {0, several, last - several, last};
    for (size_t k = 0; k < sizeof ends / sizeof *ends; k++) {
        const struct input in = input_of(t, s, ends[k], 2);
        agree_on(&in);
    }
}

static void agree(void) {
    agree_on_measured(8, 5);
    agree_on_measured(16, 16);
    agree_on_measured(32, 20);
    agree_on_measured(32, 32);
    agree_on_measured(LARGEST, LARGEST);
    agree_on_measured(MIXED, 0);
    for (uint64_t t = 0; t <= LARGEST; t++)
        for (uint64_t s = 0; s <= t; s++) {
            agree_on_ends(t, s);
            agree_on_spoilt(t, s);
            agree_on_text(t);
        }
    printf("the library and its plain twins agree: %lu calls\n", calls);
}

/* The shape that the last word names, and the form where it names none. */
static enum shape shape_of(int count, char **words) {
    for (int shape = OFF; count > 3 && shape < SHAPES; shape++)
        if (strcmp(words[count - 1], SHAPE_NAMES[shape]) == 0) return (enum shape)shape;
    return FORM;
}

int main(int count, char **words) {
    enum shape shape = shape_of(count, words);
    int named = shape != FORM;
    int mixed = count == 3 + named && strcmp(words[2], "mixed") == 0;
    plain_prepare();
    if (count == 2 && strcmp(words[1], "agree") == 0) {
        agree();
        return 0;
    }
    if (count != 4 + named && !mixed) return 2;
    prepare(mixed ? MIXED : strtoull(words[2], NULL, 10), mixed ? 0 : strtoull(words[3], NULL, 10), shape);
    if (strcmp(words[1], "time") == 0) measure_all(shape);
    if (strcmp(words[1], "once") == 0) once(shape);
    return 0;
}

/* What asking.h declares: reports, a function for each kind of call, and what to expect of one input. */
#define _DEFAULT_SOURCE
#include "asking.h"

#include <inttypes.h>
#include <signal.h>
#include <stdio.h>
#include <stdlib.h>
#include <string.h>
#include <sys/mman.h>
#include <unistd.h>

#include "independent.h"
#include "lending.h"

enum { SECONDS = 900 };

static uint64_t seed, calls;

/* The call that is under way. */
static struct {
    const char *function;
    const struct input *in; /* or NULL */
    int slice;              /* whether it is lent that of in */
    const char *name;       /* of a further number, or NULL */
    uint64_t number;
    const struct text *text; /* or NULL */
} asked;

static void begin(const char *call, const struct input *in, int slice, const char *name, uint64_t number) {
    asked.function = call;
    asked.in = in;
    asked.slice = slice;
    asked.name = name;
    asked.number = number;
    asked.text = NULL;
    calls++;
}

/* A call that is lent a slice and a text. */
static void begin_text(const char *call, const struct input *in, const struct text *text) {
    begin(call, in, 1, NULL, 0);
    asked.text = text;
}

uint64_t calls_made(void) {
    return calls;
}

/* Reports. */

static void print_bytes(const uint8_t *bytes, size_t length) {
    size_t at;
    printf("[");
    for (at = 0; at < length; at++)
        printf(at == 0 ? "%d" : " %d", bytes[at]);
    printf("]");
}

/* Its bytes as C writes them. */
static void print_text(const uint8_t *bytes, size_t length) {
    size_t at;
    printf("\"");
    for (at = 0; at < length; at++)
        if (bytes[at] == '\n')
            printf("\\n");
        else
            printf(bytes[at] >= ' ' && bytes[at] <= '~' ? "%c" : "\\%03o", bytes[at]);
    printf("\"");
}

static void print_call(void) {
    printf("%s(", asked.function);
    if (asked.in != NULL)
        printf("t = %" PRIu64 ", s = %" PRIu64, asked.in->t, asked.in->s);
    if (asked.slice) {
        printf(", slice = ");
        print_bytes(asked.in->beats, asked.in->length);
        printf(", length = %zu", asked.in->length);
    }
    if (asked.name != NULL)
        printf(", %s = %" PRIu64, asked.name, asked.number);
    if (asked.text != NULL) {
        printf(", text = ");
        print_text(asked.text->bytes, asked.text->room);
        printf(", room = %zu", asked.text->room);
    }
    printf("): ");
}

static void give_up(void) {
    printf("\ncall %" PRIu64 " of seed %" PRIu64 "\n", calls, seed);
    fflush(stdout);
    _exit(EXIT_FAILURE);
}

/* A call does not print, so that printing from here is safe. */
static void on_signal(int number) {
    if (asked.function != NULL)
        print_call();
    if (number == SIGALRM)
        printf("no end after %d seconds", SECONDS);
    else
        printf("signal %d: it left its slice, or wrote one lent for reading", number);
    give_up();
}

void begin_asking(uint64_t seed_given) {
    seed = seed_given;
    if (!open_lending()) {
        printf("there is no memory to lend");
        give_up();
    }
    signal(SIGSEGV, on_signal);
    signal(SIGBUS, on_signal);
    signal(SIGILL, on_signal);
    signal(SIGFPE, on_signal);
    signal(SIGALRM, on_signal);
    alarm(SECONDS);
}

void rely(int holds, const char *what, uint64_t t, uint64_t s) {
    if (holds)
        return;
    printf("host/independent.c, t = %" PRIu64 ", s = %" PRIu64 ": %s", t, s, what);
    give_up();
}

void require(int holds, const char *what, const struct input *in) {
    if (holds)
        return;
    printf("t = %" PRIu64 ", s = %" PRIu64 ", slice = ", in->t, in->s);
    print_bytes(in->beats, in->length);
    printf(": %s", what);
    give_up();
}

/* A surplus has a sign. The other answers have none, and where they are right they are below 2^63, or no place, which
   shows as -1. */
static void expect(int64_t expected, int64_t got) {
    if (expected == got)
        return;
    print_call();
    printf("expected %" PRId64 ", got %" PRId64, expected, got);
    give_up();
}

/* A slice holds what it should after the call, and nothing around it has changed. */
static void expect_lent(enum lent what, const uint8_t *expected, size_t length,
                        void (*print)(const uint8_t *bytes, size_t length)) {
    if (memcmp(lent_bytes(what), expected, length) != 0) {
        print_call();
        printf("expected to leave ");
        print(expected, length);
        printf(", got ");
        print(lent_bytes(what), length);
        give_up();
    }
    if (!guards_hold(what)) {
        print_call();
        printf("wrote outside its slice");
        give_up();
    }
}

static void expect_left(const uint8_t *expected) {
    expect_lent(BEATS, expected, asked.in->length, print_bytes);
}

static void expect_text(const uint8_t *expected) {
    expect_lent(TEXT, expected, asked.text->room, print_text);
}

/* One call each. */

typedef uint64_t counts_function(uint64_t t, uint64_t s);
typedef uint64_t reading_function(uint64_t t, uint64_t s, const uint8_t *beats, size_t length);
typedef int32_t surplus_function(uint64_t t, uint64_t s, const uint8_t *beats, size_t length);
typedef uint64_t stepping_function(uint64_t t, uint64_t s, uint8_t *beats, size_t length);
typedef uint64_t running_function(uint64_t t, uint64_t s, uint8_t *beats, size_t length, uint64_t steps);
typedef uint64_t tracing_function(uint64_t t, uint64_t s, const uint8_t *beats, size_t length, uint64_t steps);

/* The runs one way along the circle. */
struct way {
    const char *name, *changed_name;
    running_function *run;
    tracing_function *changed;
};

static const struct way ON = {"gv_run", "gv_run_changed", gv_run, gv_run_changed};
static const struct way BACK = {"gv_run_back", "gv_run_back_changed", gv_run_back, gv_run_back_changed};

static void ask_counts(const char *name, counts_function *call, const struct input *in, uint64_t expected) {
    begin(name, in, 0, NULL, 0);
    expect(expected, call(in->t, in->s));
}

/* The beats are lent already. */
static void ask_lent(const char *name, reading_function *call, const struct input *in, const uint8_t *beats,
                     uint64_t expected) {
    begin(name, in, 1, NULL, 0);
    expect(expected, call(in->t, in->s, beats, in->length));
}

static void ask_reading(const char *name, reading_function *call, const struct input *in, uint64_t expected) {
    ask_lent(name, call, in, lend_for_reading(BEATS, in->beats, in->length), expected);
    expect_left(in->beats);
}

static void ask_surplus(const char *name, surplus_function *call, const struct input *in, int64_t expected) {
    const uint8_t *beats = lend_for_reading(BEATS, in->beats, in->length);
    begin(name, in, 1, NULL, 0);
    expect(expected, call(in->t, in->s, beats, in->length));
    expect_left(in->beats);
}

static void ask_step(const char *name, stepping_function *call, const struct input *in, uint64_t refusal,
                     const uint8_t *left) {
    uint8_t *beats = lend(BEATS, in->beats, in->length);
    begin(name, in, 1, NULL, 0);
    expect(refusal, call(in->t, in->s, beats, in->length));
    expect_left(left);
}

static void ask_run(const struct way *way, const struct input *in, uint64_t steps, uint64_t refusal,
                    const uint8_t *left) {
    uint8_t *beats = lend(BEATS, in->beats, in->length);
    begin(way->name, in, 1, "steps", steps);
    expect(refusal, way->run(in->t, in->s, beats, in->length, steps));
    expect_left(left);
}

static void ask_run_changed(const struct way *way, const struct input *in, uint64_t steps, uint64_t changed) {
    const uint8_t *beats = lend_for_reading(BEATS, in->beats, in->length);
    begin(way->changed_name, in, 1, "steps", steps);
    expect(changed, way->changed(in->t, in->s, beats, in->length, steps));
    expect_left(in->beats);
}

static void ask_refused_run(const struct way *way, const struct input *in, uint64_t steps, uint64_t refusal) {
    ask_run(way, in, steps, refusal, in->beats);
    ask_run_changed(way, in, steps, 0);
}

/* A run one way, and then as many steps the other way: they bring back what was lent, and change as many beats. */
static void ask_there_and_back(const struct way *there, const struct way *back, const struct input *in,
                               uint64_t steps, uint64_t changed, const uint8_t *left) {
    struct input after = *in;
    memcpy(after.beats, left, in->length);
    ask_run(there, in, steps, 0, left);
    ask_run_changed(there, in, steps, changed);
    ask_run(back, &after, steps, 0, in->beats);
    ask_run_changed(back, &after, steps, changed);
}

static void ask_form(const struct input *in, uint64_t number, uint64_t refusal, const uint8_t *left) {
    uint8_t *out = lend(BEATS, in->beats, in->length);
    begin("gv_form", in, 1, "number", number);
    expect(refusal, gv_form(in->t, in->s, number, out, in->length));
    expect_left(left);
}

void read_digits(struct input *in, uint64_t t, uint64_t s, const char *digits) {
    size_t at;
    in->t = t;
    in->s = s;
    in->length = strlen(digits);
    for (at = 0; at < in->length; at++)
        in->beats[at] = (uint8_t)(digits[at] - '0');
}

/* What one input should give. */

void verify_version(void) {
    begin("gv_version", NULL, 0, NULL, 0);
    expect(GV_VERSION, gv_version());
}

void verify_counts(uint64_t t, uint64_t s) {
    struct input in = {t, s, 0, {0}};
    struct verdict verdict = judge_counts(t, s);
    ask_counts("gv_count_refusal", gv_count_refusal, &in, verdict.refusal);
    ask_counts("gv_count_place", gv_count_place, &in, verdict.place);
    ask_counts("gv_count", gv_count, &in, verdict.refusal != 0 ? 0 : count_by_formula(t, s));
}

/* Writes the form so many steps on, and answers the beats changed at each of them, added up. */
static uint64_t later(const struct input *in, uint64_t steps, uint8_t *out) {
    memcpy(out, in->beats, in->length);
    return walk(in->t, in->s, out, steps);
}

/* Writes the form so many steps back, and answers the same: what as many steps on change, which lead to the form. */
static uint64_t earlier(const struct input *in, uint64_t steps, uint8_t *out) {
    uint8_t walked[ROOM];
    uint64_t changed;
    form_before(in->t, in->s, in->beats, steps, out);
    memcpy(walked, out, in->length);
    changed = walk(in->t, in->s, walked, steps);
    rely(memcmp(walked, in->beats, in->length) == 0, "an earlier form does not lead to the form", in->t, in->s);
    return changed;
}

void verify_previous(const struct input *in, uint64_t refusal, uint64_t changed, const uint8_t *left) {
    ask_reading("gv_previous_changed", gv_previous_changed, in, changed);
    ask_step("gv_previous", gv_previous, in, refusal, left);
}

/* The four calls are lent one slice: lending takes longer than a call that is refused. */
void verify_explanation(const struct input *in, uint64_t refusal, uint64_t which) {
    static const struct explanation none = {0, NO_PLACE, NO_PLACE, 0, {0}};
    const uint8_t *beats = lend_for_reading(BEATS, in->beats, in->length);
    struct explanation own;
    const struct explanation *why = refusal != 0 ? &none : &own;
    if (refusal == 0)
        explain_step(in->t, in->s, in->beats, &own);
    ask_lent("gv_explain_case", gv_explain_case, in, beats, why->reason);
    ask_lent("gv_explain_found", gv_explain_found, in, beats, why->found);
    ask_lent("gv_explain_moved", gv_explain_moved, in, beats, why->moved);
    begin("gv_explain_changed_place", in, 1, "which", which);
    expect(changed_place(why, which), gv_explain_changed_place(in->t, in->s, beats, in->length, which));
    expect_left(in->beats);
}

/* The parts of a call, which are lent two slices for reading. */
static void ask_outline(const struct input *in, const struct text *text, struct verdict verdict, const uint8_t *beats) {
    const uint8_t *lent = lend_for_reading(TEXT, text->bytes, text->room);
    begin_text("gv_outline_refusal", in, text);
    expect(verdict.refusal, gv_outline_refusal(in->t, in->s, beats, in->length, lent, text->room));
    begin_text("gv_outline_place", in, text);
    expect(verdict.place, gv_outline_place(in->t, in->s, beats, in->length, lent, text->room));
    begin_text("gv_outline_surplus", in, text);
    expect(verdict.surplus, gv_outline_surplus(in->t, in->s, beats, in->length, lent, text->room));
    expect_text(text->bytes);
}

void verify_outline(const struct input *in, const struct text *text) {
    struct verdict verdict = judge_outline(in->t, in->s, in->beats, in->length, text->room);
    const uint8_t *beats = lend_for_reading(BEATS, in->beats, in->length);
    uint8_t own[MOST_TEXT], left[TEXT_ROOM], *lent;
    size_t written = verdict.refusal != 0 ? 0 : write_outline(in->beats, in->length, own);
    memcpy(left, text->bytes, text->room);
    memcpy(left, own, written);
    ask_outline(in, text, verdict, beats);
    lent = lend(TEXT, text->bytes, text->room);
    begin_text("gv_outline", in, text);
    expect((int64_t)written, gv_outline(in->t, in->s, beats, in->length, lent, text->room));
    expect_left(in->beats);
    expect_text(left);
}

void verify_outline_read(const struct input *in, const struct text *text) {
    uint8_t own[MOST_BEATS], *out;
    const uint8_t *lent = lend_for_reading(TEXT, text->bytes, text->room);
    const uint8_t *kept = lend_for_reading(BEATS, in->beats, in->length);
    struct verdict verdict = read_outline(in->t, text->bytes, text->room, in->length, own);
    begin_text("gv_outline_read_place", in, text);
    expect(verdict.place, gv_outline_read_place(in->t, lent, text->room, kept, in->length));
    expect_left(in->beats);
    out = lend(BEATS, in->beats, in->length);
    begin_text("gv_outline_read", in, text);
    expect(verdict.refusal, gv_outline_read(in->t, lent, text->room, out, in->length));
    expect_left(verdict.refusal != 0 ? in->beats : own);
    expect_text(text->bytes);
}

/* The text that is lent next: for a closed schedule of about the room that it needs, or as much as any does, and for
   others of little. Its bytes are of no outline. */
static const struct text *next_text(const struct input *in, uint64_t refusal) {
    static struct text text;
    static size_t turn;
    uint8_t own[MOST_TEXT];
    size_t needed, closed = refusal == 0 && in->t == in->s;
    if (turn++ == 0)
        memset(text.bytes, 0xEE, sizeof text.bytes);
    needed = closed ? write_outline(in->beats, in->length, own) : 1;
    text.room = closed && turn % 8 == 0 ? TEXT_ROOM : needed + turn % 3;
    if (text.room > 0)
        text.room--;
    return &text;
}

/* Which changed place is asked for next: those that there may be, in turn, and some that there are not. */
static uint64_t next_which(void) {
    static const uint64_t places[] = {0, 1, 2, 3, 4, UINT64_C(1) << 32, UINT64_MAX};
    static size_t turn;
    return places[turn++ % (sizeof places / sizeof places[0])];
}

void verify_schedule(const struct input *in) {
    struct verdict verdict = judge_schedule(in->t, in->s, in->beats, in->length);
    uint64_t number = 0, changed = 0, changed_back = 0;
    uint8_t next[ROOM], previous[ROOM];
    memcpy(next, in->beats, in->length);
    memcpy(previous, in->beats, in->length);
    if (verdict.refusal == 0) {
        number = number_by_groups(in->t, in->s, in->beats);
        changed = step(in->t, in->s, next);
        rely(number_by_groups(in->t, in->s, next) == (number + 1) % count_by_formula(in->t, in->s),
             "a step does not lead to the next number", in->t, in->s);
        changed_back = earlier(in, 1, previous);
    }
    ask_reading("gv_check_refusal", gv_check_refusal, in, verdict.refusal);
    ask_reading("gv_check_place", gv_check_place, in, verdict.place);
    ask_surplus("gv_check_surplus", gv_check_surplus, in, verdict.surplus);
    ask_reading("gv_number_refusal", gv_number_refusal, in, verdict.refusal);
    ask_reading("gv_number_place", gv_number_place, in, verdict.place);
    ask_surplus("gv_number_surplus", gv_number_surplus, in, verdict.surplus);
    ask_reading("gv_number", gv_number, in, number);
    ask_reading("gv_next_changed", gv_next_changed, in, changed);
    ask_step("gv_next", gv_next, in, verdict.refusal, next);
    verify_previous(in, verdict.refusal, changed_back, previous);
    verify_explanation(in, verdict.refusal, next_which());
    verify_outline(in, next_text(in, verdict.refusal));
}

void verify_run(const struct input *in, uint64_t steps) {
    uint8_t left[ROOM];
    uint64_t refusal = judge_run(in->t, in->s, in->beats, in->length, steps).refusal;
    if (refusal != 0)
        ask_refused_run(&ON, in, steps, refusal);
    else
        ask_there_and_back(&ON, &BACK, in, steps, later(in, steps, left), left);
}

void verify_run_back(const struct input *in, uint64_t steps) {
    uint8_t left[ROOM];
    uint64_t refusal = judge_run(in->t, in->s, in->beats, in->length, steps).refusal;
    if (refusal != 0)
        ask_refused_run(&BACK, in, steps, refusal);
    else
        ask_there_and_back(&BACK, &ON, in, steps, earlier(in, steps, left), left);
}

void verify_form(const struct input *in, uint64_t number) {
    struct verdict verdict = judge_form(in->t, in->s, number, in->length);
    uint8_t left[ROOM];
    memcpy(left, in->beats, in->length);
    if (verdict.refusal == 0) {
        form_by_groups(in->t, in->s, number, left);
        rely(is_schedule(in->t, in->s, left, in->length), "the form of a number is none", in->t, in->s);
    }
    ask_form(in, number, verdict.refusal, left);
}

/* The long slice: t + s in its low half. */
static const size_t LONG_LENGTH = ((size_t)1 << 32) + 5;

/* So many zeros, in memory with this protection. */
static uint8_t *map_long(size_t length, int protection) {
    void *zeros = mmap(NULL, length, protection, MAP_PRIVATE | MAP_ANONYMOUS | MAP_NORESERVE, -1, 0);
    if (zeros == MAP_FAILED) {
        printf("there is no memory for a slice of %zu bytes", length);
        give_up();
    }
    return (uint8_t *)zeros;
}

/* So many zeros, in memory that cannot be written. */
static const uint8_t *map_zeros(size_t length) {
    return map_long(length, PROT_READ);
}

static void ask_long(const char *name, reading_function *call, const uint8_t *zeros, uint64_t expected) {
    static const struct input in = {4, 1, 0, {0}};
    begin(name, &in, 0, "length", LONG_LENGTH);
    expect(expected, call(in.t, in.s, zeros, LONG_LENGTH));
}

/* The functions that answer a surplus, which is 0 here, and those that write, as ones that read: a slice of the
   wrong length is not written. */

static uint64_t check_surplus_of_zeros(uint64_t t, uint64_t s, const uint8_t *beats, size_t length) {
    return (uint64_t)gv_check_surplus(t, s, beats, length);
}

static uint64_t number_surplus_of_zeros(uint64_t t, uint64_t s, const uint8_t *beats, size_t length) {
    return (uint64_t)gv_number_surplus(t, s, beats, length);
}

static uint64_t form_of_zeros(uint64_t t, uint64_t s, const uint8_t *out, size_t length) {
    return gv_form(t, s, 0, (uint8_t *)out, length);
}

static uint64_t next_of_zeros(uint64_t t, uint64_t s, const uint8_t *beats, size_t length) {
    return gv_next(t, s, (uint8_t *)beats, length);
}

static uint64_t previous_of_zeros(uint64_t t, uint64_t s, const uint8_t *beats, size_t length) {
    return gv_previous(t, s, (uint8_t *)beats, length);
}

static uint64_t run_of_zeros(uint64_t t, uint64_t s, const uint8_t *beats, size_t length) {
    return gv_run(t, s, (uint8_t *)beats, length, 1);
}

static uint64_t run_changed_of_zeros(uint64_t t, uint64_t s, const uint8_t *beats, size_t length) {
    return gv_run_changed(t, s, beats, length, 1);
}

static uint64_t run_back_of_zeros(uint64_t t, uint64_t s, const uint8_t *beats, size_t length) {
    return gv_run_back(t, s, (uint8_t *)beats, length, 1);
}

static uint64_t run_back_changed_of_zeros(uint64_t t, uint64_t s, const uint8_t *beats, size_t length) {
    return gv_run_back_changed(t, s, beats, length, 1);
}

static uint64_t changed_place_of_zeros(uint64_t t, uint64_t s, const uint8_t *beats, size_t length) {
    return gv_explain_changed_place(t, s, beats, length, 0);
}

/* The outline is lent no room, which is asked for after the length. */

static uint64_t outline_refusal_of_zeros(uint64_t t, uint64_t s, const uint8_t *beats, size_t length) {
    return gv_outline_refusal(t, s, beats, length, beats, 0);
}

static uint64_t outline_place_of_zeros(uint64_t t, uint64_t s, const uint8_t *beats, size_t length) {
    return gv_outline_place(t, s, beats, length, beats, 0);
}

static uint64_t outline_surplus_of_zeros(uint64_t t, uint64_t s, const uint8_t *beats, size_t length) {
    return (uint64_t)gv_outline_surplus(t, s, beats, length, beats, 0);
}

static uint64_t outline_of_zeros(uint64_t t, uint64_t s, const uint8_t *beats, size_t length) {
    return gv_outline(t, s, beats, length, (uint8_t *)beats, 0);
}

/* A text with room enough, of which the low half alone would be too little; then an outline with zeros after it, which
   that half leaves out; and as many bytes lent for the beats. */
static void verify_long_text(void) {
    static const uint8_t beats[] = {1, 0};
    size_t room = ((size_t)1 << 32) + 1;
    uint8_t *text = map_long(room + 3, PROT_READ | PROT_WRITE), out[] = {9, 9};
    begin("gv_outline_refusal", NULL, 0, "room", room);
    expect(0, gv_outline_refusal(1, 1, beats, 2, text, room));
    begin("gv_outline", NULL, 0, "room", room);
    expect(2, gv_outline(1, 1, beats, 2, text, room));
    expect(0, memcmp(text, "1\n\0", 3));
    begin("gv_outline_read_place", NULL, 0, "room", room + 1);
    expect(1, gv_outline_read_place(1, text, room + 1, out, 2));
    begin("gv_outline_read", NULL, 0, "room", room + 1);
    expect(15, gv_outline_read(1, text, room + 1, out, 2));
    expect(9, out[0]);
    begin("gv_outline_read", NULL, 0, "length", room + 1);
    expect(3, gv_outline_read(1, beats, 0, text, room + 1));
    expect(0, memcmp(text, "1\n\0", 3));
    munmap(text, room + 3);
}

void verify_long_slice(void) {
    const uint8_t *zeros = map_zeros(LONG_LENGTH);
    ask_long("gv_check_refusal", gv_check_refusal, zeros, 3);
    ask_long("gv_check_place", gv_check_place, zeros, 0);
    ask_long("gv_check_surplus", check_surplus_of_zeros, zeros, 0);
    ask_long("gv_number_refusal", gv_number_refusal, zeros, 3);
    ask_long("gv_number_place", gv_number_place, zeros, 0);
    ask_long("gv_number_surplus", number_surplus_of_zeros, zeros, 0);
    ask_long("gv_number", gv_number, zeros, 0);
    ask_long("gv_form", form_of_zeros, zeros, 3);
    ask_long("gv_next", next_of_zeros, zeros, 3);
    ask_long("gv_next_changed", gv_next_changed, zeros, 0);
    ask_long("gv_previous", previous_of_zeros, zeros, 3);
    ask_long("gv_previous_changed", gv_previous_changed, zeros, 0);
    ask_long("gv_explain_case", gv_explain_case, zeros, 0);
    ask_long("gv_explain_found", gv_explain_found, zeros, NO_PLACE);
    ask_long("gv_explain_moved", gv_explain_moved, zeros, NO_PLACE);
    ask_long("gv_explain_changed_place", changed_place_of_zeros, zeros, NO_PLACE);
    ask_long("gv_outline_refusal", outline_refusal_of_zeros, zeros, 3);
    ask_long("gv_outline_place", outline_place_of_zeros, zeros, 0);
    ask_long("gv_outline_surplus", outline_surplus_of_zeros, zeros, 0);
    ask_long("gv_outline", outline_of_zeros, zeros, 0);
    ask_long("gv_run", run_of_zeros, zeros, 3);
    ask_long("gv_run_changed", run_changed_of_zeros, zeros, 0);
    ask_long("gv_run_back", run_back_of_zeros, zeros, 3);
    ask_long("gv_run_back_changed", run_back_changed_of_zeros, zeros, 0);
    munmap((void *)zeros, LONG_LENGTH);
    verify_long_text();
}

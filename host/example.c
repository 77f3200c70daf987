/*
 * A scoring host in small: ships the form of an order, counts the forms that it chose from, takes the sheet back,
 * goes on to the next form and to the third after it, goes all four back, and turns three wrong sheets away, of
 * which two have a take-up too many or too few. Prints a line for each, and ends with status 1 where one is not
 * as it should be. The forms are those of the manual, "Examples on both sides".
 */
#include <inttypes.h>
#include <stdio.h>
#include <stdlib.h>
#include <string.h>

#include "ghanveltri.h"

/* The order: the tasks to take up, those to set down, and the number of the form. */
enum { T = 3, S = 2, NUMBER = 1, BEATS = T + S };

/* The beats as digits, run together. */
static const char *digits(const uint8_t *beats, size_t length) {
    static char text[GV_MAX_BEATS + 1];
    size_t at;
    for (at = 0; at < length; at++)
        text[at] = (char)('0' + beats[at]);
    text[length] = '\0';
    return text;
}

/* Ends the program where something is not as it should be. */
static void require(int holds, const char *what) {
    if (!holds) {
        fprintf(stderr, "example: %s\n", what);
        exit(EXIT_FAILURE);
    }
}

/* Ends the program where a call is refused, with the text of the refusal. */
static void accept(uint64_t refusal) {
    require(refusal == GV_ACCEPTED, gv_refusal_text(refusal));
}

/* A line that tells of a form that was walked to, and of what the press had to change. */
static void tell(const char *what, const uint8_t beats[BEATS], uint64_t changed) {
    printf("%s: %s, %" PRIu64 " beats changed\n", what, digits(beats, BEATS), changed);
}

/* The two lines of an order: what was asked for, and the form that is shipped for it. */
static void ship(uint8_t beats[BEATS]) {
    printf("Form requested: %d tasks taken up, %d set down, No. %d\n", T, S, NUMBER);
    accept(gv_form(T, S, NUMBER, beats, BEATS));
    printf("Form shipped: %s\n", digits(beats, BEATS));
    require(strcmp(digits(beats, BEATS), "11010") == 0, "another form is shipped");
}

/* How many forms have these counts. */
static void count(void) {
    uint64_t forms = gv_count(T, S);
    accept(gv_count_refusal(T, S));
    printf("%d taken up, %d set down: %" PRIu64 " forms\n", T, S, forms);
    require(forms == 5, "another count of forms");
}

/* The sheet comes back: which form was it? */
static void score(const uint8_t beats[BEATS]) {
    uint64_t number = gv_number(T, S, beats, BEATS);
    accept(gv_number_refusal(T, S, beats, BEATS));
    printf("Sheet %s: No. %" PRIu64 "\n", digits(beats, BEATS), number);
    require(number == NUMBER, "the sheet has another number");
}

/* The form after it. */
static void go_on(uint8_t beats[BEATS]) {
    uint64_t changed = gv_next_changed(T, S, beats, BEATS);
    accept(gv_next(T, S, beats, BEATS));
    tell("Next form", beats, changed);
    require(strcmp(digits(beats, BEATS), "10101") == 0 && changed == 4, "another form is next");
}

/* Three forms on, round the circle: its last form is followed by number 0. */
static void run_on(uint8_t beats[BEATS]) {
    uint64_t changed = gv_run_changed(T, S, beats, BEATS, 3);
    accept(gv_run(T, S, beats, BEATS, 3));
    tell("3 steps on", beats, changed);
    require(strcmp(digits(beats, BEATS), "10110") == 0 && changed == 6, "another form is 3 steps on");
}

/* The four steps back, from there to the form that was shipped, as a spoiled bundle is reprinted. */
static void run_back(uint8_t beats[BEATS]) {
    uint64_t changed = gv_run_back_changed(T, S, beats, BEATS, 4);
    accept(gv_run_back(T, S, beats, BEATS, 4));
    tell("4 steps back", beats, changed);
    require(strcmp(digits(beats, BEATS), "11010") == 0 && changed == 10, "another form is 4 steps back");
}

/* A sheet that sets down a second task with none in hand. */
static void turn_away(void) {
    static const uint8_t wrong[4] = {1, 0, 0, 1};
    uint64_t refusal = gv_check_refusal(2, 2, wrong, 4);
    uint64_t place = gv_check_place(2, 2, wrong, 4);
    const char *text = gv_refusal_text(refusal);
    printf("Sheet %s: refused %" PRIu64 " at beat %" PRIu64 ": %s\n", digits(wrong, 4), refusal, place, text);
    require(refusal == GV_EMPTY_HAND && place == 2, "the wrong sheet is not refused for its beat 2");
    require(strcmp(text, "a task is set down with nothing in hand") == 0, "the refusal has another text");
}

/* A sheet whose take-ups are not those of its counts: how many are too many, or missing. */
static void turn_away_miscounted(uint64_t t, uint64_t s, const uint8_t *wrong, int32_t expected) {
    size_t length = (size_t)(t + s);
    uint64_t refusal = gv_check_refusal(t, s, wrong, length);
    int32_t surplus = gv_check_surplus(t, s, wrong, length);
    printf("Sheet %s: refused %" PRIu64 ": %s, ", digits(wrong, length), refusal, gv_refusal_text(refusal));
    if (surplus < 0)
        printf("%" PRId32 " missing\n", -surplus);
    else
        printf("%" PRId32 " too many\n", surplus);
    require(refusal == GV_WRONG_TAKE_UPS && surplus == expected, "the wrong sheet has another surplus");
}

int main(void) {
    static const uint8_t too_many[] = {1, 1, 1}, too_few[] = {1, 0, 1, 0};
    uint8_t beats[BEATS];
    require(gv_version() == GV_VERSION, "the header and the library are of two versions");
    ship(beats);
    count();
    score(beats);
    go_on(beats);
    run_on(beats);
    run_back(beats);
    turn_away();
    turn_away_miscounted(2, 1, too_many, 1);
    turn_away_miscounted(3, 1, too_few, -1);
    return EXIT_SUCCESS;
}

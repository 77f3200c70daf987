/*
 * The manual once more, in plain C, for host/differential.c: written from its words, for clarity and not for
 * speed, and sharing no code and no limit with crates/ or include/.
 *
 * A number is found in two ways. By the steps of the rule, which is what a number is, where there are few
 * forms; by the groups of list S ("The number") and the closed formula, where there are too many to walk.
 * host/differential.c holds the two to each other.
 *
 * No step is undone here. An earlier form is the form of an earlier number, and what lies between the two is
 * walked on from it.
 *
 * No outline is a tree here. It is printed from counters, one for each level that is open, and read by writing down
 * each line that may come next.
 */
#ifndef INDEPENDENT_H
#define INDEPENDENT_H

#include <stddef.h>
#include <stdint.h>

/* The most tasks that a schedule takes up. The other sizes follow from it. */
#ifndef MOST_TASKS
#define MOST_TASKS 32
#endif

enum { MOST_BEATS = 2 * MOST_TASKS, MOST_STEPS = 65535 };

/* What stands for a place that there is not. */
#define NO_PLACE UINT64_MAX

/* With more than 36 tasks there are counts that 64 bits do not hold: this line does not compile then. */
typedef char counts_fit_64_bits[MOST_TASKS <= 36 ? 1 : -1];

/* A refusal's number and place, and how many ones are above t; all 0 for an accepted call. */
struct verdict {
    uint64_t refusal, place;
    int64_t surplus;
};

/* Why a step moves a beat: the case, and the places of the found 1, of the moved beat and of all changed beats. */
struct explanation {
    uint64_t reason, found, moved;
    size_t changes;
    uint64_t changed[MOST_BEATS];
};

/* The most bytes of an outline's text: the k-th line has no more than the k-th of the deepest, 2k. */
enum { MOST_TEXT = MOST_TASKS * (MOST_TASKS + 1) };

/* What each call is refused for, in 01's order; the lengths are of the lent slices. */
struct verdict judge_counts(uint64_t t, uint64_t s);
struct verdict judge_schedule(uint64_t t, uint64_t s, const uint8_t *beats, size_t length);
struct verdict judge_form(uint64_t t, uint64_t s, uint64_t number, size_t length);
struct verdict judge_run(uint64_t t, uint64_t s, const uint8_t *beats, size_t length, uint64_t steps);
struct verdict judge_outline(uint64_t t, uint64_t s, const uint8_t *beats, size_t length, size_t room);

/* The same of a text that is to be an outline of n lines. Where it is accepted its beats are in out, which else holds
   anything. */
struct verdict read_outline(uint64_t n, const uint8_t *text, size_t room, size_t length, uint8_t *out);

/* "A schedule", literally. */
int is_schedule(uint64_t t, uint64_t s, const uint8_t *beats, size_t length);

/* The rest is asked of allowed counts, of schedules of them, and of numbers below the count only. */

/* N(t, s) by the closed formula. */
uint64_t count_by_formula(uint64_t t, uint64_t s);

/* t ones and then s zeros, the form of the last number. */
void write_last(uint64_t t, uint64_t s, uint8_t *out);

/* The form after it, the form of number 0. */
void write_first(uint64_t t, uint64_t s, uint8_t *out);

/* "The step", literally, in place; answers the beats that it changed. */
uint64_t step(uint64_t t, uint64_t s, uint8_t *beats);

/* What is to be said of the step, by taking it and comparing. */
void explain_step(uint64_t t, uint64_t s, const uint8_t *beats, struct explanation *why);

/* The which-th changed place of an explanation, from 0 on, or NO_PLACE. */
uint64_t changed_place(const struct explanation *why, uint64_t which);

/* As many steps; answers the beats changed at each, added up. */
uint64_t walk(uint64_t t, uint64_t s, uint8_t *beats, uint64_t steps);

/* The number of a form and the form of a number, by the groups of list S. */
uint64_t number_by_groups(uint64_t t, uint64_t s, const uint8_t *beats);
void form_by_groups(uint64_t t, uint64_t s, uint64_t number, uint8_t *out);

/* The text of a closed schedule's outline, into as much room as any has; answers its bytes. */
size_t write_outline(const uint8_t *beats, size_t length, uint8_t *out);

/* The form from which as many steps lead to this one, by the two. */
void form_before(uint64_t t, uint64_t s, const uint8_t *beats, uint64_t steps, uint8_t *out);

#endif

/*
 * Asks the functions of include/ghanveltri.h and holds each answer, and every byte that is left in and around
 * its slice, to what host/independent.c gives. The first difference ends the program with status 1, after its
 * call, the answer expected and the one got, and the seed are printed.
 */
#ifndef ASKING_H
#define ASKING_H

#include <stddef.h>
#include <stdint.h>

#include "ghanveltri.h"

enum { ROOM = GV_MAX_BEATS + 16, TEXT_ROOM = GV_LONGEST_OUTLINE + 64 };

/* Counts, and a slice. */
struct input {
    uint64_t t, s;
    size_t length;
    uint8_t beats[ROOM];
};

/* A text, of which so many bytes are lent. */
struct text {
    size_t room;
    uint8_t bytes[TEXT_ROOM];
};

/* Counts, and beats by their digits. */
void read_digits(struct input *in, uint64_t t, uint64_t s, const char *digits);

/* Makes the memory to lend, and reports a call that ends in a signal or does not end. */
void begin_asking(uint64_t seed);

/* How many calls there were. */
uint64_t calls_made(void);

/* gv_version. */
void verify_version(void);

/* gv_count and what belongs to it. */
void verify_counts(uint64_t t, uint64_t s);

/* Everything that is asked of counts and a slice alone: check, number, next, previous, explain; and the outline. */
void verify_schedule(const struct input *in);

/* gv_previous and gv_previous_changed, held to what the caller gives. */
void verify_previous(const struct input *in, uint64_t refusal, uint64_t changed, const uint8_t *left);

/* gv_explain_case, gv_explain_found, gv_explain_moved, and gv_explain_changed_place of one place; the refusal is the
   schedule's. */
void verify_explanation(const struct input *in, uint64_t refusal, uint64_t which);

/* gv_run and gv_run_changed; and, where that is no refusal, as many steps back from where it leads to. */
void verify_run(const struct input *in, uint64_t steps);

/* gv_run_back and gv_run_back_changed, and as many steps on. */
void verify_run_back(const struct input *in, uint64_t steps);

/* gv_form; the slice is lent to be written. */
void verify_form(const struct input *in, uint64_t number);

/* gv_outline and what belongs to it; the text is lent to be written. */
void verify_outline(const struct input *in, const struct text *text);

/* gv_outline_read and gv_outline_read_place; t is the number of lines, and the slice is lent to be written. */
void verify_outline_read(const struct input *in, const struct text *text);

/* A slice of 2^32 + 5 bytes, whose length is t + s in its low half alone; and texts whose length has that half. */
void verify_long_slice(void);

/* Ends the program where the library's answers to several calls on an input do not fit together. */
void require(int holds, const char *what, const struct input *in);

/* Ends the program where host/independent.c is itself not as it should be for t, s. */
void rely(int holds, const char *what, uint64_t t, uint64_t s);

#endif

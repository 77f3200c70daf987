/* The library's functions in plain C, to be measured beside it. The first word of a name says how it is done, the
   rest is the name in include/ghanveltri.h: a function here takes, refuses, answers and leaves what that one does. */
#ifndef PLAIN_H
#define PLAIN_H

#include <stddef.h>
#include <stdint.h>

/* Fills the tables that the others read. Comes before them. */
void plain_prepare(void);

/* bytes: a loop over the beats for bad beats, and one for the hand. words: the same, eight beats at a time. */
uint64_t bytes_check_refusal(uint64_t t, uint64_t s, const uint8_t *beats, size_t length);
uint64_t bytes_check_place(uint64_t t, uint64_t s, const uint8_t *beats, size_t length);
uint64_t words_check_refusal(uint64_t t, uint64_t s, const uint8_t *beats, size_t length);
uint64_t words_check_place(uint64_t t, uint64_t s, const uint8_t *beats, size_t length);
int32_t bytes_check_surplus(uint64_t t, uint64_t s, const uint8_t *beats, size_t length);

/* table: one load. */
uint64_t table_count_refusal(uint64_t t, uint64_t s);
uint64_t table_count_place(uint64_t t, uint64_t s);
uint64_t table_count(uint64_t t, uint64_t s);

/* The check of the same name, then a scan for the leftmost 0 followed by 1, by bytes or by words. */
uint64_t bytes_next(uint64_t t, uint64_t s, uint8_t *beats, size_t length);
uint64_t bytes_next_changed(uint64_t t, uint64_t s, const uint8_t *beats, size_t length);
uint64_t words_next(uint64_t t, uint64_t s, uint8_t *beats, size_t length);
uint64_t words_next_changed(uint64_t t, uint64_t s, const uint8_t *beats, size_t length);

/* The same check and scan, and a look at the beat after the found 1. */
uint64_t bytes_explain_case(uint64_t t, uint64_t s, const uint8_t *beats, size_t length);
uint64_t bytes_explain_found(uint64_t t, uint64_t s, const uint8_t *beats, size_t length);
uint64_t bytes_explain_moved(uint64_t t, uint64_t s, const uint8_t *beats, size_t length);
uint64_t bytes_explain_changed_place(uint64_t t, uint64_t s, const uint8_t *beats, size_t length, uint64_t which);
uint64_t words_explain_case(uint64_t t, uint64_t s, const uint8_t *beats, size_t length);
uint64_t words_explain_moved(uint64_t t, uint64_t s, const uint8_t *beats, size_t length);

/* The same check, then scans for the ones and zeros in front, and for those that follow where the second beat is 0. */
uint64_t bytes_previous(uint64_t t, uint64_t s, uint8_t *beats, size_t length);
uint64_t bytes_previous_changed(uint64_t t, uint64_t s, const uint8_t *beats, size_t length);
uint64_t words_previous(uint64_t t, uint64_t s, uint8_t *beats, size_t length);
uint64_t words_previous_changed(uint64_t t, uint64_t s, const uint8_t *beats, size_t length);

/* One check, then the steps. scan: each step scans for its place. loopless: each step knows it from the last. */
uint64_t scan_run(uint64_t t, uint64_t s, uint8_t *beats, size_t length, uint64_t steps);
uint64_t scan_run_changed(uint64_t t, uint64_t s, const uint8_t *beats, size_t length, uint64_t steps);
uint64_t loopless_run(uint64_t t, uint64_t s, uint8_t *beats, size_t length, uint64_t steps);
uint64_t loopless_run_changed(uint64_t t, uint64_t s, const uint8_t *beats, size_t length, uint64_t steps);
uint64_t scan_run_back(uint64_t t, uint64_t s, uint8_t *beats, size_t length, uint64_t steps);
uint64_t scan_run_back_changed(uint64_t t, uint64_t s, const uint8_t *beats, size_t length, uint64_t steps);

/* bytes: the check by bytes and a branch on each beat. masks: the check by words and no branch on a beat.
   words: the beats packed into words, of which only the ones are visited. The surplus is the check's. */
uint64_t bytes_number(uint64_t t, uint64_t s, const uint8_t *beats, size_t length);
uint64_t masks_number(uint64_t t, uint64_t s, const uint8_t *beats, size_t length);
uint64_t words_number(uint64_t t, uint64_t s, const uint8_t *beats, size_t length);
int32_t bytes_number_surplus(uint64_t t, uint64_t s, const uint8_t *beats, size_t length);

/* bytes: a branch on each beat. masks: none. */
uint64_t bytes_form(uint64_t t, uint64_t s, uint64_t number, uint8_t *out, size_t length);
uint64_t masks_form(uint64_t t, uint64_t s, uint64_t number, uint8_t *out, size_t length);

/* loop: no function calls itself. Printing keeps the place and the parent of each level; where there is less room than
   any outline of that size has need of, the lines are measured first. Reading compares a line with the one before it.
   They begin with the check by bytes, or with the sizes. */
uint64_t loop_outline_refusal(uint64_t t, uint64_t s, const uint8_t *beats, size_t length, const uint8_t *text,
                              size_t room);
uint64_t loop_outline_place(uint64_t t, uint64_t s, const uint8_t *beats, size_t length, const uint8_t *text,
                            size_t room);
int32_t loop_outline_surplus(uint64_t t, uint64_t s, const uint8_t *beats, size_t length, const uint8_t *text,
                             size_t room);
uint64_t loop_outline(uint64_t t, uint64_t s, const uint8_t *beats, size_t length, uint8_t *text, size_t room);
uint64_t loop_outline_read(uint64_t n, const uint8_t *text, size_t room, uint8_t *out, size_t length);
uint64_t loop_outline_read_place(uint64_t n, const uint8_t *text, size_t room, const uint8_t *out, size_t length);

#endif

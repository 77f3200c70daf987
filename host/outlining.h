/*
 * The outlines for host/differential.c: host/independent.c is held to those of the manual, the library to it both ways,
 * on good texts and on damaged ones.
 */
#ifndef OUTLINING_H
#define OUTLINING_H

#include <stdint.h>

/* The examples, each refusal, and pairs of refusals in their order. */
void outlined_examples(void);

/* Every closed schedule of up to so many tasks there and back; of fewer with damages of its text, each byte, each line
   and each pair of lines; and of still fewer with each byte made every other. */
void outlines(uint64_t small, uint64_t damaged, uint64_t every);

/* Chains, rows of sisters and random closed schedules of every number of tasks, with damages of their texts. */
void large_outlines(void);

#endif

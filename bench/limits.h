/* The limits that the C programs of this folder go by, all of them from one: how many tasks a schedule takes up. */
#ifndef LIMITS_H
#define LIMITS_H

#include "ghanveltri.h"

/* The largest t; s is at most t. */
#ifndef MAX_TASKS
#define MAX_TASKS GV_MAX_TASKS
#endif

enum {
    LARGEST = MAX_TASKS,
    SIDE = LARGEST + 1,  /* rows and columns of a table by counts */
    BEATS = 2 * LARGEST, /* of the longest schedule */
    WORD = 64,           /* beats that a word holds as bits */
    LONGEST_RUN = GV_MAX_STEPS,
    LONGEST_TEXT = LARGEST * (LARGEST + 1) /* of an outline */
};

/* The counts of more than 36 tasks do not fit 64 bits. So no schedule has more than 72 beats: a word and eight. */
typedef char counts_fit_64_bits[MAX_TASKS <= 36 ? 1 : -1];

#endif

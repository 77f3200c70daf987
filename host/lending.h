/*
 * Memory for host/asking.c to lend to one call at a time, such that a call that leaves a slice is caught. A call
 * is lent one slice, or two: beats, and a text.
 * Up to GUARD bytes on each side of the slice are known and compared. Often the slice lies flush with a page
 * that can be neither read nor written, after it or before it, and a slice that is lent for reading lies in
 * memory that cannot be written: there the call ends in a signal.
 */
#ifndef LENDING_H
#define LENDING_H

#include <stddef.h>
#include <stdint.h>

enum { GUARD = 64, MOST_LENT = 1536 };

/* What is lent, each in pages of its own. */
enum lent { BEATS, TEXT, SLICES };

/* Makes the memory. Answers whether there is some. */
int open_lending(void);

/* A slice that holds these bytes, at most MOST_LENT of them. It replaces the one of its kind that was lent before. */
uint8_t *lend(enum lent what, const uint8_t *bytes, size_t length);
const uint8_t *lend_for_reading(enum lent what, const uint8_t *bytes, size_t length);

/* The slice as it is now. */
const uint8_t *lent_bytes(enum lent what);

/* Whether every byte around the slice is what it was. */
int guards_hold(enum lent what);

#endif

/*
 * Random numbers and inputs for host/differential.c: all of a run follow from its seed. None is chosen twice in one
 * expression, so that a seed means the same for every compiler.
 */
#ifndef CHOOSING_H
#define CHOOSING_H

#include <stdint.h>

#include "asking.h"

void begin_choosing(uint64_t seed);

/* A random number below n, which is not 0. */
uint64_t below(uint64_t n);

/* Mostly the number given; else an edge, any number, or one of which the given one is the low half. */
uint64_t some_number(uint64_t likely);

/* A form of allowed counts. */
void some_form(struct input *in, uint64_t t, uint64_t s);

/* Changes a beat, exchanges two, or makes the slice shorter or longer. */
void damage(struct input *in);

#endif

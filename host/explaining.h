/*
 * The explanations for host/differential.c: host/independent.c is held to those of the manual, the library to it and
 * to its own step.
 */
#ifndef EXPLAINING_H
#define EXPLAINING_H

/* The examples, and each refusal. */
void explained_examples(void);

/* Every form of small counts, and some of all the others. */
void explanations(void);

#endif

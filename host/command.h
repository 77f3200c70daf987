/*
 * A command that lists order records. All of them do the same, by host/command.c, but for what is here.
 */
#ifndef COMMAND_H
#define COMMAND_H

#include <stdint.h>

/* Its name, the sentence of --help that says what it does, and the function of the library that lists. */
struct command {
    const char *name;
    const char *does;
    uint64_t (*list)(int32_t from, int32_t to);
};

/* The command that is built; its own file has it. */
extern const struct command COMMAND;

#endif

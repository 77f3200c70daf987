/* The outlines as a command: outline_list [FILE]. [I3] */
#include "command.h"
#include "ghanveltri.h"

const struct command COMMAND = {
    "outline_list",
    "Prints the outline of each order record of FILE, or of standard input, to standard output, and an empty line.",
    gv_outline_list,
};

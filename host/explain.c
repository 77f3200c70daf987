/* The explanations as a command: explain [FILE]. [X10] [X15] */
#include "command.h"
#include "ghanveltri.h"

const struct command COMMAND = {
    "explain",
    "Explains the order records of FILE, or of standard input, to standard output: a line for each.",
    gv_explain_list,
};

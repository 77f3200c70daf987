/* The packing list as a command: packing_list [FILE]. [W2] */
#include "command.h"
#include "ghanveltri.h"

const struct command COMMAND = {
    "packing_list",
    "Lists the order records of FILE, or of standard input, to standard output: a line for each.",
    gv_packing_list,
};

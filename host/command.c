/*
 * What the commands of host/command.h do: NAME [FILE].
 *
 * Lists the order records of FILE, or of standard input, to standard output, by the command's function of the
 * library. The first thing that fails is told on standard error in one line: the command, what failed, the
 * system's reason [E17]. The status is 0 when all was listed, 1 when reading failed, 2 when writing failed or the
 * call is wrong [E19].
 */
#define _POSIX_C_SOURCE 200809L
#include <ctype.h>
#include <errno.h>
#include <fcntl.h>
#include <inttypes.h>
#include <signal.h>
#include <stdio.h>
#include <string.h>
#include <unistd.h>

#include "command.h"
#include "ghanveltri.h"

enum { LISTED = 0, NOT_READ = 1, NOT_WRITTEN = 2, WRONG_CALL = 2 };

/* The longest name that is shown, more than the system takes, and a line with one. */
enum { LONGEST_NAME = 4096, LONGEST_LINE = LONGEST_NAME + 256 };

/* Writes all of a text. Answers whether that went well; if not, errno says why, 0 where no byte was taken. */
static int put(int to, const char *text, size_t length) {
    while (length > 0) {
        ssize_t took = write(to, text, length);
        if (took == 0)
            errno = 0;
        if (took == 0 || (took < 0 && errno != EINTR))
            return 0;
        if (took > 0) {
            text += took;
            length -= (size_t)took;
        }
    }
    return 1;
}

/*
 * Tells in one line, by one write where the system lets it: what, a name, and a rest. A control character of
 * the name is shown as a question mark. Where telling fails the status still says that something did.
 */
static void tell(const char *what, const char *name, const char *rest) {
    char shown[LONGEST_NAME + 1], line[LONGEST_LINE];
    size_t at;
    int length;
    for (at = 0; at < LONGEST_NAME && name[at] != '\0'; at++)
        shown[at] = iscntrl((unsigned char)name[at]) ? '?' : name[at];
    shown[at] = '\0';
    length = snprintf(line, sizeof line, "%s: %s %s%.128s\n", COMMAND.name, what, shown, rest);
    if (length > 0)
        (void)put(STDERR_FILENO, line, (size_t)length);
}

/* Tells of a call of the system that failed, by errno, which is 0 where a write took no byte. [E17] */
static void tell_failure(const char *what, const char *name) {
    char rest[128];
    snprintf(rest, sizeof rest, ": %s", errno == 0 ? "no byte was taken" : strerror(errno));
    tell(what, name, rest);
}

static int not_written(void) {
    tell_failure("cannot write", "standard output");
    return NOT_WRITTEN;
}

static int wrong_call(const char *what, const char *word) {
    char rest[128];
    snprintf(rest, sizeof rest, "; see %s --help", COMMAND.name);
    tell(what, word, rest);
    return WRONG_CALL;
}

/*
 * Closes standard output: what the system could not store may show only then. This call is not made again where
 * it is interrupted: the descriptor is gone, and nobody knows what was stored, so that is told as well.
 */
static int close_output(void) {
    return close(STDOUT_FILENO) == 0 ? LISTED : not_written();
}

static int print(const char *text) {
    return put(STDOUT_FILENO, text, strlen(text)) ? close_output() : not_written();
}

static int print_usage(void) {
    char text[512];
    snprintf(text, sizeof text,
             "usage: %s [FILE]\n"
             "       %s --help | --version\n"
             "\n"
             "%s\n"
             "A name that begins with - is given as ./-name.\n"
             "\n"
             "Status: 0 all was listed, 1 reading failed, 2 writing failed or the call is wrong.\n",
             COMMAND.name, COMMAND.name, COMMAND.does);
    return print(text);
}

static int print_version(void) {
    uint64_t version = gv_version();
    char text[80];
    snprintf(text, sizeof text, "%s %" PRIu64 ".%" PRIu64 ".%" PRIu64 "\n", COMMAND.name, version / 1000000,
             version / 1000 % 1000, version % 1000);
    return print(text);
}

/* Lists an open descriptor that is called by a name. */
static int list(int from, const char *name) {
    uint64_t answer;
    errno = 0;
    answer = COMMAND.list(from, STDOUT_FILENO);
    if (answer == LISTED)
        return close_output();
    if (answer == NOT_READ) {
        tell_failure("cannot read", name);
        return NOT_READ;
    }
    /* A write that was interrupted was made again, so EINTR is left over from before one that took no byte. */
    if (errno == EINTR)
        errno = 0;
    return not_written();
}

static int list_file(const char *name) {
    int from;
    do {
        from = open(name, O_RDONLY | O_CLOEXEC);
    } while (from < 0 && errno == EINTR);
    if (from < 0) {
        tell_failure("cannot open", name);
        return NOT_READ;
    }
    /*
     * Of 0, 1 and 2 the file gets the first that was closed when the program began. As 0 it is read like any
     * other, and as 2 it takes no message, because it is open for reading alone. As 1 it takes no list for the
     * same reason; but closing it would go well, so the closed standard output is told here.
     */
    if (from == STDOUT_FILENO) {
        errno = EBADF;
        return not_written();
    }
    return list(from, name);
}

int main(int count, char **words) {
    /* A reader that leaves, and a limit on the size of files, are failed writes, and no end without a word. */
    signal(SIGPIPE, SIG_IGN);
    signal(SIGXFSZ, SIG_IGN);
    if (count > 2)
        return wrong_call("more than one argument:", words[2]);
    if (count < 2)
        return list(STDIN_FILENO, "standard input");
    if (strcmp(words[1], "--help") == 0)
        return print_usage();
    if (strcmp(words[1], "--version") == 0)
        return print_version();
    if (words[1][0] == '-')
        return wrong_call("unknown option", words[1]);
    return list_file(words[1]);
}

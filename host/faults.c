/*
 * A library to preload into a program (LD_PRELOAD), for the tests: it makes calls of the system fail, move fewer
 * bytes or be interrupted, as FAULTS says, and writes down every call in the file that FAULTS_LOG names.
 *
 * FAULTS is rules CALL:WHICH:HOW with commas between. CALL is read (of any descriptor), write (to standard
 * output), tell (a write to standard error), open, or close (of standard output). WHICH is a call's number, from 1
 * on, or * for every one; a call that is made again after an interruption keeps its number. HOW is one of
 *     interrupt=N    is interrupted N times before it is made
 *     fail=ERRNO     fails
 *     nothing=0      a write that takes no byte
 *     most=N         moves N bytes at most
 *     half=0         moves at most half of the bytes
 *     few=SEED       moves at most 1 to 64 bytes, at random
 *     less=SEED      moves at least 1 to 16 bytes less, at random
 * A call moves one byte at least. Of several rules for one call, interruptions come first.
 *
 * A line of the log is: CALL, its number, the bytes asked for, the answer, errno or 0, the word of HOW or a dash. [E17]
 */
#define _GNU_SOURCE
#include <errno.h>
#include <fcntl.h>
#include <stdarg.h>
#include <stdint.h>
#include <stdio.h>
#include <stdlib.h>
#include <string.h>
#include <sys/syscall.h>
#include <unistd.h>

enum call { READ, WRITE, TELL, OPEN, CLOSE, CALLS };
/* In the order in which rules are looked for: before a call is made, in place of it, and of the bytes that it moves. */
enum how { INTERRUPT, FAIL, NOTHING, MOST, HALF, FEW, LESS, HOWS };

static const char *const CALL_NAMES[CALLS] = {"read", "write", "tell", "open", "close"};
static const char *const HOW_NAMES[HOWS] = {"interrupt", "fail", "nothing", "most", "half", "few", "less"};

/* A rule; the number 0 means every call. */
static struct rule {
    enum call call;
    unsigned long which;
    enum how how;
    uint64_t value;
} rules[16];

static size_t rule_count;
static unsigned long made[CALLS];        /* the calls that were made, or failed */
static unsigned long interrupted[CALLS]; /* how often the next one was interrupted */
static int log_to = -1;

/* Ends the program: a test that asks for something unknown must not pass. */
static void stop(const char *why) {
    (void)!syscall(SYS_write, STDERR_FILENO, why, strlen(why));
    _exit(99);
}

static int place_of(const char *word, const char *const *names, int count) {
    int at = 0;
    while (at < count && strcmp(word, names[at]) != 0)
        at++;
    return at;
}

static void add_rule(const char *text) {
    char call[8], which[24], how[12];
    unsigned long long value;
    struct rule *rule = &rules[rule_count++];
    if (rule_count > sizeof rules / sizeof rules[0])
        stop("FAULTS has too many rules\n");
    if (sscanf(text, "%7[a-z]:%23[0-9*]:%11[a-z]=%llu", call, which, how, &value) != 4)
        stop("a rule of FAULTS is not understood\n");
    rule->call = (enum call)place_of(call, CALL_NAMES, CALLS);
    rule->which = strcmp(which, "*") == 0 ? 0 : strtoul(which, NULL, 10);
    rule->how = (enum how)place_of(how, HOW_NAMES, HOWS);
    rule->value = value;
    if (rule->call == CALLS || rule->how == HOWS)
        stop("a rule of FAULTS has an unknown word\n");
}

/* The log gets a high number, so that it is none of those that a program begins with closed. */
__attribute__((constructor)) static void begin(void) {
    const char *file = getenv("FAULTS_LOG"), *rule = getenv("FAULTS");
    int opened = file ? (int)syscall(SYS_openat, AT_FDCWD, file, O_WRONLY | O_APPEND | O_CLOEXEC) : -1;
    log_to = opened < 0 ? -1 : fcntl(opened, F_DUPFD_CLOEXEC, 100);
    if (log_to < 0)
        stop("FAULTS_LOG cannot be opened\n");
    syscall(SYS_close, opened);
    while (rule && *rule) {
        add_rule(rule);
        rule = strchr(rule, ',');
        rule = rule ? rule + 1 : NULL;
    }
    errno = 0;
}

/* Writes a call down and answers it. Only an interrupted one keeps its number. */
static long answered(enum call call, size_t asked, long answer, int error, const char *fault) {
    char line[120];
    int length = snprintf(line, sizeof line, "%s %lu %zu %ld %d %s\n", CALL_NAMES[call], made[call] + 1, asked,
                          answer, answer < 0 ? error : 0, fault);
    if (syscall(SYS_write, log_to, line, (size_t)length) != length)
        stop("FAULTS_LOG cannot be written\n");
    if (fault == HOW_NAMES[INTERRUPT]) {
        interrupted[call]++;
    } else {
        made[call]++;
        interrupted[call] = 0;
    }
    if (answer < 0)
        errno = error;
    return answer;
}

/* The first rule for the next call that is of one of some kinds. */
static const struct rule *found(enum call call, enum how first, enum how last) {
    for (size_t at = 0; at < rule_count; at++) {
        const struct rule *rule = &rules[at];
        int meant = rule->which == 0 || rule->which == made[call] + 1;
        if (rule->call == call && rule->how >= first && rule->how <= last && meant)
            return rule;
    }
    return NULL;
}

/* A random number below n, another for each number of a call (splitmix64). */
static uint64_t some(uint64_t seed, unsigned long number, uint64_t n) {
    uint64_t z = seed + number * UINT64_C(0x9E3779B97F4A7C15);
    z = (z ^ z >> 30) * UINT64_C(0xBF58476D1CE4E5B9);
    z = (z ^ z >> 27) * UINT64_C(0x94D049BB133111EB);
    return (z ^ z >> 31) % n;
}

/* The bytes that a rule lets a call move. */
static size_t cut(const struct rule *rule, unsigned long number, size_t asked) {
    size_t most = asked;
    if (rule->how == MOST)
        most = rule->value;
    else if (rule->how == HALF)
        most = asked / 2;
    else if (rule->how == FEW)
        most = 1 + some(rule->value, number, 64);
    else if (rule->how == LESS)
        most = asked > 16 ? asked - 1 - some(rule->value, number, 16) : asked / 2;
    return most < 1 ? 1 : most < asked ? most : asked;
}

/* Whether the next call is not to be made; then *answer is its answer. */
static int spoilt(enum call call, size_t asked, long *answer) {
    const struct rule *rule = found(call, INTERRUPT, INTERRUPT);
    if (rule && interrupted[call] < rule->value) {
        *answer = answered(call, asked, -1, EINTR, HOW_NAMES[INTERRUPT]);
        return 1;
    }
    rule = found(call, FAIL, NOTHING);
    if (rule)
        *answer = answered(call, asked, rule->how == FAIL ? -1 : 0, (int)rule->value, HOW_NAMES[rule->how]);
    return rule != NULL;
}

/* A read or a write. */
static long moved(enum call call, long system, int descriptor, void *bytes, size_t asked) {
    const struct rule *rule;
    size_t most = asked;
    long answer;
    if (spoilt(call, asked, &answer))
        return answer;
    rule = found(call, MOST, LESS);
    if (rule && asked > 0)
        most = cut(rule, made[call] + 1, asked);
    answer = syscall(system, descriptor, bytes, most);
    return answered(call, asked, answer, errno, most < asked ? HOW_NAMES[rule->how] : "-");
}

ssize_t read(int descriptor, void *bytes, size_t count) {
    return moved(READ, SYS_read, descriptor, bytes, count);
}

ssize_t write(int descriptor, const void *bytes, size_t count) {
    if (descriptor == STDOUT_FILENO)
        return moved(WRITE, SYS_write, descriptor, (void *)bytes, count);
    if (descriptor == STDERR_FILENO)
        return moved(TELL, SYS_write, descriptor, (void *)bytes, count);
    return syscall(SYS_write, descriptor, bytes, count);
}

int open(const char *name, int flags, ...) {
    mode_t mode = 0;
    long answer;
    if (flags & O_CREAT) {
        va_list rest;
        va_start(rest, flags);
        mode = va_arg(rest, mode_t);
        va_end(rest);
    }
    if (spoilt(OPEN, 0, &answer))
        return (int)answer;
    answer = syscall(SYS_openat, AT_FDCWD, name, flags, mode);
    return (int)answered(OPEN, 0, answer, errno, "-");
}

/* One that fails has closed, as the system's does. */
int close(int descriptor) {
    long answer = syscall(SYS_close, descriptor), spoiled;
    if (descriptor != STDOUT_FILENO)
        return (int)answer;
    if (spoilt(CLOSE, 0, &spoiled))
        return (int)spoiled;
    return (int)answered(CLOSE, 0, answer, errno, "-");
}

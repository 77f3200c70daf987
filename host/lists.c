/*
 * The lists of the library from one descriptor to another: what a window of the input says is listed by the proved
 * functions below, of crates/ghanveltri_c, and this reads, writes and keeps the window. It is C because
 * nothing that a static library of the proved language may call reads or writes a descriptor and tells what failed.
 * The functions of these names of crates/ghanveltri do the same over a reader and a writer. [E18] [X10] [I3]
 */
#define _POSIX_C_SOURCE 200809L
#include <errno.h>
#include <stdbool.h>
#include <string.h>
#include <unistd.h>

#include "ghanveltri.h"

enum { LISTED = 0, NOT_READ = 1, NOT_WRITTEN = 2 };

/* What a pass stopped at: a record whose lines had no room, the start of one that waits for more input, the end. */
enum { RECORD = 0, SHORT = 1, OVER = 2 };

enum { BUFFER = 65536 };

/* What a pass over a window did. */
struct passed {
    uint64_t consumed, bytes, front;
};

typedef void pass(const uint8_t *src, size_t length, bool ended, uint8_t *text, size_t room, struct passed *passed);

/*
 * Lists the records that a window starts with, while their lines have room. These are joined into one object with this
 * (host/build), so that no table of addresses is needed to call them. host/tests/header_agrees holds the declarations,
 * and the struct, to the crate.
 */
__attribute__((visibility("hidden"))) pass list_packing, list_explaining, list_outlining;

/* Writes all of a text, and answers whether that went well; a write that takes no byte has failed. [E17] */
static bool send(int32_t to, const uint8_t *text, size_t length) {
    while (length > 0) {
        ssize_t took = write(to, text, length);
        if (took == 0 || (took < 0 && errno != EINTR))
            return false;
        if (took > 0) {
            text += took;
            length -= (size_t)took;
        }
    }
    return true;
}

/* One read, made again where it was interrupted. */
static ssize_t receive(int32_t from, uint8_t *room, size_t length) {
    ssize_t got;
    do
        got = read(from, room, length);
    while (got < 0 && errno == EINTR);
    return got;
}

/*
 * Pass after pass, to the end of the list. The lines of a pass are written before more is read, so that none waits
 * while the input does, and a read that fails loses none. What is unread stands from `at` up to `have`. Each turn that
 * goes on has listed a record, got bytes, or come to the end of the input. [E12] [E16]
 */
static uint64_t list(pass *lister, int32_t from, int32_t to) {
    uint8_t input[BUFFER], text[BUFFER];
    size_t at = 0, have = 0;
    bool ended = false;
    for (;;) {
        struct passed passed;
        lister(input + at, have - at, ended, text, sizeof text, &passed);
        if (!send(to, text, passed.bytes))
            return NOT_WRITTEN;
        at += passed.consumed;
        if (passed.front == OVER)
            return LISTED;
        if (passed.front == SHORT) {
            ssize_t got;
            have -= at;
            memmove(input, input + at, have);
            at = 0;
            got = receive(from, input + have, sizeof input - have);
            if (got < 0)
                return NOT_READ;
            have += (size_t)got;
            ended = got == 0;
        }
    }
}

uint64_t gv_packing_list(int32_t from, int32_t to) {
    return list(list_packing, from, to);
}

uint64_t gv_explain_list(int32_t from, int32_t to) {
    return list(list_explaining, from, to);
}

uint64_t gv_outline_list(int32_t from, int32_t to) {
    return list(list_outlining, from, to);
}

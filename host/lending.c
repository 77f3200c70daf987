/*
 * What lending.h declares. For each kind of slice three pages are mapped twice, the second time for reading only; of
 * the three only the one in the middle can be touched.
 */
#define _POSIX_C_SOURCE 200809L
#include "lending.h"

#include <stdio.h>
#include <string.h>
#include <sys/mman.h>
#include <unistd.h>

/* No guard is 0 or 1, so that a beat written there is seen. */
static uint8_t guard[GUARD];

static size_t page;

static struct slice {
    uint8_t *writable;       /* the page in the middle */
    const uint8_t *readable; /* the same page, mapped for reading only */
    uint8_t *bytes;
    size_t length, before, after;
} slices[SLICES];

/* The three pages of a file, the outer ones shut; NULL where that fails. */
static uint8_t *map_pages(int file, int protection) {
    uint8_t *pages = (uint8_t *)mmap(NULL, 3 * page, protection, MAP_SHARED, file, 0);
    if (pages == (uint8_t *)MAP_FAILED)
        return NULL;
    if (mprotect(pages, page, PROT_NONE) != 0 || mprotect(pages + 2 * page, page, PROT_NONE) != 0)
        return NULL;
    return pages + page;
}

static int open_pages(struct slice *lent) {
    FILE *file = tmpfile();
    if (file == NULL || ftruncate(fileno(file), (off_t)(3 * page)) != 0)
        return 0;
    lent->writable = map_pages(fileno(file), PROT_READ | PROT_WRITE);
    lent->readable = map_pages(fileno(file), PROT_READ);
    fclose(file);
    return lent->writable != NULL && lent->readable != NULL;
}

int open_lending(void) {
    size_t at;
    page = (size_t)sysconf(_SC_PAGESIZE);
    for (at = 0; at < GUARD; at++)
        guard[at] = (uint8_t)(0xA0 + at);
    return page / 2 >= MOST_LENT + 2 * GUARD && open_pages(&slices[BEATS]) && open_pages(&slices[TEXT]);
}

/* Where the next slice goes: after one shut page, before the other, or away from both at any alignment. */
static uint8_t *next_slice(uint8_t *writable, size_t length) {
    static uint32_t turn;
    turn = turn * 1664525 + 1013904223;
    switch (turn >> 16 & 3) {
    case 0:
        return writable;
    case 1:
        return writable + page - length;
    default:
        return writable + page / 2 + (turn >> 20 & 63);
    }
}

static size_t least(size_t a, size_t b) {
    return a < b ? a : b;
}

uint8_t *lend(enum lent what, const uint8_t *bytes, size_t length) {
    struct slice *lent = &slices[what];
    lent->bytes = next_slice(lent->writable, length);
    lent->length = length;
    lent->before = least(GUARD, (size_t)(lent->bytes - lent->writable));
    lent->after = least(GUARD, (size_t)(lent->writable + page - (lent->bytes + length)));
    memcpy(lent->bytes - lent->before, guard, lent->before);
    memcpy(lent->bytes, bytes, length);
    memcpy(lent->bytes + length, guard, lent->after);
    return lent->bytes;
}

const uint8_t *lend_for_reading(enum lent what, const uint8_t *bytes, size_t length) {
    return slices[what].readable + (lend(what, bytes, length) - slices[what].writable);
}

const uint8_t *lent_bytes(enum lent what) {
    return slices[what].bytes;
}

int guards_hold(enum lent what) {
    const struct slice *lent = &slices[what];
    return memcmp(lent->bytes - lent->before, guard, lent->before) == 0 &&
           memcmp(lent->bytes + lent->length, guard, lent->after) == 0;
}

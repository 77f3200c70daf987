#include "choosing.h"

#include "independent.h"

static uint64_t state;

void begin_choosing(uint64_t seed) {
    state = seed;
}

/* 64 random bits (splitmix64). */
static uint64_t some(void) {
    uint64_t z = state += UINT64_C(0x9E3779B97F4A7C15);
    z = (z ^ z >> 30) * UINT64_C(0xBF58476D1CE4E5B9);
    z = (z ^ z >> 27) * UINT64_C(0x94D049BB133111EB);
    return z ^ z >> 31;
}

uint64_t below(uint64_t n) {
    return some() % n;
}

/* A number on an edge of a width or a limit, or up to 3 beside it, past 0 and 2^64 too. */
static uint64_t some_edge(void) {
    static const uint64_t edges[] = {0, GV_MAX_TASKS, GV_MAX_BEATS, 256, 65536, UINT64_C(1) << 32, UINT64_C(1) << 63};
    uint64_t edge = edges[below(sizeof edges / sizeof edges[0])];
    return edge + below(7) - 3;
}

/* A number of any width. */
static uint64_t some_width(void) {
    uint64_t any = some();
    return any >> below(64);
}

uint64_t some_number(uint64_t likely) {
    switch (below(8)) {
    case 0:
        return some_edge();
    case 1:
        return some_width();
    case 2:
        return likely + (below(UINT64_C(1) << 31) << 32);
    default:
        return likely;
    }
}

void some_form(struct input *in, uint64_t t, uint64_t s) {
    in->t = t;
    in->s = s;
    in->length = t + s;
    form_by_groups(t, s, below(count_by_formula(t, s)), in->beats);
}

void damage(struct input *in) {
    size_t a = below(in->length + 1), b = below(in->length + 1);
    uint8_t kept = in->beats[a];
    switch (below(5)) {
    case 0:
        in->beats[a] ^= 1;
        break;
    case 1:
        in->beats[a] = (uint8_t)some();
        break;
    case 2:
        in->beats[a] = in->beats[b];
        in->beats[b] = kept;
        break;
    case 3:
        in->length = a;
        break;
    default:
        in->length = below(ROOM);
    }
}

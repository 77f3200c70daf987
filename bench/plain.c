/* The library's functions in plain C, as bench/plain.h lists them: what the library is measured against.
   The byte loops are what the rules say, written down once; the others are what can be made of them with care.
   For gcc on a little-endian machine: a word of eight beats has the first in its lowest byte. */
#include <string.h>

#include "limits.h"
#include "plain.h"

/* A 1 in each byte of a word. */
#define EACH ((uint64_t)0x0101010101010101)

/* Compiled into each that calls it, without what that one does not need. */
#define INTO_EACH static inline __attribute__((always_inline))

struct verdict {
    uint64_t refusal, place;
};

/* The same, and how many ones are above t. */
struct miscount {
    struct verdict verdict;
    int64_t surplus;
};

/* The leftmost 0, and the 1 of the leftmost 0 followed by 1; the length where there is none. */
struct front {
    size_t zero, one;
};

/* For the form at place q of list S(t, s), from 0 on: its last beat is 1 exactly if q - low < width, and then the
   beats before it stand at place q - low. Else they stand at place q. */
struct bound {
    uint64_t low, width;
};

/* What a 1 adds to the number, and how many set-downs it shows to be bare. Both are added up at once. */
typedef uint64_t worth __attribute__((vector_size(16)));

/* The beats as bits, the first in the lowest: as many as a word holds, and the rest. */
struct bits {
    uint64_t word, rest;
};

static uint64_t forms[SIDE][SIDE];   /* N(t, s), 0 for s > t */
static uint64_t gains[SIDE][SIDE];   /* what a 1 after so many ones and zeros adds to the number */
static worth worths[LARGEST][BEATS]; /* of the k-th 1 from 0 on, by its place */
static struct bound bounds[SIDE][SIDE];

/* A 1 after more zeros than ones has none. */
static uint64_t gain(int ups, int downs) {
    return 0 < downs && downs <= ups && ups < LARGEST ? forms[ups + 1][downs - 1] - 1 : 0;
}

void plain_prepare(void) {
    for (int t = 0; t <= LARGEST; t++)
        for (int s = 0; s <= t; s++)
            forms[t][s] = s == 0 ? 1 : forms[t - 1][s] + forms[t][s - 1];
    for (int t = 0; t <= LARGEST; t++) {
        bounds[t][0] = (struct bound){0, UINT64_MAX};
        for (int s = 1; s <= t; s++)
            bounds[t][s] = (struct bound){forms[t][s - 1] - 1, forms[t][s] - forms[t][s - 1]};
        for (int s = 0; s <= LARGEST; s++)
            gains[t][s] = gain(t, s);
    }
    for (int k = 0; k < LARGEST; k++)
        for (int place = k; place < BEATS; place++)
            worths[k][place] = (worth){gain(k, place - k), place - k > k};
}

/* The refusals of counts and of a length. */
static uint64_t misfit(uint64_t t, uint64_t s, size_t length) {
    if (t > LARGEST) return 1;
    if (s > t) return 2;
    return length != t + s ? 3 : 0;
}

/* ---- the check ---- */

INTO_EACH struct miscount bytes_counted(uint64_t t, uint64_t s, const uint8_t *beats, size_t length) {
    uint64_t refusal = misfit(t, s, length);
    if (refusal) return (struct miscount){{refusal, 0}, 0};
    for (size_t k = 0; k < length; k++)
        if (beats[k] > 1) return (struct miscount){{4, k}, 0};
    int64_t hand = 0;
    for (size_t k = 0; k < length; k++) {
        hand += 2 * (int64_t)beats[k] - 1;
        if (hand < 0) return (struct miscount){{5, k}, 0};
    }
    return (struct miscount){{(uint64_t)hand + s != t ? 6 : 0, 0}, (hand + (int64_t)s - (int64_t)t) / 2};
}

static struct verdict bytes_check(uint64_t t, uint64_t s, const uint8_t *beats, size_t length) {
    return bytes_counted(t, s, beats, length).verdict;
}

static uint64_t word(const uint8_t *at) {
    uint64_t w;
    memcpy(&w, at, 8);
    return w;
}

/* The length % 8 beats after the whole words, 0 in the bytes above them. There is one at least. */
static uint64_t last_word(const uint8_t *beats, size_t length) {
    size_t part = length % 8;
    if (length >= 8) return word(beats + length - 8) >> (64 - 8 * part);
    uint64_t w = 0;
    while (part-- > 0)
        w = w << 8 | beats[part];
    return w;
}

/* In each byte 0x80 and what is in hand after that beat: the product with EACH has the ones up to it. */
static uint64_t hands(uint64_t hand, uint64_t ups) {
    return (0x80 + hand) * EACH + 2 * ups - 0x0807060504030201;
}

/* Whether no row refuses the beats. A beat that is neither 0 nor 1 may spoil the hands, but it shows by itself. */
static int words_right(uint64_t t, uint64_t s, const uint8_t *beats, size_t length) {
    uint64_t hand = 0, all = 0, never = 0x80 * EACH;
    size_t at = 0;
    for (; at + 8 <= length; at += 8) {
        uint64_t w = word(beats + at), ups = w * EACH;
        all |= w;
        never &= hands(hand, ups);
        hand += 2 * (ups >> 56) - 8;
    }
    if (at < length) {
        uint64_t w = last_word(beats, length), ups = w * EACH, left = length - at;
        all |= w;
        never &= hands(hand, ups) | UINT64_MAX << 8 * left;
        hand += 2 * (ups >> 56) - left;
    }
    return (all & ~EACH) == 0 && never == 0x80 * EACH && hand + s == t;
}

/* Which row it is that refuses, the byte loops find out. */
static struct verdict words_check(uint64_t t, uint64_t s, const uint8_t *beats, size_t length) {
    uint64_t refusal = misfit(t, s, length);
    if (refusal) return (struct verdict){refusal, 0};
    if (words_right(t, s, beats, length)) return (struct verdict){0, 0};
    return bytes_check(t, s, beats, length);
}

uint64_t bytes_check_refusal(uint64_t t, uint64_t s, const uint8_t *beats, size_t length) {
    return bytes_check(t, s, beats, length).refusal;
}

uint64_t bytes_check_place(uint64_t t, uint64_t s, const uint8_t *beats, size_t length) {
    return bytes_check(t, s, beats, length).place;
}

uint64_t words_check_refusal(uint64_t t, uint64_t s, const uint8_t *beats, size_t length) {
    return words_check(t, s, beats, length).refusal;
}

uint64_t words_check_place(uint64_t t, uint64_t s, const uint8_t *beats, size_t length) {
    return words_check(t, s, beats, length).place;
}

int32_t bytes_check_surplus(uint64_t t, uint64_t s, const uint8_t *beats, size_t length) {
    return (int32_t)bytes_counted(t, s, beats, length).surplus;
}

/* ---- the count ---- */

uint64_t table_count_refusal(uint64_t t, uint64_t s) {
    return t > LARGEST ? 1 : s > t ? 2 : 0;
}

uint64_t table_count_place(uint64_t t, uint64_t s) {
    (void)t;
    (void)s;
    return 0;
}

uint64_t table_count(uint64_t t, uint64_t s) {
    if (t > LARGEST || s > t) return 0;
    return forms[t][s];
}

/* ---- the step ---- */

static struct front bytes_front(const uint8_t *beats, size_t length) {
    size_t zero = 0, one;
    while (zero < length && beats[zero] == 1)
        zero++;
    for (one = zero; one < length && beats[one] == 0;)
        one++;
    return (struct front){zero, one};
}

/* The first place from one on whose beat is another, or the length. */
static size_t words_skip(const uint8_t *beats, size_t length, size_t from, uint8_t beat) {
    uint64_t other, same = beat * EACH;
    for (; from + 8 <= length; from += 8) {
        other = word(beats + from) ^ same;
        if (other) return from + __builtin_ctzll(other) / 8;
    }
    if (length >= 8 && from < length) {
        other = (word(beats + length - 8) ^ same) >> 8 * (8 - (length - from));
        return other ? from + __builtin_ctzll(other) / 8 : length;
    }
    while (from < length && beats[from] == beat)
        from++;
    return from;
}

static struct front words_front(const uint8_t *beats, size_t length) {
    size_t zero = words_skip(beats, length, 0, 1);
    return (struct front){zero, words_skip(beats, length, zero, 0)};
}

/* Whether the step moves the 0 after the found 1, which then goes to the second place. */
static int dips(const uint8_t *beats, size_t length, struct front front) {
    return front.one + 1 < length && beats[front.one + 1] == 0 && front.one - front.zero < front.zero;
}

static uint64_t changes(const uint8_t *beats, size_t length, struct front front) {
    if (front.one == length) return front.zero == length || front.zero == 1 ? 0 : 2;
    return dips(beats, length, front) ? 4 : 2;
}

/* Takes the step, and answers the beats that it changes. */
static uint64_t step(uint8_t *beats, size_t length, struct front front) {
    if (front.one == length) {
        if (front.zero == length || front.zero == 1) return 0;
        beats[front.zero] = 1;
        beats[1] = 0;
        return 2;
    }
    int dip = dips(beats, length, front);
    beats[front.zero] = 1;
    beats[front.one] = 0;
    if (!dip) return 2;
    beats[1] = 0;
    beats[front.one + 1] = 1;
    return 4;
}

uint64_t bytes_next(uint64_t t, uint64_t s, uint8_t *beats, size_t length) {
    uint64_t refusal = bytes_check(t, s, beats, length).refusal;
    if (!refusal) step(beats, length, bytes_front(beats, length));
    return refusal;
}

uint64_t bytes_next_changed(uint64_t t, uint64_t s, const uint8_t *beats, size_t length) {
    if (bytes_check(t, s, beats, length).refusal) return 0;
    return changes(beats, length, bytes_front(beats, length));
}

uint64_t words_next(uint64_t t, uint64_t s, uint8_t *beats, size_t length) {
    uint64_t refusal = words_check(t, s, beats, length).refusal;
    if (!refusal) step(beats, length, words_front(beats, length));
    return refusal;
}

uint64_t words_next_changed(uint64_t t, uint64_t s, const uint8_t *beats, size_t length) {
    if (words_check(t, s, beats, length).refusal) return 0;
    return changes(beats, length, words_front(beats, length));
}

/* ---- the explanation ---- */

/* The case of a form: there is no other, no 0 is followed by 1, the beat after the found 1 moves, or the found 1. */
static uint64_t case_of(uint64_t t, uint64_t s, const uint8_t *beats, size_t length, struct front front) {
    if (s == 0 || t < 2) return 1;
    if (front.one == length) return 2;
    if (front.one + 1 < length && beats[front.one + 1] == 1) return 3;
    return dips(beats, length, front) ? 3 : 4;
}

static uint64_t moved(uint64_t t, uint64_t s, const uint8_t *beats, size_t length, struct front front) {
    switch (case_of(t, s, beats, length, front)) {
    case 1: return GV_NO_PLACE;
    case 2: return length - 1;
    case 3: return front.one + 1;
    default: return front.one;
    }
}

uint64_t bytes_explain_case(uint64_t t, uint64_t s, const uint8_t *beats, size_t length) {
    if (bytes_check(t, s, beats, length).refusal) return 0;
    return case_of(t, s, beats, length, bytes_front(beats, length));
}

uint64_t bytes_explain_found(uint64_t t, uint64_t s, const uint8_t *beats, size_t length) {
    if (bytes_check(t, s, beats, length).refusal) return GV_NO_PLACE;
    size_t one = bytes_front(beats, length).one;
    return one == length ? GV_NO_PLACE : one;
}

uint64_t bytes_explain_moved(uint64_t t, uint64_t s, const uint8_t *beats, size_t length) {
    if (bytes_check(t, s, beats, length).refusal) return GV_NO_PLACE;
    return moved(t, s, beats, length, bytes_front(beats, length));
}

/* The places at which the step stores, from the left. */
uint64_t bytes_explain_changed_place(uint64_t t, uint64_t s, const uint8_t *beats, size_t length, uint64_t which) {
    if (bytes_check(t, s, beats, length).refusal) return GV_NO_PLACE;
    struct front front = bytes_front(beats, length);
    if (which >= changes(beats, length, front)) return GV_NO_PLACE;
    if (front.one == length) return which == 0 ? 1 : front.zero;
    if (!dips(beats, length, front)) return which == 0 ? front.zero : front.one;
    const size_t places[] = {1, front.zero, front.one, front.one + 1};
    return places[which];
}

uint64_t words_explain_case(uint64_t t, uint64_t s, const uint8_t *beats, size_t length) {
    if (words_check(t, s, beats, length).refusal) return 0;
    return case_of(t, s, beats, length, words_front(beats, length));
}

uint64_t words_explain_moved(uint64_t t, uint64_t s, const uint8_t *beats, size_t length) {
    if (words_check(t, s, beats, length).refusal) return GV_NO_PLACE;
    return moved(t, s, beats, length, words_front(beats, length));
}

/* ---- the step back ---- */

static size_t bytes_skip(const uint8_t *beats, size_t length, size_t from, uint8_t beat) {
    while (from < length && beats[from] == beat)
        from++;
    return from;
}

/* bytes_skip or words_skip. What takes one is compiled for each of them, and calls nothing by a pointer. */
typedef size_t skipping(const uint8_t *beats, size_t length, size_t from, uint8_t beat);

INTO_EACH uint64_t changes_back(const uint8_t *beats, size_t length, skipping *skip) {
    size_t zero = skip(beats, length, 0, 1);
    if (zero == length) return 0;
    if (zero > 1) return 2;
    size_t one = skip(beats, length, zero, 0);
    if (one == length) return 0;
    return skip(beats, length, skip(beats, length, one, 1), 0) == length ? 2 : 4;
}

/* Takes the step back, and answers the beats that it changes. A 1 at the second place goes back behind the zeros in
   front; where they are as many as the ones, before the last of them, which would set down with nothing in hand. A 0
   there goes back behind the 1 after the next zeros, or, where there is none, to the end. */
INTO_EACH uint64_t step_back(uint8_t *beats, size_t length, skipping *skip) {
    size_t zero = skip(beats, length, 0, 1);
    if (zero == length) return 0;
    size_t one = skip(beats, length, zero, 0);
    if (zero > 1) {
        beats[zero - 1] = 0;
        beats[one - zero == zero ? one - 2 : one - 1] = 1;
        return 2;
    }
    if (one == length) return 0;
    zero = skip(beats, length, one, 1);
    one = skip(beats, length, zero, 0);
    beats[1] = 1;
    beats[zero - 1] = 0;
    if (one == length) return 2;
    beats[one - 1] = 1;
    beats[one] = 0;
    return 4;
}

uint64_t bytes_previous(uint64_t t, uint64_t s, uint8_t *beats, size_t length) {
    uint64_t refusal = bytes_check(t, s, beats, length).refusal;
    if (!refusal) step_back(beats, length, bytes_skip);
    return refusal;
}

uint64_t bytes_previous_changed(uint64_t t, uint64_t s, const uint8_t *beats, size_t length) {
    if (bytes_check(t, s, beats, length).refusal) return 0;
    return changes_back(beats, length, bytes_skip);
}

uint64_t words_previous(uint64_t t, uint64_t s, uint8_t *beats, size_t length) {
    uint64_t refusal = words_check(t, s, beats, length).refusal;
    if (!refusal) step_back(beats, length, words_skip);
    return refusal;
}

uint64_t words_previous_changed(uint64_t t, uint64_t s, const uint8_t *beats, size_t length) {
    if (words_check(t, s, beats, length).refusal) return 0;
    return changes_back(beats, length, words_skip);
}

/* ---- the run ---- */

static uint64_t run_refusal(uint64_t t, uint64_t s, const uint8_t *beats, size_t length, uint64_t steps) {
    uint64_t refusal = bytes_check(t, s, beats, length).refusal;
    return refusal ? refusal : steps > LONGEST_RUN ? 13 : 0;
}

static uint64_t scan_walk(uint8_t *beats, size_t length, uint64_t steps) {
    uint64_t sum = 0;
    while (steps-- > 0)
        sum += step(beats, length, bytes_front(beats, length));
    return sum;
}

/* A step stores a 0 at the found 1 and a 1 at the leftmost 0, which lengthens the ones in front by one. What stands
   next says where the leftmost 01 is now: a 1 there is it; a 0 there goes to the second place, or, where as many zeros
   as ones are before it, has the 1 after it. Past the end the form is ones and then zeros: with both places at the
   last of the ones the two stores cancel, and the step goes on like one that moves a 0, but changes two beats fewer.
   These are taken off at once, and added again where the run ends before that step. */
static uint64_t loopless_walk(uint64_t t, uint8_t *beats, size_t length, uint64_t steps) {
    struct front front = bytes_front(beats, length);
    int whole = front.one == length;
    size_t zero = whole ? t - 1 : front.zero, one = whole ? t - 1 : front.one;
    uint64_t sum = 2 * steps - 2 * whole;
    if (t < 2 || t == length) return 0;
    for (; steps > 0; steps--) {
        beats[one++] = 0;
        beats[zero++] = 1;
        if (one < length) {
            if (beats[one] == 1) continue;
            if (one + 1 != 2 * zero) {
                beats[one] = 1;
                beats[1] = 0;
                zero = 1;
                one = 2;
                sum += 2;
                continue;
            }
            if (++one < length) continue;
        }
        zero = one = t - 1;
        sum -= 2;
    }
    return zero == one ? sum + 2 : sum;
}

uint64_t scan_run(uint64_t t, uint64_t s, uint8_t *beats, size_t length, uint64_t steps) {
    uint64_t refusal = run_refusal(t, s, beats, length, steps);
    if (!refusal) scan_walk(beats, length, steps);
    return refusal;
}

uint64_t scan_run_changed(uint64_t t, uint64_t s, const uint8_t *beats, size_t length, uint64_t steps) {
    uint8_t own[BEATS];
    if (run_refusal(t, s, beats, length, steps)) return 0;
    memcpy(own, beats, length);
    return scan_walk(own, length, steps);
}

uint64_t loopless_run(uint64_t t, uint64_t s, uint8_t *beats, size_t length, uint64_t steps) {
    uint64_t refusal = run_refusal(t, s, beats, length, steps);
    if (!refusal) loopless_walk(t, beats, length, steps);
    return refusal;
}

uint64_t loopless_run_changed(uint64_t t, uint64_t s, const uint8_t *beats, size_t length, uint64_t steps) {
    uint8_t own[BEATS];
    if (run_refusal(t, s, beats, length, steps)) return 0;
    memcpy(own, beats, length);
    return loopless_walk(t, own, length, steps);
}

/* ---- the run back ---- */

static uint64_t scan_walk_back(uint8_t *beats, size_t length, uint64_t steps) {
    uint64_t sum = 0;
    while (steps-- > 0)
        sum += step_back(beats, length, bytes_skip);
    return sum;
}

uint64_t scan_run_back(uint64_t t, uint64_t s, uint8_t *beats, size_t length, uint64_t steps) {
    uint64_t refusal = run_refusal(t, s, beats, length, steps);
    if (!refusal) scan_walk_back(beats, length, steps);
    return refusal;
}

uint64_t scan_run_back_changed(uint64_t t, uint64_t s, const uint8_t *beats, size_t length, uint64_t steps) {
    uint8_t own[BEATS];
    if (run_refusal(t, s, beats, length, steps)) return 0;
    memcpy(own, beats, length);
    return scan_walk_back(own, length, steps);
}

/* ---- the number ---- */

/* The beats before the 1 of the leftmost 01 are the last form of their counts; each 1 from there on adds the groups
   before its own. */
uint64_t bytes_number(uint64_t t, uint64_t s, const uint8_t *beats, size_t length) {
    if (bytes_check(t, s, beats, length).refusal) return 0;
    struct front front = bytes_front(beats, length);
    size_t ups = front.zero, downs = front.one - front.zero;
    uint64_t number = forms[ups][downs] - 1;
    for (size_t k = front.one; k < length; k++) {
        if (beats[k] == 1) {
            ups++;
            number += forms[ups][downs - 1] - 1;
        } else {
            downs++;
        }
    }
    return number;
}

/* Every 1 adds its gain, those in front 0. */
static uint64_t from_front(struct front front, uint64_t sum) {
    return forms[front.zero][front.one - front.zero] - 1 + sum;
}

uint64_t masks_number(uint64_t t, uint64_t s, const uint8_t *beats, size_t length) {
    if (words_check(t, s, beats, length).refusal) return 0;
    const uint64_t *at = gains[0];
    uint64_t sum = 0;
    for (size_t k = 0; k < length; k++) {
        uint64_t mask = -(uint64_t)beats[k];
        sum += *at & mask;
        at += 1 + (mask & (SIDE - 1));
    }
    return from_front(words_front(beats, length), sum);
}

/* Of eight beats the bits, the first in the lowest. */
static uint64_t eight_bits(uint64_t w) {
    return w * 0x0102040810204080 >> 56;
}

/* The beats as bits, where they are t ones and all others 0; else no bit. */
static struct bits packed(uint64_t t, const uint8_t *beats, size_t length) {
    struct bits bits = {0, 0};
    uint64_t all = 0, sum = 0;
    size_t at = 0, whole = length < WORD ? length : WORD;
    for (; at + 8 <= whole; at += 8) {
        uint64_t w = word(beats + at);
        all |= w;
        sum += w;
        bits.word |= eight_bits(w) << at;
    }
    if (at < length) {
        uint64_t w = length == WORD + 8 ? word(beats + WORD) : last_word(beats, length);
        all |= w;
        sum += w;
        if (BEATS > WORD && at == WORD)
            bits.rest = eight_bits(w);
        else
            bits.word |= eight_bits(w) << at;
    }
    return all & ~EACH || sum * EACH >> 56 != t ? (struct bits){0, 0} : bits;
}

/* The ones and the zeros in front; no more than s zeros. Not all of the first word are ones. */
static struct front bits_front(struct bits bits, uint64_t s) {
    size_t ups = __builtin_ctzll(~bits.word), downs = s;
    uint64_t after = bits.word >> ups;
    if (after)
        downs = __builtin_ctzll(after);
    else if (bits.rest)
        downs = WORD - ups + __builtin_ctzll(bits.rest);
    return (struct front){ups, ups + downs};
}

/* What stands in a row for the lowest bit. The bytes up to it are a number of 32 bits, which need not be extended. */
static worth lowest(const worth *row, uint64_t bits) {
    return *(const worth *)((const uint8_t *)row + (unsigned)sizeof(worth) * (unsigned)__builtin_ctzll(bits));
}

static worth worth_of(struct bits bits) {
    worth sum = {0, 0};
    const worth *row = worths[0];
    for (uint64_t left = bits.word; left; left &= left - 1, row += BEATS)
        sum += lowest(row, left);
    for (uint64_t left = BEATS > WORD ? bits.rest : 0; left; left &= left - 1, row += BEATS)
        sum += lowest(row + WORD, left);
    return sum;
}

uint64_t words_number(uint64_t t, uint64_t s, const uint8_t *beats, size_t length) {
    if (misfit(t, s, length)) return 0;
    struct bits bits = packed(t, beats, length);
    if (!bits.word) return 0;
    worth sum = worth_of(bits);
    if (sum[1]) return 0;
    return from_front(bits_front(bits, s), sum[0]);
}

int32_t bytes_number_surplus(uint64_t t, uint64_t s, const uint8_t *beats, size_t length) {
    return bytes_check_surplus(t, s, beats, length);
}

/* ---- the form ---- */

static uint64_t form_refusal(uint64_t t, uint64_t s, uint64_t number, size_t length) {
    if (t > LARGEST) return 1;
    if (s > t) return 2;
    if (number >= forms[t][s]) return 7;
    return length != t + s ? 3 : 0;
}

/* From the last beat on: a 1 belongs to the group of all s set-downs. The place in the list counts from 1, so that it
   is never 0 and the loop ends at s = 0 as well. */
uint64_t bytes_form(uint64_t t, uint64_t s, uint64_t number, uint8_t *out, size_t length) {
    uint64_t refusal = form_refusal(t, s, number, length);
    if (refusal) return refusal;
    uint64_t place = number + 1;
    while (place < forms[t][s]) {
        if (place < forms[t][s - 1]) {
            out[t + s - 1] = 0;
            s--;
        } else {
            out[t + s - 1] = 1;
            place -= forms[t][s - 1] - 1;
            t--;
        }
    }
    memset(out, 1, t);
    memset(out + t, 0, s);
    return 0;
}

/* One of two values, by a mask of ones or of zeros. */
static uint64_t pick(uint64_t mask, uint64_t one, uint64_t other) {
    return other ^ ((one ^ other) & mask);
}

/* The two bounds that may come next are loaded before it is known which one does. */
uint64_t masks_form(uint64_t t, uint64_t s, uint64_t number, uint8_t *out, size_t length) {
    uint64_t refusal = form_refusal(t, s, number, length);
    if (refusal) return refusal;
    uint64_t place = number;
    const struct bound *at = &bounds[t][s];
    uint64_t low = at->low, width = at->width;
    for (size_t k = length; k-- > 0;) {
        const struct bound *up = at - SIDE, *down = at - 1;
        uint64_t one = place - low < width, mask = -one;
        out[k] = one;
        place -= low & mask;
        low = pick(mask, up->low, down->low);
        width = pick(mask, up->width, down->width);
        at -= 1 + one * (SIDE - 1);
    }
    return 0;
}

/* ---- the outline ---- */

/* The number of the last heading: of each level, and the one below it, the last place and how many bytes stand before
   it. */
struct path {
    size_t depth, places[LARGEST + 1], stems[LARGEST + 1];
};

/* Sets the arrays' first entries, and no other. */
static void begin_path(struct path *path) {
    path->depth = path->places[0] = path->stems[0] = 0;
}

/* Takes the heading that a path leads to: its level has one more, and there is none below it yet. */
static void take_heading(struct path *path, size_t level, size_t bytes) {
    path->places[level]++;
    path->depth = level + 1;
    path->places[path->depth] = 0;
    path->stems[path->depth] = bytes;
}

static size_t width(size_t place) {
    return place > 9 ? 2 : 1;
}

static uint8_t *put_place(uint8_t *at, size_t place) {
    if (place > 9) *at++ = '0' + place / 10;
    *at++ = '0' + place % 10;
    return at;
}

/* The bytes of the text of a closed schedule. */
static size_t outline_length(const uint8_t *beats, size_t length) {
    struct path path;
    size_t bytes = 0;
    begin_path(&path);
    for (size_t k = 0; k < length; k++) {
        if (!beats[k]) {
            path.depth--;
            continue;
        }
        size_t line = path.stems[path.depth] + width(path.places[path.depth] + 1) + 1;
        take_heading(&path, path.depth, line);
        bytes += line;
    }
    return bytes;
}

/* Each line is its parent's, with a dot for the line feed, a place and a line feed. */
static size_t outline_write(const uint8_t *beats, size_t length, uint8_t *text) {
    struct path path;
    const uint8_t *parents[LARGEST + 1];
    uint8_t *line = text;
    begin_path(&path);
    for (size_t k = 0; k < length; k++) {
        if (!beats[k]) {
            path.depth--;
            continue;
        }
        size_t stem = path.stems[path.depth];
        if (stem) {
            memcpy(line, parents[path.depth], stem - 1);
            line[stem - 1] = '.';
        }
        uint8_t *end = put_place(line + stem, path.places[path.depth] + 1);
        *end++ = '\n';
        take_heading(&path, path.depth, end - line);
        parents[path.depth] = line;
        line = end;
    }
    return line - text;
}

static uint64_t outline_refusal(uint64_t t, uint64_t s, const uint8_t *beats, size_t length, size_t room) {
    uint64_t refusal = bytes_check(t, s, beats, length).refusal;
    if (refusal) return refusal;
    if (t != s) return 14;
    if (t * (t + 1) <= room) return 0;
    return outline_length(beats, length) <= room ? 0 : 12;
}

uint64_t loop_outline_refusal(uint64_t t, uint64_t s, const uint8_t *beats, size_t length, const uint8_t *text,
                              size_t room) {
    (void)text;
    return outline_refusal(t, s, beats, length, room);
}

uint64_t loop_outline_place(uint64_t t, uint64_t s, const uint8_t *beats, size_t length, const uint8_t *text,
                            size_t room) {
    (void)text;
    (void)room;
    return bytes_check_place(t, s, beats, length);
}

int32_t loop_outline_surplus(uint64_t t, uint64_t s, const uint8_t *beats, size_t length, const uint8_t *text,
                             size_t room) {
    (void)text;
    (void)room;
    return bytes_check_surplus(t, s, beats, length);
}

uint64_t loop_outline(uint64_t t, uint64_t s, const uint8_t *beats, size_t length, uint8_t *text, size_t room) {
    if (outline_refusal(t, s, beats, length, room)) return 0;
    return outline_write(beats, length, text);
}

/* ---- the way back ---- */

/* How many bytes two parts of a text have in common, up to so many of the first. */
static size_t in_common(const uint8_t *one, size_t most, const uint8_t *other, const uint8_t *end) {
    size_t same = 0;
    while (same < most && other + same < end && one[same] == other[same])
        same++;
    return same;
}

/* Where the line ends that has this place behind its stem, or NULL where another does. */
static const uint8_t *line_end(const uint8_t *at, const uint8_t *end, size_t place) {
    if (place > 9) {
        if (at == end || *at != '0' + place / 10) return NULL;
        at++;
    }
    return end - at >= 2 && at[0] == '0' + place % 10 && at[1] == '\n' ? at + 2 : NULL;
}

/* Takes a line, after the last one of so many bytes, into the path, and answers where it ends, or NULL. It is below the
   last one, where it begins with all of it and a dot. Else its level is the deepest whose place begins within what the
   two have in common: a next sister's place differs from the last one's before the dot that follows. */
static const uint8_t *next_line(struct path *path, const uint8_t *last, size_t bytes, const uint8_t *at,
                                const uint8_t *end) {
    size_t same = in_common(last, bytes, at, end), level = path->depth;
    if (level > 0 && (same < bytes || at + same == end || at[same] != '.'))
        while (path->stems[--level] > same)
            ;
    const uint8_t *past = line_end(at + path->stems[level], end, path->places[level] + 1);
    if (past) take_heading(path, level, past - at);
    return past;
}

/* Reads a text into the beats of n lines, and answers how many of its lines are good; one more where all are, and
   nothing follows. */
static uint64_t outline_read(uint64_t n, const uint8_t *text, size_t room, uint8_t *out) {
    struct path path;
    const uint8_t *last = text, *at = text, *end = text + room;
    begin_path(&path);
    for (uint64_t line = 0; line < n; line++) {
        size_t depth = path.depth;
        const uint8_t *past = next_line(&path, last, at > last ? at - last - 1 : 0, at, end);
        if (!past) return line;
        for (; depth >= path.depth; depth--)
            *out++ = 0;
        *out++ = 1;
        last = at;
        at = past;
    }
    memset(out, 0, path.depth);
    return at == end ? n + 1 : n;
}

static struct verdict read_verdict(uint64_t n, const uint8_t *text, size_t room, size_t length, uint8_t *own) {
    if (n > LARGEST) return (struct verdict){1, 0};
    if (length != 2 * n) return (struct verdict){3, 0};
    uint64_t good = outline_read(n, text, room, own);
    return good > n ? (struct verdict){0, 0} : (struct verdict){15, good};
}

uint64_t loop_outline_read(uint64_t n, const uint8_t *text, size_t room, uint8_t *out, size_t length) {
    uint8_t own[BEATS];
    uint64_t refusal = read_verdict(n, text, room, length, own).refusal;
    if (!refusal) memcpy(out, own, length);
    return refusal;
}

uint64_t loop_outline_read_place(uint64_t n, const uint8_t *text, size_t room, const uint8_t *out, size_t length) {
    uint8_t own[BEATS];
    (void)out;
    return read_verdict(n, text, room, length, own).place;
}

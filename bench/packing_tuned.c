/* The packing list in C, tuned: what the program is measured against.
   Large blocks in and out, tables for all that is looked up, and for an accepted record no branch on a beat or a digit.
   For gcc on a little-endian machine. */
#include <stdint.h>
#include <stdlib.h>
#include <string.h>
#include <unistd.h>

#include "limits.h"

typedef uint8_t u8;
typedef uint16_t u16;
typedef uint32_t u32;
typedef uint64_t u64;

enum {
    FRONT = 16,     /* beats in front that are looked up together */
    FRONTS = 12870, /* C(16, 8), the schedules of so many beats */
    LONGEST = 1020,
    RECORD = 2 + LONGEST,
    BLOCK = 1 << 17,
    SLACK = 64,                       /* whole words are read past the end */
    BITS = (BEATS + 7) / 8 * 8,       /* of the longest schedule, packed into bytes */
    LINE = 8 + 8 + 16 + 1 + BITS + 2, /* what a line's words take at most: counts, number, beats and line end */
    TOPS = 1845                       /* more than any number of 64 bits has of TEN_TO_16 */
};

/* The lists that are looked up have counts from the tables. */
typedef char fronts_have_counts[FRONT <= MAX_TASKS ? 1 : -1];

#define TEN_TO_16 ((u64)10000000000000000)

/* For the form at place q of list S(t, s): its last beat is 1 exactly if q - low < width, and then the beats before it
   stand at place q - low. Else they stand at place q. */
struct bound {
    u64 low, width;
};

/* What a take-up adds to the number, and how many set-downs it shows to be bare. Both are added up at once. */
typedef u64 worth __attribute__((vector_size(16)));

/* Beats as bits, the first in the highest: as many as a word holds, and the byte after them. */
struct bits {
    u64 word, rest;
};

static u64 forms[SIDE][SIDE];
static struct bound bounds[SIDE][SIDE];
static u16 fronts[FRONTS];          /* the lists S(t, s) of t + s = 16, one after the other */
static u32 starts[SIDE][SIDE];      /* where list S(t, s) of no more beats starts in them, take-ups after its forms */
static worth worths[SIDE][BITS];    /* of the k-th take-up, by its bit: those of the word, and then of the rest */
static u64 heads[SIDE][SIDE];       /* "t s ", its length in the highest byte */
static u64 tops[TOPS];              /* the digits of a number, of 0 none, their length in the highest byte */
static u64 digits[256];             /* the bits of a byte as digits, the highest first */
static struct bits first[BITS + 1]; /* the first k bits */

static u8 in[BLOCK + SLACK];
static u8 out[BLOCK + LINE];
static u8 *put = out;
static int ended;

static void make_forms(void) {
    for (int t = 0; t <= LARGEST; t++)
        for (int s = 0; s <= t; s++)
            forms[t][s] = s == 0 ? 1 : forms[t - 1][s] + forms[t][s - 1];
}

static void make_bounds(void) {
    for (int t = 0; t <= LARGEST; t++) {
        bounds[t][0] = (struct bound){0, UINT64_MAX};
        for (int s = 1; s <= t; s++)
            bounds[t][s] = (struct bound){forms[t][s - 1] - 1, forms[t][s] - forms[t][s - 1]};
    }
}

/* The forms of list S(t, s) with a tail after them. */
static u16 *list(u16 *at, int t, int s, int tail) {
    for (int i = 1; i <= s && i < t; i++)
        at = list(at, t - 1, i, tail | 1 << (FRONT - t - i));
    *at = tail | ((1 << t) - 1) << (FRONT - t);
    return at + 1;
}

static void make_fronts(void) {
    u16 *at = fronts;
    for (int s = 0; s <= FRONT / 2; s++) {
        starts[FRONT - s][s] = at - fronts;
        at = list(at, FRONT - s, s, 0);
        for (int t = FRONT - s - 1; t >= s; t--)
            starts[t][s] = starts[t + 1][s] + (s ? forms[t + 1][s - 1] - 1 : 0);
    }
}

static void make_worths(void) {
    for (int k = 1; k <= LARGEST; k++)
        for (int place = 0; place < BEATS; place++) {
            int downs = place - (k - 1), bit = place < WORD ? WORD - 1 - place : WORD + (WORD + 7 - place);
            worths[k][bit] = (worth){0 < downs && downs < k ? forms[k][downs - 1] - 1 : 0, downs >= k};
        }
}

static void make_heads(void) {
    for (int t = 0; t <= LARGEST; t++)
        for (int s = 0; s <= t; s++) {
            u8 text[8] = {0};
            int n = 0;
            if (t > 9) text[n++] = '0' + t / 10;
            text[n++] = '0' + t % 10;
            text[n++] = ' ';
            if (s > 9) text[n++] = '0' + s / 10;
            text[n++] = '0' + s % 10;
            text[n++] = ' ';
            text[7] = n;
            memcpy(&heads[t][s], text, 8);
        }
}

static void make_tops(void) {
    for (u64 top = 1; top < TOPS; top++) {
        u64 length = 0;
        for (u64 n = top; n > 0; n /= 10, length++)
            tops[top] = tops[top] << 8 | ('0' + n % 10);
        tops[top] |= length << 56;
    }
}

static void make_small(void) {
    for (int byte = 0; byte < 256; byte++)
        for (int bit = 0; bit < 8; bit++)
            digits[byte] |= (u64)('0' + (byte >> (7 - bit) & 1)) << (8 * bit);
    for (int k = 1; k <= BITS; k++)
        first[k] = k <= WORD ? (struct bits){UINT64_MAX << (WORD - k), 0}
                             : (struct bits){UINT64_MAX, 255 & 255 << (WORD + 8 - k)};
}

static u64 word(const u8 *at) {
    u64 w;
    memcpy(&w, at, 8);
    return w;
}

static void put_word(u8 *at, u64 w) {
    memcpy(at, &w, 8);
}

/* Eight digits of a number below 10^8, the first in the lowest byte: halves, quarters, eighths side by side. */
static u64 eight_digits(u64 n) {
    u64 four = n / 10000 | (n % 10000) << 32;
    u64 hundreds = (four * 10486 >> 20) & 0x0000007F0000007F;
    u64 two = hundreds | (four - hundreds * 100) << 16;
    u64 tens = (two * 103 >> 10) & 0x000F000F000F000F;
    return tens | (two - tens * 10) << 8;
}

/* A number: its last sixteen digits as one word of two, shifted by the zeros in front, after those before them. */
static u8 *decimal(u8 *at, u64 n) {
    u64 top = n / TEN_TO_16;
    n %= TEN_TO_16;
    u64 high = eight_digits(n / 100000000), low = eight_digits(n % 100000000);
    int zeros = high ? __builtin_ctzll(high) / 8 : 8 + __builtin_ctzll(low | (u64)1 << 56) / 8;
    put_word(at, tops[top]);
    at += tops[top] >> 56;
    zeros = top ? 0 : zeros;
    unsigned __int128 both = (unsigned __int128)(low | 0x3030303030303030) << 64 | (high | 0x3030303030303030);
    both >>= 8 * zeros;
    memcpy(at, &both, 16);
    return at + 16 - zeros;
}

static u8 *accepted(u8 *at, unsigned t, unsigned s, u64 n, struct bits beats) {
    u64 head = heads[t][s];
    put_word(at, head);
    at = decimal(at + (head >> 56), n);
    *at++ = ' ';
    for (int k = 0; k < 8; k++)
        put_word(at + 8 * k, digits[beats.word >> (56 - 8 * k) & 255]);
    if (BEATS > WORD) put_word(at + WORD, digits[beats.rest]);
    at += t + s;
    if (t == 0) *at++ = '-';
    *at++ = '\n';
    return at;
}

static u8 *refused(u8 *at, unsigned refusal, unsigned place, int surplus) {
    memcpy(at, "refused ", 8);
    at = decimal(at + 8, refusal);
    *at++ = ' ';
    at = decimal(at, place);
    *at++ = ' ';
    if (surplus < 0) *at++ = '-';
    at = decimal(at, surplus < 0 ? -surplus : surplus);
    *at++ = '\n';
    return at;
}

/* The beats of the form at a place q in list S, from the last on. Past the end of a list q stands for its last form. */
static struct bits form(unsigned t, unsigned s, u64 q) {
    const struct bound *b = &bounds[t][s];
    u64 after = 0;
    for (unsigned left = t + s; left > FRONT; left--) {
        u64 one = -(u64)(q - b->low < b->width);
        after = after >> 1 | (one & (u64)1 << 63);
        q -= b->low & one;
        b = (const struct bound *)((const u8 *)b - sizeof *b - (one & (SIDE - 1) * sizeof *b));
    }
    size_t pair = b - bounds[0];
    u64 last = (&forms[0][0])[pair] - 1;
    u64 front = fronts[(&starts[0][0])[pair] + (q < last ? q : last)];
    return (struct bits){(after >> FRONT | front << (WORD - FRONT)) & first[t + s].word, after >> (FRONT - 8) & 255};
}

static unsigned ones(u64 w) {
    w -= w >> 1 & 0x5555555555555555;
    w = (w & 0x3333333333333333) + (w >> 2 & 0x3333333333333333);
    return ((w + (w >> 4)) & 0x0F0F0F0F0F0F0F0F) * 0x0101010101010101 >> 56;
}

/* Of beats with t ones: the sum of their worths, from the last take-up on. */
static worth worth_of(unsigned t, struct bits beats) {
    worth sum = {0, 0};
    const worth *row = worths[t];
    if (BEATS > WORD)
        for (; beats.rest; row -= BITS) {
            sum += row[WORD + __builtin_ctzll(beats.rest)];
            beats.rest &= beats.rest - 1;
        }
    for (; row > worths[0]; row -= BITS) {
        sum += row[__builtin_ctzll(beats.word)];
        beats.word &= beats.word - 1;
    }
    return sum;
}

/* The set-downs that follow the take-ups in front. */
static unsigned downs_after(unsigned ups, unsigned s, struct bits beats) {
    u64 after = beats.word << ups;
    if (BEATS > WORD && !after && beats.rest) return WORD - ups + __builtin_clzll(beats.rest << (WORD - 8));
    return after ? (unsigned)__builtin_clzll(after) : s;
}

/* The take-ups and set-downs in front are the last form of their counts. */
static u64 number(unsigned s, struct bits beats, u64 sum) {
    unsigned ups = __builtin_clzll(~beats.word);
    return forms[ups][downs_after(ups, s, beats)] - 1 + sum;
}

/* Beats that are no schedule: the first set-down with nothing in hand, or else the wrong number of ones. */
static u8 *no_schedule(u8 *at, unsigned t, unsigned s, struct bits beats) {
    int hand = 0;
    for (unsigned k = 0; k < t + s; k++) {
        u64 beat = k < WORD ? beats.word >> (WORD - 1 - k) : beats.rest >> (WORD + 7 - k);
        hand += beat & 1 ? 1 : -1;
        if (hand < 0) return refused(at, 5, k, 0);
    }
    return refused(at, 6, 0, (hand + (int)s - (int)t) / 2);
}

static u8 *packed(u8 *at, unsigned length, const u8 *body) {
    unsigned t = body[2], s = body[3], width = (t + s + 7) / 8;
    struct bits beats = {__builtin_bswap64(word(body + 4)) & first[8 * width].word, 0};
    if (BEATS > WORD) beats.rest = body[4 + WORD / 8] & first[8 * width].rest;
    u64 unused = (beats.word & ~first[t + s].word) | (beats.rest & ~first[t + s].rest);
    if (length != 4 + width || unused) return refused(at, 11, 0, 0);
    if (ones(beats.word) + (beats.rest ? ones(beats.rest) : 0) != t) return no_schedule(at, t, s, beats);
    worth sum = worth_of(t, beats);
    if (sum[1]) return no_schedule(at, t, s, beats);
    return accepted(at, t, s, number(s, beats, sum[0]), beats);
}

/* Kind 3 holds the number of a form, its place from 0 on. Kind 1 holds the place from 1 on, and 0 for the last. */
static u8 *numbered(u8 *at, unsigned kind, const u8 *body) {
    unsigned t = body[2], s = body[3];
    u64 held = word(body + 4), all = forms[t][s];
    if (held >= all) return refused(at, 7, 0, 0);
    u64 n = kind == 3 ? held : (held ? held : all) - 1;
    return accepted(at, t, s, n, form(t, s, n));
}

/* The line of what stands after a length. */
static u8 *line(u8 *at, unsigned length, const u8 *body) {
    if (length < 2) return refused(at, 11, 0, 0);
    unsigned kind = body[0] | body[1] << 8;
    if (kind < 1 || kind > 3) return refused(at, 10, 0, 0);
    if (kind == 2 ? length < 4 : length != 12) return refused(at, 11, 0, 0);
    if (body[2] > LARGEST) return refused(at, 1, 0, 0);
    if (body[3] > body[2]) return refused(at, 2, 0, 0);
    return kind == 2 ? packed(at, length, body) : numbered(at, kind, body);
}

static void flush(void) {
    for (u8 *from = out; from < put;) {
        ssize_t n = write(1, from, put - from);
        if (n <= 0) exit(1);
        from += n;
    }
    put = out;
}

/* Moves what is left to the front and reads until a longest record is there or the input ends. Answers the bytes
   there. */
static size_t refill(const u8 *from, size_t have) {
    memmove(in, from, have);
    while (have < RECORD && !ended) {
        ssize_t n = read(0, in + have, BLOCK - have);
        if (n < 0) exit(1);
        ended = n == 0;
        have += n;
    }
    return have;
}

int main(void) {
    make_forms();
    make_bounds();
    make_fronts();
    make_worths();
    make_heads();
    make_tops();
    make_small();
    const u8 *from = in, *end = in + refill(in, 0);
    for (;;) {
        if (end - from < RECORD) {
            size_t have = refill(from, end - from);
            from = in;
            end = in + have;
            if (have == 0) break;
        }
        if (put - out > BLOCK) flush();
        unsigned length = from[0] | from[1] << 8;
        if (end - from < 2 || length > LONGEST || end - from < 2 + (int)length) {
            put = refused(put, 9, 0, 0);
            break;
        }
        put = line(put, length, from + 2);
        from += 2 + length;
    }
    flush();
    return 0;
}

/* The packing list in C, the plain way: fread for the parts of a record, printf for a line, a loop over the beats.
   With the word explain after its name it writes what the explain program does: why the next form is what it is. With
   the word outline it writes what the outline_list program does: the outline of the form, and an empty line. */
#include <stdint.h>
#include <stdio.h>
#include <string.h>

#include "limits.h"

enum { LONGEST = 1020 };

static uint64_t forms[SIDE][SIDE];
static int explaining, outlining;

static void make_forms(void) {
    for (int t = 0; t <= LARGEST; t++)
        for (int s = 0; s <= t; s++)
            forms[t][s] = s == 0 ? 1 : forms[t - 1][s] + forms[t][s - 1];
}

static void refused(int refusal, int place, int surplus) {
    printf("refused %d %d %d\n", refusal, place, surplus);
}

static void miscounted(int t, int ones) {
    printf("refused 6 0 %d", ones - t);
    if (explaining)
        printf(" %d %d", t, ones);
    printf("\n");
}

static void accepted(int t, int s, uint64_t n, const char *beats) {
    printf("%d %d %llu %s\n", t, s, (unsigned long long)n, t == 0 ? "-" : beats);
}

/* The leftmost 0, the 1 of the leftmost 01 and the beat after it say which beat moves, and what changes. */
static void explained(int t, int s, const char *beats) {
    int zero = 0, one;
    if (s == 0 || t == 1) {
        printf("1 - - -\n");
        return;
    }
    while (beats[zero] == '1')
        zero++;
    for (one = zero; beats[one] == '0';)
        one++;
    if (one == t + s)
        printf("2 - %d 1 %d\n", one - 1, zero);
    else if (beats[one + 1] == '1')
        printf("3 %d %d %d %d\n", one, one + 1, zero, one);
    else if (beats[one + 1] == '0' && one - zero < zero)
        printf("3 %d %d 1 %d %d %d\n", one, one + 1, zero, one, one + 1);
    else
        printf("4 %d %d %d %d\n", one, one, zero, one);
}

/* What a heading's number begins with is that of its parent and a dot; the length of it is kept for each level. */
static void outlined(int t, int s, const char *beats) {
    char number[3 * LARGEST + 1];
    int stem[LARGEST + 1] = {0}, last[LARGEST + 1] = {0}, level = 0;
    if (t != s) {
        refused(14, 0, 0);
        return;
    }
    for (int k = 0; k < t + s; k++) {
        if (beats[k] == '0') {
            last[level--] = 0;
            continue;
        }
        int end = stem[level] + sprintf(number + stem[level], "%d", ++last[level]);
        printf("%s\n", number);
        level++;
        number[end] = '.';
        stem[level] = end + 1;
    }
}

static void said(int t, int s, uint64_t n, const char *beats) {
    if (explaining)
        explained(t, s, beats);
    else if (outlining)
        outlined(t, s, beats);
    else
        accepted(t, s, n, beats);
}

/* The form at a place of the list, the first being 1, from the last beat on: a 1 belongs to the group of all s
   set-downs. */
static void form(int t, int s, uint64_t place, char *beats) {
    while (s > 0 && place < forms[t][s]) {
        if (place < forms[t][s - 1]) {
            beats[t + s - 1] = '0';
            s--;
        } else {
            beats[t + s - 1] = '1';
            place -= forms[t][s - 1] - 1;
            t--;
        }
    }
    memset(beats, '1', t);
    memset(beats + t, '0', s);
}

/* The number of a schedule: the beats up to the leftmost 01 are the last form of their counts, and each later 1 adds
   the groups before its own. */
static uint64_t number(int t, int s, const char *beats) {
    int ups = 0, downs = 0, k = 0;
    uint64_t n;
    while (k < t + s && beats[k] == '1') {
        ups++;
        k++;
    }
    while (k < t + s && beats[k] == '0') {
        downs++;
        k++;
    }
    n = forms[ups][downs] - 1;
    for (; k < t + s; k++) {
        if (beats[k] == '1') {
            ups++;
            n += forms[ups][downs - 1] - 1;
        } else {
            downs++;
        }
    }
    return n;
}

/* Kind 3 holds the number of a form, its place from 0 on. Kind 1 holds the place from 1 on, and 0 for the last. */
static void numbered(int kind, int t, int s, const unsigned char *bytes) {
    char beats[BEATS + 1] = "";
    uint64_t held = 0, place;
    for (int k = 7; k >= 0; k--)
        held = held << 8 | bytes[k];
    if (held >= forms[t][s]) {
        refused(7, 0, 0);
        return;
    }
    place = kind == 3 ? held + 1 : held == 0 ? forms[t][s] : held;
    form(t, s, place, beats);
    said(t, s, place - 1, beats);
}

static void packed(int t, int s, const unsigned char *bytes, int length) {
    char beats[BEATS + 1] = "";
    int ones = 0, bare = -1;
    if (length != (t + s + 7) / 8) {
        refused(11, 0, 0);
        return;
    }
    for (int k = 0; k < 8 * length; k++) {
        int beat = bytes[k / 8] >> (7 - k % 8) & 1;
        if (k >= t + s) {
            if (beat) {
                refused(11, 0, 0);
                return;
            }
            continue;
        }
        beats[k] = beat ? '1' : '0';
        if (beat)
            ones++;
        else if (bare < 0 && 2 * ones <= k)
            bare = k;
    }
    if (bare >= 0)
        refused(5, bare, 0);
    else if (ones != t)
        miscounted(t, ones);
    else
        said(t, s, explaining || outlining ? 0 : number(t, s, beats), beats);
}

/* What stands after a length, all of it there. */
static void line(const unsigned char *body, int length) {
    int kind, t, s;
    if (length < 2) {
        refused(11, 0, 0);
        return;
    }
    kind = body[0] | body[1] << 8;
    if (kind < 1 || kind > 3) {
        refused(10, 0, 0);
        return;
    }
    if (kind == 2 ? length < 4 : length != 12) {
        refused(11, 0, 0);
        return;
    }
    t = body[2];
    s = body[3];
    if (t > LARGEST)
        refused(1, 0, 0);
    else if (s > t)
        refused(2, 0, 0);
    else if (kind == 2)
        packed(t, s, body + 4, length - 4);
    else
        numbered(kind, t, s, body + 4);
}

/* An empty line after what was said of a record, where outlines are. */
static void end_record(void) {
    if (outlining)
        printf("\n");
}

int main(int count, char **words) {
    unsigned char size[2], body[LONGEST];
    size_t got;
    explaining = count > 1 && strcmp(words[1], "explain") == 0;
    outlining = count > 1 && strcmp(words[1], "outline") == 0;
    make_forms();
    while ((got = fread(size, 1, 2, stdin)) > 0) {
        int length = size[0] | size[1] << 8;
        if (got < 2 || length > LONGEST || fread(body, 1, length, stdin) < (size_t)length) {
            refused(9, 0, 0);
            end_record();
            break;
        }
        line(body, length);
        end_record();
    }
    return fflush(stdout) == 0 && !ferror(stdin) ? 0 : 1;
}

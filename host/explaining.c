/* What explaining.h declares. */
#include "explaining.h"

#include <string.h>

#include "asking.h"
#include "choosing.h"
#include "independent.h"

/* Every form of counts up to this, and so many of each other pair. */
enum { SMALL_COUNT = 8, SOME = 4 };

/* The changed places that are asked for: all that there may be, and more. */
static const uint64_t WHICH[] = {0, 1, 2, 3, 4, 5, UINT64_C(1) << 63, UINT64_MAX};

/* The changed places have a digit each. */
static const struct {
    uint64_t t, s;
    const char *digits;
    uint64_t reason, found, moved;
    const char *changed;
} EXAMPLES[] = {
    {3, 2, "11100", 2, NO_PLACE, 4, "13"},
    {3, 2, "10110", 3, 2, 3, "12"},
    {3, 2, "11010", 3, 3, 4, "1234"},
    {3, 2, "10101", 4, 2, 2, "12"},
    {3, 2, "11001", 4, 4, 4, "24"},
    {3, 3, "110100", 3, 3, 4, "1234"},
    {3, 3, "110010", 4, 4, 4, "24"},
    {2, 2, "1010", 4, 2, 2, "12"},
    {2, 1, "110", 2, NO_PLACE, 2, "12"},
    {1, 1, "10", 1, NO_PLACE, NO_PLACE, ""},
    {4, 0, "1111", 1, NO_PLACE, NO_PLACE, ""},
    {0, 0, "", 1, NO_PLACE, NO_PLACE, ""},
};

/* Each refusal that a schedule can get. */
static const struct {
    uint64_t t, s;
    const char *digits;
} REFUSED[] = {
    {GV_MAX_TASKS + 1, 0, "10"}, {UINT64_MAX, UINT64_MAX, "11010"}, {2, 3, "11010"}, {3, 2, "1101"},
    {3, 2, "110100"},            {3, 2, "11012"},                   {3, 2, "10011"}, {3, 2, "11110"},
};

static void verify_places(const struct input *in, uint64_t refusal) {
    size_t at;
    for (at = 0; at < sizeof WHICH / sizeof WHICH[0]; at++)
        verify_explanation(in, refusal, WHICH[at]);
}

static void verify_accepted(void) {
    size_t at, change;
    for (at = 0; at < sizeof EXAMPLES / sizeof EXAMPLES[0]; at++) {
        struct input in = {0};
        struct explanation why;
        read_digits(&in, EXAMPLES[at].t, EXAMPLES[at].s, EXAMPLES[at].digits);
        explain_step(in.t, in.s, in.beats, &why);
        rely(why.reason == EXAMPLES[at].reason, "an example's case differs", in.t, in.s);
        rely(why.found == EXAMPLES[at].found, "an example's found 1 differs", in.t, in.s);
        rely(why.moved == EXAMPLES[at].moved, "an example's moved beat differs", in.t, in.s);
        rely(why.changes == strlen(EXAMPLES[at].changed), "an example changes other beats", in.t, in.s);
        for (change = 0; change < why.changes; change++)
            rely(why.changed[change] == (uint64_t)(EXAMPLES[at].changed[change] - '0'),
                 "an example's changed place differs", in.t, in.s);
        verify_places(&in, 0);
    }
}

static void verify_refused(void) {
    size_t at;
    for (at = 0; at < sizeof REFUSED / sizeof REFUSED[0]; at++) {
        struct input in = {0};
        uint64_t refusal;
        read_digits(&in, REFUSED[at].t, REFUSED[at].s, REFUSED[at].digits);
        refusal = judge_schedule(in.t, in.s, in.beats, in.length).refusal;
        rely(refusal != 0, "an example is not refused", in.t, in.s);
        verify_places(&in, refusal);
    }
}

void explained_examples(void) {
    verify_accepted();
    verify_refused();
}

/* The form with the beat that is said to move at the second place, and those from there up to it one place on. */
static void move_beat(const struct input *in, uint8_t *out) {
    uint64_t place = gv_explain_moved(in->t, in->s, in->beats, in->length);
    memcpy(out, in->beats, in->length);
    if (place == GV_NO_PLACE)
        return;
    require(0 < place && place < in->length, "the moved beat is not after the first", in);
    out[1] = in->beats[place];
    memcpy(out + 2, in->beats + 1, place - 1);
}

/* The form with the beats turned that are said to change; answers how many they are. */
static uint64_t turn_beats(const struct input *in, uint8_t *out) {
    uint64_t place, which;
    memcpy(out, in->beats, in->length);
    for (which = 0; which < in->length; which++) {
        place = gv_explain_changed_place(in->t, in->s, in->beats, in->length, which);
        if (place == GV_NO_PLACE)
            break;
        require(place < in->length, "a changed place is outside", in);
        out[place] ^= 1;
    }
    return which;
}

/* The library's own explanation of a form, applied to it, gives what its step leaves. */
static void apply(const struct input *in) {
    uint8_t next[ROOM], moved[ROOM], turned[ROOM];
    uint64_t changes = turn_beats(in, turned);
    move_beat(in, moved);
    memcpy(next, in->beats, in->length);
    require(gv_next(in->t, in->s, next, in->length) == GV_ACCEPTED, "the step is refused", in);
    require(memcmp(moved, next, in->length) == 0, "the moved beat does not give the next form", in);
    require(memcmp(turned, next, in->length) == 0, "the changed places do not give the next form", in);
    require(changes == gv_next_changed(in->t, in->s, in->beats, in->length), "the step changes other beats", in);
}

static void verify_form_of(uint64_t t, uint64_t s, uint64_t number) {
    struct input in = {t, s, t + s, {0}};
    struct explanation why;
    form_by_groups(t, s, number, in.beats);
    explain_step(t, s, in.beats, &why);
    rely((why.reason == 1) == (count_by_formula(t, s) == 1), "one form or several, it is taken otherwise", t, s);
    verify_places(&in, 0);
    apply(&in);
}

void explanations(void) {
    uint64_t t, s, number, forms;
    for (t = 0; t <= GV_MAX_TASKS; t++)
        for (s = 0; s <= t; s++) {
            forms = count_by_formula(t, s);
            for (number = 0; number < (t <= SMALL_COUNT ? forms : SOME); number++)
                verify_form_of(t, s, t <= SMALL_COUNT ? number : below(forms));
        }
}

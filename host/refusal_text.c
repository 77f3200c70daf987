/*
 * The text of a refusal. It is C because the proved language answers no pointer, and has no contract. The other
 * functions of the library that are C are the lists of host/lists.c, over proved passes.
 * The texts are constants, so that threads may ask at the same time. host/tests/header_agrees holds every refusal
 * to a text of its own, and host/tests/manual_agrees the texts to ghanveltri(3). [E20]
 */
#include "ghanveltri.h"

const char *gv_refusal_text(uint64_t refusal) {
    switch (refusal) {
    case GV_ACCEPTED:
        return "accepted";
    case GV_TOO_MANY_TASKS:
        return "too many tasks";
    case GV_MORE_DOWN_THAN_UP:
        return "more set down than taken up";
    case GV_WRONG_LENGTH:
        return "wrong length";
    case GV_BAD_BEAT:
        return "a beat is neither 0 nor 1";
    case GV_EMPTY_HAND:
        return "a task is set down with nothing in hand";
    case GV_WRONG_TAKE_UPS:
        return "another number of take-ups than asked for";
    case GV_NO_SUCH_NUMBER:
        return "no form has this number";
    case GV_NO_SUCH_TABLES:
        return "no schedule has these tables";
    case GV_CUT_SHORT:
        return "a record is cut short or too long";
    case GV_UNKNOWN_KIND:
        return "unknown kind of record";
    case GV_WRONG_SIZE:
        return "a record of the wrong length, or with unused bits set";
    case GV_NO_ROOM:
        return "not enough room";
    case GV_RUN_TOO_LONG:
        return "too many steps";
    case GV_NOT_CLOSED:
        return "the schedule is not closed";
    case GV_NO_SUCH_OUTLINE:
        return "no outline has this text";
    default:
        return "unknown refusal";
    }
}

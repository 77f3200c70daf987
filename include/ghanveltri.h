/*
 * ghanveltri.h: numbered task schedules, for C99 and C++. Link with libghanveltri.so or libghanveltri.a
 * (x86-64); ghanveltri(3) says how. [W3] [F4]
 *
 * A schedule of counts t, s is t + s bytes, its beats: t of them are 1 (a task is taken up), s are 0 (one is
 * set down), and none sets down with nothing in hand. The schedules of one pair of counts, its forms, stand
 * on a circle, each one step from the last. A form's number is how many steps lead to it from the form after
 * t ones and s zeros, the form of number 0; t ones and then s zeros have the last number. Beats and places are
 * counted from 0.
 *
 * Rules for every function:
 * - It takes every number and every content of the lent bytes, and ends. It does its work, or refuses by one
 *   of the numbers below. A refused call leaves every lent byte as it was. The lists, gv_packing_list,
 *   gv_explain_list and gv_outline_list, refuse nothing: they end when their input does, and answer numbers of
 *   their own.
 * - It answers one number; gv_refusal_text alone answers a text. Of check, count, number and outline each part
 *   has a function of its own: `_refusal` answers GV_ACCEPTED or the refusal, `_place` the beat at fault, or 0
 *   where there is none, gv_count, gv_number and gv_outline the value, 0 after a refusal, and `_surplus`, of
 *   check, number and outline, the ones minus t after GV_WRONG_TAKE_UPS, and else 0. gv_form, gv_next,
 *   gv_previous, gv_run, gv_run_back and gv_outline_read answer GV_ACCEPTED or the refusal, gv_outline_read_place
 *   the line at fault, and `_changed` the beats that a step or a run would change, 0 after a refusal, which is that
 *   of the step or the run. Of explain, gv_explain_case answers 0 after a refusal, and the other three, which answer
 *   a place, answer GV_NO_PLACE.
 * - A slice is a pointer and, right after it, its length in bytes: `length` of beats, `room` of a text. Nothing
 *   outside the slice is read or written, and a slice that is lent as const is only read.
 * - The caller owes a pointer that is valid for the length, and is not NULL even if the length is 0; slices
 *   of one call that do not overlap; and that nobody else writes a slice during the call, nor reads one that
 *   is not const.
 * - It keeps no pointer, allocates no memory, and has no state that calls share: any number of threads may
 *   call at the same time. All but the lists read and write no file.
 *
 * The marks in brackets are claims of docs/CLAIMS.md, which leads from them to the proofs.
 */
#ifndef GHANVELTRI_H
#define GHANVELTRI_H

#include <stddef.h>
#include <stdint.h>

#ifdef __cplusplus
extern "C" {
#endif

/*
 * The version of this header. A new major version may ask callers to change. Version 2 differs from version 1 in
 * the numbers of forms, and in the kinds of order records:
 * - A number is one less, round the circle: the number n of version 1 is (n + N - 1) % N here, N being
 *   gv_count(t, s). Keys that are stored by number are to be moved once.
 * - Order records of kind 1 need no change: they are read as they were meant, and listed with the new number.
 *   Programs that write records, by record::write of the library, write kind 3 in place of kind 1.
 * - A program that links the shared library of version 1 is not given version 2 by the loader, because the soname
 *   has the major version. It is to be built again. [K7]
 */
#define GV_VERSION_MAJOR 2
#define GV_VERSION_MINOR 1
#define GV_VERSION_PATCH 0
#define GV_VERSION (GV_VERSION_MAJOR * 1000000 + GV_VERSION_MINOR * 1000 + GV_VERSION_PATCH)

#define GV_MAX_TASKS 32    /* the largest t; s is at most t */
#define GV_MAX_BEATS 64    /* the largest t + s */
#define GV_MAX_STEPS 65535 /* the most steps of a run */

#define GV_LONGEST_OUTLINE (GV_MAX_TASKS * (GV_MAX_TASKS + 1)) /* bytes that every outline has room in */

#define GV_NO_PLACE 18446744073709551615u /* no such place, as the functions of explain answer it */

/*
 * The refusals. A number never changes its meaning; new ones follow the last. The functions below give those
 * from GV_TOO_MANY_TASKS to GV_NO_SUCH_NUMBER, and those from GV_NO_ROOM on. The others are of parts of the
 * library that have no C function: tree tables (GV_NO_SUCH_TABLES) and order records (GV_CUT_SHORT to
 * GV_WRONG_SIZE). A line of a list has the refusal, the place and the surplus of its record. A place or a surplus
 * that is not named here is 0. [R1] [R2]
 */
#define GV_ACCEPTED 0          /* no refusal */
#define GV_TOO_MANY_TASKS 1    /* t, or n, is above GV_MAX_TASKS */
#define GV_MORE_DOWN_THAN_UP 2 /* s is above t */
#define GV_WRONG_LENGTH 3      /* the slice of beats is not t + s bytes long */
#define GV_BAD_BEAT 4          /* a beat is neither 0 nor 1; the place is the first such beat */
#define GV_EMPTY_HAND 5        /* a beat sets down with nothing in hand; the place is the first such beat */
#define GV_WRONG_TAKE_UPS 6    /* the ones are not t; the surplus is the ones minus t */
#define GV_NO_SUCH_NUMBER 7    /* the number is not below the count of forms */
#define GV_NO_SUCH_TABLES 8    /* no schedule has these tree tables */
#define GV_CUT_SHORT 9         /* a record is cut short, or says that it is longer than any */
#define GV_UNKNOWN_KIND 10     /* a record is of an unknown kind, or of one that is not written */
#define GV_WRONG_SIZE 11       /* a record's length is wrong for its kind, or its unused bits are not 0 */
#define GV_NO_ROOM 12          /* not enough room is lent, or a sheet is too short */
#define GV_RUN_TOO_LONG 13     /* the steps are above GV_MAX_STEPS */
#define GV_NOT_CLOSED 14       /* the schedule has more ones than zeros */
#define GV_NO_SUCH_OUTLINE 15  /* the text is not the outline of n lines; the place is its first wrong line */

/* The library takes lengths of 64 bits: where size_t has another width this line does not compile. */
typedef char gv_size_t_has_64_bits[sizeof(size_t) == 8 ? 1 : -1];

/*
 * The version of the library, major * 1000000 + minor * 1000 + patch. It is GV_VERSION where the header and
 * the library are of one version.
 */
uint64_t gv_version(void);

/*
 * What does a refusal mean, in a few words?
 * Answers a text for each refusal and for GV_ACCEPTED, and "unknown refusal" for any other number: one line of
 * ASCII without its line end, and never NULL. The bytes are the library's; nobody writes or frees them, and they
 * stay as long as it is loaded. A later version may word them otherwise.
 * In: refusal. It is written in C, and tested, not proved. The lists below are C too, over proved functions. [E20]
 */
const char *gv_refusal_text(uint64_t refusal);

/*
 * Is this a schedule of t, s?
 * gv_check_refusal answers GV_ACCEPTED, or the first of these that holds: GV_TOO_MANY_TASKS,
 * GV_MORE_DOWN_THAN_UP, GV_WRONG_LENGTH, GV_BAD_BEAT, GV_EMPTY_HAND, GV_WRONG_TAKE_UPS. A bad beat goes
 * before an empty hand even if it comes later in the schedule.
 * gv_check_place answers the beat at fault after GV_BAD_BEAT and GV_EMPTY_HAND, and else 0.
 * gv_check_surplus answers the ones minus t after GV_WRONG_TAKE_UPS, and else 0. It is positive where ones are
 * too many and negative where some are missing, never 0 after that refusal; at most s, at least half of s - t.
 * In: t, s, beats. Writes nothing. [R4] [R5] [R9] [Q5]
 */
uint64_t gv_check_refusal(uint64_t t, uint64_t s, const uint8_t *beats, size_t length);
uint64_t gv_check_place(uint64_t t, uint64_t s, const uint8_t *beats, size_t length);
int32_t gv_check_surplus(uint64_t t, uint64_t s, const uint8_t *beats, size_t length);

/*
 * How many forms have the counts t, s?
 * gv_count_refusal answers GV_ACCEPTED, or the first of these that holds: GV_TOO_MANY_TASKS,
 * GV_MORE_DOWN_THAN_UP.
 * gv_count_place answers 0: no beat is at fault.
 * gv_count answers how many, 1 to 55534064877048198, and 0 after a refusal.
 * In: t, s. [R3] [R10] [N1]
 */
uint64_t gv_count_refusal(uint64_t t, uint64_t s);
uint64_t gv_count_place(uint64_t t, uint64_t s);
uint64_t gv_count(uint64_t t, uint64_t s);

/*
 * Which number has this form?
 * gv_number_refusal, gv_number_place and gv_number_surplus answer what gv_check_refusal, gv_check_place and
 * gv_check_surplus answer.
 * gv_number answers the number, which is below gv_count(t, s), and 0 after a refusal. The form after t ones and
 * s zeros has number 0 too, so ask for the refusal where there may be one.
 * In: t, s, beats. Writes nothing. [M1] [M2] [M3] [D2e] [D2f] [Q5]
 */
uint64_t gv_number_refusal(uint64_t t, uint64_t s, const uint8_t *beats, size_t length);
uint64_t gv_number_place(uint64_t t, uint64_t s, const uint8_t *beats, size_t length);
int32_t gv_number_surplus(uint64_t t, uint64_t s, const uint8_t *beats, size_t length);
uint64_t gv_number(uint64_t t, uint64_t s, const uint8_t *beats, size_t length);

/*
 * Writes the form of a number.
 * Answers GV_ACCEPTED, or the first of these that holds: GV_TOO_MANY_TASKS, GV_MORE_DOWN_THAN_UP,
 * GV_NO_SUCH_NUMBER, GV_WRONG_LENGTH. Its place and its surplus are 0.
 * In: t, s, number. Out: the t + s bytes at `out`, which may hold anything before, hold the form; after a
 * refusal, what they held. [R14] [R16] [D2e] [D2f]
 */
uint64_t gv_form(uint64_t t, uint64_t s, uint64_t number, uint8_t *out, size_t length);

/*
 * Takes a form one step on.
 * gv_next answers what gv_check_refusal answers; the place of a refusal is gv_check_place's, and its surplus
 * gv_check_surplus's.
 * gv_next_changed answers how many beats gv_next would change, 0, 2 or 4, and 0 after a refusal. It writes
 * nothing.
 * In: t, s, beats. Out, gv_next alone: beats hold the next form; after a refusal, what they held.
 * [D2a] [D3d] [S5] [S7]
 */
uint64_t gv_next(uint64_t t, uint64_t s, uint8_t *beats, size_t length);
uint64_t gv_next_changed(uint64_t t, uint64_t s, const uint8_t *beats, size_t length);

/*
 * Why does gv_next move a beat?
 * A beat that moves goes to the second place, and those from there up to it go one place on. The found 1 is
 * the 1 of the leftmost 0 followed by 1.
 * gv_explain_case answers the first of these cases that holds, and 0 after a refusal:
 *   1: the counts have one form only, and no beat moves;
 *   2: no 0 is followed by 1, and the last beat moves;
 *   3: the beat after the found 1 moves, because it is there and moving it gives a schedule; if it is a 1,
 *      moving the found 1 would give the same form;
 *   4: the found 1 moves.
 * gv_explain_found answers the place of the found 1 in the cases 3 and 4, and gv_explain_moved the place of the
 * beat that moves in the cases 2 to 4.
 * gv_explain_changed_place answers one of the places whose beats gv_next would change, counted by `which` from
 * 0, the leftmost first. There are as many as gv_next_changed answers.
 * These three answer GV_NO_PLACE where there is no such place, and after a refusal. A refusal is
 * gv_check_refusal's, its place gv_check_place's, and its surplus gv_check_surplus's.
 * In: t, s, beats, which. Writes nothing. [X5]
 */
uint64_t gv_explain_case(uint64_t t, uint64_t s, const uint8_t *beats, size_t length);
uint64_t gv_explain_found(uint64_t t, uint64_t s, const uint8_t *beats, size_t length);
uint64_t gv_explain_moved(uint64_t t, uint64_t s, const uint8_t *beats, size_t length);
uint64_t gv_explain_changed_place(uint64_t t, uint64_t s, const uint8_t *beats, size_t length, uint64_t which);

/*
 * Takes a form one step back: to the one form of t, s whose next form it is.
 * gv_previous answers what gv_check_refusal answers; the place of a refusal is gv_check_place's, and its
 * surplus gv_check_surplus's.
 * gv_previous_changed answers how many beats gv_previous would change, 0, 2 or 4, and 0 after a refusal. It
 * writes nothing.
 * In: t, s, beats. Out, gv_previous alone: beats hold the previous form; after a refusal, what they held.
 * [V1] [V2] [V9] [V12]
 */
uint64_t gv_previous(uint64_t t, uint64_t s, uint8_t *beats, size_t length);
uint64_t gv_previous_changed(uint64_t t, uint64_t s, const uint8_t *beats, size_t length);

/*
 * Takes a form many steps on, round the circle again where there are more steps than forms.
 * gv_run answers what gv_check_refusal answers, and then GV_RUN_TOO_LONG; the place of a refusal is
 * gv_check_place's, and its surplus gv_check_surplus's, both 0 after GV_RUN_TOO_LONG.
 * gv_run_changed answers how many beats gv_run would change, added up over its steps, and 0 after a refusal.
 * It writes nothing.
 * In: t, s, beats, steps. Out, gv_run alone: beats hold the form that many steps on; after a refusal, what
 * they held. [D2g] [D3g] [R6] [S6]
 */
uint64_t gv_run(uint64_t t, uint64_t s, uint8_t *beats, size_t length, uint64_t steps);
uint64_t gv_run_changed(uint64_t t, uint64_t s, const uint8_t *beats, size_t length, uint64_t steps);

/*
 * Takes a form many steps back, round the circle again where there are more steps than forms. After gv_run of
 * as many steps it brings back what was lent, and changes as many beats.
 * gv_run_back answers what gv_check_refusal answers, and then GV_RUN_TOO_LONG; the place of a refusal is
 * gv_check_place's, and its surplus gv_check_surplus's, both 0 after GV_RUN_TOO_LONG.
 * gv_run_back_changed answers how many beats gv_run_back would change, added up over its steps, and 0 after a
 * refusal. It writes nothing.
 * In: t, s, beats, steps. Out, gv_run_back alone: beats hold the form that many steps back; after a refusal,
 * what they held. [R6] [V8] [V10] [V12]
 */
uint64_t gv_run_back(uint64_t t, uint64_t s, uint8_t *beats, size_t length, uint64_t steps);
uint64_t gv_run_back_changed(uint64_t t, uint64_t s, const uint8_t *beats, size_t length, uint64_t steps);

/*
 * Prints a closed schedule, one with t = s, as an outline.
 * A 1 opens a heading one level down, and a 0 goes back up. Each heading is a line of ASCII: its number and a
 * line feed. A number is that of the heading that it is under, a dot, and its place among those there, from 1 on;
 * a topmost one has the place alone. So 110100 is printed as the lines 1, 1.1 and 1.2, and the schedule without
 * beats as no line.
 * gv_outline_refusal answers what gv_check_refusal answers, then GV_NOT_CLOSED, then GV_NO_ROOM, where the text
 * is longer than the room. GV_LONGEST_OUTLINE bytes are enough for every outline.
 * gv_outline_place and gv_outline_surplus answer what gv_check_place and gv_check_surplus answer.
 * gv_outline answers how many bytes were written, and 0 after a refusal. The schedule without beats has 0 bytes
 * too, so ask for the refusal where there may be one.
 * In: t, s, beats. Out, gv_outline alone: the text begins with the outline, which no 0 ends, and what stands after
 * it is what stood there; after a refusal, all is what it was. The other three write nothing.
 * The functions inside call each other, one for a list of headings and one for a heading, at most 65 calls deep
 * for 32 headings inside each other. These four, and the two below that read, need up to 6 KB of stack. [H15]
 * [I1] [I4]
 */
uint64_t gv_outline_refusal(uint64_t t, uint64_t s, const uint8_t *beats, size_t length, const uint8_t *text,
                            size_t room);
uint64_t gv_outline_place(uint64_t t, uint64_t s, const uint8_t *beats, size_t length, const uint8_t *text,
                          size_t room);
int32_t gv_outline_surplus(uint64_t t, uint64_t s, const uint8_t *beats, size_t length, const uint8_t *text,
                           size_t room);
uint64_t gv_outline(uint64_t t, uint64_t s, const uint8_t *beats, size_t length, uint8_t *text, size_t room);

/*
 * Reads a text that is an outline of n lines back to its schedule of n, n: what gv_outline printed, and nothing
 * else.
 * gv_outline_read answers GV_ACCEPTED, or the first of these that holds: GV_TOO_MANY_TASKS, where n is above
 * GV_MAX_TASKS; GV_WRONG_LENGTH, where the slice at `out` is not n + n bytes long; GV_NO_SUCH_OUTLINE, where no
 * outline of n lines has this text.
 * gv_outline_read_place answers the line at fault after GV_NO_SUCH_OUTLINE, counted from 0, and else 0: the first
 * that is wrong, missing or one too many. So many whole lines before it, each with its line feed, are those that
 * some outline of n lines begins with. A last line without its line feed is such a line, and so is whatever comes
 * after n good lines. It writes nothing.
 * In: n, text. Out, gv_outline_read alone: the bytes at `out`, which may hold anything before, hold the schedule;
 * after a refusal, what they held. [I2]
 */
uint64_t gv_outline_read(uint64_t n, const uint8_t *text, size_t room, uint8_t *out, size_t length);
uint64_t gv_outline_read_place(uint64_t n, const uint8_t *text, size_t room, const uint8_t *out, size_t length);

/*
 * Lists the order records of one open descriptor to another, each by its lines: up to the end of the input, or
 * to a record that is refused with GV_CUT_SHORT. gv_packing_list writes the lines of the command packing_list;
 * gv_explain_list those of the command explain, which say why gv_next moves a beat of the form. gv_outline_list
 * writes those of the command outline_list: the lines of the form's outline, or one that it is refused, and an
 * empty line after each record.
 * Answers 0 when all was listed, a stop after such a record included; 1 when reading failed, after the lines
 * of all records that had come; 2 when writing failed, and what was written is the start of the list. A call
 * that was interrupted is made again. An input or output that is not ready (O_NONBLOCK) is a failure, and no
 * end.
 * After 1 and 2 errno says why. A write that takes no byte is a failure too, and sets no errno: a caller who
 * sets it to 0 before finds 0 then, or EINTR from a call that was made again.
 * In: from, a descriptor open for reading; to, one open for writing. Any other number is a failure like the
 * rest. Both stay open, and `from` may have been read past the record that stopped the list.
 * They are written in C. What they list of the bytes that came, proved functions of the library say; that they
 * read and write as said here is tested, not proved.
 * It waits as long as the system's read and write do, and needs up to 150 KB of stack. Signals are the
 * caller's affair: SIGPIPE (a reader left) and SIGXFSZ (a limit of size) end a process that does not ignore,
 * block or catch them. [E18] [X10] [I3]
 */
uint64_t gv_packing_list(int32_t from, int32_t to);
uint64_t gv_explain_list(int32_t from, int32_t to);
uint64_t gv_outline_list(int32_t from, int32_t to);

#ifdef __cplusplus
}
#endif

#endif

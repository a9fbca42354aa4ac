/*
 * varandeco.h: the cutting planner and checker as a static library, libvarandeco.a (`rt lib` in crates/varandeco).
 *
 * Four functions: plan a job or check a list of placements, each for numbers and for a text. Each is proved to give the answer that the rules
 * give, on every input, and to leave in every lent slice what is said below. They use no heap and no globals, call nothing but memcpy and
 * memset, and may run at the same time on slices of their own. What is proved ends at this header: that its declarations match the library
 * is only run (tests/c-example).
 *
 * STACK. Measured on x86-64, as an older kit built it: planning takes 7 KB, or 5 KB and 128 bytes for each piece of the plan where that is more; no plan has
 * more than 124 pieces (every part of its pieces is an outline too), so up to 21 KB. Checking a list of 600 placements takes up to 160 KB, and a plan text of
 * 600 up to 220 KB (two calls nested for each piece, the most that there can be). Lists of fewer pieces take less: 21 KB, or 80 KB for a text, and 230 bytes a
 * piece.
 *
 * TIME. Planning takes time that grows with the outlines, and most where a sheet is thin or square, the types are few and the demands high. Measured on x86-64,
 * as an older kit built it, with 65,535 records: 15 ms for a plain job of 36,595 outlines, and up to 0.75 s, fifty times that, on the slowest jobs that a
 * search found; with 2,000 records 0.5 ms and up to 22 ms. A watchdog has to allow for these and for the machine; they are found, and no bound. Checking 600
 * pieces takes up to some 10 ms.
 *
 * SLICES. A slice is a pointer and the number of its elements (not bytes). Its pointer may be NULL where its length is 0. Otherwise it points to that
 * many elements, aligned as their type asks; a slice that is not const overlaps no other slice of the call. A const slice is only read.
 * Every length has an answer, 0 too.
 *
 * A JOB AS NUMBERS is a slice of up to 52 numbers:  L W k n  and then  l w p b  of each type, type 1 first.
 *     L W    length and width of the sheet       1 to 5,000
 *     k      kerf, what the blade eats           0 to 20
 *     n      number of piece types               1 to 12
 *     l w    length and width of a piece         1 to 5,000 (a piece is never turned)
 *     p      profit of one piece                 1 to 25,000,000
 *     b      demand, the most pieces of a type   1 to 50
 * Numbers behind the n types are not read. A number that the slice is too short for counts as 0, so that a slice that lacks one is refused with
 * number 2 and the place of the first number that lacks (but for a kerf, which may be 0).
 *
 * A LIST OF PLACEMENTS is a slice of flat numbers, three to a placement:  type x y.  Types are numbered from 1; a piece at (x, y) takes up
 * l + k by w + k from there. A rest of one or two numbers counts for nothing. Positions are any numbers of 64 bits.
 *
 * TEXTS are sections in fixed order, each after its count; decimal numbers of 1 to 8 digits with one space between; each line ends in LF.
 * A job text has the sheets (a count, which must be 1, then the line  L W k ) and the pieces (a count, then lines  l w p b ). A plan text has a third
 * section, placements (a count of at most 600, then lines  type x y ). A text may be of any length.
 *
 * THE ARENA is lent to the planner as bytes: 32 bytes a record, one record for each of the job's N outlines, at most 65,535 records used.
 * What it holds on entry counts for nothing.
 *
 * THE PLAN BUFFER is lent to the planner as numbers: room for 3 a placement. 1,800 numbers (600 placements) always suffice.
 *
 * THE ANSWER is lent as numbers, those that the programs "plan" and "check" print:
 *     planning (7):  number place profit length width pieces N
 *     checking (4):  number place profit pieces
 * A longer slice keeps its other numbers; a shorter one gets as many as it has room for. The first, the refusal's number, is also returned.
 * With another number than 0 all but number and place are 0.
 *
 *  number | what it says                                          | place                                     | arena
 *  -------+-------------------------------------------------------+-------------------------------------------+----------
 *     0   | done: the best plan; or accepted                      | 0                                         | zeros
 *     1   | the text is not in the grammar                        | bytes up to where it leaves the grammar   | untouched
 *     2   | a number of the job is out of its range               | its item, see below                       | untouched
 *     3   | planning: no piece type fits the sheet                | 0                                         | untouched
 *     4   | planning: the job has more outlines than the arena    | 0                                         | zeros
 *         | has records; lend a larger one                        |                                           |
 *     5   | planning: the best plan has more pieces than the plan | 0                                         | zeros
 *         | buffer has room for                                   |                                           |
 *     6   | checking: a type that is not in 1 to n                | its place in the list, from 0             |
 *     7   | checking: a piece that is not wholly in the sheet     | its place                                 |
 *     8   | checking: a piece more than its type's demand         | its place                                 |
 *     9   | checking: a piece that overlaps an earlier one        | its place                                 |
 *    10   | checking: no sequence of through cuts parts the pieces| 0                                         |
 *  (Number 11, an input that is too long, is given by the programs alone.)
 *
 * Refusals are tried in the order 1 2 3 4 5 or 1 2 6 7 8 9 10, each over the whole list before the next; the first offending place is given. The items of
 * number 2 are counted from 0 as in a text: 0 the sheet count (1 for a job as numbers), 1 L, 2 W, 3 k, 4 n, 5 l of type 1, 6 w, 7 p, 8 b, 9 l of type 2, and
 * so on; in a plan text the placement count follows. "Zeros": every byte of the arena is 0. Every refusal leaves the plan buffer untouched.
 *
 * On number 0 the plan buffer holds the plan: 3 * pieces numbers, placements in order of y, then x, with the plan's corner at (0, 0). The rest of it is
 * untouched. The plan is one that the checker accepts; no list that it accepts for the job earns more.
 */
#ifndef VARANDECO_H
#define VARANDECO_H

#include <stddef.h>
#include <stdint.h>

#ifdef __cplusplus
extern "C" {
#endif

enum {
    VARANDECO_TYPES_MOST = 12,
    VARANDECO_PIECES_MOST = 600,
    VARANDECO_RECORD_BYTES = 32,
    VARANDECO_RECORDS_MOST = 65535,
    VARANDECO_PLACEMENT_NUMBERS = 3,
    /* the numbers of a job of 12 types, of the longest plan, and of an answer */
    VARANDECO_JOB_NUMBERS = 52,
    VARANDECO_PLAN_NUMBERS = 1800,
    VARANDECO_PLAN_ANSWER = 7,
    VARANDECO_CHECK_ANSWER = 4
};

/* The refusal table's numbers. */
enum {
    VARANDECO_DONE = 0,
    VARANDECO_NOT_IN_GRAMMAR = 1,
    VARANDECO_OUT_OF_RANGE = 2,
    VARANDECO_NOTHING_FITS = 3,
    VARANDECO_ARENA_FULL = 4,
    VARANDECO_BUFFER_SHORT = 5,
    VARANDECO_NOT_A_TYPE = 6,
    VARANDECO_OFF_SHEET = 7,
    VARANDECO_ABOVE_DEMAND = 8,
    VARANDECO_OVERLAPS = 9,
    VARANDECO_NOT_PARTED = 10
};

/* The places of an answer's numbers. */
enum {
    VARANDECO_NUMBER = 0,
    VARANDECO_PLACE = 1,
    VARANDECO_PROFIT = 2,
    VARANDECO_PLAN_LENGTH = 3,
    VARANDECO_PLAN_WIDTH = 4,
    VARANDECO_PLAN_PIECES = 5,
    VARANDECO_PLAN_OUTLINES = 6,
    VARANDECO_CHECK_PIECES = 3
};

/* Plans a job handed over as numbers. */
uint64_t varandeco_plan_numbers(const uint64_t *job, size_t job_length,
                                uint8_t *arena, size_t arena_length,
                                uint64_t *plan, size_t plan_length,
                                uint64_t *answer, size_t answer_length);

/* Plans a job text. */
uint64_t varandeco_plan_text(const uint8_t *text, size_t text_length,
                             uint8_t *arena, size_t arena_length,
                             uint64_t *plan, size_t plan_length,
                             uint64_t *answer, size_t answer_length);

/* Checks a list of placements for a job handed over as numbers. */
uint64_t varandeco_check_numbers(const uint64_t *job, size_t job_length,
                                 const uint64_t *list, size_t list_length,
                                 uint64_t *answer, size_t answer_length);

/* Checks a plan text: a job and its placements. */
uint64_t varandeco_check_text(const uint8_t *text, size_t text_length,
                              uint64_t *answer, size_t answer_length);

#ifdef __cplusplus
}
#endif

#endif

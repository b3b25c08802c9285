/*
 * The entries of the library for C, and for every language that calls C.
 *
 * Link libexports.a, which `rt lib` in crates/exports makes in crates/exports/out/.
 *
 * Every function takes any bytes, of any length and content: no input makes it
 * trap or run for ever. It returns a number: 0, or that of the first question that
 * is answered by no, in the order in which they are put (docs/FORMAT.md has them in
 * full). A question's number is not its position: 17 is put between 5 and 6.
 *
 *    1 to 8   the session
 *   17        a pair of its levels has no greatest lower bound; put after 5
 *    9        the clearance is no present level
 *   10        the work slice has fewer than 8,192 numbers
 *   11        the result buffer has fewer than 5,136 bytes
 *   12 to 14  a step of the timetable
 *   15        at the timetable's end a manager has not ended
 *   16        the page buffer has fewer than 7,420 bytes; put after 11
 *
 * A slice is a pointer and the number of its elements. The pointer is to so many
 * elements, and aligned for their type. Where the number is 0 it may be NULL, or
 * to no memory: nothing is read or written by way of it. No two slices of one
 * call overlap.
 *
 * After a run the slices hold this:
 *
 *   number    work                            result
 *   0         its first 8,192 numbers are 0   the records, `count` bytes at its start
 *   1 to 11   as it was                       as it was
 *   17        as it was                       as it was
 *   12 to 15  its first 8,192 numbers are 0   as it was
 *   16        none is lent                    as it was
 *
 * Nothing beyond is written to. What `work` held before makes no difference.
 * `page` holds after 0 the page, `page_count` bytes at its start, and after any
 * other number what it held; nothing beyond the page is written to.
 *
 * `place_and_count` gets two numbers: the place, which is the position in the
 * timetable of the step that 12, 13 or 14 refuses and else 0, and the count of
 * result bytes. Where it has room for fewer than two it is left as it was.
 * `place_and_counts` gets three: these two, and the count of page bytes. Where it
 * has room for fewer than three it is left as it was.
 *
 * Nothing is kept between calls, and no memory is allocated. Calls may be made at
 * the same time where none of them writes to a slice of another.
 *
 * Stack: lupinpause_check takes less than 1 KB, lupinpause_run_timetable and
 * lupinpause_run_plain some 36 KB, lupinpause_run_depth_first and
 * lupinpause_run_page some 25 KB. In a first call the loader may take
 * more, to find memcpy and memset: 3 KB where it was measured. All this is measured
 * of the compiled library, on the sessions that take most, and is not proved. With
 * LUPINPAUSE_STACK bytes left every call can be made.
 */
#ifndef LUPINPAUSE_H
#define LUPINPAUSE_H

#include <stddef.h>
#include <stdint.h>

/* What a run asks for: numbers of `work`, bytes of `result`, bytes of `page`,
 * numbers of `place_and_count`, numbers of `place_and_counts`. */
#define LUPINPAUSE_WORK 8192
#define LUPINPAUSE_RESULT 5136
#define LUPINPAUSE_PAGE 7420
#define LUPINPAUSE_PLACE_AND_COUNT 2
#define LUPINPAUSE_PLACE_AND_COUNTS 3

/* Bytes of stack that no call uses up, a first one included. */
#define LUPINPAUSE_STACK 49152

#ifdef __cplusplus
extern "C" {
#endif

/* Questions 1 to 8 and 17 of a session. */
uint32_t lupinpause_check(const uint8_t *session, size_t session_length);

/* The timetabled run: one scheduler step for each byte of the timetable. It
 * writes the records that a reader cleared to level `clearance` is shown. */
uint32_t lupinpause_run_timetable(
    const uint8_t *session, size_t session_length,
    const uint8_t *timetable, size_t timetable_length,
    size_t clearance,
    uint32_t *work, size_t work_length,
    uint8_t *result, size_t result_length,
    uint32_t *place_and_count, size_t place_and_count_length);

/* The plain run: each scheduler step by the lowest-numbered level that may step.
 * Never refused by 12 to 15. */
uint32_t lupinpause_run_plain(
    const uint8_t *session, size_t session_length,
    size_t clearance,
    uint32_t *work, size_t work_length,
    uint8_t *result, size_t result_length,
    uint32_t *place_and_count, size_t place_and_count_length);

/* The depth-first run: a fork runs whole before its sender continues. It asks
 * for no work slice, so it is never refused by 10, nor by 12 to 15. */
uint32_t lupinpause_run_depth_first(
    const uint8_t *session, size_t session_length,
    size_t clearance,
    uint8_t *result, size_t result_length,
    uint32_t *place_and_count, size_t place_and_count_length);

/* The depth-first run, which also writes a page: a line of 27 columns and a line
 * feed for each history record of the result, in their order, one with the sum of
 * their script steps, and below it one with the mean for each level that they are
 * of, by its number (docs/FORMAT.md). Put after the questions of the depth-first
 * run, 16 asks for the page buffer. */
uint32_t lupinpause_run_page(
    const uint8_t *session, size_t session_length,
    size_t clearance,
    uint8_t *result, size_t result_length,
    uint8_t *page, size_t page_length,
    uint32_t *place_and_counts, size_t place_and_counts_length);

#ifdef __cplusplus
}
#endif

#endif

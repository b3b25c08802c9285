/* Calls the library from C by way of its header: session W of document 01, by
 * all runs and the check, with a page; a session that makes and withdraws objects;
 * refusals; empty slices that are NULL; and how much stack the calls take. */

#define _XOPEN_SOURCE 700

#include "../../include/lupinpause.h"

#include <stdio.h>
#include <string.h>
#include <ucontext.h>

/* Room for any session: 297 records of 16 bytes. */
static uint8_t session[297 * 16];
static size_t length;

static uint32_t work[LUPINPAUSE_WORK];
static uint8_t result[LUPINPAUSE_RESULT];
static uint8_t page[LUPINPAUSE_PAGE];
/* One more than asked for, to see that it stays; the page's count is the third. */
static uint32_t place_and_count[LUPINPAUSE_PLACE_AND_COUNTS + 1];

static const uint8_t six_and_six[] = {0, 0, 0, 0, 0, 0, 1, 1, 1, 1, 1, 1};

/* Slices as two arguments. */
#define SESSION session, length
#define TIMETABLE six_and_six, sizeof six_and_six
#define WORK work, LUPINPAUSE_WORK
#define RESULT result, LUPINPAUSE_RESULT
#define PAGE page, LUPINPAUSE_PAGE
#define ANSWER place_and_count, LUPINPAUSE_PLACE_AND_COUNT
#define PAGE_ANSWER place_and_count, LUPINPAUSE_PLACE_AND_COUNTS
#define NONE NULL, 0

/* What a reader cleared to level 0 is shown. */
static const uint8_t shown[] = {
    0x05, 0x00, 0x00, 0x01, 0x09, 0, 0, 0, 0, 0, 0, 0, 0, 0, 0, 0,
    0x06, 0x00, 0x00, 0x01, 0x00, 0, 0, 0, 1, 0, 2, 0, 5, 0, 0, 0,
    0x07, 0x00, 0x00, 0x01, 0x09, 0, 0, 0, 0, 0, 0, 0, 0, 0, 0, 0,
};

static const char printed[] =
    "00000000 0 0  1   1   2   5\n"
    "TOTAL                     5\n"
    "LEVEL 0           5       0\n";

static const uint32_t untouched = 0xa5a5a5a5;

static int failures;

static void expect(const char *what, uint32_t number, uint32_t wanted)
{
    if (number != wanted) {
        fprintf(stderr, "%s: %u, not %u\n", what, (unsigned)number, (unsigned)wanted);
        failures++;
    }
}

/* A run's number, place and counts; the next run finds none of them. */
static void expect_answer(const char *what, uint32_t number, uint32_t wanted,
    uint32_t place, uint32_t written, uint32_t page_written)
{
    expect(what, number, wanted);
    expect(what, place_and_count[0], place);
    expect(what, place_and_count[1], written);
    expect(what, place_and_count[2], page_written);
    expect(what, place_and_count[3], untouched);
    memset(place_and_count, 0xa5, sizeof place_and_count);
}

/* Of a run without a page. */
static void expect_run(const char *what, uint32_t number, uint32_t wanted,
    uint32_t place, uint32_t written)
{
    expect_answer(what, number, wanted, place, written, untouched);
}

/* All bytes from a place on are as they were before the call. */
static void expect_kept(const char *what, const uint8_t *bytes, size_t from, size_t size)
{
    for (size_t i = from; i < size; i++) {
        if (bytes[i] != 0xa5) {
            fprintf(stderr, "%s: byte %u changed\n", what, (unsigned)i);
            failures++;
            return;
        }
    }
}

static void expect_records(const char *what, uint32_t number)
{
    expect_run(what, number, 0, 0, sizeof shown);
    if (memcmp(result, shown, sizeof shown) != 0) {
        fprintf(stderr, "%s: other records\n", what);
        failures++;
    }
    memset(result, 0xa5, sizeof result);
}

/* The result records and the page, and nothing beyond either. */
static void expect_page(const char *what, uint32_t number)
{
    const size_t length = sizeof printed - 1;
    expect_answer(what, number, 0, 0, sizeof shown, (uint32_t)length);
    if (memcmp(result, shown, sizeof shown) != 0 || memcmp(page, printed, length) != 0) {
        fprintf(stderr, "%s: other records or another page\n", what);
        failures++;
    }
    expect_kept(what, result, sizeof shown, sizeof result);
    expect_kept(what, page, length, sizeof page);
    memset(result, 0xa5, sizeof result);
    memset(page, 0xa5, sizeof page);
}

/* Both buffers are as they were. */
static void expect_no_page(const char *what, uint32_t number, uint32_t wanted)
{
    expect_answer(what, number, wanted, 0, 0, 0);
    expect_kept(what, result, 0, sizeof result);
    expect_kept(what, page, 0, sizeof page);
}

/* Each slice in turn is NULL with length 0 too. */
static void expect_pages(void)
{
    memset(result, 0xa5, sizeof result);
    memset(page, 0xa5, sizeof page);
    expect_page("page", lupinpause_run_page(SESSION, 0, RESULT, PAGE, PAGE_ANSWER));
    expect_no_page("page too short", lupinpause_run_page(SESSION, 0, RESULT,
        page, LUPINPAUSE_PAGE - 1, PAGE_ANSWER), 16);
    expect_no_page("both too short", lupinpause_run_page(SESSION, 0,
        result, LUPINPAUSE_RESULT - 1, page, LUPINPAUSE_PAGE - 1, PAGE_ANSWER), 11);
    expect_no_page("page, no such clearance", lupinpause_run_page(SESSION, 2, RESULT,
        PAGE, PAGE_ANSWER), 9);
    expect_no_page("page, no session", lupinpause_run_page(NONE, 0, RESULT,
        PAGE, PAGE_ANSWER), 1);
    expect_no_page("page, no result", lupinpause_run_page(SESSION, 0, NONE,
        PAGE, PAGE_ANSWER), 11);
    expect_no_page("no page", lupinpause_run_page(SESSION, 0, RESULT,
        NONE, PAGE_ANSWER), 16);
    expect_answer("page, room for two numbers", lupinpause_run_page(SESSION, 0, RESULT,
        PAGE, ANSWER), 0, untouched, untouched, untouched);
    expect("page, no answer", lupinpause_run_page(SESSION, 0, RESULT, PAGE, NONE), 0);
}

static void expect_refusals(void)
{
    expect_run("a first step by level 1", lupinpause_run_timetable(SESSION,
        six_and_six + 6, 6, 0, WORK, RESULT, ANSWER), 13, 0, 0);
    expect_run("a second step by level 1", lupinpause_run_timetable(SESSION,
        six_and_six + 5, 3, 0, WORK, RESULT, ANSWER), 13, 1, 0);
    expect_run("six steps", lupinpause_run_timetable(SESSION,
        six_and_six, 6, 0, WORK, RESULT, ANSWER), 15, 0, 0);
    expect_run("work too short", lupinpause_run_plain(SESSION, 0,
        work, LUPINPAUSE_WORK - 1, RESULT, ANSWER), 10, 0, 0);
    expect_run("result too short", lupinpause_run_depth_first(SESSION, 0,
        result, LUPINPAUSE_RESULT - 1, ANSWER), 11, 0, 0);
    expect_run("no such clearance", lupinpause_run_depth_first(SESSION, SIZE_MAX,
        RESULT, ANSWER), 9, 0, 0);
    expect_run("room for one number", lupinpause_run_depth_first(SESSION, 2, RESULT,
        place_and_count, LUPINPAUSE_PLACE_AND_COUNT - 1), 9, untouched, untouched);
}

/* Each slice of each entry in turn is NULL with length 0. */
static void expect_empty(void)
{
    expect("check, no session", lupinpause_check(NONE), 1);
    expect_run("timetabled, no session", lupinpause_run_timetable(NONE, TIMETABLE, 0,
        WORK, RESULT, ANSWER), 1, 0, 0);
    expect_run("plain, no session", lupinpause_run_plain(NONE, 0,
        WORK, RESULT, ANSWER), 1, 0, 0);
    expect_run("depth-first, no session", lupinpause_run_depth_first(NONE, 0,
        RESULT, ANSWER), 1, 0, 0);
    expect_run("timetabled, no timetable", lupinpause_run_timetable(SESSION, NONE, 0,
        WORK, RESULT, ANSWER), 15, 0, 0);
    expect_run("timetabled, no work", lupinpause_run_timetable(SESSION, TIMETABLE, 0,
        NONE, RESULT, ANSWER), 10, 0, 0);
    expect_run("plain, no work", lupinpause_run_plain(SESSION, 0,
        NONE, RESULT, ANSWER), 10, 0, 0);
    expect_run("timetabled, no result", lupinpause_run_timetable(SESSION, TIMETABLE, 0,
        WORK, NONE, ANSWER), 11, 0, 0);
    expect_run("plain, no result", lupinpause_run_plain(SESSION, 0,
        WORK, NONE, ANSWER), 11, 0, 0);
    expect_run("depth-first, no result", lupinpause_run_depth_first(SESSION, 0,
        NONE, ANSWER), 11, 0, 0);
    expect("timetabled, no answer", lupinpause_run_timetable(SESSION, TIMETABLE, 0,
        WORK, RESULT, NONE), 0);
    expect("plain, no answer", lupinpause_run_plain(SESSION, 0, WORK, RESULT, NONE), 0);
    expect("depth-first, no answer", lupinpause_run_depth_first(SESSION, 0,
        RESULT, NONE), 0);
}

static void put_record(int kind, int b1, int b2, int b3, int b6)
{
    const uint8_t record[16] = {(uint8_t)kind, (uint8_t)b1, (uint8_t)b2, (uint8_t)b3,
        0, 0, (uint8_t)b6, 0, 0, 0, 0, 0, 0, 0, 0, 0};
    memcpy(session + length, record, sizeof record);
    length += sizeof record;
}

/* Eight levels, each over the one before, with an object each. Every object makes
 * another and sends to the one above it, and the last to the first: the depth-first
 * run is as deep as it can be. */
static void put_chain(void)
{
    length = 0;
    for (int i = 0; i < 8; i++)
        put_record(1, i, (2 << i) - 1, 0, 0);
    for (int i = 0; i < 8; i++)
        put_record(2, i, i, 0, 0);
    for (int i = 0; i < 8; i++) {
        put_record(3, i, 0, 8, 0);
        put_record(3, i, 0, 6, (i + 1) % 8);
    }
    put_record(4, 0, 0, 0, 0);
}

/* Level 7 over 1 to 6, each of them over 0, with an object each. A manager at
 * level 1 runs object 0, which sends to objects 2 to 6: in these script steps a
 * least upper bound is searched for. */
static void put_fan(void)
{
    length = 0;
    put_record(1, 0, 1, 0, 0);
    for (int i = 1; i < 7; i++)
        put_record(1, i, 1 | 1 << i, 0, 0);
    put_record(1, 7, 0xff, 0, 0);
    for (int i = 0; i < 8; i++)
        put_record(2, i, i, 0, 0);
    for (int i = 2; i < 7; i++)
        put_record(3, 0, 0, 6, i);
    put_record(3, 1, 0, 6, 0);
    put_record(4, 1, 0, 0, 0);
}

/* Masks 01, 02, 07: levels 0 and 1 have no greatest lower bound. Every entry says so
 * and leaves the buffers as they were. */
static void expect_no_lower_bound(void)
{
    static const uint8_t masks[] = {0x01, 0x02, 0x07};
    length = 0;
    for (int i = 0; i < 3; i++)
        put_record(1, i, masks[i], 0, 0);
    put_record(2, 0, 0, 0, 0);
    put_record(4, 0, 0, 0, 0);
    memset(work, 0xa5, sizeof work);
    memset(result, 0xa5, sizeof result);
    memset(page, 0xa5, sizeof page);
    expect("check, no lower bound", lupinpause_check(SESSION), 17);
    expect_run("timetabled, no lower bound", lupinpause_run_timetable(SESSION, TIMETABLE, 0,
        WORK, RESULT, ANSWER), 17, 0, 0);
    expect_run("plain, no lower bound", lupinpause_run_plain(SESSION, 0,
        WORK, RESULT, ANSWER), 17, 0, 0);
    expect_run("depth-first, no lower bound", lupinpause_run_depth_first(SESSION, 0,
        RESULT, ANSWER), 17, 0, 0);
    expect_no_page("page, no lower bound", lupinpause_run_page(SESSION, 0, RESULT,
        PAGE, PAGE_ANSWER), 17);
    expect_kept("work, no lower bound", (const uint8_t *)work, 0, sizeof work);
}

/* One level. Object 0 makes object 32 and withdraws itself: 5 writes, 2 steps. */
static void expect_made(void)
{
    static const uint8_t made[] = {
        0x05, 0x20, 0x00, 0x00, 0x00, 0, 0, 0, 0, 0, 0, 0, 0, 0, 0, 0,
        0x06, 0x00, 0x00, 0x05, 0x00, 0, 0, 0, 1, 0, 1, 0, 2, 0, 0, 0,
        0x07, 0x00, 0x00, 0x00, 0x00, 0, 0, 0, 0, 0, 0, 0, 0, 0, 0, 0,
    };
    length = 0;
    put_record(1, 0, 1, 0, 0);
    put_record(2, 0, 0, 0, 0);
    put_record(3, 0, 0, 8, 0);
    put_record(3, 0, 0, 9, 0);
    put_record(4, 0, 0, 0, 0);
    memset(result, 0xa5, sizeof result);
    expect("result bytes asked for", LUPINPAUSE_RESULT, 5136);
    expect("check, made object", lupinpause_check(SESSION), 0);
    expect_run("made object", lupinpause_run_plain(SESSION, 0, WORK, RESULT, ANSWER),
        0, 0, sizeof made);
    if (memcmp(result, made, sizeof made) != 0) {
        fprintf(stderr, "made object: other records\n");
        failures++;
    }
}

static uint32_t number;

static void check(void)
{
    number = lupinpause_check(SESSION);
}

static void run_timetable(void)
{
    /* The root's level is 1 or 0; 15 while the forks wait. */
    static const uint8_t ones[] = {1, 1, 1, 1, 1, 1, 1};
    static const uint8_t zeros[] = {0, 0, 0};
    number = session[length - 15] == 1
        ? lupinpause_run_timetable(SESSION, ones, sizeof ones, 7, WORK, RESULT, ANSWER)
        : lupinpause_run_timetable(SESSION, zeros, sizeof zeros, 7, WORK, RESULT, ANSWER);
}

static void run_plain(void)
{
    number = lupinpause_run_plain(SESSION, 7, WORK, RESULT, ANSWER);
}

static void run_depth_first(void)
{
    number = lupinpause_run_depth_first(SESSION, 7, RESULT, ANSWER);
}

static void run_page(void)
{
    number = lupinpause_run_page(SESSION, 7, RESULT, PAGE, PAGE_ANSWER);
}

static uint8_t stack[4 * LUPINPAUSE_STACK];

/* Makes a call on a stack of its own, and sees up to where that was written to. */
static void expect_stack(const char *what, void (*call)(void), uint32_t wanted)
{
    static ucontext_t here, there;
    memset(stack, 0xa5, sizeof stack);
    getcontext(&there);
    there.uc_stack.ss_sp = stack;
    there.uc_stack.ss_size = sizeof stack;
    there.uc_link = &here;
    makecontext(&there, call, 0);
    swapcontext(&here, &there);
    expect(what, number, wanted);
    size_t left = 0;
    while (left < sizeof stack && stack[left] == 0xa5)
        left++;
    if (sizeof stack - left > LUPINPAUSE_STACK) {
        fprintf(stderr, "%s: %u bytes of stack\n", what, (unsigned)(sizeof stack - left));
        failures++;
    }
}

static void expect_stacks(const char *what)
{
    expect_stack(what, check, 0);
    expect_stack(what, run_timetable, 15);
    expect_stack(what, run_plain, 0);
    expect_stack(what, run_depth_first, 0);
    expect_stack(what, run_page, 0);
}

int main(int count, char **arguments)
{
    /* First, so that the loader's part in a first call is seen. */
    put_chain();
    expect_stacks("eight levels");
    put_fan();
    expect_stacks("bounds searched for");

    FILE *file = count == 2 ? fopen(arguments[1], "rb") : NULL;
    if (file == NULL) {
        fprintf(stderr, "the argument is session W\n");
        return 2;
    }
    length = fread(session, 1, sizeof session, file);
    fclose(file);
    memset(place_and_count, 0xa5, sizeof place_and_count);

    expect("check", lupinpause_check(SESSION), 0);
    expect("check cut short", lupinpause_check(session, length - 1), 1);
    expect_records("plain", lupinpause_run_plain(SESSION, 0, WORK, RESULT, ANSWER));
    expect_records("timetabled", lupinpause_run_timetable(SESSION, TIMETABLE, 0,
        WORK, RESULT, ANSWER));
    expect_records("depth-first", lupinpause_run_depth_first(SESSION, 0, RESULT, ANSWER));
    expect_refusals();
    expect_empty();
    expect_pages();
    expect_no_lower_bound();
    expect_made();
    return failures != 0;
}

/*
 * The stack that each call of strip.h takes: the most of many calls, on strips, jobs, texts, stored numbers and tracks of all sizes,
 * accepted and refused, from a fixed generator. Exit status 1 if it is more than strip.h names.
 *
 * A call runs on a stack of its own that was painted before. Counted are the bytes below the call's return address down to the
 * lowest one that lost its paint: the frame of the call and of all that it calls, memset included. The return address and the
 * arguments that the caller puts above it are not counted. What lies above is found by the same call site with an empty function,
 * which is compiled so that it takes no stack.
 */
#define _XOPEN_SOURCE 700
#include "strip.h"

#include <stdio.h>
#include <string.h>
#include <ucontext.h>

#define CALLS 2000
/* One mark more than a call takes, and one more in a list of unequal length. */
#define MARKS_MOST 4002
/* As many bytes as a text of 240 dots can have, and one more. */
#define TEXT_MOST (STRIP_LENGTH_MOST / STRIP_LETTER_LEAST + 1)

/* ---- a painted stack */

static unsigned char stack[16384];
static void (*site)(void);

/* Keeps the call away from the top, where the stack's first frames are set up and left. */
static void enter(void)
{
    volatile unsigned char between[1024];
    between[0] = 0;
    site();
    between[1] = between[0];
}

/* How many bytes at the top lost their paint. */
static size_t touched_in(int paint)
{
    static ucontext_t here, there;
    size_t left = 0;

    memset(stack, paint, sizeof stack);
    getcontext(&there);
    there.uc_stack.ss_sp = stack;
    there.uc_stack.ss_size = sizeof stack;
    there.uc_link = &here;
    makecontext(&there, enter, 0);
    swapcontext(&here, &there);
    while (stack[left] == paint)
        left++;
    return sizeof stack - left;
}

/* The same with two paints, since a call may write a byte of one. */
static size_t touched(void)
{
    size_t one = touched_in(0xA5);
    size_t other = touched_in(0x5A);
    return one < other ? other : one;
}

/* ---- what a call is lent, and what it gives */

static int16_t places[MARKS_MOST];
static uint8_t lengths[MARKS_MOST];
static uint16_t weights[MARKS_MOST];
static size_t marks, lengths_len;
static uint8_t gap;

static uint8_t job[STRIP_JOB_MOST];
static size_t job_len;

static uint8_t texts[MARKS_MOST * TEXT_MOST];
static uint16_t counts[MARKS_MOST];
static size_t texts_len;

static float value;

static int16_t ys[MARKS_MOST];
static size_t ys_len;
static uint8_t side;

static uint8_t bytes[STRIP_JOB_MOST];
static int16_t edges[MARKS_MOST];
static uint16_t words[MARKS_MOST];
static size_t answer_len;

static int16_t work_full[STRIP_WORK_FULL];
static uint16_t work_slide[STRIP_WORK_SLIDE];
static uint32_t work_best[STRIP_WORK_BEST];
static size_t missing;

static uint8_t number, length, width;
static int16_t place;
static uint32_t sum;
static size_t count;

/* ---- the call sites: each calls the call or the empty function */

static uint8_t empty()
{
    return 0;
}

static __typeof__(strip_full) *volatile full;
static __typeof__(strip_largest) *volatile largest;
static __typeof__(strip_slide) *volatile slide;
static __typeof__(strip_best) *volatile best;
static __typeof__(strip_read) *volatile read_job;
static __typeof__(strip_write) *volatile write_job;
static __typeof__(strip_measure) *volatile measure_text;
static __typeof__(strip_beginning) *volatile begin_text;
static __typeof__(strip_lengths) *volatile measure_texts;
static __typeof__(strip_place_of_dots) *volatile place_dots;
static __typeof__(strip_place_of_millimetres) *volatile place_millimetres;
static __typeof__(strip_slope) *volatile slope;

/* The empty function looks at no argument, so it may stand for every call. */
#define EMPTY_FOR(call) ((__typeof__(call) *)empty)

static void call_the_calls(int calls)
{
    full = calls ? strip_full : EMPTY_FOR(strip_full);
    largest = calls ? strip_largest : EMPTY_FOR(strip_largest);
    slide = calls ? strip_slide : EMPTY_FOR(strip_slide);
    best = calls ? strip_best : EMPTY_FOR(strip_best);
    read_job = calls ? strip_read : EMPTY_FOR(strip_read);
    write_job = calls ? strip_write : EMPTY_FOR(strip_write);
    measure_text = calls ? strip_measure : EMPTY_FOR(strip_measure);
    begin_text = calls ? strip_beginning : EMPTY_FOR(strip_beginning);
    measure_texts = calls ? strip_lengths : EMPTY_FOR(strip_lengths);
    place_dots = calls ? strip_place_of_dots : EMPTY_FOR(strip_place_of_dots);
    place_millimetres = calls ? strip_place_of_millimetres : EMPTY_FOR(strip_place_of_millimetres);
    slope = calls ? strip_slope : EMPTY_FOR(strip_slope);
}

static void at_full(void)
{
    number = full(places, marks, lengths, lengths_len, weights, marks, gap, bytes, answer_len, work_full,
                  STRIP_WORK_FULL - missing);
}

static void at_largest(void)
{
    number = largest(places, marks, lengths, lengths_len, weights, marks, gap, bytes, answer_len, work_full,
                     STRIP_WORK_LARGEST - missing, &width);
}

static void at_slide(void)
{
    number = slide(places, marks, lengths, lengths_len, weights, marks, gap, bytes, answer_len, edges, answer_len, work_slide,
                   STRIP_WORK_SLIDE - missing);
}

static void at_best(void)
{
    number = best(places, marks, lengths, lengths_len, weights, marks, gap, bytes, answer_len, words, answer_len, work_best,
                  STRIP_WORK_BEST - missing, &sum, &count);
}

static void at_read(void)
{
    number = read_job(job, job_len, edges, answer_len, bytes, answer_len, words, answer_len, &count);
}

static void at_write(void)
{
    number = write_job(places, marks, lengths, lengths_len, weights, marks, bytes, sizeof bytes - missing, &count);
}

/* A text has a byte for each mark. */
static void at_measure(void)
{
    number = measure_text(texts, marks, &length);
}

static void at_beginning(void)
{
    number = begin_text(texts, marks, &count);
}

static void at_lengths(void)
{
    number = measure_texts(texts, texts_len, counts, marks, bytes, answer_len);
}

static void at_dots(void)
{
    number = place_dots(value, &place);
}

static void at_millimetres(void)
{
    number = place_millimetres(value, &place);
}

/* The x of a track are places. */
static void at_slope(void)
{
    number = slope(places, marks, ys, ys_len, side, bytes, answer_len);
}

/* ---- strips, jobs, texts, stored numbers and tracks */

static uint64_t state;

/* A number from 0 to n - 1 (xorshift64*). */
static uint32_t below(size_t n)
{
    state ^= state >> 12;
    state ^= state << 25;
    state ^= state >> 27;
    return (uint32_t)((state * 0x2545F4914F6CDD1DULL >> 32) * n >> 32);
}

/* Up to so many marks, often as many or one more; steps and lengths up to limits with which some strips fit and some do not. */
static void draw_marks(size_t most)
{
    static const uint32_t widest[] = {1, 3, 9, 14, 90};
    static const uint32_t longest[] = {2, 6, 20, 240};
    uint32_t step = widest[below(5)];
    uint32_t length = longest[below(4)];
    int place = STRIP_PLACE_LEAST;
    size_t i;

    marks = below(3) == 0 ? most + below(2) : below(most);
    if (marks * step > 60000)
        step = 60000 / (uint32_t)marks;
    for (i = 0; i < marks; i++) {
        places[i] = (int16_t)place;
        lengths[i] = (uint8_t)(1 + below(length));
        weights[i] = (uint16_t)(1 + below(1000));
        place += 1 + (int)below(step);
    }
    gap = (uint8_t)(below(2) * below(STRIP_GAP_MOST + 1));
}

/* In half of the cases one thing that a call refuses. */
static void draw_fault(void)
{
    size_t at = below(marks);

    lengths_len = answer_len = marks;
    missing = 0;
    switch (below(14)) {
    case 0:
        lengths_len = marks + 1;
        break;
    case 1:
        lengths[at] = 0;
        break;
    case 2:
        weights[at] = 1001;
        break;
    case 3:
        places[at] = 30001;
        break;
    case 4:
        answer_len = marks / 2;
        break;
    case 5:
        missing = 1 + below(STRIP_WORK_BEST);
        break;
    case 6:
        gap = STRIP_GAP_MOST + 1;
        break;
    }
}

/* The job of the marks if they have one, sometimes cut off or with a byte changed. */
static void draw_job(void)
{
    strip_write(places, marks, lengths, lengths_len, weights, marks, job, sizeof job, &job_len);
    if (below(4) == 0)
        job_len -= below(job_len + 1);
    else if (below(3) == 0)
        job[below(job_len)] = (uint8_t)below(256);
}

/* A text for each mark, sometimes with one that is empty or too wide, a byte that is not in the font, or a byte too many. */
static void draw_texts(void)
{
    uint32_t longest = 1 + below(STRIP_LENGTH_MOST / STRIP_LETTER_MOST);
    size_t at = below(marks), i, k;

    texts_len = 0;
    for (i = 0; i < marks; i++) {
        counts[i] = (uint16_t)(1 + below(longest));
        if (i == at && below(8) == 0)
            counts[i] = (uint16_t)(below(2) * TEXT_MOST);
        for (k = 0; k < counts[i]; k++)
            texts[texts_len++] = (uint8_t)(STRIP_FONT_FIRST + below(STRIP_FONT_LAST - STRIP_FONT_FIRST + 1));
    }
    if (texts_len != 0 && below(8) == 0)
        texts[below(texts_len)] = STRIP_FONT_LAST + 1;
    if (below(16) == 0)
        texts_len++;
}

/* Any bits, or in half of the cases sixteenths, up to 34,375 on both sides of 0. */
static void draw_value(void)
{
    uint32_t pattern = below((size_t)1 << 32);

    memcpy(&value, &pattern, sizeof value);
    if (below(2) == 0)
        value = (float)((int)below(1100000) - 550000) / 16;
}

/* Marks on one line, in place of the strip's and as many, at steps with which some tracks fit and some do not; in half of the cases with
   one thing that the call refuses. */
static void draw_track(void)
{
    int across = 1 + (int)below(5), up = 1 + (int)below(5), dots;
    int x = STRIP_COORDINATE_LEAST, y = STRIP_COORDINATE_LEAST;
    size_t at = below(marks), i;

    side = (uint8_t)(STRIP_SQUARE_LEAST + below(below(2) == 0 ? 20 : STRIP_SQUARE_MOST));
    dots = 1 + side / (across < up ? up : across);
    if ((size_t)dots * 5 * marks > 60000)
        dots = (int)(60000 / 5 / marks);
    for (i = 0; i < marks; i++) {
        int step = 1 + (int)below((size_t)dots);
        places[i] = (int16_t)x;
        ys[i] = (int16_t)y;
        x += step * across;
        y += step * up;
    }
    ys_len = marks;
    switch (below(12)) {
    case 0:
        ys_len = marks + 1;
        break;
    case 1:
        side = 0;
        break;
    case 2:
        ys[at] = 30001;
        break;
    case 3:
    case 4:
    case 5:
        ys[at]++;
        break;
    }
}

/* ---- the table */

static int measure(const char *name, void (*at)(void), size_t most, size_t named)
{
    size_t worst = 0, accepted = 0, unplaced = 0, caller;
    int i;

    site = at;
    call_the_calls(0);
    caller = touched();
    call_the_calls(1);
    state = 1;
    for (i = 0; i < CALLS; i++) {
        size_t taken;
        draw_marks(most);
        draw_fault();
        draw_job();
        draw_texts();
        draw_value();
        if (at == at_slope)
            draw_track();
        taken = touched() - caller;
        worst = worst < taken ? taken : worst;
        accepted += number == STRIP_ACCEPTED;
        unplaced += number == STRIP_NO_PLACING;
    }
    printf("| %s | %zu | %zu | %zu | %zu | %zu |\n", name, worst, named, accepted, unplaced, CALLS - accepted - unplaced);
    return worst > named;
}

int main(void)
{
    int more = 0;

    printf("| call | stack, bytes | in strip.h | accepted | 11 | other refusals |\n|---|---|---|---|---|---|\n");
    more |= measure("full", at_full, STRIP_MARKS_FULL, STRIP_STACK_FULL);
    more |= measure("largest", at_largest, STRIP_MARKS_LARGEST, STRIP_STACK_LARGEST);
    more |= measure("slide", at_slide, STRIP_MARKS_SLIDE, STRIP_STACK_SLIDE);
    more |= measure("best", at_best, STRIP_MARKS_BEST, STRIP_STACK_BEST);
    more |= measure("read", at_read, STRIP_MARKS_JOB, STRIP_STACK_READ);
    more |= measure("write", at_write, STRIP_MARKS_JOB, STRIP_STACK_WRITE);
    more |= measure("measure", at_measure, TEXT_MOST, STRIP_STACK_MEASURE);
    more |= measure("beginning", at_beginning, TEXT_MOST, STRIP_STACK_BEGINNING);
    more |= measure("lengths", at_lengths, STRIP_TEXTS_MOST, STRIP_STACK_LENGTHS);
    more |= measure("place of dots", at_dots, 0, STRIP_STACK_PLACES);
    more |= measure("place of millimetres", at_millimetres, 0, STRIP_STACK_PLACES);
    more |= measure("slope", at_slope, STRIP_MARKS_SLOPE, STRIP_STACK_SLOPE);
    if (more)
        printf("a call takes more stack than strip.h names\n");
    return more;
}

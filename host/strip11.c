/*
 * Strip 11 of document 01 through the passes and the job calls, from C, at gap 0; at gap 1 it no longer slides; and the largest letters with
 * which its marks fit. Exit status 1 at a difference.
 */
#include "strip.h"

#include <stdio.h>
#include <string.h>

#define MARKS 5

static const uint8_t job[] = {0x00, 0x05, 0x00, 0x00, 0x06, 0x0A, 0x00, 0x09, 0x06, 0x0A, 0x00, 0x02, 0x06, 0x0A,
                              0x00, 0x09, 0x06, 0x0A, 0x00, 0x09, 0x07, 0x00, 0x07, 0x0A, 0x00, 0x09};

static const int16_t places_expected[MARKS] = {0, 1, 2, 3, 10};
static const uint8_t lengths_expected[MARKS] = {10, 10, 10, 10, 10};
static const uint16_t weights_expected[MARKS] = {9, 2, 9, 9, 9};

static int16_t places[MARKS];
static uint8_t lengths[MARKS];
static uint16_t weights[MARKS];

static int16_t work_full[STRIP_WORK_FULL];
static uint16_t work_slide[STRIP_WORK_SLIDE];
static uint32_t work_best[STRIP_WORK_BEST];

static int differences;

static void expect(int holds, const char *what)
{
    if (!holds) {
        printf("strip 11: %s\n", what);
        differences++;
    }
}

static void read_job(void)
{
    size_t count = 99;
    uint8_t number = strip_read(job, sizeof job, places, MARKS, lengths, MARKS, weights, MARKS, &count);
    expect(number == STRIP_ACCEPTED, "the job is accepted");
    expect(count == MARKS, "five marks");
    expect(memcmp(places, places_expected, sizeof places) == 0, "places 0 1 2 3 10");
    expect(memcmp(lengths, lengths_expected, sizeof lengths) == 0, "lengths 10");
    expect(memcmp(weights, weights_expected, sizeof weights) == 0, "weights 9 2 9 9 9");
}

static void full(void)
{
    static const uint8_t untouched[MARKS] = {7, 7, 7, 7, 7};
    uint8_t positions[MARKS] = {7, 7, 7, 7, 7};
    uint8_t number = strip_full(places, MARKS, lengths, MARKS, weights, MARKS, 0, positions, MARKS, work_full, STRIP_WORK_FULL);
    expect(number == STRIP_NO_PLACING, "full gives 11");
    expect(memcmp(positions, untouched, sizeof positions) == 0, "positions are unchanged at 11");
}

/* With 10 cells its labels fit at no width. With one cell they fit at 9 dots: the label of mark 2, from 1 to 10, touches that of mark 5. */
static void largest(void)
{
    static const uint8_t one_cell[MARKS] = {1, 1, 1, 1, 1};
    static const uint8_t positions_expected[MARKS] = {2, 1, 3, 4, 1};
    uint8_t positions[MARKS] = {7, 7, 7, 7, 7};
    uint8_t width = 99;
    uint8_t number = strip_largest(places, MARKS, lengths, MARKS, weights, MARKS, 0, positions, MARKS, work_full, STRIP_WORK_LARGEST, &width);
    expect(number == STRIP_NO_PLACING && width == 0, "largest gives 11 and width 0 with 10 cells");
    number = strip_largest(places, MARKS, one_cell, MARKS, weights, MARKS, 0, positions, MARKS, work_full, STRIP_WORK_LARGEST, &width);
    expect(number == STRIP_ACCEPTED && width == 9, "largest gives width 9 with one cell");
    expect(memcmp(positions, positions_expected, sizeof positions) == 0, "positions 2 1 3 4 1 at width 9");
}

/* The sides are open; given the sides, each edge is the greater of place - length and the reach of its side. */
static void slide(void)
{
    int reach[2] = {-32767, -32767};
    uint8_t sides[MARKS];
    int16_t edges[MARKS];
    uint8_t number;
    int i;

    memset(sides, 7, sizeof sides);
    memset(edges, 7, sizeof edges);
    number = strip_slide(places, MARKS, lengths, MARKS, weights, MARKS, 0, sides, MARKS, edges, MARKS, work_slide, STRIP_WORK_SLIDE);
    expect(number == STRIP_ACCEPTED, "slide fits");
    for (i = 0; i < MARKS; i++) {
        int least = places[i] - lengths[i];
        if (sides[i] > STRIP_SIDE_BELOW) {
            expect(0, "each side is 0 or 1");
            return;
        }
        expect(edges[i] == (reach[sides[i]] < least ? least : reach[sides[i]]), "each label is as far left as it goes");
        expect(edges[i] <= places[i], "each label lies on its mark");
        reach[sides[i]] = edges[i] + lengths[i];
    }
}

static void slide_at(uint8_t gap, uint8_t expected, const char *what)
{
    uint8_t sides[MARKS];
    int16_t edges[MARKS];
    uint8_t number =
        strip_slide(places, MARKS, lengths, MARKS, weights, MARKS, gap, sides, MARKS, edges, MARKS, work_slide, STRIP_WORK_SLIDE);
    expect(number == expected, what);
}

static void best(void)
{
    uint8_t positions[MARKS] = {7, 7, 7, 7, 7};
    uint16_t left_out[MARKS] = {77, 77, 77, 77, 77};
    uint32_t sum = 99;
    size_t count = 99;
    uint8_t number = strip_best(places, MARKS, lengths, MARKS, weights, MARKS, 0, positions, MARKS, left_out, MARKS, work_best,
                                STRIP_WORK_BEST, &sum, &count);
    int i;

    expect(number == STRIP_ACCEPTED, "best is accepted");
    expect(sum == 36, "best sum 36");
    expect(count == 1 && left_out[0] == 2, "mark 2 is left out");
    expect(left_out[1] == 77, "the left-out list is unchanged beyond its length");
    for (i = 0; i < MARKS; i++)
        expect((positions[i] == STRIP_UNLABELLED) == (i == 1) && positions[i] <= STRIP_BELOW_RIGHT, "the other marks have labels");
}

static void write_job(void)
{
    uint8_t output[STRIP_JOB_MOST];
    size_t length = 99;
    uint8_t number = strip_write(places, MARKS, lengths, MARKS, weights, MARKS, output, sizeof output, &length);
    expect(number == STRIP_ACCEPTED, "the strip can be written");
    expect(length == sizeof job && memcmp(output, job, sizeof job) == 0, "the job that was read comes out");
}

int main(void)
{
    read_job();
    full();
    largest();
    slide();
    slide_at(1, STRIP_NO_PLACING, "slide gives 11 at gap 1");
    slide_at(STRIP_GAP_MOST + 1, STRIP_GAP_TOO_WIDE, "slide gives 12 at gap 9");
    best();
    write_job();
    if (differences != 0)
        return 1;
    printf("strip 11 from C: as the documents say\n");
    return 0;
}

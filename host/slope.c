/* Tracks that slope, from C: worked out on paper, placed and refused. Exit status 1 at a difference. */
#include "strip.h"

#include <stdio.h>
#include <string.h>

#define COUNT_OF(list) (sizeof(list) / sizeof(list)[0])
/* What stands in the list of positions before a call, and behind the marks after it. */
#define BEFORE 77
/* One mark more than the call takes. */
#define ROOM (STRIP_MARKS_SLOPE + 1)

static int differences;

static void expect(int holds, const char *what)
{
    if (!holds) {
        printf("slope: %s\n", what);
        differences++;
    }
}

/* ---- what a placing is */

struct square {
    int left, bottom, right, top;
};

static struct square square_of(int x, int y, int side, uint8_t position)
{
    struct square square;
    square.left = position == STRIP_ABOVE_RIGHT || position == STRIP_BELOW_RIGHT ? x : x - side;
    square.bottom = position == STRIP_ABOVE_RIGHT || position == STRIP_ABOVE_LEFT ? y : y - side;
    square.right = square.left + side;
    square.top = square.bottom + side;
    return square;
}

static int overlap(struct square a, struct square b)
{
    return a.left < b.right && b.left < a.right && a.bottom < b.top && b.bottom < a.top;
}

/* A position of 1 to 4 for each mark, no two squares overlapping, and all else as it was. */
static int is_placing(const int16_t *xs, const int16_t *ys, size_t marks, int side, const uint8_t *positions)
{
    size_t i, j;
    for (i = 0; i < marks; i++) {
        if (positions[i] < STRIP_ABOVE_RIGHT || positions[i] > STRIP_BELOW_RIGHT)
            return 0;
        for (j = 0; j < i; j++)
            if (overlap(square_of(xs[i], ys[i], side, positions[i]), square_of(xs[j], ys[j], side, positions[j])))
                return 0;
    }
    for (i = marks; i < ROOM; i++)
        if (positions[i] != BEFORE)
            return 0;
    return 1;
}

/* A list of positions that is lent whole, of which the call must write a placing at 0 and nothing else. */
static void give(const int16_t *xs, size_t xs_len, const int16_t *ys, size_t ys_len, uint8_t side, size_t lent, uint8_t number,
                 const char *why)
{
    uint8_t positions[ROOM];
    uint8_t given;
    memset(positions, BEFORE, sizeof positions);
    given = strip_slope(xs, xs_len, ys, ys_len, side, positions, lent);
    expect(given == number && is_placing(xs, ys, given == STRIP_ACCEPTED ? xs_len : 0, side, positions), why);
}

/* ---- marks at equal steps */

struct even {
    int x, y, across, up;
    size_t marks;
    uint8_t side, number;
    const char *why;
};

static const struct even evens[] = {
    {0, 0, 1, 1, 0, 1, STRIP_ACCEPTED, "no marks need no square"},
    {0, 0, 1, 1, 0, 0, STRIP_BAD_MARK, "the side is tested without marks too: 0"},
    {0, 0, 1, 1, 0, 241, STRIP_BAD_MARK, "and 241"},
    {30000, -30000, 1, 1, 1, 240, STRIP_ACCEPTED, "a square may reach beyond the range of the marks"},
    {-30000, -30000, 60000, 60000, 2, 240, STRIP_ACCEPTED, "two marks, as far from each other as marks can be"},
    {-30000, -30000, 30000, 30000, 3, 240, STRIP_ACCEPTED, "three marks as far: both products are 1,800,000,000"},
    {0, 0, 1, 1, 4, 10, STRIP_ACCEPTED, "3 2 4 1 is a placing of four marks a dot apart"},
    /* Two of five marks have one position, and they are at most 4 dots apart. To neighbours alone 2 4 2 4 2 would be a placing. */
    {0, 0, 1, 1, 5, 10, STRIP_NO_PLACING, "five marks a dot apart have no placing"},
    /* The squares to the left of their marks share the dots from -4 to 0 in x, those to the right the dots from 6 to 10, so that those of
       one side have y to themselves. All of y from -10 to 22 has room for three squares of 10 on each side, and there are seven. */
    {0, 0, 1, 2, 7, 10, STRIP_NO_PLACING, "seven marks of a steep track have no placing"},
    {0, 0, 2, 1, 7, 10, STRIP_NO_PLACING, "nor have those of a flat one"},
    /* 2 4 2 4 and so on: neighbours lie on either side of the line, and each other square begins where one ends. */
    {-20, -100, 1, 5, 60, 10, STRIP_ACCEPTED, "sixty marks of a steep track, half a side apart"},
    {-100, -20, 5, 1, 60, 10, STRIP_ACCEPTED, "sixty marks of a flat track, half a side apart"},
    {-100, -20, 5, 1, 61, 10, STRIP_TOO_MANY_MARKS, "sixty-one are too many"},
    {-100, -20, 5, 1, 61, 0, STRIP_BAD_MARK, "but a side of 0 is refused before"},
};

static void give_evens(void)
{
    size_t i, mark;
    for (i = 0; i < COUNT_OF(evens); i++) {
        const struct even *track = &evens[i];
        int16_t xs[ROOM], ys[ROOM];
        for (mark = 0; mark < track->marks; mark++) {
            xs[mark] = (int16_t)(track->x + (int)mark * track->across);
            ys[mark] = (int16_t)(track->y + (int)mark * track->up);
        }
        give(xs, track->marks, ys, track->marks, track->side, ROOM, track->number, track->why);
    }
}

/* ---- marks that are refused */

struct three {
    int16_t xs[3], ys[3];
    size_t xs_len, ys_len, lent;
    uint8_t number;
    const char *why;
};

static const struct three threes[] = {
    {{0, 2, 4}, {0, 3, 6}, 3, 3, 3, STRIP_ACCEPTED, "three marks on one line"},
    {{0, 2, 4}, {0, 3, 7}, 3, 3, 3, STRIP_NOT_ON_ONE_LINE, "the last a dot beside it"},
    {{0, 2, 4}, {0, 2, 6}, 3, 3, 3, STRIP_NOT_ON_ONE_LINE, "the second a dot beside it"},
    {{0, 2, 4}, {1, 3, 6}, 3, 3, 3, STRIP_NOT_ON_ONE_LINE, "the first a dot beside it"},
    {{0, 2, 4}, {0, 3, 7}, 3, 3, 2, STRIP_NOT_ON_ONE_LINE, "that comes before a list that is too short"},
    /* From the first mark the second is 59,439 across and 23,648 up, the third 59,999 and 60,000. 59,999 times 23,648 is 1,418,856,352, and
       60,000 times 59,439 is 3,566,340,000, which is 2^31 more. */
    {{-30000, 29439, 29999}, {-30000, -6352, 30000}, 3, 3, 3, STRIP_NOT_ON_ONE_LINE, "three marks whose products differ by 2^31"},
    /* 44,720 across and 44,721 up, and 44,721 and 44,722: both products are some 2,000,000,000, and they differ by 1. */
    {{-30000, 14720, 14721}, {-30000, 14721, 14722}, 3, 3, 3, STRIP_NOT_ON_ONE_LINE, "three marks whose products differ by 1"},
    {{0, 2, 4}, {0, 3, 6}, 3, 3, 2, STRIP_LIST_TOO_SHORT, "no position for the last"},
    {{0, 2, 2}, {0, 3, 6}, 3, 3, 3, STRIP_BAD_MARK, "two equal x"},
    {{0, 2, 4}, {0, 3, 3}, 3, 3, 3, STRIP_BAD_MARK, "two equal y"},
    {{0, 2, 4}, {6, 3, 0}, 3, 3, 3, STRIP_BAD_MARK, "a track that falls"},
    {{29999, 30000, 30001}, {0, 1, 2}, 3, 3, 3, STRIP_BAD_MARK, "30,001 dots to the right"},
    {{0, 1, 2}, {-30001, -30000, -29999}, 3, 3, 3, STRIP_BAD_MARK, "30,001 dots down"},
    {{0, 1, 2}, {-30001, -30000, -29999}, 3, 2, 3, STRIP_LISTS_UNEQUAL, "two y for three x, which comes before"},
    {{0, 1, 2}, {0, 1, 2}, 0, 3, 3, STRIP_LISTS_UNEQUAL, "three y for no x"},
};

static void give_threes(void)
{
    size_t i;
    for (i = 0; i < COUNT_OF(threes); i++) {
        const struct three *track = &threes[i];
        give(track->xs, track->xs_len, track->ys, track->ys_len, 10, track->lent, track->number, track->why);
    }
}

int main(void)
{
    give_evens();
    give_threes();
    if (differences != 0)
        return 1;
    printf("tracks from C: as the documents say\n");
    return 0;
}

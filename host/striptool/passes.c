/* The three passes, and where they put each label. */
#include "striptool.h"

/* ---- the calls */

void full(struct marks marks, uint8_t gap, struct answer *answer)
{
    static int16_t work[STRIP_WORK_FULL];
    answer->pass = "full";
    answer->slides = false;
    answer->number = strip_full(marks.places, marks.count, marks.lengths, marks.count, marks.weights, marks.count, gap, answer->positions,
                                STRIP_MARKS_FULL, work, STRIP_WORK_FULL);
}

void slide(struct marks marks, uint8_t gap, struct answer *answer)
{
    static uint16_t work[STRIP_WORK_SLIDE];
    answer->pass = "slide";
    answer->slides = true;
    answer->number = strip_slide(marks.places, marks.count, marks.lengths, marks.count, marks.weights, marks.count, gap, answer->sides,
                                 STRIP_MARKS_SLIDE, answer->edges, STRIP_MARKS_SLIDE, work, STRIP_WORK_SLIDE);
}

void best(struct marks marks, uint8_t gap, struct answer *answer)
{
    static uint32_t work[STRIP_WORK_BEST];
    answer->pass = "best";
    answer->slides = false;
    answer->number = strip_best(marks.places, marks.count, marks.lengths, marks.count, marks.weights, marks.count, gap, answer->positions,
                                STRIP_MARKS_FULL, answer->left_out, STRIP_MARKS_BEST, work, STRIP_WORK_BEST, &answer->sum, &answer->count);
}

/* ---- the labels */

static void place(struct label *label, uint8_t side, int left, uint8_t length)
{
    label->placed = true;
    label->side = side;
    label->left = left;
    label->right = left + length;
}

static void place_at(struct label *label, uint8_t position, int16_t at, uint8_t length)
{
    bool above = position == STRIP_ABOVE_RIGHT || position == STRIP_ABOVE_LEFT;
    bool leftward = position == STRIP_ABOVE_LEFT || position == STRIP_BELOW_LEFT;
    place(label, above ? STRIP_SIDE_ABOVE : STRIP_SIDE_BELOW, leftward ? at - length : at, length);
    label->placed = position != STRIP_UNLABELLED;
}

void place_labels(struct answer *answer, struct marks marks)
{
    size_t i;
    if (answer->number != STRIP_ACCEPTED)
        return;
    for (i = 0; i < marks.count; i++)
        if (answer->slides)
            place(&answer->labels[i], answer->sides[i], answer->edges[i], marks.lengths[i]);
        else
            place_at(&answer->labels[i], answer->positions[i], marks.places[i], marks.lengths[i]);
}

/* What the two parts of an SVG picture share: the sheet, and where it is drawn on. Its lengths are in pixels; a dot has `scale` of them. */
#ifndef SVG_H
#define SVG_H

#include "striptool.h"

#define MARGIN 24
#define ROW_LEFT 112 /* the names of the lanes stand to the left of it */

/* A text that runs upwards needs so much from one side to the other. */
#define TEXT_ACROSS 10
#define NUMBER_SIZE 12
#define WEIGHT_SIZE 10

struct sheet {
    FILE *out;
    const struct picture *picture;
    struct window row;
    int scale;
    int apart; /* at least, from a mark to the next and from a label's one end to its other */
    int top;   /* of what is drawn next */
};

static inline int x_of(const struct sheet *sheet, int dot)
{
    return ROW_LEFT + (dot - sheet->row.from) * sheet->scale;
}

/* ---- svg_lane.c */

int height_of_lane(const struct sheet *sheet, const struct lane *lane);
void draw_lane(struct sheet *sheet, const struct lane *lane);

#endif

/* A picture as its tags say it: rows, each with lanes and a scale. Lengths in the picture are in pixels. */
#ifndef SVG_H
#define SVG_H

#include "tests.h"

#define LANES_SEEN 4
#define LABELS_SEEN 2048 /* of a lane in one row */
#define TICKS_SEEN 512

struct label_seen {
    int mark, weight, side, left, right;     /* of its title; the side is -1 if it has none */
    int x_left, x_right, top, bottom;        /* of its box */
    bool box, closed, line_left, line_right; /* the box has all four lines, or one of these, or neither */
    bool touches;
    int touch_x;
    bool number_shown, weight_shown, odd_text;
};

/* A line as long as a gap, with a bar where it ends. */
struct gap_seen {
    int x, y, width;
    bool bar;
};

struct circle_seen {
    bool bare, mark;
    int x, y;
};

struct bare_seen {
    int number, weight;
};

struct lane_seen {
    char name[40];
    int line_from, line_to, line_y;
    size_t labels, gaps, circles, bares;
    struct label_seen label[LABELS_SEEN];
    struct gap_seen gap[LABELS_SEEN];
    struct circle_seen circle[LABELS_SEEN];
    struct bare_seen bare[LABELS_SEEN];
};

struct row_seen {
    size_t lanes, ticks;
    struct lane_seen lane[LANES_SEEN];
    struct {
        int x, dot;
    } tick[TICKS_SEEN];
};

struct picture_seen {
    const char *at;
    int width, height;
    char caption[8000];
};

/* False if there is no such beginning of a picture. */
bool begin_svg(const char *svg, struct picture_seen *picture);
/* False behind the last row. */
bool next_svg_row(struct picture_seen *picture, struct row_seen *row);

#endif

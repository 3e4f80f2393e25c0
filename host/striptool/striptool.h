/* What the parts of striptool share. Marks have the numbers of their strip, from 1; places, lengths and ends are in dots. */
#ifndef STRIPTOOL_H
#define STRIPTOOL_H

#include "strip.h"

#include <stdbool.h>
#include <stdio.h>

/* Exit statuses, those of ./label. */
enum status { DONE = 0, REFUSED = 1, WRONG_USE = 2, NOT_WRITTEN = 3 };

/* Where a use reads, writes, and says what is wrong. */
struct streams {
    FILE *in, *out, *err;
    const char *name; /* of what is read */
};

/* Neighbouring marks of a strip; the first of them has the number `first`. */
struct marks {
    const int16_t *places;
    const uint8_t *lengths;
    const uint16_t *weights;
    size_t count, first;
};

/* A strip, with room for one mark more than a job has, so that the writer can refuse so many. */
#define MARKS_HELD (STRIP_MARKS_JOB + 1)
struct strip {
    size_t count;
    int16_t places[MARKS_HELD];
    uint8_t lengths[MARKS_HELD];
    uint16_t weights[MARKS_HELD];
};

struct marks marks_of(const struct strip *strip);
/* The marks with the numbers from `from` to `to`; none if `to` is before `from`. */
struct marks run_of(struct marks marks, size_t from, size_t to);

/* ---- messages.c: what is said on standard error */

/* "striptool: ..", one line; gives the status back. */
enum status stop(FILE *err, enum status status, const char *format, ...);
/* The words of a refusal as strip.h has them for this call. */
const char *words(uint8_t number, const char *call);
/* Bytes as they can be shown on one line, so many at most; and a name of a file or an option. */
const char *shown(const char *bytes, size_t length, size_t most);
const char *shown_name(const char *name);

/* Says how far reading has come, once a second, from when it has taken more than a second. */
struct progress {
    double began, said;
};
struct progress begin_progress(void);
void say_progress(struct progress *progress, FILE *err, const char *of_what, unsigned long count);

/* ---- job.c: job bytes */

enum status read_job(const struct streams *io, struct strip *strip);
enum status write_job(const struct streams *io, struct marks marks, const unsigned long *lines);

/* ---- text.c: marks as text */

/* `lines` gets the number of the line of each mark. */
enum status read_text(const struct streams *io, struct strip *strip, unsigned long *lines);
void write_text(FILE *out, struct marks marks);

/* ---- passes.c: the calls */

/* Where a pass puts a mark's label. */
struct label {
    bool placed;
    uint8_t side;
    int left, right;
};

/* What a pass gives: full and best positions, slide sides and edges, best also a sum and the count of left-out marks. */
struct answer {
    const char *pass;
    bool slides;
    uint8_t number;
    uint8_t positions[STRIP_MARKS_FULL];
    uint8_t sides[STRIP_MARKS_SLIDE];
    int16_t edges[STRIP_MARKS_SLIDE];
    uint32_t sum;
    size_t count;
    uint16_t left_out[STRIP_MARKS_BEST];
    struct label labels[STRIP_MARKS_FULL];
};

/* A call of a pass. */
typedef void pass(struct marks marks, uint8_t gap, struct answer *answer);
pass full, slide, best;
/* The labels of an answer, where the pass gives 0. */
void place_labels(struct answer *answer, struct marks marks);

/* ---- picture.c: what both forms of a drawing have in common */

struct lane {
    char name[32];
    const struct label *labels;
};

#define LANES_MOST 3
#define CAPTION_WIDTH 78
#define CAPTION_LINES 40
struct picture {
    struct marks marks;
    uint8_t gap;
    size_t lanes, lines;
    struct lane lane[LANES_MOST];
    char caption[CAPTION_LINES][CAPTION_WIDTH + 1];
};

struct picture *picture_of_passes(struct marks marks, uint8_t gap);
/* A picture of marks alone, to which lanes can be added. */
void begin_picture(struct picture *picture, struct marks marks, uint8_t gap);
void add_lane(struct picture *picture, const struct label *labels, const char *format, ...);

/* The dots from `from` on and before `to`: what one row of a drawing shows. */
struct window {
    int from, to;
};

/* The rows of a picture, from `next` on: at most `width` dots each, ticks at the multiples of `step`. The form for a terminal shows ends:
 * the dot of a row's beginning is in that row alone, and so is the end of a label that ends there. In the other form that dot is in the row
 * before too, such a label is not in the row, and the gap behind a label is drawn. */
struct rows {
    int width, step, next, end;
    bool shows_ends;
};

/* The dots that labels of these marks can take, ends included. */
struct window reach_of(struct marks marks);
struct rows rows_of(const struct picture *picture, int width, int step, bool shows_ends);
/* The next row that has a mark or a part of a label. */
bool next_row(const struct picture *picture, struct rows *rows, struct window *row);
/* The least multiple of the step that is not before a dot. */
int next_tick(int dot, int step);
/* The least of 1, 2, 5, 10, 20, .. that is not less. */
int round_step(int at_least);
int least(int a, int b);
int greatest(int a, int b);

/* ---- svg.c and rows.c: the two forms */

void draw_svg(FILE *out, const struct picture *picture);
void draw_rows(FILE *out, const struct picture *picture);

/* ---- why.c and check.c */

/* Whether a pass gives 11 for these marks, a smallest run of which that is true, and the count of calls that it took to find it. */
struct found {
    bool fails;
    struct marks run;
    size_t calls;
};
struct found smallest_run(pass *tried, struct marks marks, uint8_t gap);
void say_why(FILE *out, struct marks marks, uint8_t gap);
void say_calls(FILE *out, struct marks marks, uint8_t gap);

/* ---- uses.c: the command line */

/* `arguments` are those behind the program's name, with NULL at their end. The exit status. */
int striptool(char *const *arguments, const struct streams *io);

#endif

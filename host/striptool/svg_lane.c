/* A lane of an SVG picture: the labels above the base line and below it, the marks on it, and the marks without a label. */
#include "svg.h"

#define LABEL_HEIGHT 56
#define LINE_GAP 5 /* between a label and the base line */
#define LANE_GAP 18
#define MARK_RADIUS 4

#define LETTER 0.6 /* of the font's size: the width of a letter of a monospaced font */
#define TURNED_SIZE 9

/* ---- where the parts of a lane stand, from its top on */

static int line_of(const struct sheet *sheet)
{
    return sheet->top + LABEL_HEIGHT + LINE_GAP;
}

static int top_of_label(const struct sheet *sheet, const struct label *label)
{
    return label->side == STRIP_SIDE_ABOVE ? sheet->top : line_of(sheet) + LINE_GAP;
}

static int bottom_of_labels(const struct sheet *sheet)
{
    return line_of(sheet) + LINE_GAP + LABEL_HEIGHT;
}

/* The dot at which a row ends and the next begins is in both. */
static bool in_row(const struct sheet *sheet, int dot)
{
    return sheet->row.from <= dot && dot <= sheet->row.to;
}

static bool has_bare_marks(const struct sheet *sheet, const struct lane *lane)
{
    struct marks marks = sheet->picture->marks;
    size_t i;
    for (i = 0; i < marks.count; i++)
        if (!lane->labels[i].placed && in_row(sheet, marks.places[i]))
            return true;
    return false;
}

/* Below its labels a lane has the numbers of the marks without one. */
int height_of_lane(const struct sheet *sheet, const struct lane *lane)
{
    return 2 * (LABEL_HEIGHT + LINE_GAP) + LANE_GAP + (has_bare_marks(sheet, lane) ? LABEL_HEIGHT : 0);
}

/* ---- the text of a mark: its number, and its weight behind w */

/* Upwards, its middle or its end at a point. */
static void write_turned(const struct sheet *sheet, int x, int y, size_t mark, int weight)
{
    fprintf(sheet->out, "<text font-size=\"%d\" transform=\"translate(%d %d) rotate(-90)\">%zu w%d</text>", TURNED_SIZE,
            x + TURNED_SIZE / 3, y, mark, weight);
}

/* In two lines above and below a point. */
static void write_level(const struct sheet *sheet, int x, int y, size_t mark, int weight)
{
    fprintf(sheet->out, "<text font-size=\"%d\" x=\"%d\" y=\"%d\">%zu</text>", NUMBER_SIZE, x, y - 2, mark);
    fprintf(sheet->out, "<text font-size=\"%d\" x=\"%d\" y=\"%d\">w%d</text>", WEIGHT_SIZE, x, y + WEIGHT_SIZE + 2, weight);
}

static bool fits_level(int width, size_t mark, int weight)
{
    int number = snprintf(NULL, 0, "%zu", mark), below = snprintf(NULL, 0, "w%d", weight);
    return LETTER * NUMBER_SIZE * number <= width - 4 && LETTER * WEIGHT_SIZE * below <= width - 4;
}

/* ---- labels */

/* The part of a label that a row has, and whether the label's ends are in it. */
struct part {
    int left, right;
    bool begins, ends;
};

static bool has_part(const struct sheet *sheet, const struct label *label)
{
    return label->placed && label->left < sheet->row.to && sheet->row.from < label->right;
}

static struct part part_of(const struct sheet *sheet, const struct label *label)
{
    struct part part;
    part.begins = sheet->row.from <= label->left;
    part.ends = label->right <= sheet->row.to;
    part.left = x_of(sheet, part.begins ? label->left : sheet->row.from);
    part.right = x_of(sheet, part.ends ? label->right : sheet->row.to);
    return part;
}

/* A box, open where the row cuts the label. It is drawn inside its ends, so that of two labels that touch each has its own. */
static void draw_box(const struct sheet *sheet, const struct part *part, int top)
{
    int left = part->left + part->begins, right = part->right - part->ends, bottom = top + LABEL_HEIGHT;
    int open = part->ends ? left : right, other = part->ends ? right : left;
    if (part->begins || part->ends)
        fprintf(sheet->out, "<path d=\"M%d %dH%dV%dH%d%s\"/>", open, top, other, bottom, open, part->begins && part->ends ? "Z" : "");
    else
        fprintf(sheet->out, "<path d=\"M%d %dH%dM%d %dH%d\"/>", left, top, right, left, bottom, right);
}

/* In a part that holds it, and in one that has at least half of the label. */
static void write_in(const struct sheet *sheet, const struct label *label, const struct part *part, int top, size_t mark, int weight)
{
    int width = part->right - part->left, x = part->left + width / 2, y = top + LABEL_HEIGHT / 2;
    if (fits_level(width, mark, weight))
        write_level(sheet, x, y, mark, weight);
    else if (TEXT_ACROSS <= width || (label->right - label->left) * sheet->scale <= 2 * width)
        write_turned(sheet, x, y, mark, weight);
}

/* The dots that stay clear behind a label, as far as the row has them; a bar is where they end. */
static void draw_gap(const struct sheet *sheet, const struct label *label)
{
    int end = label->right + sheet->picture->gap;
    int from = greatest(label->right, sheet->row.from), to = least(end, sheet->row.to);
    if (from < to)
        fprintf(sheet->out, "<path class=\"gap\" d=\"M%d %dh%d%s\"/>\n", x_of(sheet, from), top_of_label(sheet, label) + LABEL_HEIGHT / 2,
                (to - from) * sheet->scale, to == end ? "m0 -4v8" : "");
}

static void draw_touch(const struct sheet *sheet, const struct label *label, int top)
{
    int outer = label->side == STRIP_SIDE_ABOVE ? top : top + LABEL_HEIGHT;
    fprintf(sheet->out, "<path class=\"touch\" stroke-width=\"3\" d=\"M%d %dv12\"/>", x_of(sheet, label->left), outer - 6);
}

static void draw_label(const struct sheet *sheet, const struct label *label, bool touches, size_t mark, int weight)
{
    struct part part = part_of(sheet, label);
    int top = top_of_label(sheet, label);
    fprintf(sheet->out, "<g class=\"label\"><title>mark %zu, weight %d: %s, %d to %d</title>", mark, weight,
            label->side == STRIP_SIDE_ABOVE ? "above" : "below", label->left, label->right);
    draw_box(sheet, &part, top);
    if (touches && part.begins)
        draw_touch(sheet, label, top);
    write_in(sheet, label, &part, top, mark, weight);
    fputs("</g>\n", sheet->out);
}

/* Labels of one side follow each other as their marks do, so a label can touch only the last one of its side. */
static void draw_labels(const struct sheet *sheet, const struct lane *lane)
{
    struct marks marks = sheet->picture->marks;
    const struct label *before[2] = {NULL, NULL};
    size_t i;
    fputs("<g fill=\"#fff\" stroke=\"#000\" text-anchor=\"middle\">\n", sheet->out);
    for (i = 0; i < marks.count; i++) {
        const struct label *label = &lane->labels[i];
        if (has_part(sheet, label))
            draw_label(sheet, label, before[label->side] != NULL && before[label->side]->right == label->left, marks.first + i,
                       marks.weights[i]);
        if (label->placed) {
            draw_gap(sheet, label);
            before[label->side] = label;
        }
    }
    fputs("</g>\n", sheet->out);
}

/* ---- marks */

static void draw_mark(const struct sheet *sheet, int place, bool labelled)
{
    int x = x_of(sheet, place), y = line_of(sheet);
    fprintf(sheet->out, "<circle class=\"%s\" cx=\"%d\" cy=\"%d\" r=\"%d\" fill=\"%s\"/>", labelled ? "mark" : "bare", x, y, MARK_RADIUS,
            labelled ? "#000" : "#fff");
    if (!labelled)
        fprintf(sheet->out, "<path d=\"M%d %dl6 6m0 -6l-6 6\"/>", x - 3, y - 3);
    fputc('\n', sheet->out);
}

static void draw_marks(const struct sheet *sheet, const struct lane *lane)
{
    struct marks marks = sheet->picture->marks;
    size_t i;
    fprintf(sheet->out, "<g stroke=\"#000\">\n<path d=\"M%d %dH%d\"/>\n", ROW_LEFT, line_of(sheet), x_of(sheet, sheet->row.to));
    for (i = 0; i < marks.count; i++)
        if (in_row(sheet, marks.places[i]))
            draw_mark(sheet, marks.places[i], lane->labels[i].placed);
    fputs("</g>\n", sheet->out);
}

static void write_bare(const struct sheet *sheet, int x, int y, size_t mark, int weight)
{
    bool level = fits_level(sheet->apart, mark, weight);
    fprintf(sheet->out, "<g text-anchor=\"%s\">", level ? "middle" : "end");
    (level ? write_level : write_turned)(sheet, x, level ? y + NUMBER_SIZE + 2 : y + 2, mark, weight);
    fputs("</g>\n", sheet->out);
}

/* A mark without a label has its text below the lane, at the end of a dotted line, which the labels cover. */
static void draw_bare_marks(const struct sheet *sheet, const struct lane *lane)
{
    struct marks marks = sheet->picture->marks;
    int bottom = bottom_of_labels(sheet) + LINE_GAP;
    size_t i;
    fputs("<g stroke-dasharray=\"1 3\">\n", sheet->out);
    for (i = 0; i < marks.count; i++)
        if (!lane->labels[i].placed && in_row(sheet, marks.places[i])) {
            int x = x_of(sheet, marks.places[i]);
            fprintf(sheet->out, "<path stroke=\"#000\" d=\"M%d %dV%d\"/>", x, line_of(sheet), bottom);
            write_bare(sheet, x, bottom, marks.first + i, marks.weights[i]);
        }
    fputs("</g>\n", sheet->out);
}

/* ---- all of it */

void draw_lane(struct sheet *sheet, const struct lane *lane)
{
    fprintf(sheet->out, "<g class=\"lane\">\n<text x=\"%d\" y=\"%d\">%s</text>\n", MARGIN, line_of(sheet) + 4, lane->name);
    draw_bare_marks(sheet, lane);
    draw_labels(sheet, lane);
    draw_marks(sheet, lane);
    fputs("</g>\n", sheet->out);
    sheet->top += height_of_lane(sheet, lane);
}

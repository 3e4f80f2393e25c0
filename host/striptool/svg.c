/* A picture as SVG, black on white: the words, and the rows with their lanes and their scale. */
#include "svg.h"

#define ROW_WIDTH 960
#define WORDS_WIDTH 900
#define LINE_HEIGHT 18
#define SCALE_HEIGHT 60
#define TICK_WIDTH 50

/* A dot has as many pixels as one row needs to hold the picture, between these. */
#define SCALE_LEAST 4
#define SCALE_MOST 24

static void draw_scale(struct sheet *sheet, int step)
{
    int dot;
    fprintf(sheet->out, "<g text-anchor=\"middle\">\n<text x=\"%d\" y=\"%d\" text-anchor=\"start\">dots</text>\n", MARGIN, sheet->top + 18);
    fprintf(sheet->out, "<path stroke=\"#000\" d=\"M%d %dH%d\"/>\n", ROW_LEFT, sheet->top, x_of(sheet, sheet->row.to));
    for (dot = next_tick(sheet->row.from, step); dot <= sheet->row.to; dot += step) {
        int x = x_of(sheet, dot);
        fprintf(sheet->out, "<path stroke=\"#000\" d=\"M%d %dv6\"/><text x=\"%d\" y=\"%d\">%d</text>\n", x, sheet->top, x, sheet->top + 18,
                dot);
    }
    fputs("</g>\n", sheet->out);
    sheet->top += SCALE_HEIGHT;
}

static int height_of_row(const struct sheet *sheet)
{
    int height = SCALE_HEIGHT;
    size_t i;
    for (i = 0; i < sheet->picture->lanes; i++)
        height += height_of_lane(sheet, &sheet->picture->lane[i]);
    return height;
}

/* The widest row, and the height of them all. */
struct size {
    int width, height;
};

static struct size size_of_rows(struct sheet sheet, struct rows rows)
{
    struct size size = {0, 0};
    while (next_row(sheet.picture, &rows, &sheet.row)) {
        size.width = greatest(size.width, (sheet.row.to - sheet.row.from) * sheet.scale);
        size.height += height_of_row(&sheet);
    }
    return size;
}

static void draw_row(struct sheet *sheet, int step)
{
    size_t i;
    for (i = 0; i < sheet->picture->lanes; i++)
        draw_lane(sheet, &sheet->picture->lane[i]);
    draw_scale(sheet, step);
}

/* ---- the sheet */

/* The fewest dots from a mark to the next or that a label has. */
static int closest(struct marks marks)
{
    int fewest = STRIP_LENGTH_MOST;
    size_t i;
    for (i = 0; i < marks.count; i++) {
        fewest = least(fewest, marks.lengths[i]);
        if (i > 0)
            fewest = least(fewest, marks.places[i] - marks.places[i - 1]);
    }
    return fewest;
}

/* At least so much that texts that run upwards, along a label or below a mark, do not run into each other. */
static int scale_of(const struct picture *picture)
{
    struct window reach = reach_of(picture->marks);
    int apart = closest(picture->marks), to_hold_all = ROW_WIDTH / greatest(reach.to + picture->gap + 1 - reach.from, 1);
    return least(SCALE_MOST, greatest(to_hold_all, greatest(SCALE_LEAST, (TEXT_ACROSS + apart - 1) / apart)));
}

static const char *legend(const struct picture *picture)
{
    return picture->gap > 0 ? "A label has the number of its mark, and its weight behind w; behind it the gap that stays clear. A crossed "
                              "circle is a mark without a label."
                            : "A label has the number of its mark, and its weight behind w. A thick end is one where labels touch. A "
                              "crossed circle is a mark without a label.";
}

static void draw_words(struct sheet *sheet)
{
    const struct picture *picture = sheet->picture;
    size_t i;
    for (i = 0; i < picture->lines; i++, sheet->top += LINE_HEIGHT)
        fprintf(sheet->out, "<text xml:space=\"preserve\" x=\"%d\" y=\"%d\">%s</text>\n", MARGIN, sheet->top + NUMBER_SIZE,
                picture->caption[i]);
    fprintf(sheet->out, "<text font-size=\"%d\" x=\"%d\" y=\"%d\">%s</text>\n", WEIGHT_SIZE, MARGIN, sheet->top + NUMBER_SIZE,
            legend(picture));
    sheet->top += 2 * LINE_HEIGHT;
}

void draw_svg(FILE *out, const struct picture *picture)
{
    int scale = scale_of(picture);
    struct sheet sheet = {out, picture, {0, 0}, scale, closest(picture->marks) * scale, MARGIN};
    int step = round_step((TICK_WIDTH + scale - 1) / scale);
    struct rows rows = rows_of(picture, ROW_WIDTH / scale, step, false);
    struct size size = size_of_rows(sheet, rows);
    int width = greatest(WORDS_WIDTH, ROW_LEFT + size.width + MARGIN);
    int height = 2 * MARGIN + (int)(picture->lines + 2) * LINE_HEIGHT + size.height;
    fprintf(out, "<svg xmlns=\"http://www.w3.org/2000/svg\" width=\"%d\" height=\"%d\" viewBox=\"0 0 %d %d\"", width, height, width,
            height);
    fprintf(out, " font-family=\"monospace\" font-size=\"%d\">\n<title>%s</title>\n", NUMBER_SIZE, picture->caption[0]);
    fputs("<style>text { fill: #000; stroke: none }</style>\n", out);
    fprintf(out, "<rect width=\"%d\" height=\"%d\" fill=\"#fff\"/>\n", width, height);
    draw_words(&sheet);
    while (next_row(picture, &rows, &sheet.row))
        draw_row(&sheet, step);
    fputs("</svg>\n", out);
}

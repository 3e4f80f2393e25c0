/* A picture as text: for each lane the labels above the line, the line with its marks, and the labels below it. */
#include "striptool.h"

#include <string.h>

#define NAME_COLUMNS 7
#define COLUMNS 72
#define LEAST_SCALE 2
#define TICK_COLUMNS 8

/* One line of a row; a dot has `scale` columns, and the dot that the row begins with is at column 0. */
struct cells {
    int from, scale, count;
    char at[COLUMNS + 1];
};

static void clear(struct cells *cells, const struct window *row, int scale, char filling)
{
    cells->from = row->from;
    cells->scale = scale;
    cells->count = (row->to - row->from) * scale;
    memset(cells->at, filling, (size_t)cells->count);
    cells->at[cells->count] = '\0';
}

static int column_of(const struct cells *cells, int dot)
{
    return (dot - cells->from) * cells->scale;
}

static void put(struct cells *cells, int column, char shape)
{
    if (0 <= column && column < cells->count)
        cells->at[column] = shape;
}

/* What the shapes of cells look like. */
static const char *look(char shape)
{
    switch (shape) {
    case '=':
        return "\xE2\x94\x80"; /* the line */
    case '.':
        return "\xC2\xB7"; /* the inside of a label */
    case '*':
        return "\xE2\x97\x8F"; /* a mark with a label */
    case 'o':
        return "\xE2\x97\x8B"; /* a mark without one */
    default:
        return NULL;
    }
}

static void print(FILE *out, const char *name, struct cells *cells)
{
    int i;
    while (cells->count > 0 && cells->at[cells->count - 1] == ' ')
        cells->count--;
    fprintf(out, "%-*s", cells->count > 0 ? NAME_COLUMNS : 0, name);
    for (i = 0; i < cells->count; i++)
        if (look(cells->at[i]) != NULL)
            fputs(look(cells->at[i]), out);
        else
            fputc(cells->at[i], out);
    fputc('\n', out);
}

/* ---- labels */

/* Columns from `first` to `last`. */
struct room {
    int first, last;
};

static int size_of(struct room room)
{
    return room.last + 1 - room.first;
}

static void centre(struct cells *cells, struct room room, const char *text)
{
    int length = (int)strlen(text);
    int at = room.first + (size_of(room) - length) / 2, i;
    for (i = 0; i < length; i++)
        put(cells, at + i, text[i]);
}

/* The longest text that the room holds: number and weight between blanks, or without them, or the number alone. */
static void fill_in(struct cells *cells, struct room room, const char *number, const char *both)
{
    char padded[32];
    snprintf(padded, sizeof padded, " %s ", both);
    if (size_of(room) >= (int)strlen(padded))
        centre(cells, room, padded);
    else
        centre(cells, room, size_of(room) >= (int)strlen(both) ? both : number);
}

/* A label that has room for its number twice carries it in each row that holds it; a shorter one carries it once, and where the row ends
 * in it the number goes on in the next row, as the label does. */
static void name_label(struct cells *cells, struct room inside, size_t mark, int weight)
{
    struct room seen = {inside.first > 0 ? inside.first : 0, inside.last < cells->count ? inside.last : cells->count - 1};
    char number[16], both[24];
    snprintf(number, sizeof number, "%zu", mark);
    snprintf(both, sizeof both, "%s w%d", number, weight);
    if (size_of(inside) < 2 * (int)strlen(number) + 2)
        fill_in(cells, inside, number, both);
    else if (size_of(seen) >= (int)strlen(number))
        fill_in(cells, seen, number, both);
}

/* Labels that touch share the column of their ends. */
static void draw_label(struct cells *cells, const struct label *label, size_t mark, int weight)
{
    int left = column_of(cells, label->left), right = column_of(cells, label->right), i;
    struct room inside = {left + 1, right - 1};
    bool touches = 0 <= left && left < cells->count && cells->at[left] == ']';
    for (i = left + 1 > 0 ? left + 1 : 0; i < right && i < cells->count; i++)
        put(cells, i, '.');
    put(cells, left, touches ? '|' : '[');
    put(cells, right, ']');
    name_label(cells, inside, mark, weight);
}

/* ---- marks without a label */

/* In a row no two marks share a column. */
struct bare {
    size_t count, marks[COLUMNS];
};

static struct bare bare_marks(const struct picture *picture, const struct lane *lane, const struct window *row)
{
    struct bare bare;
    size_t i;
    bare.count = 0;
    for (i = 0; i < picture->marks.count; i++)
        if (!lane->labels[i].placed && row->from <= picture->marks.places[i] && picture->marks.places[i] < row->to)
            bare.marks[bare.count++] = i;
    return bare;
}

/* Puts the numbers for which the line has room below their marks, and keeps the other marks. */
static void take_line(struct cells *cells, struct marks marks, struct bare *bare)
{
    int free = 0;
    size_t i, kept = 0;
    for (i = 0; i < bare->count; i++) {
        char number[16];
        int length = snprintf(number, sizeof number, "%zu", marks.first + bare->marks[i]);
        struct room room = {least(column_of(cells, marks.places[bare->marks[i]]), cells->count - length), 0};
        room.last = room.first + length - 1;
        if (room.first < free) {
            bare->marks[kept++] = bare->marks[i];
            continue;
        }
        centre(cells, room, number);
        free = room.last + 2;
    }
    bare->count = kept;
}

static void write_bare_marks(FILE *out, const struct picture *picture, const struct lane *lane, const struct window *row, int scale)
{
    struct bare bare = bare_marks(picture, lane, row);
    while (bare.count > 0) {
        struct cells cells;
        clear(&cells, row, scale, ' ');
        take_line(&cells, picture->marks, &bare);
        print(out, "out", &cells);
    }
}

/* ---- lanes */

static void draw_lane(FILE *out, const struct picture *picture, const struct lane *lane, const struct window *row, int scale)
{
    struct marks marks = picture->marks;
    struct cells above, line, below;
    size_t i;
    clear(&above, row, scale, ' ');
    clear(&line, row, scale, '=');
    clear(&below, row, scale, ' ');
    for (i = 0; i < marks.count; i++) {
        const struct label *label = &lane->labels[i];
        put(&line, column_of(&line, marks.places[i]), label->placed ? '*' : 'o');
        if (label->placed && label->left < row->to && row->from <= label->right)
            draw_label(label->side == STRIP_SIDE_ABOVE ? &above : &below, label, marks.first + i, marks.weights[i]);
    }
    fprintf(out, "%s\n", lane->name);
    print(out, "above", &above);
    print(out, "line", &line);
    print(out, "below", &below);
    write_bare_marks(out, picture, lane, row, scale);
}

/* ---- rows */

/* Columns for a dot: two, or so many more that each label holds the number of its mark. */
static int scale_of(struct marks marks)
{
    int scale = LEAST_SCALE;
    size_t i;
    for (i = 0; i < marks.count; i++) {
        int digits = snprintf(NULL, 0, "%zu", marks.first + i);
        while (marks.lengths[i] * scale - 1 < digits)
            scale++;
    }
    return scale;
}

/* The last number may stand one column beyond the longest row. */
static void draw_scale(FILE *out, const struct window *row, int scale, int step)
{
    int dot, column = 0;
    fprintf(out, "%-*s", NAME_COLUMNS, "dots");
    for (dot = next_tick(row->from, step); dot < row->to; dot += step) {
        int at = (dot - row->from) * scale;
        if (at + snprintf(NULL, 0, "|%d", dot) <= COLUMNS + 1)
            column += fprintf(out, "%*s|%d", at - column, "", dot);
    }
    fputc('\n', out);
}

void draw_rows(FILE *out, const struct picture *picture)
{
    int scale = scale_of(picture->marks);
    int step = round_step((TICK_COLUMNS + scale - 1) / scale);
    struct rows rows = rows_of(picture, COLUMNS / scale, step, true);
    struct window row;
    size_t i;
    for (i = 0; i < picture->lines; i++)
        fprintf(out, "%s\n", picture->caption[i]);
    while (next_row(picture, &rows, &row)) {
        for (i = 0; i < picture->lanes; i++) {
            fputc('\n', out);
            draw_lane(out, picture, &picture->lane[i], &row, scale);
        }
        draw_scale(out, &row, scale, step);
    }
}

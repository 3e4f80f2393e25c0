/*
 * Reads a drawing for a terminal as a person would: the ticks of the line of dots say which dot a column is, brackets and bars are the ends
 * of labels, circles are marks, what stands in a label is its mark's number and weight, and a mark without one has its number below. A
 * label that a row's end cuts goes on in the next row, as if the drawing were not wrapped.
 */
#include "tests.h"

#include <stdio.h>
#include <stdlib.h>
#include <string.h>

#define COLUMNS_MOST 400
#define NAME_COLUMNS 7
#define INSIDE_MOST 2000

struct sketched sketched;

/* The marks that are drawn; the first of them has the number `first`. */
struct drawn {
    const struct trial *trial;
    size_t first, count;
};

/* One side of a lane, over all rows: the mark whose label comes next, and the label that has begun. */
struct side_read {
    size_t next;
    bool open, number_seen, odd;
    int left;
    char inside[INSIDE_MOST];
};

struct lane_read {
    struct side_read sides[2];
    size_t marks;
};

struct row_read {
    int from, to, scale, columns;
};

/* ---- characters */

/* The columns of a line behind its name, each as one byte; -1 if the line has another name or an unknown character. */
static int decode(const char *line, const char *name, char cells[COLUMNS_MOST + 1])
{
    static const char *const looks[] = {"\xE2\x94\x80", "\xC2\xB7", "\xE2\x97\x8F", "\xE2\x97\x8B"};
    static const char shapes[] = "=.*o";
    size_t name_length = strlen(name), i;
    int count = 0;
    if (strncmp(line, name, name_length) != 0)
        return -1;
    if (line[name_length] == '\0')
        return 0;
    if (strspn(line + name_length, " ") < NAME_COLUMNS - name_length)
        return -1;
    for (line += NAME_COLUMNS; *line != '\0' && count < COLUMNS_MOST; count++) {
        for (i = 0; i < 4 && strncmp(line, looks[i], strlen(looks[i])) != 0; i++)
            ;
        if (i == 4 && ((unsigned char)*line >= 0x7F || *line < ' '))
            return -1;
        cells[count] = i < 4 ? shapes[i] : *line;
        line += i < 4 ? strlen(looks[i]) : 1;
    }
    return count;
}

/* ---- the scale */

/* The ticks of a row: how many, and where the first of them is. */
struct ticks {
    int count, column, dot;
};

/* From the second tick on the scale is known, and each tick has to be where it says. */
static bool take_tick(struct ticks *ticks, int column, int dot, struct row_read *row)
{
    if (ticks->count++ == 0) {
        ticks->column = column;
        ticks->dot = dot;
        return true;
    }
    if (ticks->count == 2 && dot > ticks->dot)
        row->scale = (column - ticks->column) / (dot - ticks->dot);
    return expect(row->scale > 0 && column - ticks->column == (dot - ticks->dot) * row->scale, "the tick %d is not true", dot);
}

/* A tick is a bar and its dot; between ticks are blanks and nothing else. */
static bool take_ticks(const char *line, struct ticks *ticks, struct row_read *row)
{
    char cells[COLUMNS_MOST + 1];
    int count = decode(line, "dots", cells), i = 0;
    if (!expect(count >= 0, "no line of dots, but %s", line))
        return false;
    cells[count] = '\0';
    row->scale = 0;
    while (i < count) {
        int digits = (int)strspn(cells + i + 1, "-0123456789");
        if (cells[i] != ' ' && (!expect(cells[i] == '|' && digits > 0, "other than ticks stands in %s", line) ||
                                !take_tick(ticks, i, atoi(cells + i + 1), row)))
            return false;
        i += cells[i] == ' ' ? 1 : 1 + digits;
    }
    return true;
}

static bool read_scale(const char *line, struct row_read *row)
{
    struct ticks ticks = {0, 0, 0};
    if (!take_ticks(line, &ticks, row))
        return false;
    if (!expect(ticks.count >= 2, "fewer than two ticks, so no scale: %s", line))
        return false;
    row->from = ticks.dot - ticks.column / row->scale;
    return expect(ticks.column % row->scale == 0, "the tick %d is between two dots", ticks.dot);
}

/* ---- labels */

static bool is_token(const char *token, size_t length, const char *expected)
{
    return strlen(expected) == length && strncmp(token, expected, length) == 0;
}

/* Looks at the words of a label, or of a row's part of it: its number, and its weight behind w, and nothing else. */
static void read_words(const char *inside, size_t mark, int weight, bool *number_seen, bool *odd)
{
    char number[24], behind_w[24];
    snprintf(number, sizeof number, "%zu", mark);
    snprintf(behind_w, sizeof behind_w, "w%d", weight);
    while (*inside != '\0') {
        size_t length = strcspn(inside, " .");
        if (is_token(inside, length, number))
            *number_seen = true;
        else if (length > 0 && !is_token(inside, length, behind_w))
            *odd = true;
        inside += length + (inside[length] != '\0');
    }
}

static size_t next_on_side(const struct drawn *drawn, const struct lane_tried *lane, int side, size_t from)
{
    while (from < drawn->count && (!lane->spans[from].placed || lane->spans[from].side != side))
        from++;
    return from;
}

static void open_label(struct side_read *side, int dot)
{
    side->open = true;
    side->left = dot;
    side->number_seen = side->odd = false;
    side->inside[0] = '\0';
}

static bool close_label(const struct drawn *drawn, const struct lane_tried *lane, int which, struct side_read *side, int dot)
{
    size_t i = next_on_side(drawn, lane, which, side->next), mark = drawn->first + i;
    const struct span *span = &lane->spans[i];
    bool seen = false, odd = false;
    side->open = false;
    side->next = i + 1;
    if (!expect(i < drawn->count, "%s: a label from %d to %d that no mark has", lane->name, side->left, dot))
        return false;
    read_words(side->inside, mark, drawn->trial->weights[mark - 1], &seen, &odd);
    expect((side->number_seen && !side->odd) || (seen && !odd), "%s: in the label of mark %zu stands %s", lane->name, mark, side->inside);
    return expect(side->left == span->left && dot == span->right, "%s: mark %zu has a label from %d to %d, not %d to %d", lane->name, mark,
                  side->left, dot, span->left, span->right);
}

/* Keeps what stands in a label in one row, and looks at its words. */
static void keep_inside(const struct drawn *drawn, const struct lane_tried *lane, int which, struct side_read *side, const char *part,
                        int length)
{
    size_t used = strlen(side->inside), i = next_on_side(drawn, lane, which, side->next);
    char row_part[COLUMNS_MOST + 1];
    snprintf(row_part, sizeof row_part, "%.*s", length, part);
    snprintf(side->inside + used, INSIDE_MOST - used, "%s", row_part);
    if (i < drawn->count)
        read_words(row_part, drawn->first + i, drawn->trial->weights[drawn->first + i - 1], &side->number_seen, &side->odd);
}

static bool read_side(const char *line, const struct drawn *drawn, const struct lane_tried *lane, int which, const struct row_read *row,
                      struct side_read *side)
{
    char cells[COLUMNS_MOST + 1];
    int count = decode(line, which == STRIP_SIDE_ABOVE ? "above" : "below", cells), begun = 0, i;
    if (!expect(0 <= count && count <= row->columns, "a line of labels with %d columns: %s", count, line))
        return false;
    for (i = 0; i < count; i++) {
        bool opens = cells[i] == '[' || cells[i] == '|', closes = cells[i] == ']' || cells[i] == '|';
        if (!opens && !closes) {
            if (!expect(side->open ? strchr(".w 0123456789", cells[i]) != NULL : cells[i] == ' ', "%s: column %d of %s", lane->name, i,
                        line))
                return false;
            continue;
        }
        if (!expect(i % row->scale == 0 && closes == side->open, "%s: the end at column %d of %s", lane->name, i, line))
            return false;
        if (closes)
            keep_inside(drawn, lane, which, side, cells + begun, i - begun);
        if (closes && !close_label(drawn, lane, which, side, row->from + i / row->scale))
            return false;
        if (opens)
            open_label(side, row->from + i / row->scale);
        begun = i + 1;
    }
    if (side->open)
        keep_inside(drawn, lane, which, side, cells + begun, count > begun ? count - begun : 0);
    return true;
}

/* ---- marks */

static bool read_marks(const char *cells, int count, const struct drawn *drawn, const struct lane_tried *lane, const struct row_read *row,
                       struct lane_read *read)
{
    int i;
    for (i = 0; i < count; i++) {
        size_t at = read->marks;
        if (cells[i] == '=')
            continue;
        if (!expect((cells[i] == '*' || cells[i] == 'o') && i % row->scale == 0 && at < drawn->count, "%s: column %d of the line is %c",
                    lane->name, i, cells[i]))
            return false;
        if (!expect(row->from + i / row->scale == drawn->trial->places[drawn->first - 1 + at], "%s: mark %zu is drawn at %d", lane->name,
                    drawn->first + at, row->from + i / row->scale))
            return false;
        expect((cells[i] == '*') == lane->spans[at].placed, "%s: mark %zu is drawn as if it had %s label", lane->name, drawn->first + at,
               cells[i] == '*' ? "a" : "no");
        read->marks++;
    }
    return true;
}

/* ---- marks without a label */

/* Has the number at the mark's column, or where the row ends before the number would, at the row's end; blanks stand around it. */
static bool is_written(const char *line, const char *number, int column, const struct row_read *row)
{
    char cells[COLUMNS_MOST + 1];
    int count = decode(line, "out", cells), length = (int)strlen(number);
    int at = column < row->columns - length ? column : row->columns - length;
    if (count < at + length || strncmp(cells + at, number, (size_t)length) != 0)
        return false;
    return (at == 0 || cells[at - 1] == ' ') && (at + length == count || cells[at + length] == ' ');
}

static size_t numbers_in(const char *line)
{
    size_t numbers = 0, i;
    for (i = 1; line[i] != '\0'; i++)
        numbers += line[i - 1] == ' ' && line[i] != ' ';
    return numbers;
}

#define OUT_LINES 12

struct out_lines {
    size_t count;
    char line[OUT_LINES][LINE_TRIED];
};

/* Each mark of the row without a label has its number on one of these lines, and no other number stands there. */
static void compare_out(const struct out_lines *out, const struct drawn *drawn, const struct lane_tried *lane, const struct row_read *row)
{
    size_t i, line, bare = 0, numbers = 0;
    for (line = 0; line < out->count; line++)
        numbers += numbers_in(out->line[line]);
    for (i = 0; i < drawn->count; i++) {
        int place = drawn->trial->places[drawn->first - 1 + i];
        char number[24];
        bool written = false;
        if (lane->spans[i].placed || place < row->from || row->to <= place)
            continue;
        bare++;
        snprintf(number, sizeof number, "%zu", drawn->first + i);
        for (line = 0; line < out->count && !written; line++)
            written = is_written(out->line[line], number, (place - row->from) * row->scale, row);
        expect(written, "%s: no number below mark %s, which has no label", lane->name, number);
    }
    expect(bare == numbers, "%s: %zu numbers below the lane, for %zu marks without a label", lane->name, numbers, bare);
}

/* ---- rows */

/* The lines of one row. */
struct row_lines {
    char name[3][LINE_TRIED], above[3][LINE_TRIED], line[3][LINE_TRIED], below[3][LINE_TRIED], dots[LINE_TRIED];
    struct out_lines out[3];
};

/* The lines with numbers of marks, as many as there are. */
static void take_out(const char **text, struct out_lines *out)
{
    const char *at = *text;
    for (out->count = 0; out->count < OUT_LINES && take_line(&at, out->line[out->count]) && strncmp(out->line[out->count], "out ", 4) == 0;
         out->count++)
        *text = at;
}

/* False if the next lines are no row of these lanes. */
static bool take_row(const char **text, const struct lane_tried *lanes, size_t lane_count, struct row_lines *lines)
{
    const char *at = *text;
    char blank[LINE_TRIED];
    size_t i;
    for (i = 0; i < lane_count; i++) {
        if (!take_line(&at, blank) || blank[0] != '\0' || !take_line(&at, lines->name[i]) || strcmp(lines->name[i], lanes[i].name) != 0)
            return false;
        if (!take_line(&at, lines->above[i]) || !take_line(&at, lines->line[i]) || !take_line(&at, lines->below[i]))
            return false;
        take_out(&at, &lines->out[i]);
    }
    if (!take_line(&at, lines->dots))
        return false;
    *text = at;
    return true;
}

static bool compare_row(const struct row_lines *lines, const struct drawn *drawn, const struct lane_tried *lanes, size_t lane_count,
                        struct row_read *row, struct lane_read *read)
{
    char cells[COLUMNS_MOST + 1];
    int before = row->to;
    bool cut = false;
    size_t i;
    row->columns = decode(lines->line[0], "line", cells);
    if (!expect(row->columns > 0, "no line, but %s", lines->line[0]) || !read_scale(lines->dots, row))
        return false;
    row->to = row->from + row->columns / row->scale;
    if (!expect(row->from >= before && row->columns % row->scale == 0, "a row from %d to %d behind one to %d", row->from, row->to, before))
        return false;
    for (i = 0; i < lane_count; i++) {
        bool begun = read[i].sides[0].open || read[i].sides[1].open;
        int columns = decode(lines->line[i], "line", cells);
        cut = cut || begun;
        if (!expect(columns == row->columns && (!begun || row->from == before), "%s: the row from %d on, with %d columns", lanes[i].name,
                    row->from, columns) ||
            !read_marks(cells, columns, drawn, &lanes[i], row, &read[i]) ||
            !read_side(lines->above[i], drawn, &lanes[i], STRIP_SIDE_ABOVE, row, &read[i].sides[0]) ||
            !read_side(lines->below[i], drawn, &lanes[i], STRIP_SIDE_BELOW, row, &read[i].sides[1]))
            return false;
        compare_out(&lines->out[i], drawn, &lanes[i], row);
    }
    sketched.rows++;
    sketched.cut += cut;
    return true;
}

static void expect_all_read(const struct drawn *drawn, const struct lane_tried *lane, const struct lane_read *read)
{
    int which;
    expect(read->marks == drawn->count, "%s: %zu marks are drawn", lane->name, read->marks);
    for (which = 0; which < 2; which++)
        expect(!read->sides[which].open && next_on_side(drawn, lane, which, read->sides[which].next) == drawn->count,
               "%s: a label is missing or does not end, behind %zu marks", lane->name, read->sides[which].next);
}

const char *compare_rows(const char *text, const struct trial *trial, size_t first, size_t count, const struct lane_tried *lanes,
                         size_t lane_count)
{
    static struct row_lines lines;
    static struct lane_read read[3];
    struct drawn drawn;
    struct row_read row = {0, 2 * STRIP_PLACE_LEAST, 0, 0};
    size_t i;
    drawn.trial = trial;
    drawn.first = first;
    drawn.count = count;
    memset(read, 0, sizeof read);
    while (take_row(&text, lanes, lane_count, &lines))
        if (!compare_row(&lines, &drawn, lanes, lane_count, &row, read))
            return text;
    for (i = 0; i < lane_count; i++)
        expect_all_read(&drawn, &lanes[i], &read[i]);
    return text;
}

/* What both forms of a drawing have in common: the words above it, the lanes, each with the labels of one pass, and the rows that a long
 * strip wraps into. */
#include "striptool.h"

#include <stdarg.h>
#include <string.h>

/* ---- the caption: words, wrapped into lines; the longest has 60 left-out marks, four on a line */

static char *begin_line(struct picture *picture, const char *with)
{
    return strcpy(picture->caption[picture->lines++], with);
}

/* Puts words behind the last line, or where that is full, into a new one. */
static void add(struct picture *picture, const char *format, ...)
{
    char *line = picture->caption[picture->lines - 1];
    char part[CAPTION_WIDTH - 2];
    va_list values;
    va_start(values, format);
    vsnprintf(part, sizeof part, format, values);
    va_end(values);
    if (strlen(line) + 1 + strlen(part) > CAPTION_WIDTH)
        line = begin_line(picture, "  ");
    strcat(strcat(line, " "), part);
}

static unsigned long weight_of_all(struct marks marks)
{
    unsigned long sum = 0;
    size_t i;
    for (i = 0; i < marks.count; i++)
        sum += marks.weights[i];
    return sum;
}

/* The left-out marks, in the order of the pass. */
static void add_left_out(struct picture *picture, const struct answer *answer)
{
    size_t i;
    add(picture, answer->count > 0 ? "without a label:" : "all with a label");
    for (i = 0; i < answer->count; i++) {
        size_t mark = answer->left_out[i];
        add(picture, "%zu (weight %d)%s", mark, picture->marks.weights[mark - 1], i + 1 < answer->count ? "," : "");
    }
}

static void begin_verdict(struct picture *picture, const struct answer *answer)
{
    strcat(begin_line(picture, answer->pass), ":");
    if (answer->number != STRIP_ACCEPTED)
        add(picture, "%d, %s", answer->number, words(answer->number, answer->pass));
}

static void say_placed(struct picture *picture, const struct answer *answer)
{
    begin_verdict(picture, answer);
    if (answer->number == STRIP_ACCEPTED)
        add(picture, "every mark has a label");
}

static void say_best(struct picture *picture, const struct answer *answer)
{
    begin_verdict(picture, answer);
    if (answer->number != STRIP_ACCEPTED)
        return;
    add(picture, "%lu of %lu;", (unsigned long)answer->sum, weight_of_all(picture->marks));
    add_left_out(picture, answer);
}

/* ---- lanes */

void begin_picture(struct picture *picture, struct marks marks, uint8_t gap)
{
    picture->marks = marks;
    picture->gap = gap;
    picture->lanes = 0;
    picture->lines = 0;
}

void add_lane(struct picture *picture, const struct label *labels, const char *format, ...)
{
    struct lane *lane = &picture->lane[picture->lanes++];
    va_list values;
    va_start(values, format);
    vsnprintf(lane->name, sizeof lane->name, format, values);
    va_end(values);
    lane->labels = labels;
}

static void add_answer(struct picture *picture, struct answer *answer)
{
    place_labels(answer, picture->marks);
    if (answer->number == STRIP_ACCEPTED)
        add_lane(picture, answer->labels, "%s", answer->pass);
}

/* A lane for each pass that gives labels; where none does, one for the marks alone. */
struct picture *picture_of_passes(struct marks marks, uint8_t gap)
{
    static const struct label none[STRIP_MARKS_FULL];
    static struct picture picture;
    static struct answer of_full, of_slide, of_best;
    full(marks, gap, &of_full);
    slide(marks, gap, &of_slide);
    best(marks, gap, &of_best);
    begin_picture(&picture, marks, gap);
    snprintf(begin_line(&picture, ""), CAPTION_WIDTH, "marks %zu, gap %d", marks.count, gap);
    say_placed(&picture, &of_full);
    say_placed(&picture, &of_slide);
    say_best(&picture, &of_best);
    add_answer(&picture, &of_full);
    add_answer(&picture, &of_slide);
    add_answer(&picture, &of_best);
    if (picture.lanes == 0)
        add_lane(&picture, none, "marks");
    return &picture;
}

/* ---- rows */

int least(int a, int b)
{
    return a < b ? a : b;
}

int greatest(int a, int b)
{
    return a > b ? a : b;
}

struct window reach_of(struct marks marks)
{
    struct window reach = {STRIP_PLACE_MOST, STRIP_PLACE_LEAST};
    size_t i;
    for (i = 0; i < marks.count; i++) {
        reach.from = least(reach.from, marks.places[i] - marks.lengths[i]);
        reach.to = greatest(reach.to, marks.places[i] + marks.lengths[i]);
    }
    return reach;
}

int next_tick(int dot, int step)
{
    int over = dot % step;
    return over == 0 ? dot : dot - over + (over > 0 ? step : 0);
}

static int tick_before(int dot, int step)
{
    return next_tick(dot - step + 1, step);
}

int round_step(int at_least)
{
    static const int of_ten[] = {1, 2, 5};
    int power, i;
    for (power = 1;; power *= 10)
        for (i = 0; i < 3; i++)
            if (of_ten[i] * power >= at_least)
                return of_ten[i] * power;
}

struct rows rows_of(const struct picture *picture, int width, int step, bool shows_ends)
{
    struct window reach = reach_of(picture->marks);
    struct rows rows;
    rows.width = width;
    rows.step = step;
    rows.next = tick_before(reach.from, step);
    rows.end = reach.to + (shows_ends ? 0 : picture->gap);
    rows.shows_ends = shows_ends;
    return rows;
}

typedef int bound(const struct rows *rows, const struct label *label, int so_far);

/* Goes over the labels of all lanes. */
static int over_labels(const struct picture *picture, const struct rows *rows, bound *bound, int so_far)
{
    size_t lane, i;
    for (lane = 0; lane < picture->lanes; lane++)
        for (i = 0; i < picture->marks.count; i++)
            if (picture->lane[lane].labels[i].placed)
                so_far = bound(rows, &picture->lane[lane].labels[i], so_far);
    return so_far;
}

static int part_from_next(const struct rows *rows, const struct label *label, int so_far)
{
    return rows->next < label->right + rows->shows_ends ? least(so_far, greatest(label->left, rows->next)) : so_far;
}

/* The first dot, from the next row's on, at which a mark or a part of a label stands; a dot behind the end if there is none. */
static int next_part(const struct picture *picture, const struct rows *rows)
{
    int first = over_labels(picture, rows, part_from_next, rows->end + 1);
    size_t i;
    for (i = 0; i < picture->marks.count; i++)
        if (rows->next < picture->marks.places[i] + rows->shows_ends)
            first = least(first, picture->marks.places[i]);
    return first;
}

static int before_label(const struct rows *rows, const struct label *label, int so_far)
{
    return label->left < so_far && so_far < label->right + rows->shows_ends ? label->left : so_far;
}

/* Where a row ends: before a label that it would cut, if that leaves half of the row. */
static int end_of_row(const struct picture *picture, const struct rows *rows, int from)
{
    int full = from + rows->width, half = from + rows->width / 2, end = full, before;
    if (rows->end < full)
        return greatest(rows->end + 1, from + 2 * rows->step);
    do {
        before = end;
        end = over_labels(picture, rows, before_label, before);
    } while (end < before && end >= half);
    return end < half ? full : end;
}

bool next_row(const struct picture *picture, struct rows *rows, struct window *row)
{
    int part = next_part(picture, rows);
    if (part > rows->end)
        return false;
    row->from = greatest(rows->next, tick_before(part, rows->step));
    row->to = rows->next = end_of_row(picture, rows, row->from);
    return true;
}

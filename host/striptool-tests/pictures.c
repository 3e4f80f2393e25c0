/* `draw`: the words, the titles, the circles and the lines of a picture against what the calls give. */
#include "svg.h"

#include <stdio.h>
#include <string.h>

#define STRIPS 2200
#define LONG_ONES 10
#define PICTURES 40
#define CAPTION_ROOM 8000

/* Where the dots of a row are. */
struct ruler {
    int first_x, first_dot, scale, from, to, end_x;
};

/* The lowest line or box of the lanes before, and of those up to this one: lanes stand under each other. */
static int lowest_before, lowest;

static void lower(int y)
{
    lowest = y > lowest ? y : lowest;
}

static unsigned long rows_seen, parts_cut, touches_seen, gaps_seen;

static int x_of_dot(const struct ruler *ruler, int dot)
{
    return ruler->first_x + (dot - ruler->first_dot) * ruler->scale;
}

static bool read_ruler(const struct row_seen *row, struct ruler *ruler)
{
    const struct lane_seen *lane = &row->lane[0];
    size_t i;
    if (!expect(row->ticks >= 2, "fewer than two ticks, so no scale"))
        return false;
    ruler->first_x = row->tick[0].x;
    ruler->first_dot = row->tick[0].dot;
    ruler->scale = (row->tick[1].x - row->tick[0].x) / (row->tick[1].dot - row->tick[0].dot);
    for (i = 0; i < row->ticks; i++)
        if (!expect(row->tick[i].x == x_of_dot(ruler, row->tick[i].dot) && lane->line_from <= row->tick[i].x &&
                        row->tick[i].x <= lane->line_to,
                    "the tick %d is at x %d", row->tick[i].dot, row->tick[i].x))
            return false;
    if (!expect(ruler->scale > 0 && (lane->line_from - ruler->first_x) % ruler->scale == 0 &&
                    (lane->line_to - lane->line_from) % ruler->scale == 0,
                "the line from x %d to %d does not begin and end at dots", lane->line_from, lane->line_to))
        return false;
    ruler->from = ruler->first_dot + (lane->line_from - ruler->first_x) / ruler->scale;
    ruler->to = ruler->from + (lane->line_to - lane->line_from) / ruler->scale;
    ruler->end_x = lane->line_to;
    return true;
}

/* ---- one lane of one row */

/* What of a lane was seen in all rows: the dots of each label's parts, and whether its words were shown. */
struct lane_sum {
    bool drawn[STRIP_MARKS_FULL];
    int dots[STRIP_MARKS_FULL];
    bool number_shown[STRIP_MARKS_FULL], weight_shown[STRIP_MARKS_FULL];
};

static bool compare_label(const struct label_seen *seen, const char *name, const struct trial *trial, const struct span *span, size_t mark)
{
    return expect(seen->mark == (int)mark && seen->weight == trial->weights[mark - 1] && seen->side == span->side &&
                      seen->left == span->left && seen->right == span->right,
                  "%s: the title says mark %d, weight %d, side %d, %d to %d, not mark %zu, weight %d, side %d, %d to %d", name, seen->mark,
                  seen->weight, seen->side, seen->left, seen->right, mark, trial->weights[mark - 1], span->side, span->left, span->right);
}

/* A row has as many dots as these pixels hold, or ends before a label. */
#define ROW_PIXELS 960

/* The box ends one pixel inside the label's ends, or where the row ends, and there it is open. */
static void compare_box(const struct label_seen *seen, const struct lane_seen *lane, const struct ruler *ruler, const struct span *span)
{
    bool begins = ruler->from <= span->left, ends = span->right <= ruler->to;
    int x_left = begins ? x_of_dot(ruler, span->left) + 1 : lane->line_from;
    int x_right = ends ? x_of_dot(ruler, span->right) - 1 : ruler->end_x;
    expect(seen->box && seen->x_left == x_left && seen->x_right == x_right, "%s: the box of mark %d is from x %d to %d, not %d to %d",
           lane->name, seen->mark, seen->x_left, seen->x_right, x_left, x_right);
    expect(seen->line_left == begins && seen->line_right == ends && seen->closed == (begins && ends),
           "%s: the box of mark %d is open or closed where it should not be", lane->name, seen->mark);
    expect(span->side == STRIP_SIDE_ABOVE ? seen->bottom < lane->line_y : seen->top > lane->line_y,
           "%s: the box of mark %d is on the other side of the line", lane->name, seen->mark);
    expect(lowest_before < seen->top && seen->top < seen->bottom, "%s: the box of mark %d is from y %d to %d, behind y %d", lane->name,
           seen->mark, seen->top, seen->bottom, lowest_before);
    lower(seen->bottom);
    expect(ends || ruler->to - ruler->from == ROW_PIXELS / ruler->scale, "%s: a row of %d dots cuts the label of mark %d", lane->name,
           ruler->to - ruler->from, seen->mark);
    parts_cut += !begins || !ends;
}

/* Touching is marked where a label begins at the end of another on its side. */
static void compare_touch(const struct label_seen *seen, const struct lane_seen *lane, const struct ruler *ruler, const struct span *span,
                          const struct span *before)
{
    bool touches = before != NULL && before->right == span->left && ruler->from <= span->left;
    expect(seen->touches == touches, "%s: label %d %s where it %s", lane->name, seen->mark,
           seen->touches ? "is marked to touch" : "is not marked", touches ? "touches" : "does not touch");
    expect(!touches || seen->touch_x == x_of_dot(ruler, span->left), "%s: label %d touches at x %d", lane->name, seen->mark, seen->touch_x);
    touches_seen += touches;
}

/* Behind each label the dots of the gap that the row has, as a line; where they end there is a bar. */
static bool compare_gap(const struct gap_seen *seen, const struct lane_seen *lane, const struct ruler *ruler, const struct span *span,
                        uint8_t gap)
{
    int end = span->right + gap, from = span->right < ruler->from ? ruler->from : span->right, to = end > ruler->to ? ruler->to : end;
    gaps_seen++;
    return expect(seen->x == x_of_dot(ruler, from) && seen->width == (to - from) * ruler->scale && seen->bar == (to == end),
                  "%s: the gap behind %d is %d wide at x %d", lane->name, span->right, seen->width, seen->x) &&
           expect(span->side == STRIP_SIDE_ABOVE ? seen->y < lane->line_y : seen->y > lane->line_y, "%s: the gap behind %d is at y %d",
                  lane->name, span->right, seen->y);
}

static void compare_gaps(const struct lane_seen *lane, const struct trial *trial, uint8_t gap, const struct ruler *ruler,
                         const struct lane_tried *tried)
{
    size_t i, at = 0;
    for (i = 0; i < trial->count; i++) {
        const struct span *span = &tried->spans[i];
        if (gap == 0 || !span->placed || span->right >= ruler->to || span->right + gap <= ruler->from)
            continue;
        if (!expect(at < lane->gaps, "%s: label %zu has no gap", lane->name, i + 1) ||
            !compare_gap(&lane->gap[at++], lane, ruler, span, gap))
            return;
    }
    expect(at == lane->gaps, "%s: %zu gaps behind no label", lane->name, lane->gaps - at);
}

static void add_part(const struct label_seen *seen, const struct ruler *ruler, const struct span *span, size_t i, struct lane_sum *sum)
{
    int from = span->left < ruler->from ? ruler->from : span->left, to = span->right > ruler->to ? ruler->to : span->right;
    sum->dots[i] += to - from;
    sum->number_shown[i] = sum->number_shown[i] || seen->number_shown;
    sum->weight_shown[i] = sum->weight_shown[i] || seen->weight_shown;
}

static void compare_labels(const struct lane_seen *lane, const struct trial *trial, const struct ruler *ruler,
                           const struct lane_tried *tried, struct lane_sum *sum)
{
    const struct span *before[2] = {NULL, NULL};
    size_t i, at = 0;
    for (i = 0; i < trial->count; i++) {
        const struct span *span = &tried->spans[i];
        const struct label_seen *seen = &lane->label[at];
        if (span->placed && span->left < ruler->to && ruler->from < span->right) {
            if (!expect(at++ < lane->labels, "%s: no label of mark %zu", lane->name, i + 1) ||
                !compare_label(seen, lane->name, trial, span, i + 1))
                return;
            expect(!seen->odd_text, "%s: other words in the label of mark %zu", lane->name, i + 1);
            compare_box(seen, lane, ruler, span);
            compare_touch(seen, lane, ruler, span, before[span->side]);
            add_part(seen, ruler, span, i, sum);
        }
        if (span->placed)
            before[span->side] = span;
    }
    expect(at == lane->labels, "%s: %zu labels of marks that have none in this row", lane->name, lane->labels - at);
}

/* Circles at the marks, and for each mark without a label its number and weight; a mark at which a row ends is in both rows. */
static void compare_marks(const struct lane_seen *lane, const struct trial *trial, const struct ruler *ruler,
                          const struct lane_tried *tried, struct lane_sum *sum)
{
    size_t i, at = 0, bare_at = 0;
    for (i = 0; i < trial->count; i++) {
        const struct circle_seen *circle = &lane->circle[at];
        const struct bare_seen *bare = &lane->bare[bare_at];
        bool is_bare = !tried->spans[i].placed;
        if (trial->places[i] < ruler->from || ruler->to < trial->places[i])
            continue;
        sum->drawn[i] = true;
        if (!expect(at++ < lane->circles, "%s: no circle for mark %zu", lane->name, i + 1))
            return;
        expect(circle->bare == is_bare && circle->mark == !is_bare, "%s: the circle of mark %zu says it is %s", lane->name, i + 1,
               circle->bare ? "bare" : "labelled");
        expect(circle->x == x_of_dot(ruler, trial->places[i]) && circle->y == lane->line_y, "%s: the circle of mark %zu is at x %d",
               lane->name, i + 1, circle->x);
        if (is_bare && expect(bare_at++ < lane->bares, "%s: no words for bare mark %zu", lane->name, i + 1))
            expect(bare->number == (int)i + 1 && bare->weight == trial->weights[i], "%s: bare mark %zu has the words of %d w%d", lane->name,
                   i + 1, bare->number, bare->weight);
    }
    expect(at == lane->circles && bare_at == lane->bares, "%s: %zu circles and %zu bare marks too many", lane->name, lane->circles - at,
           lane->bares - bare_at);
}

/* ---- where a row ends */

static bool cuts_a_label(const struct trial *trial, const struct lane_tried *lanes, size_t lane_count, int dot)
{
    size_t lane, i;
    for (lane = 0; lane < lane_count; lane++)
        for (i = 0; i < trial->count; i++)
            if (lanes[lane].spans[i].placed && lanes[lane].spans[i].left < dot && dot < lanes[lane].spans[i].right)
                return true;
    return false;
}

/* A row that ends in a label had no other end in its second half. */
static void compare_end(const struct ruler *ruler, const struct trial *trial, const struct lane_tried *lanes, size_t lane_count)
{
    int dot;
    if (!cuts_a_label(trial, lanes, lane_count, ruler->to))
        return;
    for (dot = (ruler->from + ruler->to + 1) / 2; dot < ruler->to; dot++)
        expect(cuts_a_label(trial, lanes, lane_count, dot), "a row to %d cuts a label, and could end at %d", ruler->to, dot);
}

/* ---- the picture */

static struct lane_sum sums[3];

static bool compare_row(const struct row_seen *row, const struct trial *trial, uint8_t gap, const struct lane_tried *lanes,
                        size_t lane_count, int width, int *end)
{
    struct ruler ruler;
    size_t i;
    rows_seen++;
    if (!expect(row->lanes == lane_count, "%zu lanes, not %zu", row->lanes, lane_count) || !read_ruler(row, &ruler))
        return false;
    expect(ruler.from >= *end, "a row from %d on, behind one to %d", ruler.from, *end);
    *end = ruler.to;
    expect(ruler.end_x <= width, "the picture is %d wide, and a row ends at x %d", width, ruler.end_x);
    compare_end(&ruler, trial, lanes, lane_count);
    for (i = 0; i < lane_count; i++) {
        const struct lane_seen *lane = &row->lane[i];
        if (!expect(strcmp(lane->name, lanes[i].name) == 0 && lane->line_from == row->lane[0].line_from && lane->line_to == ruler.end_x,
                    "lane %s, not %s, or another line", lane->name, lanes[i].name))
            return false;
        lowest_before = lowest;
        expect(lowest_before < lane->line_y, "%s: the line is at y %d, behind y %d", lane->name, lane->line_y, lowest_before);
        lower(lane->line_y);
        compare_labels(lane, trial, &ruler, &lanes[i], &sums[i]);
        compare_gaps(lane, trial, gap, &ruler, &lanes[i]);
        compare_marks(lane, trial, &ruler, &lanes[i], &sums[i]);
    }
    return true;
}

/* Over all rows, each mark is drawn, and each label whole, with its number and weight in some row. */
static void compare_sums(const struct trial *trial, const struct lane_tried *lanes, size_t lane_count)
{
    size_t lane, i;
    for (lane = 0; lane < lane_count; lane++) {
        for (i = 0; i < trial->count; i++) {
            expect(sums[lane].drawn[i], "%s: mark %zu is in no row", lanes[lane].name, i + 1);
            if (lanes[lane].spans[i].placed) {
                expect(sums[lane].dots[i] == trial->lengths[i], "%s: %d dots of label %zu are drawn", lanes[lane].name, sums[lane].dots[i],
                       i + 1);
                expect(sums[lane].number_shown[i] && sums[lane].weight_shown[i], "%s: label %zu does not show its number and weight",
                       lanes[lane].name, i + 1);
            }
        }
    }
}

static void compare_picture(const char *svg, const struct trial *trial, uint8_t gap)
{
    static struct direct answers[3];
    static struct picture_seen picture;
    static struct row_seen row;
    static char caption[CAPTION_ROOM];
    struct lane_tried lanes[3];
    size_t lane_count;
    int end = 2 * STRIP_PLACE_LEAST;
    ask_all(trial, gap, answers);
    lane_count = lanes_of(answers, lanes);
    memset(sums, 0, sizeof sums);
    lowest = 0;
    if (!expect(begin_svg(svg, &picture), "no picture"))
        return;
    caption_of(trial, gap, answers, caption, sizeof caption);
    expect(strcmp(picture.caption, caption) == 0, "it says %.300s, not %.300s", picture.caption, caption);
    while (next_svg_row(&picture, &row))
        if (!compare_row(&row, trial, gap, lanes, lane_count, picture.width, &end))
            return;
    compare_sums(trial, lanes, lane_count);
    expect(lowest < picture.height, "the picture is %d high, and something is at y %d", picture.height, lowest);
}

static void make_picture(struct trial *trial, int number)
{
    if (number % 5 == 0)
        narrow_trial(trial);
    else if (number % 5 == 1)
        crowded_trial(trial, (size_t)between(1, STRIP_MARKS_SLIDE));
    else
        random_trial(trial, (size_t)(number <= LONG_ONES ? between(61, STRIP_MARKS_JOB) : between(0, 25)));
}

static void compare_drawn(const struct trial *trial, uint8_t gap)
{
    const struct outcome *outcome = run_on("draw", trial, gap);
    if (expect_done(outcome))
        compare_picture(outcome->out, trial, gap);
}

void try_pictures(void)
{
    char what[300];
    begin_group("draw");
    seed(5);
    try_strips(STRIPS, make_picture, compare_drawn);
    snprintf(what, sizeof what, "strips, as the calls say: %lu rows, %lu parts of labels cut, %lu touching labels, %lu gaps", rows_seen,
             parts_cut, touches_seen, gaps_seen);
    expect(parts_cut > 1000 && touches_seen > 300 && gaps_seen > 1000, "few labels are cut, touch or have gaps, so little is tried");
    end_group(what);
}

/* ---- scales */

/* Each row of a drawing has a tick with its dot, or else it does not say where on the line it is. */
static void try_scale(int place, int length)
{
    static struct picture_seen picture;
    static struct row_seen row;
    static struct trial trial;
    const struct outcome *outcome;
    const char *dots;
    begin_case("one mark at %d with a label of %d dots", place, length);
    trial.count = 1;
    trial.places[0] = (int16_t)place;
    trial.lengths[0] = (uint8_t)length;
    trial.weights[0] = 1;
    outcome = run_on("draw", &trial, 1);
    expect(begin_svg(outcome->out, &picture) && next_svg_row(&picture, &row) && row.ticks > 0, "the picture has no tick");
    outcome = run_on("draw --text", &trial, 1);
    dots = strstr(outcome->out, "\ndots");
    expect(dots != NULL && strchr(dots, '|') != NULL, "the drawing for a terminal has no tick");
}

void try_scales(void)
{
    int place, length;
    begin_group("scales");
    for (place = -11; place <= 11; place++)
        for (length = 1; length <= 12; length++)
            try_scale(place, length);
    for (length = 1; length <= 12; length++)
        try_scale(-29997, length);
    end_group("marks alone, each drawn over a scale with a tick");
}

/* ---- rows */

#define STRIPS_OF_ROWS 1000

static bool has_parts(const struct row_seen *row)
{
    size_t i;
    for (i = 0; i < row->lanes; i++)
        if (row->lane[i].circles > 0 || row->lane[i].labels > 0)
            return true;
    return false;
}

static void make_few(struct trial *trial, int number)
{
    (void)number;
    crowded_trial(trial, (size_t)between(1, 10));
}

static void expect_full_rows(const struct trial *trial, uint8_t gap)
{
    static struct picture_seen picture;
    static struct row_seen row;
    begin_svg(run_on("draw", trial, gap)->out, &picture);
    while (next_svg_row(&picture, &row))
        expect(has_parts(&row), "a row that begins at %d has no mark and no part of a label", row.ticks > 0 ? row.tick[0].dot : 0);
}

/* A row that has no mark and no part of a label is not drawn. */
void try_rows(void)
{
    begin_group("draw, rows");
    seed(11);
    try_strips(STRIPS_OF_ROWS, make_few, expect_full_rows);
    end_group("strips, each row with a mark or a part of a label");
}

/* ---- pictures for an XML parser */

int write_pictures(const char *folder)
{
    static struct trial trial;
    int i;
    begin_group("pictures");
    seed(8);
    for (i = 0; i < PICTURES; i++) {
        static const size_t counts[] = {0, 1, 61, 240, 1000, STRIP_MARKS_JOB};
        const struct outcome *outcome;
        char name[400];
        FILE *file;
        begin_case("picture %d", i);
        random_trial(&trial, i < 6 ? counts[i] : (size_t)between(0, STRIP_MARKS_SLIDE));
        outcome = run_on("draw", &trial, (uint8_t)(i % 9));
        expect_done(outcome);
        snprintf(name, sizeof name, "%s/%d.svg", folder, i);
        file = fopen(name, "wb");
        if (!expect(file != NULL, "%s cannot be written", name))
            return 1;
        fwrite(outcome->out, 1, outcome->out_length, file);
        if (!expect(fclose(file) == 0, "%s cannot be written", name))
            return 1;
    }
    end_group("pictures written");
    return differences_of_all() == 0 ? 0 : 1;
}

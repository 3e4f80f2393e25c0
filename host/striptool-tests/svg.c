/* Reads a picture tag by tag. That it is XML at all is for an XML parser to say. */
#include "svg.h"

#include <stdio.h>
#include <string.h>

/* A tag, and the text behind it up to the next tag. */
struct tag {
    const char *from, *text;
    size_t length, text_length;
};

static bool next_tag(const char **at, struct tag *tag)
{
    const char *from = strchr(*at, '<'), *end = from == NULL ? NULL : strchr(from, '>');
    if (end == NULL)
        return false;
    tag->from = from + 1;
    tag->length = (size_t)(end - from) - 1;
    tag->text = end + 1;
    tag->text_length = strcspn(end + 1, "<");
    *at = end + 1;
    return true;
}

static bool is_tag(const struct tag *tag, const char *name)
{
    size_t length = strlen(name);
    return tag->length >= length && strncmp(tag->from, name, length) == 0 &&
           (tag->length == length || strchr(" /", tag->from[length]) != NULL);
}

/* The value of an attribute; empty if it has none. */
static const char *attribute(const struct tag *tag, const char *name)
{
    static char kept[4][200];
    static int turn;
    char *value = kept[turn = (turn + 1) % 4], wanted[40];
    const char *found = tag->from, *end = tag->from + tag->length;
    size_t length = (size_t)snprintf(wanted, sizeof wanted, " %s=\"", name);
    value[0] = '\0';
    for (; found + length <= end; found++)
        if (strncmp(found, wanted, length) == 0) {
            snprintf(value, sizeof kept[0], "%.*s", (int)strcspn(found + length, "\""), found + length);
            break;
        }
    return value;
}

static bool has_class(const struct tag *tag, const char *name)
{
    return strcmp(attribute(tag, "class"), name) == 0;
}

static int number_of(const struct tag *tag, const char *name)
{
    int number = -99999;
    sscanf(attribute(tag, name), "%d", &number);
    return number;
}

static const char *text_of(const struct tag *tag)
{
    static char kept[400];
    snprintf(kept, sizeof kept, "%.*s", (int)tag->text_length, tag->text);
    return kept;
}

/* ---- labels */

/* A box is four lines, or three and open where the row cuts it, or two lines if it is cut at both ends. */
static void take_box(const char *d, struct label_seen *label)
{
    int a, b, c, e, f, used = 0;
    label->box = true;
    if (sscanf(d, "M%d %dH%dM%d %dH%d%n", &a, &b, &c, &e, &f, &label->x_right, &used) == 6 && d[used] == '\0') {
        label->x_left = a;
        label->top = b;
        label->bottom = f;
        label->box = e == a && label->x_right == c;
    } else if (sscanf(d, "M%d %dH%dV%dH%d%n", &a, &b, &c, &e, &f, &used) == 5) {
        label->x_left = a < c ? a : c;
        label->x_right = a < c ? c : a;
        label->top = b;
        label->bottom = e;
        label->closed = strcmp(d + used, "Z") == 0;
        label->line_left = label->closed || c < a;
        label->line_right = label->closed || c > a;
        label->box = f == a && (label->closed || d[used] == '\0');
    } else {
        label->box = false;
    }
}

static void take_title(const char *title, struct label_seen *label)
{
    char side[8];
    int used = 0;
    label->side = -1;
    if (sscanf(title, "mark %d, weight %d: %7[a-z], %d to %d%n", &label->mark, &label->weight, side, &label->left, &label->right, &used) ==
            5 &&
        title[used] == '\0')
        label->side = strcmp(side, "above") == 0 ? STRIP_SIDE_ABOVE : strcmp(side, "below") == 0 ? STRIP_SIDE_BELOW : -1;
}

/* Number and weight, in one text or in two. */
static void take_text(const char *text, int *number, int *weight, bool *odd)
{
    int first, second, used = 0;
    if (sscanf(text, "%d w%d%n", &first, &second, &used) == 2 && text[used] == '\0') {
        *number = first;
        *weight = second;
    } else if (sscanf(text, "w%d%n", &second, &used) == 1 && text[used] == '\0') {
        *weight = second;
    } else if (sscanf(text, "%d%n", &first, &used) == 1 && text[used] == '\0') {
        *number = first;
    } else {
        *odd = true;
    }
}

static void take_path_of_label(const struct tag *tag, struct label_seen *label)
{
    const char *d = attribute(tag, "d");
    if (has_class(tag, "touch")) {
        label->touches = sscanf(d, "M%d", &label->touch_x) == 1;
    } else {
        take_box(d, label);
    }
}

static void take_label(const char **at, struct lane_seen *lane)
{
    struct label_seen *label = &lane->label[lane->labels++];
    struct tag tag;
    memset(label, 0, sizeof *label);
    label->side = -1;
    while (next_tag(at, &tag) && !is_tag(&tag, "/g")) {
        int number = label->mark, weight = label->weight;
        if (is_tag(&tag, "title"))
            take_title(text_of(&tag), label);
        else if (is_tag(&tag, "path"))
            take_path_of_label(&tag, label);
        else if (is_tag(&tag, "text")) {
            number = weight = -1;
            take_text(text_of(&tag), &number, &weight, &label->odd_text);
            label->number_shown = label->number_shown || number == label->mark;
            label->weight_shown = label->weight_shown || weight == label->weight;
            label->odd_text = label->odd_text || (number != -1 && number != label->mark) || (weight != -1 && weight != label->weight);
        }
    }
}

/* ---- lanes */

static void take_bare(const char **at, struct lane_seen *lane)
{
    struct bare_seen *bare = &lane->bare[lane->bares++];
    struct tag tag;
    bool odd = false;
    bare->number = bare->weight = -1;
    while (next_tag(at, &tag) && !is_tag(&tag, "/g"))
        if (is_tag(&tag, "text"))
            take_text(text_of(&tag), &bare->number, &bare->weight, &odd);
    if (odd)
        bare->number = -1;
}

static void take_gap(const struct tag *tag, struct lane_seen *lane)
{
    struct gap_seen *gap = &lane->gap[lane->gaps++];
    const char *d = attribute(tag, "d");
    int used = 0, up = 0, down = 0;
    gap->width = -1;
    sscanf(d, "M%d %dh%d%n", &gap->x, &gap->y, &gap->width, &used);
    gap->bar = sscanf(d + used, "m0 %dv%d", &up, &down) == 2 && up < 0 && down == -2 * up;
    if (!gap->bar && d[used] != '\0')
        gap->width = -1;
}

static void take_circle(const struct tag *tag, struct lane_seen *lane)
{
    struct circle_seen *circle = &lane->circle[lane->circles++];
    circle->bare = has_class(tag, "bare");
    circle->mark = has_class(tag, "mark");
    circle->x = number_of(tag, "cx");
    circle->y = number_of(tag, "cy");
}

/* A lane has its name, then groups: of dotted lines with the texts of bare marks in groups of their own, of labels and gaps, and of marks.
 */
static void take_lane(const char **at, struct lane_seen *lane)
{
    struct tag tag;
    int depth = 1;
    lane->name[0] = '\0';
    lane->labels = lane->gaps = lane->circles = lane->bares = 0;
    lane->line_from = lane->line_to = lane->line_y = 0;
    while (depth > 0 && next_tag(at, &tag) && lane->labels < LABELS_SEEN && lane->gaps < LABELS_SEEN && lane->circles < LABELS_SEEN &&
           lane->bares < LABELS_SEEN)
        if (is_tag(&tag, "g") && has_class(&tag, "label"))
            take_label(at, lane);
        else if (is_tag(&tag, "g") && depth == 2)
            take_bare(at, lane);
        else if (is_tag(&tag, "g"))
            depth++;
        else if (is_tag(&tag, "/g"))
            depth--;
        else if (is_tag(&tag, "text") && depth == 1)
            snprintf(lane->name, sizeof lane->name, "%.39s", text_of(&tag));
        else if (is_tag(&tag, "circle"))
            take_circle(&tag, lane);
        else if (is_tag(&tag, "path") && has_class(&tag, "gap"))
            take_gap(&tag, lane);
        else if (is_tag(&tag, "path") && strchr(attribute(&tag, "d"), 'H') != NULL)
            sscanf(attribute(&tag, "d"), "M%d %dH%d", &lane->line_from, &lane->line_y, &lane->line_to);
}

/* ---- rows */

/* A tick is an upright line, and its dot is the text behind it. */
static void take_scale(const char **at, struct row_seen *row)
{
    struct tag tag;
    int x = 0, used = 0;
    bool tick = false;
    row->ticks = 0;
    while (next_tag(at, &tag) && !is_tag(&tag, "/g") && row->ticks < TICKS_SEEN)
        if (is_tag(&tag, "path")) {
            tick = sscanf(attribute(&tag, "d"), "M%d %*dv%*d%n", &x, &used) == 1 && used > 0;
            used = 0;
        } else if (is_tag(&tag, "text") && tick) {
            row->tick[row->ticks].x = number_of(&tag, "x") == x ? x : -99999;
            sscanf(text_of(&tag), "%d", &row->tick[row->ticks++].dot);
            tick = false;
        }
}

bool next_svg_row(struct picture_seen *picture, struct row_seen *row)
{
    struct tag tag;
    row->lanes = 0;
    while (next_tag(&picture->at, &tag)) {
        if (!is_tag(&tag, "g"))
            continue;
        if (has_class(&tag, "lane") && row->lanes < LANES_SEEN) {
            take_lane(&picture->at, &row->lane[row->lanes++]);
        } else {
            take_scale(&picture->at, row);
            return true;
        }
    }
    return false;
}

bool begin_svg(const char *svg, struct picture_seen *picture)
{
    struct tag tag;
    const char *before;
    picture->at = svg;
    picture->caption[0] = '\0';
    if (!next_tag(&picture->at, &tag) || !is_tag(&tag, "svg"))
        return false;
    picture->width = number_of(&tag, "width");
    picture->height = number_of(&tag, "height");
    for (before = picture->at; next_tag(&picture->at, &tag) && !is_tag(&tag, "g") && !is_tag(&tag, "/svg"); before = picture->at)
        if (is_tag(&tag, "text") && attribute(&tag, "xml:space")[0] != '\0') {
            size_t used = strlen(picture->caption);
            const char *words = text_of(&tag);
            snprintf(picture->caption + used, sizeof picture->caption - used, "%s%s", used > 0 ? " " : "", words + strspn(words, " "));
        }
    picture->at = before;
    return true;
}

/* What the proved calls give, and where labels end by the manual's table of positions. */
#include "tests.h"

#include <stdio.h>
#include <string.h>

/* By position: the side, and how many lengths the label begins to the left of its mark. */
static const struct {
    bool placed;
    int side, lengths_left;
} of_position[] = {
    {false, 0, 0},               /* none */
    {true, STRIP_SIDE_ABOVE, 0}, /* 1: above, from the place */
    {true, STRIP_SIDE_ABOVE, 1}, /* 2: above, to the place */
    {true, STRIP_SIDE_BELOW, 1}, /* 3: below, to the place */
    {true, STRIP_SIDE_BELOW, 0}, /* 4: below, from the place */
};

static void take_positions(const struct trial *trial, size_t from, size_t to, const uint8_t *positions, struct direct *direct)
{
    size_t i;
    for (i = from - 1; direct->number == STRIP_ACCEPTED && i < to; i++) {
        struct span *span = &direct->spans[i + 1 - from];
        span->placed = of_position[positions[i + 1 - from]].placed;
        span->side = of_position[positions[i + 1 - from]].side;
        span->left = trial->places[i] - of_position[positions[i + 1 - from]].lengths_left * trial->lengths[i];
        span->right = span->left + trial->lengths[i];
    }
}

#define MARKS_OF(trial, from, to)                                                                                                          \
    (trial)->places + (from)-1, (to) + 1 - (from), (trial)->lengths + (from)-1, (to) + 1 - (from), (trial)->weights + (from)-1,            \
        (to) + 1 - (from)

void ask_full(const struct trial *trial, size_t from, size_t to, uint8_t gap, struct direct *direct)
{
    static int16_t work[STRIP_WORK_FULL];
    static uint8_t positions[STRIP_MARKS_FULL];
    direct->number = strip_full(MARKS_OF(trial, from, to), gap, positions, STRIP_MARKS_FULL, work, STRIP_WORK_FULL);
    take_positions(trial, from, to, positions, direct);
}

void ask_slide(const struct trial *trial, size_t from, size_t to, uint8_t gap, struct direct *direct)
{
    static uint16_t work[STRIP_WORK_SLIDE];
    static uint8_t sides[STRIP_MARKS_SLIDE];
    static int16_t edges[STRIP_MARKS_SLIDE];
    size_t i;
    direct->number =
        strip_slide(MARKS_OF(trial, from, to), gap, sides, STRIP_MARKS_SLIDE, edges, STRIP_MARKS_SLIDE, work, STRIP_WORK_SLIDE);
    for (i = 0; direct->number == STRIP_ACCEPTED && i + from <= to; i++) {
        direct->spans[i].placed = true;
        direct->spans[i].side = sides[i];
        direct->spans[i].left = edges[i];
        direct->spans[i].right = edges[i] + trial->lengths[from - 1 + i];
    }
}

void ask_best(const struct trial *trial, size_t from, size_t to, uint8_t gap, struct direct *direct)
{
    static uint32_t work[STRIP_WORK_BEST];
    static uint8_t positions[STRIP_MARKS_BEST];
    direct->number = strip_best(MARKS_OF(trial, from, to), gap, positions, STRIP_MARKS_BEST, direct->left_out, STRIP_MARKS_BEST, work,
                                STRIP_WORK_BEST, &direct->sum, &direct->count);
    take_positions(trial, from, to, positions, direct);
}

void ask_all(const struct trial *trial, uint8_t gap, struct direct answers[3])
{
    ask_full(trial, 1, trial->count, gap, &answers[0]);
    ask_slide(trial, 1, trial->count, gap, &answers[1]);
    ask_best(trial, 1, trial->count, gap, &answers[2]);
}

/* ---- what a drawing should say of these answers */

static const char *const names_of_passes[3] = {"full", "slide", "best"};

const char *verdict_words(const char *pass, uint8_t number)
{
    switch (number) {
    case STRIP_TOO_MANY_MARKS:
        return strcmp(pass, "full") == 0 ? "over 4,000 marks" : "over 60 marks, all of them good";
    case STRIP_NO_PLACING:
        return "not every mark can have a label";
    default:
        return "words that no verdict has";
    }
}

static void append(char *caption, size_t room, const char *words)
{
    size_t length = strlen(caption);
    snprintf(caption + length, room - length, "%s%s", length > 0 ? " " : "", words);
}

static void append_best(const struct trial *trial, const struct direct *direct, char *caption, size_t room)
{
    char words[64];
    unsigned long all = 0;
    size_t i;
    for (i = 0; i < trial->count; i++)
        all += trial->weights[i];
    snprintf(words, sizeof words, "%lu of %lu; %s", (unsigned long)direct->sum, all,
             direct->count == 0 ? "all with a label" : "without a label:");
    append(caption, room, words);
    for (i = 0; i < direct->count; i++) {
        snprintf(words, sizeof words, "%d (weight %d)%s", direct->left_out[i], trial->weights[direct->left_out[i] - 1],
                 i + 1 < direct->count ? "," : "");
        append(caption, room, words);
    }
}

void caption_of(const struct trial *trial, uint8_t gap, const struct direct answers[3], char *caption, size_t room)
{
    char words[120];
    size_t i;
    snprintf(caption, room, "marks %zu, gap %d", trial->count, gap);
    for (i = 0; i < 3; i++) {
        snprintf(words, sizeof words, "%s:", names_of_passes[i]);
        append(caption, room, words);
        if (answers[i].number != STRIP_ACCEPTED) {
            snprintf(words, sizeof words, "%d, %s", answers[i].number, verdict_words(names_of_passes[i], answers[i].number));
            append(caption, room, words);
        } else if (i < 2) {
            append(caption, room, "every mark has a label");
        } else {
            append_best(trial, &answers[i], caption, room);
        }
    }
}

/* A lane for each pass that gives labels; where none does, one for the marks alone. */
size_t lanes_of(const struct direct answers[3], struct lane_tried lanes[3])
{
    static const struct span none[STRIP_MARKS_FULL];
    size_t count = 0, i;
    for (i = 0; i < 3; i++)
        if (answers[i].number == STRIP_ACCEPTED) {
            lanes[count].name = names_of_passes[i];
            lanes[count++].spans = answers[i].spans;
        }
    if (count == 0) {
        lanes[count].name = "marks";
        lanes[count++].spans = none;
    }
    return count;
}

/* `draw --text`: the words above the drawing, and the drawing itself. */
#include "tests.h"

#include <stdio.h>
#include <string.h>

#define ONE_ROW 2400
#define MANY_ROWS 1500
#define LONG_ONES 12
#define CAPTION_COLUMNS 78
#define CAPTION_ROOM 8000

/* Takes the words before the first blank line, as one line with single blanks. */
static void take_caption(const char **text, char *caption, size_t room)
{
    char line[LINE_TRIED];
    const char *before = *text;
    caption[0] = '\0';
    while (take_line(text, line) && line[0] != '\0') {
        size_t used = strlen(caption);
        expect(strlen(line) <= CAPTION_COLUMNS, "a line of words of %zu columns", strlen(line));
        snprintf(caption + used, room - used, "%s%s", used > 0 ? " " : "", line + strspn(line, " "));
        before = *text;
    }
    *text = before;
}

static void compare_sketch(const struct trial *trial, uint8_t gap)
{
    static struct direct answers[3];
    static char caption[CAPTION_ROOM], said[CAPTION_ROOM];
    struct lane_tried lanes[3];
    const struct outcome *outcome = run_on("draw --text", trial, gap);
    const char *text = outcome->out;
    ask_all(trial, gap, answers);
    if (!expect_done(outcome))
        return;
    caption_of(trial, gap, answers, caption, sizeof caption);
    take_caption(&text, said, sizeof said);
    expect(strcmp(said, caption) == 0, "it says %.300s, not %.300s", said, caption);
    text = compare_rows(text, trial, 1, trial->count, lanes, lanes_of(answers, lanes));
    expect(*text == '\0', "behind the drawing stands %.200s", text);
}

static void make_narrow(struct trial *trial, int number)
{
    (void)number;
    narrow_trial(trial);
}

static void compare_one_row(const struct trial *trial, uint8_t gap)
{
    struct sketched before = sketched;
    compare_sketch(trial, gap);
    expect(sketched.rows - before.rows == (trial->count > 0) && sketched.cut == before.cut, "%lu rows", sketched.rows - before.rows);
}

static void try_one_row(void)
{
    begin_group("draw --text, one row");
    seed(4);
    try_strips(ONE_ROW, make_narrow, compare_one_row);
    end_group("strips, read back: marks, sides and ends of each pass's labels, and their numbers, are those of the calls");
}

static void make_wide(struct trial *trial, int number)
{
    random_trial(trial, (size_t)(number <= LONG_ONES ? between(61, STRIP_MARKS_JOB) : between(1, STRIP_MARKS_SLIDE)));
}

static void try_many_rows(void)
{
    struct sketched before = sketched;
    char what[200];
    begin_group("draw --text, many rows");
    try_strips(MANY_ROWS, make_wide, compare_sketch);
    snprintf(what, sizeof what, "strips, read back as if they were not wrapped: %lu rows, %lu of them with a label from the row before",
             sketched.rows - before.rows, sketched.cut - before.cut);
    expect(sketched.cut - before.cut > 1000, "few rows cut labels, so little is tried");
    end_group(what);
}

void try_sketches(void)
{
    try_one_row();
    try_many_rows();
}

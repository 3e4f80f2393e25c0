/* `why`: the smallest run against a search over all runs by direct calls, and what is printed of it. */
#include "tests.h"

#include "striptool.h"

#include <stdio.h>
#include <string.h>

#define STRIPS 3600
#define MARKS_SEARCHED 40
#define LONG_STRIPS 72

/* ---- the definition, tried on every run */

struct run {
    bool fails;
    size_t first, last;
};

/* By first and last mark, from 1; a run of no marks fits. */
static bool fits[MARKS_SEARCHED + 2][MARKS_SEARCHED + 2];

static void ask_all_runs(ask *pass, const struct trial *trial, uint8_t gap)
{
    static struct direct direct;
    size_t i, j;
    for (i = 1; i <= trial->count + 1; i++)
        fits[i][i - 1] = true;
    for (i = 1; i <= trial->count; i++)
        for (j = i; j <= trial->count; j++) {
            pass(trial, i, j, gap, &direct);
            fits[i][j] = direct.number == STRIP_ACCEPTED;
            expect(fits[i][j] || direct.number == STRIP_NO_PLACING, "a run is refused %d", direct.number);
        }
}

/* The run with the least last mark that does not fit, and does without its first mark and without its last. */
static struct run search(ask *pass, const struct trial *trial, uint8_t gap)
{
    struct run run = {false, 0, 0};
    size_t i, j;
    ask_all_runs(pass, trial, gap);
    for (j = 1; j <= trial->count && !run.fails; j++)
        for (i = 1; i <= j; i++)
            if (!fits[i][j] && fits[i + 1][j] && fits[i][j - 1]) {
                expect(!run.fails, "two runs end at mark %zu", j);
                run.fails = true;
                run.first = i;
                run.last = j;
            }
    expect(run.fails == (trial->count > 0 && !fits[1][trial->count]), "a strip without such a run does not fit");
    return run;
}

/* ---- what is found, and in how many calls */

/* 1 and two halvings of n marks. */
static size_t calls_allowed(size_t count)
{
    size_t halvings = 0, reached = 1;
    for (; reached < count; reached *= 2)
        halvings++;
    return 1 + 2 * halvings;
}

/* The passes, with each call counted. */
static size_t counted;

static void counted_full(struct marks marks, uint8_t gap, struct answer *answer)
{
    counted++;
    full(marks, gap, answer);
}

static void counted_slide(struct marks marks, uint8_t gap, struct answer *answer)
{
    counted++;
    slide(marks, gap, answer);
}

static size_t compare_found(pass *tried, const struct trial *trial, uint8_t gap, struct run run)
{
    struct marks marks = {trial->places, trial->lengths, trial->weights, trial->count, 1};
    struct found found;
    counted = 0;
    found = smallest_run(tried, marks, gap);
    expect(found.calls == counted, "it says %zu calls, and makes %zu", found.calls, counted);
    expect(found.fails == run.fails, "smallest_run says %s", found.fails ? "none" : "fits");
    if (found.fails && run.fails)
        expect(found.run.first == run.first && found.run.first + found.run.count - 1 == run.last,
               "smallest_run gives %zu to %zu, not %zu to %zu", found.run.first, found.run.first + found.run.count - 1, run.first,
               run.last);
    expect(found.calls <= calls_allowed(trial->count), "%zu calls for %zu marks", found.calls, trial->count);
    return found.calls;
}

/* ---- what is printed */

static bool expect_line(const char **text, const char *expected)
{
    char line[LINE_TRIED] = "";
    take_line(text, line);
    return expect(strcmp(line, expected) == 0, "a line is \"%.150s\", not \"%s\"", line, expected);
}

/* The table: the numbers that stand on its lines are those of the marks. */
static void compare_table(const char **text, const struct trial *trial, struct run run)
{
    char line[LINE_TRIED];
    size_t i;
    expect_line(text, "");
    expect(take_line(text, line) && strstr(line, "mark   place  length  weight") != NULL, "no head of the table, but %s", line);
    for (i = run.first; i <= run.last; i++) {
        size_t mark = 0;
        int place = 0, length = 0, weight = 0, left[2] = {0, 0}, right[2] = {0, 0};
        int fields = !take_line(text, line) ? 0
                                            : sscanf(line, "%zu %d %d %d %d to %d %d to %d", &mark, &place, &length, &weight, &left[0],
                                                     &left[1], &right[0], &right[1]);
        expect(fields == 8 && mark == i && place == trial->places[i - 1] && length == trial->lengths[i - 1] &&
                   weight == trial->weights[i - 1],
               "mark %zu has the line %s", i, line);
        expect(left[0] == place - length && left[1] == place && right[0] == place && right[1] == place + length,
               "mark %zu has the spans of %s", i, line);
    }
}

/* The drawing has the run without its first mark and without its last, as the pass places them. */
static void compare_drawing(const char **text, ask *pass, const struct trial *trial, uint8_t gap, struct run run)
{
    static struct direct but_first, but_last;
    static char names[2][40];
    struct lane_tried lanes[2];
    size_t count = run.last + 1 - run.first, i;
    pass(trial, run.first + 1, run.last, gap, &but_first);
    pass(trial, run.first, run.last - 1, gap, &but_last);
    for (i = count - 1; i > 0; i--)
        but_first.spans[i] = but_first.spans[i - 1];
    but_first.spans[0].placed = but_last.spans[count - 1].placed = false;
    snprintf(names[0], sizeof names[0], "without mark %zu", run.first);
    snprintf(names[1], sizeof names[1], "without mark %zu", run.last);
    lanes[0].name = names[0];
    lanes[0].spans = but_first.spans;
    lanes[1].name = names[1];
    lanes[1].spans = but_last.spans;
    *text = compare_rows(*text, trial, run.first, count, lanes, 2);
}

static void compare_section(const char **text, ask *pass, bool slides, const struct trial *trial, uint8_t gap, struct run run, size_t calls)
{
    char expected[200];
    if (!run.fails) {
        snprintf(expected, sizeof expected, "all marks can be labelled at gap %d%s", gap, slides ? " if labels slide" : "");
        expect_line(text, expected);
        return;
    }
    snprintf(expected, sizeof expected, "marks %zu to %zu cannot all be labelled%s", run.first, run.last,
             slides ? " even if labels slide" : "");
    if (!expect_line(text, expected))
        return;
    snprintf(expected, sizeof expected, "at gap %d; without mark %zu they can, and without mark %zu too (found by %zu calls)", gap,
             run.first, run.last, calls);
    expect_line(text, expected);
    compare_table(text, trial, run);
    compare_drawing(text, pass, trial, gap, run);
}

static const char *why_of(const struct trial *trial, uint8_t gap)
{
    const struct outcome *outcome = run_on("why", trial, gap);
    expect_done(outcome);
    return outcome->out;
}

/* ---- strips of which all runs are tried */

static unsigned long none_of_full, none_of_slide;

static void try_strip(const struct trial *trial, uint8_t gap)
{
    struct run of_full = search(ask_full, trial, gap), of_slide = search(ask_slide, trial, gap);
    size_t calls_of_full = compare_found(counted_full, trial, gap, of_full),
           calls_of_slide = compare_found(counted_slide, trial, gap, of_slide);
    const char *text = why_of(trial, gap);
    none_of_full += of_full.fails;
    none_of_slide += of_slide.fails;
    compare_section(&text, ask_full, false, trial, gap, of_full, calls_of_full);
    expect_line(&text, "");
    compare_section(&text, ask_slide, true, trial, gap, of_slide, calls_of_slide);
    expect(*text == '\0', "behind it stands %.100s", text);
}

static void make_crowded(struct trial *trial, int number)
{
    (void)number;
    crowded_trial(trial, (size_t)(one_in(10) ? between(3, MARKS_SEARCHED) : between(3, 14)));
}

void try_why(void)
{
    char what[200];
    begin_group("why");
    seed(6);
    try_strips(STRIPS, make_crowded, try_strip);
    snprintf(what, sizeof what, "strips of 3 to 40 marks, all their runs tried: full gives 11 for %lu, slide for %lu", none_of_full,
             none_of_slide);
    expect(none_of_full > STRIPS / 2 && none_of_slide > STRIPS / 3, "too few strips that do not fit, so little is tried");
    end_group(what);
}

/* ---- 4,000 marks, of which five are too close to each other */

#define SPOT_MARKS 5
#define SPOT_LENGTH 60
#define SPOT_STEP 4 /* so that of four of them two on a side are 8 dots apart, the widest gap */
#define SPOT_CLEAR 140
#define LONG_STEP 14
#define LONG_LENGTH 3

static bool in_spot(size_t mark, size_t spot)
{
    return spot <= mark && mark < spot + SPOT_MARKS;
}

/* Five marks within 16 dots, with labels of 60: a label that reaches from one of them covers the others on its side of the mark, so a side
 * holds two, one to the left and one to the right, and four find room but not five. Every other label is far from the next. */
static void spotted_trial(struct trial *trial, size_t count, size_t spot, size_t second)
{
    int at = STRIP_PLACE_LEAST;
    size_t mark;
    trial->count = count;
    for (mark = 1; mark <= count; mark++) {
        bool spotted = in_spot(mark, spot) || in_spot(mark, second);
        bool begins = mark == spot || mark == second || mark == spot + SPOT_MARKS || mark == second + SPOT_MARKS;
        at += mark == 1 ? 0 : begins ? SPOT_CLEAR : spotted ? SPOT_STEP : LONG_STEP;
        trial->places[mark - 1] = (int16_t)at;
        trial->lengths[mark - 1] = spotted ? SPOT_LENGTH : LONG_LENGTH;
        trial->weights[mark - 1] = 1;
    }
}

static void try_spot(const struct trial *trial, uint8_t gap, size_t spot)
{
    struct run run = {true, 0, 0};
    const char *text;
    size_t calls;
    run.first = spot;
    run.last = spot + SPOT_MARKS - 1;
    calls = compare_found(counted_full, trial, gap, run);
    text = why_of(trial, gap);
    expect(calls <= 25, "%zu calls", calls);
    compare_section(&text, ask_full, false, trial, gap, run, calls);
    expect(strcmp(text, "\nmore than 60 marks, so the slide pass is not asked\n") == 0, "behind it stands %.100s", text);
}

static size_t spot_of(int try)
{
    switch (try % 4) {
    case 0:
        return 1;
    case 1:
        return STRIP_MARKS_FULL / 2 - (size_t)(try % 3);
    case 2:
        return STRIP_MARKS_FULL + 1 - SPOT_MARKS;
    default:
        return (size_t)between(1, STRIP_MARKS_FULL - 2 * SPOT_MARKS);
    }
}

void try_long_why(void)
{
    static struct trial trial;
    int i;
    begin_group("why, long strips");
    seed(7);
    for (i = 0; i < LONG_STRIPS; i++) {
        size_t spot = spot_of(i), second = i % 4 == 3 ? (size_t)between((int)spot + SPOT_MARKS, STRIP_MARKS_FULL - SPOT_MARKS) : spot;
        begin_case("the spot at mark %zu, another at mark %zu, gap %d", spot, second, i % 9);
        spotted_trial(&trial, STRIP_MARKS_FULL, spot, second);
        try_spot(&trial, (uint8_t)(i % 9), spot);
    }
    begin_case("4,000 marks that all fit");
    spotted_trial(&trial, STRIP_MARKS_FULL, STRIP_MARKS_FULL + 1, STRIP_MARKS_FULL + 1);
    {
        const char *text = why_of(&trial, 1);
        expect(strcmp(text, "all marks can be labelled at gap 1\n\nmore than 60 marks, so the slide pass is not asked\n") == 0,
               "it says %.100s", text);
    }
    end_group("strips of 4,000 marks: the run is the crowded spot's, the first of two, by at most 25 calls");
}

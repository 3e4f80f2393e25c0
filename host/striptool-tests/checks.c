/* `check`: number, sum and count of each pass are those of the calls. Each is called for a fiftieth of a second, so few strips are tried.
 */
#include "tests.h"

#include <stdio.h>
#include <stdlib.h>
#include <string.h>

#define STRIPS 24

static void compare_pass(const char **text, const char *pass, const struct direct *direct, bool weighs)
{
    char line[LINE_TRIED] = "", name[20] = "", sum[20] = "", count[20] = "", unit[20] = "", expected_sum[20] = "-",
         expected_count[20] = "-";
    double time = 0;
    int number = -1;
    if (weighs && direct->number == STRIP_ACCEPTED) {
        snprintf(expected_sum, sizeof expected_sum, "%lu", (unsigned long)direct->sum);
        snprintf(expected_count, sizeof expected_count, "%zu", direct->count);
    }
    take_line(text, line);
    expect(sscanf(line, "%19s %d %19s %19s %lf %19s", name, &number, sum, count, &time, unit) == 6 && strcmp(unit, "us") == 0,
           "a line is %s", line);
    expect(strcmp(name, pass) == 0 && number == direct->number, "%s has the line %s", pass, line);
    expect(strcmp(sum, expected_sum) == 0 && strcmp(count, expected_count) == 0, "%s has sum %s and count %s, not %s and %s", pass, sum,
           count, expected_sum, expected_count);
    expect(time > 0 && time < 1e6, "%s took %f us", pass, time);
}

static void compare_check(const struct trial *trial, uint8_t gap)
{
    static struct direct answers[3];
    char line[LINE_TRIED] = "", expected[60];
    const struct outcome *outcome = run_on("check", trial, gap);
    const char *text = outcome->out;
    ask_all(trial, gap, answers);
    if (!expect_done(outcome))
        return;
    snprintf(expected, sizeof expected, "marks %zu, gap %d", trial->count, gap);
    expect(take_line(&text, line) && strcmp(line, expected) == 0, "the first line is %s", line);
    expect(take_line(&text, line) && strncmp(line, "pass ", 5) == 0, "the second line is %s", line);
    compare_pass(&text, "full", &answers[0], false);
    compare_pass(&text, "slide", &answers[1], false);
    compare_pass(&text, "best", &answers[2], true);
    expect(*text == '\0', "behind it stands %.100s", text);
}

/* Some with no marks, and some with more than slide and best take. */
static void make(struct trial *trial, int number)
{
    if (number % 4 == 0)
        random_trial(trial, number % 8 == 0 ? 61 : 0);
    else
        crowded_trial(trial, (size_t)between(1, 30));
}

void try_checks(void)
{
    begin_group("check");
    seed(9);
    try_strips(STRIPS, make, compare_check);
    end_group("strips, number, sum and count of each pass are those of the calls");
}

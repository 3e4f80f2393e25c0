/* Job to text and back, and text to job and back. */
#include "tests.h"

#include <stdio.h>
#include <stdlib.h>
#include <string.h>

#define TRIPS 10000

static bool is_comment(const char *line)
{
    return line[0] == '#';
}

/* The lines of the text, read by the C library, are the marks: three plain numbers each. */
static void compare_text(const char *text, const struct trial *trial)
{
    char line[LINE_TRIED], again[64];
    size_t mark = 0;
    while (take_line(&text, line)) {
        int place, length, weight;
        if (is_comment(line))
            continue;
        if (!expect(sscanf(line, "%d %d %d", &place, &length, &weight) == 3 && mark < trial->count, "no mark is on line %s", line))
            return;
        snprintf(again, sizeof again, "%d %d %d", place, length, weight);
        expect(strcmp(line, again) == 0, "a line with more than a mark: %s", line);
        expect(place == trial->places[mark] && length == trial->lengths[mark] && weight == trial->weights[mark], "mark %zu has the line %s",
               mark + 1, line);
        mark++;
    }
    expect(mark == trial->count, "%zu marks in the text, of %zu", mark, trial->count);
}

/* Text of a job, the job of this text, and the text of that job. */
static void trip(const uint8_t *job, size_t job_length, const struct trial *trial)
{
    const struct outcome *outcome = run_tool("text", job, job_length);
    size_t length = outcome->out_length;
    char *text = malloc(length + 1);
    memcpy(text, outcome->out, length + 1);
    if (expect_done(outcome)) {
        if (trial != NULL)
            compare_text(text, trial);
        outcome = run_tool("job", text, length);
        expect_done(outcome);
        expect(is_output(outcome, job, job_length), "the text makes another job, of %zu bytes, not %zu", outcome->out_length, job_length);
        outcome = run_tool("text", outcome->out, outcome->out_length);
        expect(is_output(outcome, text, length), "that job makes another text");
    }
    free(text);
}

static void try_trials(void)
{
    static struct trial trial;
    static uint8_t job[STRIP_JOB_MOST];
    int i;
    begin_group("round trips");
    seed(1);
    for (i = 1; i <= TRIPS; i++) {
        begin_case("strip %d", i);
        case_marks(&trial);
        random_trial(&trial, random_count());
        trip(job, job_of(&trial, job), &trial);
    }
    end_group("strips, job and text come back the same, and the text has their marks");
}

static void try_samples(void)
{
    static const char *const names[] = {"samples/strip11.job", "samples/empty.job", "samples/long.job"};
    static uint8_t job[STRIP_JOB_MOST + 1];
    size_t i;
    begin_group("round trips of samples");
    for (i = 0; i < sizeof names / sizeof names[0]; i++) {
        begin_case("%s", names[i]);
        trip(job, sample(names[i], job, sizeof job), NULL);
    }
    end_group("samples, job and text come back the same");
}

void try_round_trips(void)
{
    try_trials();
    try_samples();
}

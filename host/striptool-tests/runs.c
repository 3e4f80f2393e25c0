/* striptool in this process: arguments as words, input from memory, and both outputs kept. */
#define _POSIX_C_SOURCE 200809L

#include "tests.h"

#include "striptool.h"

#include <stdio.h>
#include <stdlib.h>
#include <string.h>

#define ARGUMENTS_MOST 8

static struct outcome outcome;

static void split(char *words_of, char *arguments[ARGUMENTS_MOST + 1])
{
    size_t count = 0;
    char *word = strtok(words_of, " ");
    for (; word != NULL && count < ARGUMENTS_MOST; word = strtok(NULL, " "))
        arguments[count++] = word;
    arguments[count] = NULL;
}

static void forget(void)
{
    free(outcome.out);
    free(outcome.err);
    memset(&outcome, 0, sizeof outcome);
}

/* A stream of no bytes is not portable. */
const struct outcome *run_tool(const char *arguments, const void *input, size_t length)
{
    char words_of[200], *of_tool[ARGUMENTS_MOST + 1];
    struct streams io;
    char *copy = malloc(length + 1);
    memcpy(copy, input, length); /* which may be the outcome of the last run */
    forget();
    snprintf(words_of, sizeof words_of, "%s", arguments);
    split(words_of, of_tool);
    io.in = length > 0 ? fmemopen(copy, length, "rb") : fopen("/dev/null", "rb");
    io.out = open_memstream(&outcome.out, &outcome.out_length);
    io.err = open_memstream(&outcome.err, &outcome.err_length);
    io.name = "standard input";
    outcome.status = striptool(of_tool, &io);
    fclose(io.in);
    fclose(io.out);
    fclose(io.err);
    free(copy);
    return &outcome;
}

const struct outcome *run_on(const char *use, const struct trial *trial, uint8_t gap)
{
    static uint8_t job[STRIP_JOB_MOST];
    char arguments[60];
    snprintf(arguments, sizeof arguments, "%s --gap %d", use, gap);
    return run_tool(arguments, job, job_of(trial, job));
}

bool is_output(const struct outcome *of, const void *bytes, size_t length)
{
    return of->out_length == length && memcmp(of->out, bytes, length) == 0;
}

bool expect_done(const struct outcome *of)
{
    return expect(of->status == 0 && of->err_length == 0, "status %d, standard error %.150s", of->status, of->err);
}

bool take_line(const char **text, char line[LINE_TRIED])
{
    size_t length = strcspn(*text, "\n");
    if (**text == '\0')
        return false;
    snprintf(line, LINE_TRIED, "%.*s", (int)length, *text);
    *text += length + ((*text)[length] == '\n');
    return true;
}

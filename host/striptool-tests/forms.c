/* Text in all the forms that it may have: the job is that of the marks that the text was made of. */
#include "tests.h"

#include <stdio.h>
#include <string.h>

#define FORMS 3000
#define REFUSALS 1000
#define TEXT_ROOM 400000

static char text[TEXT_ROOM];
static size_t used;

static void add(const char *words)
{
    size_t length = strlen(words);
    memcpy(text + used, words, length);
    used += length;
}

static void add_blanks(int least)
{
    int count = one_in(3) ? between(least, 4) : least;
    while (count-- > 0)
        add(one_in(3) ? "\t" : " ");
}

static void add_separator(void)
{
    if (one_in(3)) {
        add_blanks(0);
        add(",");
        add_blanks(0);
    } else {
        add_blanks(1);
    }
}

/* A number with a sign and zeros before it that change nothing. */
static void add_number(int number)
{
    static const char zeros[] = "0000000000000000000000000000000";
    char digits[64];
    const char *sign = number < 0 ? "-" : number == 0 && one_in(4) ? "-" : one_in(4) ? "+" : "";
    snprintf(digits, sizeof digits, "%s%s%d", sign, one_in(5) ? &zeros[between(0, 30)] : "", number < 0 ? -number : number);
    add(digits);
}

/* A text of the label and its length by the measure; a quote ends a text, so it cannot stand in one. */
static void add_quoted(struct trial *trial, size_t mark)
{
    char label[64];
    int count = between(1, 26), i;
    for (i = 0; i < count; i++)
        do
            label[i] = (char)between(STRIP_FONT_FIRST, STRIP_FONT_LAST);
        while (label[i] == '"');
    label[count] = '\0';
    expect(strip_measure((const uint8_t *)label, (size_t)count, &trial->lengths[mark]) == STRIP_ACCEPTED, "a text of the test is refused");
    add("\"");
    add(label);
    add("\"");
}

static void add_length(struct trial *trial, size_t mark, bool quoted)
{
    if (quoted)
        add_quoted(trial, mark);
    else
        add_number(trial->lengths[mark]);
}

/* Fields that have the value that they have if absent may be left out from the end on. */
static void add_mark(struct trial *trial, size_t mark)
{
    bool quoted = one_in(4);
    add_blanks(0);
    add_number(trial->places[mark]);
    if (!quoted && trial->lengths[mark] == 8 && trial->weights[mark] == 1 && !one_in(4))
        return;
    add_separator();
    add_length(trial, mark, quoted);
    if (trial->weights[mark] == 1 && !one_in(4))
        return;
    add_separator();
    add_number(trial->weights[mark]);
}

static void add_comment(void)
{
    static const char *const comments[] = {"#", "# 5 8 1", "#\"", "# caf\xC3\xA9 \x01\x7F", "#,,,,", "# a # b\r c"};
    add(comments[between(0, (int)(sizeof comments / sizeof comments[0]) - 1)]);
}

static void add_end(int ends)
{
    add(ends == 0 || (ends == 2 && one_in(2)) ? "\n" : "\r\n");
}

/* Lines without a mark. */
static void add_other_lines(int ends)
{
    while (one_in(4)) {
        add_blanks(0);
        if (one_in(2))
            add_comment();
        add_end(ends);
    }
}

const char *form_of(struct trial *trial, size_t *length)
{
    int ends = between(0, 2);
    size_t i;
    used = 0;
    for (i = 0; i < trial->count; i++) {
        add_other_lines(ends);
        add_mark(trial, i);
        add_blanks(0);
        if (one_in(6))
            add_comment();
        if (i + 1 < trial->count || one_in(2))
            add_end(ends);
    }
    *length = used;
    return text;
}

static void compare_job(const struct trial *trial, const char *form, size_t length)
{
    static uint8_t job[STRIP_JOB_MOST];
    size_t job_length = job_of(trial, job);
    const struct outcome *outcome = run_tool("job", form, length);
    expect_done(outcome);
    expect(is_output(outcome, job, job_length), "another job");
}

static void try_forms(void)
{
    static struct trial trial;
    int i;
    for (i = 1; i <= FORMS; i++) {
        const char *form;
        size_t length;
        begin_case("text %d", i);
        case_marks(&trial);
        random_trial(&trial, (size_t)(i % 1000 == 0 ? STRIP_MARKS_JOB : between(0, STRIP_MARKS_SLIDE)));
        form = form_of(&trial, &length);
        compare_job(&trial, form, length);
    }
}

/* Texts that stand for one mark, and what it is. */
static const struct {
    const char *form;
    int place, length, weight;
} forms[] = {
    {"5", 5, 8, 1},
    {"5\n", 5, 8, 1},
    {"5\r", 5, 8, 1},
    {"5 \t\r\n", 5, 8, 1},
    {"\n\r\n  # 1 2 3\n5 , 9\t,\t7 # 4", 5, 9, 7},
    {"5,9,7", 5, 9, 7},
    {"-30000 240 1000", -30000, 240, 1000},
    {"+30000 +1 +1", 30000, 1, 1},
    {"-0 008 0001", 0, 8, 1},
    {"5#9", 5, 8, 1},
    {"40 \"Wind 7\" 3", 40, 34, 3},
    {"40 \"Wind 7\",3", 40, 34, 3},
    {"40,\"a # b, c\"#3", 40, 6 + 4 + 6 + 4 + 6 + 3 + 4 + 6, 1},
    {"40 \"i\"", 40, 3, 1},
    {"40 \"mmmmmmmmmmmmmmmmmmmmmmmmmm\xE2", 0, 0, 0},
    {"40 \"MMMMMMMMMMMMMMMMMMMMMMMMMMi:\"", 40, 240, 1},
    {"40 \"MMMMMMMMMMMMMMMMMMMMMMMMMMii:\"", 0, 0, 0},
    {"40 \"\"", 0, 0, 0},
    {"40 \"a\tb\"", 0, 0, 0},
    {"40 \"ab", 0, 0, 0},
    {"40 \"ab\"3", 0, 0, 0},
    {"\"ab\" 3", 0, 0, 0},
    {"40 8 \"ab\"", 0, 0, 0},
    {"40 8 1 1", 0, 0, 0},
    {"40,,8", 0, 0, 0},
    {",40", 0, 0, 0},
    {"40,", 0, 0, 0},
    {"40 8, # 1", 0, 0, 0},
    {"4.0", 0, 0, 0},
    {"4e1", 0, 0, 0},
    {"0x4", 0, 0, 0},
    {"- 4", 0, 0, 0},
    {"--4", 0, 0, 0},
    {"+-4", 0, 0, 0},
    {"40 -8", 0, 0, 0},
    {"40 0", 0, 0, 0},
    {"40 241", 0, 0, 0},
    {"40 8 0", 0, 0, 0},
    {"40 8 1001", 0, 0, 0},
    {"30001", 0, 0, 0},
    {"-30001", 0, 0, 0},
    {"65541", 0, 0, 0},
    {"4294967301", 0, 0, 0},
    {"18446744073709551621", 0, 0, 0},
    {"-340282366920938463463374607431768211451", 0, 0, 0},
    {"40 264", 0, 0, 0},
    {"40 4294967304", 0, 0, 0},
    {"40 8 65537", 0, 0, 0},
    {"40\v8", 0, 0, 0},
    {"40\r8", 0, 0, 0},
    {"40\r\r\n", 0, 0, 0},
};

static void try_given_forms(void)
{
    static struct trial trial;
    size_t i;
    for (i = 0; i < sizeof forms / sizeof forms[0]; i++) {
        begin_case("given text %zu, %s", i + 1, forms[i].form);
        if (forms[i].weight == 0) {
            const struct outcome *outcome = run_tool("job", forms[i].form, strlen(forms[i].form));
            expect(outcome->status == 2 && outcome->out_length == 0 && strncmp(outcome->err, "striptool: line 1: ", 19) == 0,
                   "status %d, %s", outcome->status, outcome->err);
            continue;
        }
        trial.count = 1;
        trial.places[0] = (int16_t)forms[i].place;
        trial.lengths[0] = (uint8_t)forms[i].length;
        trial.weights[0] = (uint16_t)forms[i].weight;
        compare_job(&trial, forms[i].form, strlen(forms[i].form));
    }
}

/* A line of so many bytes: a mark, blanks, and the end. */
static const char *long_line(size_t bytes, const char *end)
{
    static char line[1100];
    memset(line, ' ', sizeof line);
    line[0] = '5';
    strcpy(line + bytes, end);
    return line;
}

static void expect_long(const char *line)
{
    const struct outcome *outcome = run_tool("job", line, strlen(line));
    begin_case("a line of %zu bytes with its end", strlen(line));
    expect(outcome->status == 2 && strncmp(outcome->err, "striptool: line 1: ", 19) == 0, "status %d, %s", outcome->status, outcome->err);
}

/* A line of the most bytes that it may have, with each line end, is right, and one byte more is wrong, also a carriage return that is not
 * before a line feed. */
static void try_long_lines(void)
{
    static const char *const ends[] = {"", "\n", "\r\n"};
    static struct trial trial = {1, {5}, {8}, {1}};
    size_t end;
    for (end = 0; end < 3; end++) {
        const char *line = long_line(1000, ends[end]);
        begin_case("a line of 1000 bytes, its end %zu bytes", strlen(ends[end]));
        compare_job(&trial, line, strlen(line));
        expect_long(long_line(1001, ends[end]));
    }
    expect_long(long_line(1000, "\r \n"));
}

void try_text_forms(void)
{
    begin_group("text forms");
    seed(2);
    try_forms();
    try_given_forms();
    try_long_lines();
    end_group("texts of many forms, each with the job of the marks in it, or the line that is wrong");
}

/* ---- what the writer refuses */

/* Puts the mark at `at` where it does not rise. */
static void sink(struct trial *trial, size_t at)
{
    trial->places[at] = (int16_t)(trial->places[at - 1] - (trial->places[at - 1] > STRIP_PLACE_LEAST && one_in(2)));
}

static void expect_refused(int number, const char *words, unsigned long line, size_t mark, int place)
{
    const struct outcome *outcome = run_tool("job", text, used);
    char said[300];
    snprintf(said, sizeof said, "striptool: refused %d: %s, first at line %lu: mark %zu, place %d\n", number, words, line, mark, place);
    expect(outcome->status == 1 && outcome->out_length == 0, "status %d, %zu bytes of output", outcome->status, outcome->out_length);
    expect(strcmp(outcome->err, said) == 0, "it says %.200s, not %s", outcome->err, said);
}

static void write_trial(const struct trial *trial, struct reading *reading)
{
    static struct trial as_written;
    const char *form;
    size_t length;
    as_written = *trial;
    form = form_of(&as_written, &length);
    read_lines(form, length, reading);
}

static void try_not_rising(int tries)
{
    static struct trial trial;
    static struct reading reading;
    int i;
    for (i = 1; i <= tries; i++) {
        size_t at;
        begin_case("marks that do not rise, %d", i);
        random_trial(&trial, (size_t)between(2, STRIP_MARKS_SLIDE));
        at = (size_t)between(1, (int)trial.count - 1);
        sink(&trial, at);
        write_trial(&trial, &reading);
        expect_refused(STRIP_BAD_MARK, "a value out of range, or places not rising", reading.lines[at], at + 1, trial.places[at]);
    }
}

/* 4,001 marks are one too many, also where one of them does not rise: what is too much is the last. */
static void try_too_many(void)
{
    static struct trial trial;
    static struct reading reading;
    int i;
    for (i = 0; i < 4; i++) {
        begin_case("%d marks, %s", MARKS_TRIED, i % 2 == 0 ? "all rising" : "one not rising");
        random_trial(&trial, MARKS_TRIED);
        if (i % 2 == 1)
            sink(&trial, 7);
        write_trial(&trial, &reading);
        expect_refused(STRIP_TOO_MANY_MARKS, "over 4,000 marks or texts", reading.lines[MARKS_TRIED - 1], MARKS_TRIED,
                       trial.places[MARKS_TRIED - 1]);
    }
}

void try_writer_refusals(void)
{
    begin_group("the writer's refusals");
    seed(3);
    try_not_rising(REFUSALS);
    try_too_many();
    end_group("texts that the writer refuses, with its number, its words, and the line of the first mark that is refused");
}

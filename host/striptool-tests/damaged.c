/*
 * Damaged inputs through all uses. What is right and what is wrong about them is decided here by direct calls of the proved reader and
 * writer and, for text, by the reader of lines.c. A look beyond any buffer or a number beyond its type ends the test by a sanitizer.
 */
#include "tests.h"

#include <stdio.h>
#include <string.h>

#define JOBS 10000
#define TEXTS 10000
#define NOISES 2000
#define CHECKS 150 /* most of which are refused; one that is not takes some 60 ms */
#define ROOM 300000

static uint8_t bytes[ROOM];
static size_t length;
static unsigned long of_status[3];

/* ---- damage */

static void insert(size_t at, const void *inserted, size_t count)
{
    if (length + count > ROOM)
        return;
    memmove(bytes + at + count, bytes + at, length - at);
    memcpy(bytes + at, inserted, count);
    length += count;
}

static size_t somewhere(void)
{
    return (size_t)between(0, (int)length - (length > 0));
}

static void flip_bits(void)
{
    int count = between(1, 4);
    while (length > 0 && count-- > 0) {
        size_t at = somewhere();
        bytes[at] ^= (uint8_t)(1 << between(0, 7));
    }
}

static void change_byte(void)
{
    size_t at = somewhere();
    if (length > 0)
        bytes[at] = (uint8_t)between(0, 255);
}

static void insert_noise(int most)
{
    uint8_t noise[400];
    int count = between(1, most), i;
    for (i = 0; i < count; i++)
        noise[i] = (uint8_t)between(0, 255);
    insert(one_in(2) ? length : somewhere(), noise, (size_t)count);
}

static void make_noise(void)
{
    length = 0;
    insert_noise(400);
    if (one_in(2)) /* a header of few marks, so that records are looked at */
        memcpy(bytes, "\0\3\0\0", length < 4 ? length : 4);
}

static void double_all(void)
{
    if (2 * length <= ROOM)
        memcpy(bytes + length, bytes, length);
    length *= 2 * length <= ROOM ? 2 : 1;
}

static void append_many(int byte)
{
    size_t count = (size_t)between(1, 40000);
    memset(bytes + length, byte, count);
    length += count;
}

/* What job and text have in common; false if this is none of that. */
static bool damage_any(int which)
{
    if (which == 0)
        length = somewhere();
    else if (which == 1)
        insert_noise(8);
    else if (which == 2)
        double_all();
    return which <= 2;
}

static void damage_job(void)
{
    int which = between(0, 9);
    if (damage_any(which))
        return;
    switch (which) {
    case 3:
        append_many(one_in(2) ? 0 : 255);
        break;
    case 4:
        change_byte();
        break;
    default:
        flip_bits();
    }
}

static void insert_of_text(void)
{
    static const char likely[] = "0123456789+-,,,\"\"\"  \t##\r\n\n.x\0\x7F\xFF";
    int count = between(1, 3);
    while (count-- > 0) {
        char byte = likely[between(0, (int)sizeof likely - 2)];
        if (one_in(2) || length == 0)
            insert(somewhere(), &byte, 1);
        else
            bytes[somewhere()] = (uint8_t)byte;
    }
}

/* Digits without end, or a line without end, or so nearly. */
static void insert_run(void)
{
    static char run[2400];
    static const char of[] = "0019 \t#\"ax,";
    size_t count = (size_t)(one_in(2) ? between(4, 45) : between(900, 1100));
    memset(run, of[between(0, (int)sizeof of - 2)], count);
    insert(somewhere(), run, count);
}

/* More lines than there may be marks, or nearly so. */
static void append_lines(void)
{
    int count = between(3950, 4050), place = between(-30000, 20000), i;
    for (i = 0; i < count; i++) {
        char line[40];
        insert(length, line, (size_t)snprintf(line, sizeof line, "\n%d", place + i));
    }
}

static void damage_text(void)
{
    int which = between(0, 9);
    if (damage_any(which))
        return;
    switch (which) {
    case 3:
        insert_run();
        break;
    case 4:
        flip_bits();
        break;
    case 5:
        if (one_in(20))
            append_lines();
        else
            insert_run();
        break;
    default:
        insert_of_text();
    }
}

/* ---- what every input gets */

static bool is_one_line(const struct outcome *outcome)
{
    size_t i;
    for (i = 0; i + 1 < outcome->err_length; i++)
        if (outcome->err[i] < ' ' || outcome->err[i] > '~')
            return false;
    return outcome->err_length > 0 && outcome->err[i] == '\n';
}

static void expect_fair(const struct outcome *outcome)
{
    if (!expect(outcome->status >= 0 && outcome->status <= 2, "status %d", outcome->status))
        return;
    of_status[outcome->status]++;
    if (outcome->status == 0)
        expect(outcome->err_length == 0, "status 0, and it says %.100s", outcome->err);
    else
        expect(outcome->out_length == 0 && strncmp(outcome->err, "striptool: ", 11) == 0 && is_one_line(outcome),
               "%zu bytes of output, and it says %.200s", outcome->out_length, outcome->err);
}

static void expect_said(const struct outcome *outcome, int status, const char *said)
{
    expect(outcome->status == status && strncmp(outcome->err, said, strlen(said)) == 0, "status %d, %.150s, not %d, %s", outcome->status,
           outcome->err, status, said);
}

/* ---- jobs */

/* The words of a refusal stand here once more, since what is tried is that they come out. */
static const char *const words_of_reader[] = {
    "no refusal",
    "the bytes end too early",
    "a bit of 3 to 7 stands in a map byte, or bit 0 in the first one",
    "a field holds the value it has if absent",
    "a count, a place or a field is out of range",
    "bytes follow the last record",
};

static void compare_marks_of_text(const struct outcome *outcome, const struct trial *trial)
{
    static struct reading reading;
    read_lines(outcome->out, outcome->out_length, &reading);
    expect(reading.wrong == 0 && reading.trial.count == trial->count &&
               memcmp(reading.trial.places, trial->places, trial->count * sizeof trial->places[0]) == 0 &&
               memcmp(reading.trial.lengths, trial->lengths, trial->count) == 0 &&
               memcmp(reading.trial.weights, trial->weights, trial->count * sizeof trial->weights[0]) == 0,
           "the text has other marks than the reader gives");
}

static void try_job(const char *arguments)
{
    static struct trial trial;
    char said[200];
    uint8_t number =
        strip_read(bytes, length, trial.places, MARKS_TRIED, trial.lengths, MARKS_TRIED, trial.weights, MARKS_TRIED, &trial.count);
    const struct outcome *outcome = run_tool(arguments, bytes, length);
    expect_fair(outcome);
    if (number == STRIP_ACCEPTED) {
        expect(outcome->status == 0 && outcome->out_length > 0, "a good job has status %d", outcome->status);
        if (strcmp(arguments, "text") == 0)
            compare_marks_of_text(outcome, &trial);
        return;
    }
    snprintf(said, sizeof said, "striptool: refused %d: %s", number, words_of_reader[number]);
    expect_said(outcome, 1, said);
    expect(strchr("\n ", outcome->err[strlen(said)]) != NULL, "other words: %s", outcome->err);
}

static const char *use_of(int i)
{
    static char arguments[40];
    static const char *const uses[] = {"text", "draw --gap %d", "draw --text --gap %d", "why --gap %d"};
    snprintf(arguments, sizeof arguments, uses[i % 4], between(STRIP_GAP_LEAST, STRIP_GAP_MOST));
    return arguments;
}

static void take_job(void)
{
    static struct trial trial;
    random_trial(&trial, (size_t)(one_in(100) ? between(61, STRIP_MARKS_JOB) : between(0, 16)));
    length = job_of(&trial, bytes);
}

/* The longest job, with every field of every mark, and a byte behind it. */
static void try_longest_job(void)
{
    static struct trial trial;
    size_t i;
    trial.count = STRIP_MARKS_JOB;
    for (i = 0; i < trial.count; i++) {
        trial.places[i] = (int16_t)(STRIP_PLACE_LEAST + 15 * (int)i);
        trial.lengths[i] = STRIP_LENGTH_MOST;
        trial.weights[i] = STRIP_WEIGHT_MOST;
    }
    begin_case("the longest job");
    length = job_of(&trial, bytes);
    expect(length == STRIP_JOB_MOST, "it has %zu bytes", length);
    try_job("text");
    begin_case("a byte behind the longest job");
    bytes[length++] = 0;
    try_job("text");
}

static void try_jobs(void)
{
    int i;
    for (i = 1; i <= JOBS; i++) {
        const char *use = use_of(i);
        begin_case("damaged job %d, %s", i, use);
        take_job();
        damage_job();
        try_job(use);
    }
    for (i = 1; i <= CHECKS; i++) {
        begin_case("damaged job %d, check", i);
        take_job();
        length = one_in(3) ? length : somewhere();
        insert_noise(2);
        flip_bits();
        try_job("check");
    }
}

/* ---- texts */

static void try_text(void)
{
    static struct reading reading;
    static uint8_t job[STRIP_JOB_MOST];
    const struct trial *trial = &reading.trial;
    const struct outcome *outcome = run_tool("job", bytes, length);
    size_t job_length, at = 1;
    uint8_t number;
    char said[200];
    expect_fair(outcome);
    read_lines((const char *)bytes, length, &reading);
    if (reading.wrong > 0) {
        snprintf(said, sizeof said, "striptool: line %lu: ", reading.wrong);
        expect_said(outcome, 2, said);
        return;
    }
    number =
        strip_write(trial->places, trial->count, trial->lengths, trial->count, trial->weights, trial->count, job, sizeof job, &job_length);
    if (number == STRIP_ACCEPTED) {
        expect(outcome->status == 0 && is_output(outcome, job, job_length), "status %d, or another job than the writer's", outcome->status);
        return;
    }
    snprintf(said, sizeof said, "striptool: refused %d: ", number);
    expect_said(outcome, 1, said);
    while (number == STRIP_BAD_MARK && at < trial->count - 1 && trial->places[at - 1] < trial->places[at])
        at++;
    snprintf(said, sizeof said, ", first at line %lu: ", reading.lines[at]);
    expect(number != STRIP_BAD_MARK || strstr(outcome->err, said) != NULL, "it says %.150s, not%s", outcome->err, said);
}

static void take_text(void)
{
    static struct trial trial;
    const char *form;
    random_trial(&trial, (size_t)between(0, 16));
    form = form_of(&trial, &length);
    memcpy(bytes, form, length);
}

static void try_texts(void)
{
    int i;
    for (i = 1; i <= TEXTS; i++) {
        begin_case("damaged text %d", i);
        take_text();
        damage_text();
        if (one_in(4))
            insert_of_text();
        try_text();
    }
}

/* Noise, and each input where the other is asked for. */
static void try_noise(void)
{
    int i;
    for (i = 1; i <= NOISES; i++) {
        const char *use = use_of(i);
        begin_case("noise %d, %s", i, use);
        if (one_in(2))
            make_noise();
        else if (one_in(2))
            take_text();
        else
            take_job();
        if (one_in(2))
            try_job(use);
        else
            try_text();
    }
}

void try_damaged(void)
{
    char what[200];
    begin_group("damaged");
    seed(10);
    try_longest_job();
    try_jobs();
    try_texts();
    try_noise();
    snprintf(what, sizeof what,
             "damaged inputs, none with a crash: %lu done, %lu refused, %lu with a wrong line, each as the calls and the rules say",
             of_status[0], of_status[1], of_status[2]);
    expect(of_status[0] > 2000 && of_status[1] > 2000 && of_status[2] > 2000, "few of a kind, so little is tried");
    end_group(what);
}

/* What the parts of striptool's tests share. A trial is a strip that is tried; its marks have the numbers from 1. All random numbers come
 * from one generator with fixed seeds, and no expression takes two of them in an order that is open, so each run tries the same. */
#ifndef TESTS_H
#define TESTS_H

#include "strip.h"

#include <stdbool.h>
#include <stddef.h>
#include <stdint.h>

/* ---- trials.c */

void seed(uint32_t with);
/* A number from `least` to `most`. */
int between(int least, int most);
bool one_in(int many);

#define MARKS_TRIED (STRIP_MARKS_JOB + 1)
struct trial {
    size_t count;
    int16_t places[MARKS_TRIED];
    uint8_t lengths[MARKS_TRIED];
    uint16_t weights[MARKS_TRIED];
};

/* Dense and sparse, short and long labels, anywhere on the line and at both its ends. */
void random_trial(struct trial *trial, size_t count);
/* Labels so long for the steps that few strips fit. */
void crowded_trial(struct trial *trial, size_t count);
/* So narrow that a drawing for a terminal has one row. */
void narrow_trial(struct trial *trial);
/* Mostly up to 60 marks, one in 50 has up to 4,000. */
size_t random_count(void);
/* The job of a trial, by the proved writer; its length. */
size_t job_of(const struct trial *trial, uint8_t *job);
/* Reads a file of the samples; its length. */
size_t sample(const char *name, uint8_t *bytes, size_t room);

/* ---- cases.c: what agreed and what did not */

void begin_group(const char *name);
/* Says which case this is, if it turns out to differ. */
void begin_case(const char *format, ...);
void case_marks(const struct trial *trial);
/* So many strips, each made for its number and compared at a gap, the nine gaps in turn. */
void try_strips(int strips, void make(struct trial *trial, int number), void compare(const struct trial *trial, uint8_t gap));
/* False if it does not hold, of which the first few of a group get a line. */
bool expect(bool holds, const char *format, ...);
/* One line for the group: how many cases, of what. */
void end_group(const char *what);
unsigned long cases_of_group(void);
unsigned long differences_of_all(void);

/* ---- runs.c: striptool, called in this process */

struct outcome {
    int status;
    char *out, *err;
    size_t out_length, err_length;
};

/* `arguments` are words with blanks between them; what is given back stays until the next run. */
const struct outcome *run_tool(const char *arguments, const void *input, size_t length);
/* On the job of a trial, at a gap. */
const struct outcome *run_on(const char *use, const struct trial *trial, uint8_t gap);
bool is_output(const struct outcome *outcome, const void *bytes, size_t length);
/* Output, nothing on standard error, and status 0. */
bool expect_done(const struct outcome *outcome);

/* Takes one line from a text; false at its end. */
#define LINE_TRIED 4096
bool take_line(const char **text, char line[LINE_TRIED]);

/* ---- direct.c: what the calls give, with ends reckoned from the manual's table of positions */

struct span {
    bool placed;
    int side, left, right;
};

struct direct {
    uint8_t number;
    uint32_t sum;
    size_t count;
    uint16_t left_out[STRIP_MARKS_BEST];
    struct span spans[STRIP_MARKS_FULL];
};

/* Marks `from` to `to` of the trial, numbered from 1; spans has them from its beginning on. */
typedef void ask(const struct trial *trial, size_t from, size_t to, uint8_t gap, struct direct *direct);
ask ask_full, ask_slide, ask_best;

/* The words of the verdicts stand here once more, since what is tried is that they come out. */
const char *verdict_words(const char *pass, uint8_t number);
/* The caption that a drawing should have, as one line with single blanks. */
void caption_of(const struct trial *trial, uint8_t gap, const struct direct answers[3], char *caption, size_t room);
/* The lanes that a drawing should have. */
struct lane_tried {
    const char *name;
    const struct span *spans;
};
size_t lanes_of(const struct direct answers[3], struct lane_tried lanes[3]);
void ask_all(const struct trial *trial, uint8_t gap, struct direct answers[3]);

/* ---- forms.c */

/* The text of a trial in one of the forms that text may have; the trial gets the lengths of the texts in it. Stays until the next one. */
const char *form_of(struct trial *trial, size_t *length);

/* ---- lines.c: a reader of marks as text, written from the rules of the text alone */

struct reading {
    struct trial trial;
    unsigned long lines[MARKS_TRIED]; /* of each mark */
    unsigned long wrong;              /* the first line that is wrong, or 0 */
};
void read_lines(const char *text, size_t length, struct reading *reading);

/* ---- sketch.c: reads a drawing of `draw --text` and of `why` as a person would */

/* Reads rows until a line that belongs to none, and compares them with the lanes; `first` is the number of the first of the marks. Gives
 * back where it stopped. */
const char *compare_rows(const char *text, const struct trial *trial, size_t first, size_t count, const struct lane_tried *lanes,
                         size_t lane_count);
/* Rows and labels over a row's end that were compared since the program began. */
struct sketched {
    unsigned long rows, cut;
};
extern struct sketched sketched;

/* ---- the groups */

void try_round_trips(void);
void try_text_forms(void);
void try_writer_refusals(void);
void try_why(void);
void try_long_why(void);
void try_pictures(void);
void try_sketches(void);
void try_rows(void);
void try_scales(void);
void try_checks(void);
void try_damaged(void);
/* Pictures of random strips for an XML parser, written as files of this folder. */
int write_pictures(const char *folder);

#endif

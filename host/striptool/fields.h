/* The lines of a text, and the fields of a line. */
#ifndef FIELDS_H
#define FIELDS_H

#include "striptool.h"

/* A line with more bytes, its end not counted, is wrong. */
#define LINE_MOST 1000

struct line {
    unsigned long number;
    size_t length;
    bool too_long;
    char bytes[LINE_MOST + 1]; /* with a carriage return, or with one byte too many */
};

struct field {
    bool is_text;
    const char *bytes;
    size_t length;
};

/* What is wrong with a line, or NULL. */
typedef const char *fault;

/* The next line without its end, which is a line feed, also behind a carriage return, or the end of the input. A line that is too long is
 * not read on. */
bool next_line(FILE *in, struct line *line);

#define FIELDS_MOST 3

/* The fields of a line; none if it is blank or a comment. */
fault take_fields(const struct line *line, struct field *fields, size_t *count);

#endif

/* The lines of a text, and the fields of a line: bare, or in double quotes; blanks or a comma between them; # begins a comment. */
#include "fields.h"

#include <string.h>

bool next_line(FILE *in, struct line *line)
{
    int byte = getc(in);
    bool ended;
    if (byte == EOF)
        return false;
    line->number++;
    line->length = 0;
    for (; byte != EOF && byte != '\n' && line->length <= LINE_MOST; byte = getc(in))
        line->bytes[line->length++] = (char)byte;
    ended = byte == EOF || byte == '\n';
    if (ended && line->length > 0 && line->bytes[line->length - 1] == '\r')
        line->length--;
    line->too_long = line->length > LINE_MOST;
    return true;
}

/* ---- fields */

/* What is left of a line. */
struct rest {
    const char *at, *end;
};

static bool is_blank(char byte)
{
    return byte == ' ' || byte == '\t';
}

static void pass_blanks(struct rest *rest)
{
    while (rest->at < rest->end && is_blank(*rest->at))
        rest->at++;
}

static bool at_end(const struct rest *rest)
{
    return rest->at == rest->end || *rest->at == '#';
}

static bool ends_field(const struct rest *rest)
{
    return at_end(rest) || is_blank(*rest->at) || *rest->at == ',';
}

static fault take_quoted(struct rest *rest, struct field *field)
{
    const char *closing = memchr(rest->at + 1, '"', (size_t)(rest->end - rest->at) - 1);
    if (closing == NULL)
        return "a text without its closing quote";
    field->is_text = true;
    field->bytes = rest->at + 1;
    field->length = (size_t)(closing - field->bytes);
    rest->at = closing + 1;
    return ends_field(rest) ? NULL : "no blank or comma behind a text";
}

static fault take_bare(struct rest *rest, struct field *field)
{
    field->is_text = false;
    field->bytes = rest->at;
    while (!ends_field(rest))
        rest->at++;
    field->length = (size_t)(rest->at - field->bytes);
    return field->length > 0 ? NULL : "a comma with no number before it";
}

static fault take_field(struct rest *rest, struct field *field)
{
    return *rest->at == '"' ? take_quoted(rest, field) : take_bare(rest, field);
}

/* Blanks, a comma, or both. */
static fault take_separator(struct rest *rest)
{
    pass_blanks(rest);
    if (at_end(rest) || *rest->at != ',')
        return NULL;
    rest->at++;
    pass_blanks(rest);
    return at_end(rest) ? "a comma with no number behind it" : NULL;
}

fault take_fields(const struct line *line, struct field *fields, size_t *count)
{
    struct rest rest = {line->bytes, line->bytes + line->length};
    *count = 0;
    pass_blanks(&rest);
    while (!at_end(&rest)) {
        fault wrong;
        if (*count == FIELDS_MOST)
            return "more than a place, a length and a weight";
        wrong = take_field(&rest, &fields[(*count)++]);
        if (wrong == NULL)
            wrong = take_separator(&rest);
        if (wrong != NULL)
            return wrong;
    }
    return NULL;
}

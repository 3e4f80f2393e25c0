/* Marks as text, one a line: place, length, weight. */
#include "fields.h"

#define LENGTH_IF_ABSENT 8
#define WEIGHT_IF_ABSENT 1

/* ---- values */

/* Where a fault needs the field that is wrong, it stands here. */
static char said[160];

#define FIELD_SHOWN 24

static const char *shown_field(const struct field *field)
{
    return shown(field->bytes, field->length, FIELD_SHOWN);
}

static fault no_number(const struct field *field)
{
    snprintf(said, sizeof said, "%s is no whole number", shown_field(field));
    return said;
}

/* A number beyond this is out of every range. */
#define BEYOND 1000000L

static fault take_number(const struct field *field, const char *name, long least, long most, long *number)
{
    bool is_signed = field->length > 0 && (*field->bytes == '-' || *field->bytes == '+');
    size_t i = is_signed;
    if (i == field->length)
        return no_number(field);
    for (*number = 0; i < field->length; i++) {
        char byte = field->bytes[i];
        if (byte < '0' || byte > '9')
            return no_number(field);
        *number = *number >= BEYOND ? BEYOND : 10 * *number + (byte - '0');
    }
    if (is_signed && *field->bytes == '-')
        *number = -*number;
    if (least <= *number && *number <= most)
        return NULL;
    snprintf(said, sizeof said, "the %s %s is not from %ld to %ld", name, shown_field(field), least, most);
    return said;
}

static fault take_plain(const struct field *field, const char *name, long least, long most, long *number)
{
    return field->is_text ? "a text where no length stands" : take_number(field, name, least, most, number);
}

static fault measure(const struct field *field, long *length)
{
    uint8_t measured;
    uint8_t number = strip_measure((const uint8_t *)field->bytes, field->length, &measured);
    *length = measured;
    if (number == STRIP_ACCEPTED)
        return NULL;
    snprintf(said, sizeof said, "the text \"%s\" is refused %d: %s", shown_field(field), number, words(number, "measure"));
    return said;
}

static fault take_length(const struct field *field, long *length)
{
    return field->is_text ? measure(field, length) : take_number(field, "length", STRIP_LENGTH_LEAST, STRIP_LENGTH_MOST, length);
}

/* ---- marks */

static fault take_values(const struct field *fields, size_t count, struct strip *strip)
{
    long place, length = LENGTH_IF_ABSENT, weight = WEIGHT_IF_ABSENT;
    fault wrong = take_plain(&fields[0], "place", STRIP_PLACE_LEAST, STRIP_PLACE_MOST, &place);
    if (wrong == NULL && count > 1)
        wrong = take_length(&fields[1], &length);
    if (wrong == NULL && count > 2)
        wrong = take_plain(&fields[2], "weight", STRIP_WEIGHT_LEAST, STRIP_WEIGHT_MOST, &weight);
    if (wrong != NULL)
        return wrong;
    strip->places[strip->count] = (int16_t)place;
    strip->lengths[strip->count] = (uint8_t)length;
    strip->weights[strip->count++] = (uint16_t)weight;
    return NULL;
}

/* Adds the mark of a line, if it has one. */
static fault take_mark(const struct line *line, struct strip *strip)
{
    struct field fields[FIELDS_MOST];
    size_t count;
    fault wrong = line->too_long ? "more than 1,000 bytes" : take_fields(line, fields, &count);
    return wrong != NULL || count == 0 ? wrong : take_values(fields, count, strip);
}

enum status read_text(const struct streams *io, struct strip *strip, unsigned long *lines)
{
    static struct line line;
    struct progress progress = begin_progress();
    line.number = 0;
    strip->count = 0;
    while (strip->count < MARKS_HELD && next_line(io->in, &line)) {
        fault wrong;
        lines[strip->count] = line.number;
        wrong = take_mark(&line, strip);
        if (wrong != NULL)
            return stop(io->err, WRONG_USE, "line %lu: %s", line.number, wrong);
        say_progress(&progress, io->err, "lines", line.number);
    }
    return ferror(io->in) ? stop(io->err, WRONG_USE, "%s cannot be read", shown_name(io->name)) : DONE;
}

void write_text(FILE *out, struct marks marks)
{
    size_t i;
    fputs("# place length weight\n", out);
    for (i = 0; i < marks.count; i++)
        fprintf(out, "%d %d %d\n", marks.places[i], marks.lengths[i], marks.weights[i]);
}

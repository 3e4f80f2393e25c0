/* A reader of marks as text, written from its rules alone, byte by byte: one mark a line, place, length and weight, apart by blanks and at
 * most one comma; the length may be a text in double quotes; # begins a comment; a line has at most 1,000 bytes before its end. */
#include "tests.h"

#include <string.h>

#define LINE_BYTES 1000
#define LENGTH_IF_ABSENT 8
#define WEIGHT_IF_ABSENT 1

struct word {
    bool quoted;
    const char *from;
    size_t length;
};

static bool blank(char byte)
{
    return byte == ' ' || byte == '\t';
}

/* Cuts a line into words; false if quotes or commas stand where they may not, or there are more than three. */
static bool cut(const char *line, size_t length, struct word words[3], size_t *count)
{
    size_t i = 0, commas = 1; /* commas since the last word; the beginning of the line is like one */
    bool parted = true;
    *count = 0;
    while (i < length && line[i] != '#') {
        if (blank(line[i]) || line[i] == ',') {
            commas += line[i++] == ',';
            parted = true;
            if (commas > 1)
                return false;
        } else if (*count == 3 || !parted) {
            return false;
        } else {
            struct word *word = &words[(*count)++];
            word->quoted = line[i] == '"';
            word->from = line + i + word->quoted;
            for (i += word->quoted; i < length && (word->quoted ? line[i] != '"' : !blank(line[i]) && line[i] != ',' && line[i] != '#');
                 i++)
                ;
            word->length = (size_t)(line + i - word->from);
            if (word->quoted && i++ == length)
                return false;
            commas = 0;
            parted = !word->quoted;
        }
    }
    return commas == 0 || *count == 0;
}

/* The digits count, up to a number that no range holds. */
static bool value(const struct word *word, int least, int most, int *number)
{
    size_t i = word->length > 0 && (word->from[0] == '+' || word->from[0] == '-');
    bool digits = i < word->length;
    int sum = 0;
    for (; i < word->length && digits; i++) {
        digits = '0' <= word->from[i] && word->from[i] <= '9';
        sum = sum > 99999 ? sum : 10 * sum + (word->from[i] - '0');
    }
    *number = word->length > 0 && word->from[0] == '-' ? -sum : sum;
    return digits && !word->quoted && least <= *number && *number <= most;
}

static bool length_value(const struct word *word, int *length)
{
    uint8_t measured;
    if (!word->quoted)
        return value(word, STRIP_LENGTH_LEAST, STRIP_LENGTH_MOST, length);
    if (strip_measure((const uint8_t *)word->from, word->length, &measured) != STRIP_ACCEPTED)
        return false;
    *length = measured;
    return true;
}

/* Adds the mark of a line, if it has one; false if the line is wrong. */
static bool take(const char *line, size_t length, unsigned long number, struct reading *reading)
{
    struct word words[3];
    size_t count, at = reading->trial.count;
    int place, size = LENGTH_IF_ABSENT, weight = WEIGHT_IF_ABSENT;
    if (length > LINE_BYTES || !cut(line, length, words, &count))
        return false;
    if (count == 0)
        return true;
    if (!value(&words[0], STRIP_PLACE_LEAST, STRIP_PLACE_MOST, &place) || (count > 1 && !length_value(&words[1], &size)) ||
        (count > 2 && !value(&words[2], STRIP_WEIGHT_LEAST, STRIP_WEIGHT_MOST, &weight)))
        return false;
    reading->trial.places[at] = (int16_t)place;
    reading->trial.lengths[at] = (uint8_t)size;
    reading->trial.weights[at] = (uint16_t)weight;
    reading->lines[at] = number;
    reading->trial.count++;
    return true;
}

/* From one mark more than a job has on nothing is judged, so that an input without end has an answer. */
void read_lines(const char *text, size_t length, struct reading *reading)
{
    unsigned long number = 0;
    size_t at = 0;
    reading->trial.count = 0;
    reading->wrong = 0;
    while (at < length && reading->trial.count < MARKS_TRIED) {
        const char *end = memchr(text + at, '\n', length - at);
        size_t next = end == NULL ? length : (size_t)(end - text) + 1, stop = end == NULL ? length : next - 1;
        stop -= stop > at && text[stop - 1] == '\r';
        if (!take(text + at, stop - at, ++number, reading)) {
            reading->wrong = number;
            return;
        }
        at = next;
    }
}

/* Job bytes, by the proved reader and writer. */
#include "striptool.h"

struct marks marks_of(const struct strip *strip)
{
    struct marks marks = {strip->places, strip->lengths, strip->weights, strip->count, 1};
    return marks;
}

struct marks run_of(struct marks marks, size_t from, size_t to)
{
    size_t before = from - marks.first;
    struct marks run = {marks.places + before, marks.lengths + before, marks.weights + before, to + 1 - from, from};
    return run;
}

/* A job is followed by no byte, so from one byte beyond the longest on nothing more has to be read. */
#define BYTES_JUDGED (STRIP_JOB_MOST + 1)

static size_t read_bytes(const struct streams *io, uint8_t *bytes)
{
    struct progress progress = begin_progress();
    size_t length = 0;
    int byte;
    while (length < BYTES_JUDGED && (byte = getc(io->in)) != EOF) {
        bytes[length++] = (uint8_t)byte;
        say_progress(&progress, io->err, "bytes", (unsigned long)length);
    }
    return length;
}

static bool is_text(const uint8_t *bytes, size_t length)
{
    size_t i;
    for (i = 0; i < length; i++)
        if (bytes[i] > STRIP_FONT_LAST || (bytes[i] < STRIP_FONT_FIRST && bytes[i] != '\t' && bytes[i] != '\n' && bytes[i] != '\r'))
            return false;
    return length > 0;
}

enum status read_job(const struct streams *io, struct strip *strip)
{
    static uint8_t bytes[BYTES_JUDGED];
    size_t length = read_bytes(io, bytes);
    uint8_t number;
    if (ferror(io->in))
        return stop(io->err, WRONG_USE, "%s cannot be read", shown_name(io->name));
    number = strip_read(bytes, length, strip->places, STRIP_MARKS_JOB, strip->lengths, STRIP_MARKS_JOB, strip->weights, STRIP_MARKS_JOB,
                        &strip->count);
    if (number == STRIP_ACCEPTED)
        return DONE;
    return stop(io->err, REFUSED, "refused %d: %s%s", number, words(number, "reader"),
                is_text(bytes, length) ? " (this is text, of which striptool job makes a job)" : "");
}

static uint8_t written(struct marks marks, uint8_t *bytes, size_t *length)
{
    return strip_write(marks.places, marks.count, marks.lengths, marks.count, marks.weights, marks.count, bytes, STRIP_JOB_MOST, length);
}

/* The least count of first marks that the writer refuses by this number, by which it refuses all the marks. */
static size_t first_refused(struct marks marks, uint8_t number, uint8_t *bytes)
{
    size_t before = 0, refused = marks.count, length;
    while (refused - before > 1) {
        size_t middle = before + (refused - before) / 2;
        *(written(run_of(marks, 1, middle), bytes, &length) == number ? &refused : &before) = middle;
    }
    return refused;
}

enum status write_job(const struct streams *io, struct marks marks, const unsigned long *lines)
{
    static uint8_t bytes[STRIP_JOB_MOST];
    size_t length, mark;
    uint8_t number = written(marks, bytes, &length);
    if (number == STRIP_ACCEPTED) {
        fwrite(bytes, 1, length, io->out);
        return DONE;
    }
    mark = first_refused(marks, number, bytes);
    return stop(io->err, REFUSED, "refused %d: %s, first at line %lu: mark %zu, place %d", number, words(number, "writer"), lines[mark - 1],
                mark, marks.places[mark - 1]);
}

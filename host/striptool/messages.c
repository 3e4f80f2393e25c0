/* What is said on standard error: one line for what is wrong, and how far reading has come. */
#include "striptool.h"

#include <stdarg.h>
#include <string.h>
#include <time.h>

enum status stop(FILE *err, enum status status, const char *format, ...)
{
    va_list values;
    va_start(values, format);
    fputs("striptool: ", err);
    vfprintf(err, format, values);
    fputc('\n', err);
    va_end(values);
    return status;
}

/* A number and the comment behind it in strip.h: one or more sayings with "; " between them. A saying may begin with the calls that it is
 * about and ": ". */
static const struct {
    uint8_t number;
    const char *comment;
} refusals[] = {
#include "refusals.inc"
};

#define BETWEEN_SAYINGS "; "
#define BEHIND_CALLS ": "

static size_t length_of_saying(const char *saying)
{
    const char *end = strstr(saying, BETWEEN_SAYINGS);
    return end == NULL ? strlen(saying) : (size_t)(end - saying);
}

/* How many bytes name the calls that a saying is about, with what stands behind them. */
static size_t length_of_calls(const char *saying)
{
    const char *end = strstr(saying, BEHIND_CALLS);
    return end == NULL || (size_t)(end - saying) >= length_of_saying(saying) ? 0 : (size_t)(end - saying) + strlen(BEHIND_CALLS);
}

static bool names(const char *saying, const char *call)
{
    const char *found = strstr(saying, call);
    return found != NULL && (size_t)(found - saying) < length_of_calls(saying);
}

/* The saying that names the call, or else the first. */
static const char *saying_for(const char *comment, const char *call)
{
    const char *saying = comment;
    while (!names(saying, call)) {
        saying += length_of_saying(saying);
        if (*saying == '\0')
            return comment;
        saying += strlen(BETWEEN_SAYINGS);
    }
    return saying;
}

const char *words(uint8_t number, const char *call)
{
    static char kept[256];
    size_t i;
    for (i = 0; i < sizeof refusals / sizeof refusals[0]; i++)
        if (refusals[i].number == number) {
            const char *saying = saying_for(refusals[i].comment, call);
            size_t calls = length_of_calls(saying);
            snprintf(kept, sizeof kept, "%.*s", (int)(length_of_saying(saying) - calls), saying + calls);
            return kept;
        }
    return "a number that strip.h does not have";
}

#define SHOWN_MOST 200

const char *shown(const char *bytes, size_t length, size_t most)
{
    static char kept[4 * SHOWN_MOST + 3];
    size_t i, used = 0;
    for (i = 0; i < length && i < most && i < SHOWN_MOST; i++) {
        unsigned char byte = (unsigned char)bytes[i];
        bool plain = byte >= STRIP_FONT_FIRST && byte <= STRIP_FONT_LAST;
        used += (size_t)snprintf(kept + used, sizeof kept - used, plain ? "%c" : "\\x%02X", byte);
    }
    snprintf(kept + used, sizeof kept - used, "%s", i < length ? ".." : "");
    return kept;
}

const char *shown_name(const char *name)
{
    return shown(name, strlen(name), SHOWN_MOST);
}

/* The clock counts whole seconds, so that from 2 on more than one has gone by. */
#define SECONDS_BEFORE_SAYING 2

static double seconds(void)
{
    return difftime(time(NULL), (time_t)0);
}

struct progress begin_progress(void)
{
    struct progress progress;
    progress.began = progress.said = seconds();
    return progress;
}

void say_progress(struct progress *progress, FILE *err, const char *of_what, unsigned long count)
{
    double moment = seconds();
    if (moment - progress->began < SECONDS_BEFORE_SAYING || moment == progress->said)
        return;
    progress->said = moment;
    fprintf(err, "striptool: reading, %lu %s so far\n", count, of_what);
}

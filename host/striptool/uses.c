/* The command line: which use, of which file, at which gap. */
#include "striptool.h"

#include <string.h>

static const char help[] = "usage: striptool job [FILE]                               text to a job\n"
                           "       striptool text [FILE]                              a job to text\n"
                           "       striptool draw [FILE] [-o OUT] [--gap N] [--text]  a job to a picture\n"
                           "       striptool why [FILE] [--gap N]                     what cannot be labelled\n"
                           "       striptool check [FILE] [--gap N]                   each pass, and its time\n"
                           "\n"
                           "Reads FILE, or standard input where there is none, and writes to standard\n"
                           "output, or to OUT. A picture is SVG, or with --text one for a terminal.\n"
                           "\n"
                           "Text has one mark a line: place, length and weight, with blanks or a comma\n"
                           "between them. The length is 8 and the weight 1 where none is given. A length\n"
                           "may be a text in double quotes, which is measured, as in 40 \"Wind 7\". A #\n"
                           "begins a comment.\n"
                           "\n"
                           "The gap is how many dots stay clear between labels of one side, 0 to 8, and 1\n"
                           "where none is given, as for ./label.\n"
                           "\n"
                           "Exit status:\n"
                           "  0  done\n"
                           "  1  the job, or the marks of the text, are refused: standard error has the\n"
                           "     number and what it means\n"
                           "  2  wrong use, FILE cannot be read, or a line of the text is wrong\n"
                           "  3  the output could not be written\n";

/* The gap of the listing. */
#define GAP_IF_ABSENT 1

/* What the command line asks for. */
struct request {
    const struct use *use;
    const char *file, *out;
    uint8_t gap;
    bool as_text;
};

/* A use of the marks of a job. */
typedef enum status shows(const struct streams *io, struct marks marks, const struct request *request);

struct use {
    const char *name;
    shows *shows; /* NULL for the one that makes a job */
    bool takes_gap, draws;
};

/* ---- the uses */

static enum status make_job(const struct streams *io)
{
    static struct strip strip;
    static unsigned long lines[MARKS_HELD];
    enum status status = read_text(io, &strip, lines);
    return status == DONE ? write_job(io, marks_of(&strip), lines) : status;
}

static enum status show_text(const struct streams *io, struct marks marks, const struct request *request)
{
    (void)request;
    write_text(io->out, marks);
    return DONE;
}

static enum status show_why(const struct streams *io, struct marks marks, const struct request *request)
{
    say_why(io->out, marks, request->gap);
    return DONE;
}

static enum status show_calls(const struct streams *io, struct marks marks, const struct request *request)
{
    say_calls(io->out, marks, request->gap);
    return DONE;
}

static void draw_to(FILE *out, struct marks marks, const struct request *request)
{
    (request->as_text ? draw_rows : draw_svg)(out, picture_of_passes(marks, request->gap));
}

/* The file is opened once the job is read, so that a refused job leaves it as it is. */
static enum status draw_to_file(const struct streams *io, struct marks marks, const struct request *request)
{
    FILE *out = fopen(request->out, "wb");
    bool written;
    if (out == NULL)
        return stop(io->err, NOT_WRITTEN, "%s could not be written", shown_name(request->out));
    draw_to(out, marks, request);
    written = !ferror(out);
    return fclose(out) == 0 && written ? DONE : stop(io->err, NOT_WRITTEN, "%s could not be written", shown_name(request->out));
}

static enum status draw(const struct streams *io, struct marks marks, const struct request *request)
{
    if (request->out != NULL)
        return draw_to_file(io, marks, request);
    draw_to(io->out, marks, request);
    return DONE;
}

static const struct use uses[] = {
    {"job", NULL, false, false},    {"text", show_text, false, false},  {"draw", draw, true, true},
    {"why", show_why, true, false}, {"check", show_calls, true, false},
};

static enum status run(const struct streams *io, const struct request *request)
{
    static struct strip strip;
    enum status status;
    if (request->use->shows == NULL)
        return make_job(io);
    status = read_job(io, &strip);
    return status == DONE ? request->use->shows(io, marks_of(&strip), request) : status;
}

/* ---- the command line */

static bool is(const char *argument, const char *name)
{
    return strcmp(argument, name) == 0;
}

static const struct use *use_named(const char *name)
{
    size_t i;
    for (i = 0; i < sizeof uses / sizeof uses[0]; i++)
        if (is(uses[i].name, name))
            return &uses[i];
    return NULL;
}

/* Takes what stands behind an option. */
static enum status take_gap(FILE *err, const char *value, struct request *request)
{
    if (value == NULL || strlen(value) != 1 || *value < '0' + STRIP_GAP_LEAST || *value > '0' + STRIP_GAP_MOST)
        return stop(err, WRONG_USE, "--gap takes a number from %d to %d", STRIP_GAP_LEAST, STRIP_GAP_MOST);
    request->gap = (uint8_t)(*value - '0');
    return DONE;
}

static enum status take_out(FILE *err, const char *value, struct request *request)
{
    request->out = value;
    return value != NULL && *value != '-' ? DONE : stop(err, WRONG_USE, "-o takes the name of a file");
}

static enum status take_file(FILE *err, const char *name, struct request *request)
{
    if (request->file != NULL)
        return stop(err, WRONG_USE, "one FILE at a time");
    request->file = name;
    return DONE;
}

static enum status take_arguments(FILE *err, char *const *arguments, struct request *request)
{
    const struct use *use = request->use;
    enum status status = DONE;
    for (; status == DONE && *arguments != NULL; arguments++)
        if (use->takes_gap && is(*arguments, "--gap"))
            status = take_gap(err, *++arguments, request);
        else if (use->draws && is(*arguments, "-o"))
            status = take_out(err, *++arguments, request);
        else if (use->draws && is(*arguments, "--text"))
            request->as_text = true;
        else if (**arguments == '-')
            status = stop(err, WRONG_USE, "%s has no %s; striptool --help says what it takes", use->name, shown_name(*arguments));
        else
            status = take_file(err, *arguments, request);
    return status;
}

static enum status run_on_file(const struct streams *io, const struct request *request)
{
    struct streams from_file = *io;
    enum status status;
    from_file.name = request->file;
    from_file.in = fopen(request->file, "rb");
    if (from_file.in == NULL)
        return stop(io->err, WRONG_USE, "%s cannot be read", shown_name(request->file));
    status = run(&from_file, request);
    fclose(from_file.in);
    return status;
}

static bool asks_for_help(char *const *arguments)
{
    for (; *arguments != NULL; arguments++)
        if (is(*arguments, "-h") || is(*arguments, "--help"))
            return true;
    return false;
}

static enum status say_help(const struct streams *io)
{
    fputs(help, io->out);
    return DONE;
}

static enum status take_use(char *const *arguments, const struct streams *io)
{
    struct request request = {NULL, NULL, NULL, GAP_IF_ABSENT, false};
    enum status status;
    if (*arguments == NULL)
        return stop(io->err, WRONG_USE, "what to do is missing; striptool --help says what there is");
    if (asks_for_help(arguments))
        return say_help(io);
    request.use = use_named(*arguments);
    if (request.use == NULL)
        return stop(io->err, WRONG_USE, "there is no use %s; striptool --help says what there is", shown_name(*arguments));
    status = take_arguments(io->err, arguments + 1, &request);
    if (status != DONE)
        return status;
    return request.file != NULL ? run_on_file(io, &request) : run(io, &request);
}

int striptool(char *const *arguments, const struct streams *io)
{
    enum status status = take_use(arguments, io);
    if (status == DONE && (fflush(io->out) != 0 || ferror(io->out)))
        return stop(io->err, NOT_WRITTEN, "the output could not be written");
    return status;
}

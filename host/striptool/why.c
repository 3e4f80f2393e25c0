/* Why not all marks can be labelled: the smallest run of neighbouring marks of which that is true, so that a person can check it. */
#include "striptool.h"

/* A pass, how often it was called, and the gap. */
struct search {
    pass *tried;
    uint8_t gap;
    size_t calls;
};

static bool fits(struct search *search, struct marks marks)
{
    static struct answer answer;
    search->calls++;
    search->tried(marks, search->gap, &answer);
    return answer.number == STRIP_ACCEPTED;
}

/* Both halvings rely on this, which is proved of both passes (crates/demands/specs/Runs.antt): a run of marks that fit, fits. */

/* The least mark such that those up to it do not fit; all do not. */
static size_t least_last(struct search *search, struct marks marks)
{
    size_t fitting = marks.first - 1, last = marks.first + marks.count - 1;
    while (last - fitting > 1) {
        size_t middle = fitting + (last - fitting) / 2;
        *(fits(search, run_of(marks, marks.first, middle)) ? &fitting : &last) = middle;
    }
    return last;
}

/* The greatest mark such that those from it to `last` do not fit; all up to `last` do not. */
static size_t greatest_first(struct search *search, struct marks marks, size_t last)
{
    size_t first = marks.first, fitting = last + 1;
    while (fitting - first > 1) {
        size_t middle = first + (fitting - first) / 2;
        *(fits(search, run_of(marks, middle, last)) ? &fitting : &first) = middle;
    }
    return first;
}

struct found smallest_run(pass *tried, struct marks marks, uint8_t gap)
{
    struct search search = {tried, gap, 0};
    struct found found = {false, marks, 0};
    if (!fits(&search, marks)) {
        size_t last = least_last(&search, marks);
        found.fails = true;
        found.run = run_of(marks, greatest_first(&search, marks, last), last);
    }
    found.calls = search.calls;
    return found;
}

static void list(FILE *out, struct marks run)
{
    size_t i;
    fputs("  mark   place  length  weight   to the left       to the right\n", out);
    for (i = 0; i < run.count; i++) {
        int place = run.places[i], length = run.lengths[i];
        fprintf(out, "%6zu  %6d  %6d  %6d   %6d to %6d  %6d to %6d\n", run.first + i, place, length, run.weights[i], place - length, place,
                place, place + length);
    }
}

/* Labels for all marks of a run but its first or its last, put where those of the run stand. */
static void label_but_one(pass *tried, uint8_t gap, struct marks run, bool but_first, struct answer *answer)
{
    size_t last = run.first + run.count - 1, i;
    struct marks rest = but_first ? run_of(run, run.first + 1, last) : run_of(run, run.first, last - 1);
    tried(rest, gap, answer);
    place_labels(answer, rest);
    if (but_first)
        for (i = run.count - 1; i > 0; i--)
            answer->labels[i] = answer->labels[i - 1];
    answer->labels[but_first ? 0 : run.count - 1].placed = false;
}

static void draw(FILE *out, pass *tried, struct marks run, uint8_t gap)
{
    static struct answer but_first, but_last;
    static struct picture picture;
    begin_picture(&picture, run, gap);
    label_but_one(tried, gap, run, true, &but_first);
    label_but_one(tried, gap, run, false, &but_last);
    add_lane(&picture, but_first.labels, "without mark %zu", run.first);
    add_lane(&picture, but_last.labels, "without mark %zu", run.first + run.count - 1);
    draw_rows(out, &picture);
}

static void say_why_of(FILE *out, pass *tried, bool slides, struct marks marks, uint8_t gap)
{
    struct found found = smallest_run(tried, marks, gap);
    struct marks run = found.run;
    if (!found.fails) {
        fprintf(out, "all marks can be labelled at gap %d%s\n", gap, slides ? " if labels slide" : "");
        return;
    }
    fprintf(out, "marks %zu to %zu cannot all be labelled%s\n", run.first, run.first + run.count - 1,
            slides ? " even if labels slide" : "");
    fprintf(out, "at gap %d; without mark %zu they can, and without mark %zu too (found by %zu calls)\n\n", gap, run.first,
            run.first + run.count - 1, found.calls);
    list(out, run);
    draw(out, tried, run, gap);
}

void say_why(FILE *out, struct marks marks, uint8_t gap)
{
    say_why_of(out, full, false, marks, gap);
    fputc('\n', out);
    if (marks.count <= STRIP_MARKS_SLIDE)
        say_why_of(out, slide, true, marks, gap);
    else
        fprintf(out, "more than %d marks, so the slide pass is not asked\n", STRIP_MARKS_SLIDE);
}

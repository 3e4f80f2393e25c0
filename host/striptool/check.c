/* The passes on one strip: number, sum and count, and the time of a call. */
#include "striptool.h"

#include <time.h>

#define SECONDS_OF_CALLS 0.02

/* Microseconds of processor time for a call: the mean of so many as take a fiftieth of a second. One that is refused at once takes some
 * hundredths of a microsecond, so three digits are written behind the point. */
static double time_of(pass *called, struct marks marks, uint8_t gap, struct answer *answer)
{
    unsigned long calls, i;
    for (calls = 1;; calls *= 2) {
        clock_t began = clock();
        double seconds;
        for (i = 0; i < calls; i++)
            called(marks, gap, answer);
        seconds = (double)(clock() - began) / CLOCKS_PER_SEC;
        if (seconds >= SECONDS_OF_CALLS)
            return 1e6 * seconds / (double)calls;
    }
}

/* Of the passes best alone has a sum and left-out marks, where it is not refused. */
static void say_call(FILE *out, pass *called, bool weighs, struct marks marks, uint8_t gap)
{
    static struct answer answer;
    double microseconds = time_of(called, marks, gap, &answer);
    fprintf(out, "%-5s %7d", answer.pass, answer.number);
    if (weighs && answer.number == STRIP_ACCEPTED)
        fprintf(out, "  %6lu  %8zu", (unsigned long)answer.sum, answer.count);
    else
        fprintf(out, "  %6s  %8s", "-", "-");
    fprintf(out, "  %9.3f us\n", microseconds);
}

void say_calls(FILE *out, struct marks marks, uint8_t gap)
{
    fprintf(out, "marks %zu, gap %d\n", marks.count, gap);
    fputs("pass   number     sum  left out          time\n", out);
    say_call(out, full, false, marks, gap);
    say_call(out, slide, false, marks, gap);
    say_call(out, best, true, marks, gap);
}

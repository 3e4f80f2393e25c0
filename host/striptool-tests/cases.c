/* What agreed and what did not: a line for each group, and for the first few differences. */
#include "tests.h"

#include <stdarg.h>
#include <stdio.h>
#include <string.h>

#define LINES_OF_DIFFERENCES 8
#define MARKS_SHOWN 12

static char group[40], case_name[200];
static const struct trial *case_trial;
static unsigned long cases, differing, said, all;
static bool differs;

static void end_case(void)
{
    differing += differs;
    all += differs;
    differs = false;
}

void begin_group(const char *name)
{
    snprintf(group, sizeof group, "%s", name);
    cases = differing = said = 0;
    snprintf(case_name, sizeof case_name, "before the first case");
    case_trial = NULL;
}

void begin_case(const char *format, ...)
{
    va_list values;
    end_case();
    cases++;
    va_start(values, format);
    vsnprintf(case_name, sizeof case_name, format, values);
    va_end(values);
    case_trial = NULL;
}

void case_marks(const struct trial *trial)
{
    case_trial = trial;
}

void try_strips(int strips, void make(struct trial *trial, int number), void compare(const struct trial *trial, uint8_t gap))
{
    static struct trial trial;
    int number;
    for (number = 1; number <= strips; number++) {
        int gap = number % (STRIP_GAP_MOST + 1);
        begin_case("strip %d at gap %d", number, gap);
        case_marks(&trial);
        make(&trial, number);
        compare(&trial, (uint8_t)gap);
    }
}

static void say_marks(void)
{
    size_t i;
    for (i = 0; case_trial != NULL && i < case_trial->count && i < MARKS_SHOWN; i++)
        printf("%s%d %d %d", i == 0 ? " [" : ", ", case_trial->places[i], case_trial->lengths[i], case_trial->weights[i]);
    if (case_trial != NULL && case_trial->count > 0)
        printf("%s]", case_trial->count > MARKS_SHOWN ? ", .." : "");
}

/* On one line, so without line ends. */
static void say_why_not(const char *format, va_list values)
{
    char words[800];
    size_t i;
    vsnprintf(words, sizeof words, format, values);
    for (i = 0; words[i] != '\0'; i++)
        putchar(words[i] < ' ' || words[i] > '~' ? '_' : words[i]);
    putchar('\n');
}

bool expect(bool holds, const char *format, ...)
{
    va_list values;
    if (holds)
        return true;
    differs = true;
    if (said++ >= LINES_OF_DIFFERENCES)
        return false;
    printf("striptool: %s: DIFFERS at %s", group, case_name);
    say_marks();
    printf(": ");
    va_start(values, format);
    say_why_not(format, values);
    va_end(values);
    return false;
}

/* A number with a comma before each three digits. */
static void say_number(unsigned long number)
{
    if (number >= 1000) {
        say_number(number / 1000);
        printf(",%03lu", number % 1000);
    } else {
        printf("%lu", number);
    }
}

void end_group(const char *what)
{
    end_case();
    printf("striptool: %s: ", group);
    if (differing > 0) {
        say_number(differing);
        printf(" DIFFER of ");
    }
    say_number(cases);
    printf(" %s\n", what);
    fflush(stdout);
}

unsigned long cases_of_group(void)
{
    return cases;
}

unsigned long differences_of_all(void)
{
    return all;
}

/* Random strips, and the jobs of them. */
#include "tests.h"

#include <stdio.h>

static uint32_t state = 1;

void seed(uint32_t with)
{
    state = with * 2654435761u | 1u;
}

/* Marsaglia's generator of 32 bits with shifts 13, 17 and 5. */
static uint32_t next(void)
{
    state ^= state << 13;
    state ^= state >> 17;
    state ^= state << 5;
    return state;
}

int between(int least, int most)
{
    return least + (int)(next() % (uint32_t)(most - least + 1));
}

bool one_in(int many)
{
    return between(1, many) == 1;
}

size_t random_count(void)
{
    if (one_in(50))
        return one_in(5) ? STRIP_MARKS_JOB : (size_t)between(61, STRIP_MARKS_JOB);
    return (size_t)(one_in(2) ? between(0, 12) : between(0, STRIP_MARKS_SLIDE));
}

/* ---- steps, lengths and weights of one kind each for a strip, so that strips differ more than their marks */

static int step_of(int kind, int most)
{
    static const int of_kind[] = {2, 6, 20, 80, 400, 60000};
    int greatest = of_kind[kind] < most ? of_kind[kind] : most;
    return kind == 5 && !one_in(4) ? 1 : between(1, greatest);
}

static int length_of(int kind)
{
    switch (kind) {
    case 0:
        return 8;
    case 1:
        return between(1, 3);
    case 2:
        return between(200, STRIP_LENGTH_MOST);
    case 3:
        return between(STRIP_LENGTH_LEAST, STRIP_LENGTH_MOST);
    case 4:
        return one_in(2) ? 8 : between(5, 15);
    default:
        return one_in(3) ? between(1, 2) : one_in(3) ? STRIP_LENGTH_MOST : between(4, 60);
    }
}

static int weight_of(int kind)
{
    switch (kind) {
    case 0:
        return 1;
    case 1:
        return one_in(2) ? STRIP_WEIGHT_LEAST : STRIP_WEIGHT_MOST;
    default:
        return between(STRIP_WEIGHT_LEAST, STRIP_WEIGHT_MOST);
    }
}

/* The first place, so that strips often stand at an end of the line or over its middle, where signs change. */
static int first_place(int total)
{
    switch (between(0, 3)) {
    case 0:
        return STRIP_PLACE_LEAST;
    case 1:
        return STRIP_PLACE_MOST - total;
    case 2:
        return between(-(total < 30000 ? total : 30000), total < 30000 ? 0 : 30000 - total);
    default:
        return between(STRIP_PLACE_LEAST, STRIP_PLACE_MOST - total);
    }
}

static void fill_trial(struct trial *trial, size_t count, int steps, int lengths)
{
    static int from_first[MARKS_TRIED];
    int weights = between(0, 2), at = 0, most = count < 2 ? 1 : 60000 / (int)count, first;
    size_t i;
    trial->count = count;
    for (i = 0; i < count; i++) {
        from_first[i] = at += i == 0 ? 0 : step_of(steps, most);
        trial->lengths[i] = (uint8_t)length_of(lengths);
        trial->weights[i] = (uint16_t)weight_of(weights);
    }
    first = first_place(at);
    for (i = 0; i < count; i++)
        trial->places[i] = (int16_t)(first + from_first[i]);
}

void random_trial(struct trial *trial, size_t count)
{
    int steps = between(0, 5), lengths = between(0, 5);
    fill_trial(trial, count, steps, lengths);
}

void crowded_trial(struct trial *trial, size_t count)
{
    static const int kinds[][2] = {{0, 1}, {0, 4}, {1, 0}, {1, 4}, {1, 5}, {2, 4}, {2, 5}, {3, 2}, {3, 3}, {2, 3}};
    int kind = between(0, (int)(sizeof kinds / sizeof kinds[0]) - 1);
    fill_trial(trial, count, kinds[kind][0], kinds[kind][1]);
}

/* A row has 36 dots, from a tick on, and there is one every 5 dots. */
#define NARROW_DOTS 31

static int reach_of_trial(const struct trial *trial)
{
    int from = 0, to = 0;
    size_t i;
    for (i = 0; i < trial->count; i++) {
        int place = trial->places[i] - trial->places[0], length = trial->lengths[i];
        from = place - length < from ? place - length : from;
        to = place + length > to ? place + length : to;
    }
    return to - from;
}

void narrow_trial(struct trial *trial)
{
    do {
        size_t count = (size_t)between(0, 12), i;
        fill_trial(trial, count, between(0, 1), 1);
        for (i = 0; i < trial->count; i++)
            trial->lengths[i] = (uint8_t)(one_in(2) ? 8 : between(i < 9 ? 1 : 2, 16)); /* numbers of two digits need room */
    } while (reach_of_trial(trial) > NARROW_DOTS);
}

/* ---- jobs */

size_t job_of(const struct trial *trial, uint8_t *job)
{
    size_t length;
    uint8_t number =
        strip_write(trial->places, trial->count, trial->lengths, trial->count, trial->weights, trial->count, job, STRIP_JOB_MOST, &length);
    expect(number == STRIP_ACCEPTED, "the strip that the test made is refused %d by the writer", number);
    return length;
}

size_t sample(const char *name, uint8_t *bytes, size_t room)
{
    FILE *file = fopen(name, "rb");
    size_t length = 0;
    if (expect(file != NULL, "%s cannot be read", name)) {
        length = fread(bytes, 1, room, file);
        fclose(file);
    }
    return length;
}

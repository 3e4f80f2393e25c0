/* Places as loggers store them, from C: in dots and in millimetres, rounded down and refused. Exit status 1 at a difference. */
#include "strip.h"

#include <float.h>
#include <math.h>
#include <stdio.h>

#define MARKS 3
#define COUNT_OF(list) (sizeof(list) / sizeof(list)[0])

static int differences;

static void expect(int holds, const char *what)
{
    if (!holds) {
        printf("places: %s\n", what);
        differences++;
    }
}

/* A number that is stored, and what the call must give for it. */
struct stored {
    float value;
    uint8_t number;
    int16_t place;
    const char *why;
};

static const struct stored in_dots[] = {
    {0.0f, STRIP_ACCEPTED, 0, "0 is a place"},
    {-0.0f, STRIP_ACCEPTED, 0, "so is 0 with the other sign"},
    {1.0f, STRIP_ACCEPTED, 1, "1 is a place"},
    {-1.0f, STRIP_ACCEPTED, -1, "and -1 is one"},
    {2.75f, STRIP_ACCEPTED, 2, "2.75 dots lie behind place 2"},
    {-2.25f, STRIP_ACCEPTED, -3, "-2.25 dots lie behind place -3"},
    {-0x1p-149f, STRIP_ACCEPTED, -1, "the last number below 0 lies behind place -1"},
    {30000.998f, STRIP_ACCEPTED, 30000, "30,000.998 dots have the last place"},
    {30001.0f, STRIP_BAD_MARK, 0, "30,001 dots are beyond it"},
    {-30000.0f, STRIP_ACCEPTED, -30000, "-30,000 dots are the first place"},
    {-30000.002f, STRIP_BAD_MARK, 0, "-30,000.002 dots lie before it"},
    {40000.0f, STRIP_BAD_MARK, 0, "40,000 dots are no place of 16 bits"},
    {FLT_MAX, STRIP_BAD_MARK, 0, "the greatest number is finite"},
    {INFINITY, STRIP_NOT_FINITE, 0, "an infinity is not"},
    {-INFINITY, STRIP_NOT_FINITE, 0, "nor is one below 0"},
    {NAN, STRIP_NOT_FINITE, 0, "a NaN is no place"},
};

/* In dots eight times as many. */
static const struct stored in_millimetres[] = {
    {0.5f, STRIP_ACCEPTED, 4, "0.5 mm are 4 dots"},
    {0.3f, STRIP_ACCEPTED, 2, "0.3 mm are 2.4 dots"},
    {-0.3f, STRIP_ACCEPTED, -3, "-0.3 mm are -2.4 dots"},
    {-0.0625f, STRIP_ACCEPTED, -1, "-1/16 mm is -0.5 dots"},
    {-0.0f, STRIP_ACCEPTED, 0, "0 is 0 in mm too"},
    {3750.1f, STRIP_ACCEPTED, 30000, "3,750.1 mm are 30,000.8 dots"},
    {3750.125f, STRIP_BAD_MARK, 0, "3,750.125 mm are 30,001 dots"},
    {-3750.0f, STRIP_ACCEPTED, -30000, "-3,750 mm are -30,000 dots"},
    {-3750.1f, STRIP_BAD_MARK, 0, "-3,750.1 mm are -30,000.8 dots"},
    {FLT_MAX, STRIP_BAD_MARK, 0, "the greatest number of mm is finite, though eight times as many dots are not"},
    {-FLT_MAX, STRIP_BAD_MARK, 0, "so is the same below 0"},
    {INFINITY, STRIP_NOT_FINITE, 0, "an infinity of mm is not"},
    {NAN, STRIP_NOT_FINITE, 0, "a NaN is no place in mm"},
};

typedef uint8_t place_call(float value, int16_t *place);

/* Another place stands there before each call. */
static void give(place_call *call, const struct stored *stored, size_t count)
{
    size_t i;
    for (i = 0; i < count; i++) {
        int16_t place = 777;
        uint8_t number = call(stored[i].value, &place);
        expect(number == stored[i].number && place == stored[i].place, stored[i].why);
    }
}

/* Three marks, stored in millimetres, go to the full pass, which has room for each label to the left of its mark, above. */
static void label(void)
{
    static const float stored[MARKS] = {0.0f, 6.26f, 12.5f};
    static const uint8_t lengths[MARKS] = {34, 40, 24};
    static const uint16_t weights[MARKS] = {1, 1, 1};
    static int16_t work[STRIP_WORK_FULL];
    int16_t places[MARKS];
    uint8_t positions[MARKS] = {0, 0, 0}, number = STRIP_ACCEPTED;
    size_t i;
    for (i = 0; i < MARKS; i++)
        number |= strip_place_of_millimetres(stored[i], &places[i]);
    expect(number == STRIP_ACCEPTED, "the places are taken");
    expect(places[0] == 0 && places[1] == 50 && places[2] == 100, "places 0 50 100");
    number = strip_full(places, MARKS, lengths, MARKS, weights, MARKS, 1, positions, MARKS, work, STRIP_WORK_FULL);
    expect(number == STRIP_ACCEPTED, "the labels fit");
    expect(positions[0] == STRIP_ABOVE_LEFT && positions[1] == STRIP_ABOVE_LEFT && positions[2] == STRIP_ABOVE_LEFT, "full 2 2 2");
}

int main(void)
{
    give(strip_place_of_dots, in_dots, COUNT_OF(in_dots));
    give(strip_place_of_millimetres, in_millimetres, COUNT_OF(in_millimetres));
    label();
    if (differences != 0)
        return 1;
    printf("places from C: as the documents say\n");
    return 0;
}

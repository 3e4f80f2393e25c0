/* Labels that come as text, from C: measured, placed, cut and refused. Exit status 1 at a difference. */
#include "strip.h"

#include <stdio.h>
#include <string.h>

#define MARKS 3

/* Three marks and their texts, one after the other. In dots: W 9, i 3, the space 4, each other letter and digit here 6. */
static const char words[] = "Wind 7Buoy 12reef";
static const uint16_t counts[MARKS] = {6, 7, 4};
static const uint8_t lengths_expected[MARKS] = {34, 40, 24};

static const int16_t places[MARKS] = {0, 50, 100};
static const uint16_t weights[MARKS] = {1, 1, 1};
static int16_t work[STRIP_WORK_FULL];

static int differences;

static void expect(int holds, const char *what)
{
    if (!holds) {
        printf("texts: %s\n", what);
        differences++;
    }
}

static const uint8_t *bytes_of(const char *text)
{
    return (const uint8_t *)text;
}

/* The lengths of the texts go to the full pass, which has room for each label to the left of its mark, above. */
static void label(void)
{
    uint8_t lengths[MARKS] = {0, 0, 0}, positions[MARKS] = {0, 0, 0};
    uint8_t number = strip_lengths(bytes_of(words), strlen(words), counts, MARKS, lengths, MARKS);
    expect(number == STRIP_ACCEPTED, "the texts are measured");
    expect(memcmp(lengths, lengths_expected, sizeof lengths) == 0, "lengths 34 40 24");
    number = strip_full(places, MARKS, lengths, MARKS, weights, MARKS, 1, positions, MARKS, work, STRIP_WORK_FULL);
    expect(number == STRIP_ACCEPTED, "the labels fit");
    expect(positions[0] == STRIP_ABOVE_LEFT && positions[1] == STRIP_ABOVE_LEFT && positions[2] == STRIP_ABOVE_LEFT, "full 2 2 2");
}

/* A text that is too wide for a label is cut where its longest beginning ends. */
static void cut(void)
{
    static const char wide[] = "mmmmmmmmmmmmmmmmmmmmmmmmmmmmmm";
    uint8_t length = 99;
    size_t count = 99;
    expect(strip_measure(bytes_of(wide), strlen(wide), &length) == STRIP_BAD_MARK && length == 0, "30 m are too wide");
    expect(strip_beginning(bytes_of(wide), strlen(wide), &count) == STRIP_ACCEPTED && count == 26, "26 of them fit");
    expect(strip_measure(bytes_of(wide), count, &length) == STRIP_ACCEPTED && length == 234, "and are 234 dots");
}

/* A byte outside the font, though an empty text comes before it; the list is as it was. */
static void refuse(void)
{
    static const uint16_t two[2] = {0, 1};
    uint8_t lengths[2] = {77, 77};
    uint8_t number = strip_lengths(bytes_of("\x7F"), 1, two, 2, lengths, 2);
    expect(number == STRIP_STRAY_BYTE, "byte 127 is refused by 13");
    expect(lengths[0] == 77 && lengths[1] == 77, "the length list is unchanged at a refusal");
}

int main(void)
{
    label();
    cut();
    refuse();
    if (differences != 0)
        return 1;
    printf("texts from C: as the documents say\n");
    return 0;
}

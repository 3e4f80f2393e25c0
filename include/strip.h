/*
 * The strip labeller for C: marks on one line, a label for each above or below the line.
 *
 * A mark has a place and a length, in dots, and a weight. A strip is three lists of one length: places, lengths and weights, the
 * places strictly rising. Marks are numbered from 1. The passes take a gap, 0 to 8 dots: labels of one side overlap if they share more
 * than an end point, or if fewer than that many dots lie between their nearer ends. At gap 0 they may touch.
 *
 * Labels may come as text, in bytes from 32 to 126. Their widths in the strip font are: space 4 dots; the letters i, l and the signs
 * ! ' , . : ; and | 3; m, w, M, W 9; all others 6. A label's length is the sum over its bytes.
 *
 * Lengths may also be counted in letter cells, 1 to 240, all of one width; strip_largest finds the greatest width, 1 to 30 dots, at which
 * the labels fit.
 *
 * A place may come as a logger stored it, as an IEEE 754 binary32 number of dots, or of millimetres with 8 dots each.
 *
 * A track that slopes has its marks in the plane, x to the right and y upward, in dots. It is two lists of one length, the x and the y of
 * each mark, both strictly rising, all marks on one straight line. Each mark has a square, all of one side, with a corner on the mark.
 *
 * Every list is a pointer and then its count of elements. What the caller owes, and no call can test:
 *   - no pointer is NULL, also where the count is 0, and each is aligned for its element type;
 *   - each pointer has at least its count of elements behind it, all of them initialised;
 *   - no two of the buffers of one call overlap, out values included;
 *   - for strip_place_of_dots and strip_place_of_millimetres the control bits of MXCSR are as the convention named below has them at the
 *     start of a program: no exception is trapped, and no number is taken for 0 because it is small (a program linked with -ffast-math
 *     may have that changed).
 * Any contents of the buffers are fine, any counts and any numbers: each call tests what it needs and refuses the rest by number.
 *
 * Every call returns 0 or the number of the first check that is not passed, and sets its out values at every return: to 0 at every
 * refusal. Except for the work area at refusal 11, a refusal changes no list. Elements that a call is not said to write are
 * unchanged. No call keeps a pointer, allocates memory or holds state of its own, so calls on separate buffers may run at once.
 *
 * The order of the checks:
 *   - passes and largest: 6, 12, 7 over 4,000 marks, 8, 7 over the marks that the pass takes, 9, 10, and at the end 11;
 *   - writer: 6, 7 over 4,000 marks, 8, 9;
 *   - reader: 1 and 4 for the header, 9, then 1 to 4 record by record, and at the end 5;
 *   - measure: 13 over the whole text, 8; beginning: 13 over the whole text;
 *   - lengths: 6, 7, 13 over all texts, 8 over all texts, 9;
 *   - place of dots, of millimetres: 15, 8;
 *   - slope: 6, 7 over 4,000 marks, 8, the side included, 7 over 60 marks, 18, 9, and at the end 11.
 * So past 6 and 12 slide and best, and past 6 slope, refuse 61 to 4,000 marks by 8 if one of them, or the side, is bad, and else by 7.
 *
 * The archive, target/staticlib/libexports.a, is an `ar` archive of one ELF object for x86-64 with the System V calling
 * convention: some 37,500 bytes, of them 24,700 code and constants, and no variables. It leaves one symbol undefined, memset. It
 * links into position-independent and into static programs. Its instructions are those of the level x86-64-v2, with SSSE3 and SSE4.1.
 * It uses SSE registers, and the 128 bytes below the stack pointer that the convention keeps free: an interrupt on the same stack must
 * leave both as they were.
 *
 * Steps for n marks, at most, as the loops go (read off the code, not proved; a step is a few comparisons):
 *   - every pass and the writer: 4n for the checks on entry, and none of them over 4,000 marks;
 *   - full: n to fill its table, n to walk, and 20,000 to clear the work area;
 *   - largest: 5n, and then at each width, at most 30 of them, n for the lengths and a call of full;
 *   - slide: 482n to fill its table, n to walk, and 30,000 to clear the work area;
 *   - best: 2n(n + 1)(2n + 1)/3 cells with five offers each (295,240 cells at 60 marks), 2n(n + 1) offers that the cells of a row
 *     share, 2n + 2 to prepare, 8n to walk, n(n + 1)/2 to list the left-out marks, and 30,000 to clear the work area twice;
 *   - reader and writer: 2n records, since each is looked at twice;
 *   - measure, beginning and lengths: 2, 2 and 3 looks at each byte, lengths also 4 at each count;
 *   - place of dots, of millimetres: 4, without a loop;
 *   - slope: 5n for the checks on entry, 2n pairs of marks to fill its table and n pairs to walk; of a pair both distances are counted in
 *     sides, and its 16 pairs of positions are bits of one number.
 */
#ifndef STRIP_H
#define STRIP_H

#include <stddef.h>
#include <stdint.h>

#ifdef __cplusplus
extern "C" {
#endif

/*
 * Grows by one with each change of a signature or of an answer.
 *   2: strip_best lists left-out marks by falling weight, equal weights by rising number; in version 1 their order was open.
 *   3: strip_full, strip_slide and strip_best take a gap behind the mark lists, and refuse 12; gap 0 gives the answers of version 2.
 *   4: strip_slide and strip_best refuse 8 where they refused 7: past 6 and 12, with 61 to 4,000 marks, at least one of them bad.
 *   5: strip_measure, strip_beginning and strip_lengths are new, and refuse 13; the other calls answer as in version 4.
 *   6: strip_largest is new; the other calls answer as in version 5. strip_full takes up to 256 bytes of stack, in version 5 up to 128.
 *   7: strip_place_of_dots and strip_place_of_millimetres are new, and refuse 15; the other calls answer as in version 6.
 *   8: strip_slope is new, and refuses 18; the other calls answer as in version 7.
 */
#define STRIP_VERSION 8

/* What a call returns. From strip_slope 8 also says that x or y do not rise strictly, as places must, and 11 speaks of squares. */
#define STRIP_ACCEPTED 0
#define STRIP_BYTES_END 1        /* reader: the bytes end too early */
#define STRIP_STRAY_BIT 2        /* reader: a bit of 3 to 7 stands in a map byte, or bit 0 in the first one */
#define STRIP_ABSENT_VALUE 3     /* reader: a field holds the value it has if absent */
#define STRIP_OUT_OF_RANGE 4     /* reader: a count, a place or a field is out of range */
#define STRIP_BYTES_LEFT_OVER 5  /* reader: bytes follow the last record */
#define STRIP_LISTS_UNEQUAL 6    /* passes, largest, writer, slope: mark lists of unequal length; lengths: counts that do not add up */
#define STRIP_TOO_MANY_MARKS 7   /* over 4,000 marks or texts; slide, best, slope: over 60 marks, all of them good */
#define STRIP_BAD_MARK 8         /* a value out of range, or places not rising; measure, lengths: a text of 0 or over 240 dots */
#define STRIP_LIST_TOO_SHORT 9   /* a list to be filled is shorter than the count of marks or texts, or the output than the job */
#define STRIP_WORK_TOO_SHORT 10  /* passes, largest: the work area is shorter than named below */
#define STRIP_NO_PLACING 11      /* full, slide, slope: not every mark can have a label; largest: not even with cells of 1 dot */
#define STRIP_GAP_TOO_WIDE 12    /* passes, largest: the gap is over 8; tested right after 6 */
#define STRIP_STRAY_BYTE 13      /* measure, beginning, lengths: a byte outside 32 to 126 */
#define STRIP_NOT_FINITE 15      /* place of dots, of millimetres: the value is a NaN or infinite */
#define STRIP_NOT_ON_ONE_LINE 18 /* slope: the marks are not on one line */

/* The ranges of a mark. */
#define STRIP_PLACE_LEAST (-30000)
#define STRIP_PLACE_MOST 30000
#define STRIP_LENGTH_LEAST 1
#define STRIP_LENGTH_MOST 240
#define STRIP_WEIGHT_LEAST 1
#define STRIP_WEIGHT_MOST 1000

/* How many dots strip_place_of_millimetres counts for one millimetre. */
#define STRIP_DOTS_A_MILLIMETRE 8

/* The ranges of a mark's x and y and of the side of a square, for strip_slope. */
#define STRIP_COORDINATE_LEAST STRIP_PLACE_LEAST
#define STRIP_COORDINATE_MOST STRIP_PLACE_MOST
#define STRIP_SQUARE_LEAST STRIP_LENGTH_LEAST
#define STRIP_SQUARE_MOST STRIP_LENGTH_MOST

/* The gap, in dots, that a pass keeps between labels of one side. */
#define STRIP_GAP_LEAST 0
#define STRIP_GAP_MOST 8

/* Label lengths in letter cells, and the widths of a cell, in dots, that strip_largest tries. */
#define STRIP_CELLS_LEAST STRIP_LENGTH_LEAST
#define STRIP_CELLS_MOST STRIP_LENGTH_MOST
#define STRIP_WIDTH_LEAST 1
#define STRIP_WIDTH_MOST 30

/* The most marks that a call takes, and the most bytes that a job of so many marks has. */
#define STRIP_MARKS_FULL 4000
#define STRIP_MARKS_LARGEST STRIP_MARKS_FULL
#define STRIP_MARKS_SLIDE 60
#define STRIP_MARKS_BEST 60
#define STRIP_MARKS_SLOPE 60
#define STRIP_MARKS_JOB 4000
#define STRIP_JOB_MOST 24002

/* The bytes of the strip font, the widths of the narrowest and the widest letter, and the most texts that strip_lengths takes. */
#define STRIP_FONT_FIRST 32
#define STRIP_FONT_LAST 126
#define STRIP_LETTER_LEAST 3
#define STRIP_LETTER_MOST 9
#define STRIP_TEXTS_MOST 4000

/* The named part of each work area, in elements. The sizes do not depend on the strip. */
#define STRIP_WORK_FULL 20000
#define STRIP_WORK_LARGEST STRIP_WORK_FULL
#define STRIP_WORK_SLIDE 30000
#define STRIP_WORK_BEST 15000

/* Stack in bytes, at most, below a call's return address, beside what memset takes. Measured by host/stack.c, not proved. */
#define STRIP_STACK_FULL 256
#define STRIP_STACK_LARGEST 4608
#define STRIP_STACK_SLIDE 128
#define STRIP_STACK_BEST 512
#define STRIP_STACK_READ 128
#define STRIP_STACK_WRITE 128
#define STRIP_STACK_MEASURE 128
#define STRIP_STACK_BEGINNING 128
#define STRIP_STACK_LENGTHS 256
#define STRIP_STACK_PLACES 128
#define STRIP_STACK_SLOPE 256

/* The positions of a label, which are those of a square too, and the sides of a sliding label. */
#define STRIP_UNLABELLED 0
#define STRIP_ABOVE_RIGHT 1
#define STRIP_ABOVE_LEFT 2
#define STRIP_BELOW_LEFT 3
#define STRIP_BELOW_RIGHT 4
#define STRIP_SIDE_ABOVE 0
#define STRIP_SIDE_BELOW 1

/*
 * The full pass: a label for every mark, a corner of it on the mark.
 *
 * 0: positions holds in its first places_len elements one of the positions 1 to 4 for each mark, no two labels overlapping. Of all
 * such lists it is the first, compared from mark 1 on, with the positions ranked 2, 3, 1, 4.
 * 11: there is no such list; positions is unchanged.
 * At 0 and at 11 the first STRIP_WORK_FULL elements of work are 0 and the rest of it is unchanged. 6 to 10 and 12: nothing is changed.
 */
uint8_t strip_full(const int16_t *places, size_t places_len, const uint8_t *lengths, size_t lengths_len,
                   const uint16_t *weights, size_t weights_len, uint8_t gap, uint8_t *positions, size_t positions_len,
                   int16_t *work, size_t work_len);

/*
 * The largest letters: the greatest width of a letter cell, from STRIP_WIDTH_MOST dots down to 1, at which strip_full gives 0 for the
 * strip whose lengths are cells times width. At a width at which a length would be over 240 the strip does not fit.
 *
 * 0: *width is that width, and the first places_len elements of positions are what strip_full gives at it. Every smaller width fits too
 * and no greater one does, up to STRIP_WIDTH_MOST. No marks have the width STRIP_WIDTH_MOST.
 * 11: the strip does not fit at 1 dot; *width is 0, positions is unchanged.
 * At 0 and at 11 the first STRIP_WORK_LARGEST elements of work are 0 and the rest of it is unchanged. 6 to 10 and 12: *width is 0,
 * nothing else is changed; the checks are those of strip_full with cells in place of lengths.
 */
uint8_t strip_largest(const int16_t *places, size_t places_len, const uint8_t *cells, size_t cells_len,
                      const uint16_t *weights, size_t weights_len, uint8_t gap, uint8_t *positions, size_t positions_len,
                      int16_t *work, size_t work_len, uint8_t *width);

/*
 * The slide pass: a label for every mark, its left edge anywhere from place - length to place.
 *
 * 0: sides and edges hold in their first places_len elements the side (0 above, 1 below) and the left edge of each mark's label, no
 * two labels overlapping. Given the sides, every label is as far left as it goes, taking marks from left to right; which sides is
 * open.
 * 11: there are no such lists, also at fractions of a dot; sides and edges are unchanged.
 * At 0 and at 11 the first STRIP_WORK_SLIDE elements of work are 0 and the rest of it is unchanged. 6 to 10 and 12: nothing is changed.
 */
uint8_t strip_slide(const int16_t *places, size_t places_len, const uint8_t *lengths, size_t lengths_len,
                    const uint16_t *weights, size_t weights_len, uint8_t gap, uint8_t *sides, size_t sides_len,
                    int16_t *edges, size_t edges_len, uint16_t *work, size_t work_len);

/*
 * The best pass: labels at the four positions for marks that may go without one, with the greatest sum of weights.
 *
 * 0: positions holds in its first places_len elements a position for each mark, 0 for none, no two labels overlapping; *sum is the
 * sum of the weights of the labelled marks, and no such list has a greater one; which of those with that sum is open. The first
 * *count elements of left_out are the numbers of the marks at 0, each once: by falling weight, and equal weights by rising number.
 * The first STRIP_WORK_BEST elements of work are 0 and the rest of it is unchanged.
 * At one gap, of two calls that give 0: where the lists differ in one mark's weight alone, *sum differs by at most the difference of
 * those weights and does not move the other way; where one mark is taken out, *sum falls by at most its weight and does not rise.
 * 6 to 10 and 12: *sum and *count are 0, nothing else is changed. 9 compares both answer lists with the count of marks.
 */
uint8_t strip_best(const int16_t *places, size_t places_len, const uint8_t *lengths, size_t lengths_len,
                   const uint16_t *weights, size_t weights_len, uint8_t gap, uint8_t *positions, size_t positions_len,
                   uint16_t *left_out, size_t left_out_len, uint32_t *work, size_t work_len, uint32_t *sum,
                   size_t *count);

/*
 * The job reader: the marks of a job.
 *
 * 0: *count is the count of marks, and the first *count elements of places, lengths and weights are theirs. The three lists may be
 * longer than the count, and of different lengths.
 * 1 to 5 and 9: *count is 0, nothing else is changed. 9 comes after the header and before any record.
 */
uint8_t strip_read(const uint8_t *job, size_t job_len, int16_t *places, size_t places_len, uint8_t *lengths,
                   size_t lengths_len, uint16_t *weights, size_t weights_len, size_t *count);

/*
 * The job writer: the one job of a strip.
 *
 * 0: *length is the job's length in bytes, and the first *length elements of job are its bytes.
 * 6 to 9: *length is 0, nothing else is changed. STRIP_JOB_MOST bytes of output are enough for every strip.
 */
uint8_t strip_write(const int16_t *places, size_t places_len, const uint8_t *lengths, size_t lengths_len,
                    const uint16_t *weights, size_t weights_len, uint8_t *job, size_t job_len, size_t *length);

/*
 * The measure: the length of a text as a label. A text may have any count of bytes.
 *
 * 0: *length is the sum of the widths of its bytes, 1 to 240.
 * 13: a byte of the text is outside 32 to 126. 8: there is none, and the sum is 0, as for no bytes, or over 240. At both *length is 0.
 */
uint8_t strip_measure(const uint8_t *text, size_t text_len, uint8_t *length);

/*
 * The longest beginning of a text that is at most 240 dots. A text may have any count of bytes.
 *
 * 0: *count is how many bytes it has: the first *count bytes are at most 240 dots, and they are all of the text or one byte more is
 * over 240. It is 0 for no bytes.
 * 13: a byte of the text, also behind the beginning, is outside 32 to 126; *count is 0.
 */
uint8_t strip_beginning(const uint8_t *text, size_t text_len, size_t *count);

/*
 * The length list of a strip, from texts that stand one after the other in texts; counts has the count of bytes of each.
 *
 * 0: the first counts_len elements of lengths are what strip_measure gives for each text, in their order. No texts and no bytes are
 * accepted.
 * 6: the counts do not add up to texts_len; any number of counts is tested. 7: over 4,000 texts. 13 and 8: as for strip_measure; 13 of
 * any text comes before 8 of any. 9: lengths has fewer elements than counts. At all of them nothing is changed.
 */
uint8_t strip_lengths(const uint8_t *texts, size_t texts_len, const uint16_t *counts, size_t counts_len, uint8_t *lengths,
                      size_t lengths_len);

/*
 * The place of a mark from what a logger stored: a number of dots, or one of millimetres. Any value will do, a NaN too.
 *
 * 0: *place is the largest whole number that is not above the exact number of dots, which is value, or STRIP_DOTS_A_MILLIMETRE times
 * value: that number is at least *place and less than *place + 1. Just below 0 the place is -1; that of -0 is 0.
 * 15: value is a NaN or infinite. 8: the place is out of range. At both *place is 0. It is the place that counts: 30,000.998 dots have
 * the place 30,000, and -30,000.002 dots are refused.
 * A finite value in millimetres gives what eight times the value gives in dots, wherever that is finite, and 8 where it is not.
 */
uint8_t strip_place_of_dots(float value, int16_t *place);
uint8_t strip_place_of_millimetres(float value, int16_t *place);

/*
 * The track that slopes: a square for every mark, a corner of it on the mark. From a mark x, y the square spans
 *   - x to x + side and y to y + side at STRIP_ABOVE_RIGHT,
 *   - x - side to x and y to y + side at STRIP_ABOVE_LEFT,
 *   - x - side to x and y - side to y at STRIP_BELOW_LEFT,
 *   - x to x + side and y - side to y at STRIP_BELOW_RIGHT.
 * Two squares overlap if their spans share more than an end point, in x and in y; they may touch, and a square may cover other marks.
 * There is no gap.
 *
 * 0: positions holds in its first xs_len elements one of the positions 1 to 4 for each mark, no two squares overlapping; which of such
 * lists is open. No marks are accepted.
 * 11: there is no such list. 6: xs and ys have different lengths. 8: side is 0 or over 240, also where there are no marks; or a coordinate
 * is out of range, or not above the one before it in its list. 18: no straight line has all marks. 9: positions has fewer elements than xs.
 * At all of them nothing is changed.
 */
uint8_t strip_slope(const int16_t *xs, size_t xs_len, const int16_t *ys, size_t ys_len, uint8_t side, uint8_t *positions,
                    size_t positions_len);

#ifdef __cplusplus
}
#endif

#endif

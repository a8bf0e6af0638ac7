/*
 * The library's answers from which docs/pictures/draw makes the picture and the tables of the manual: one answer a line,
 * after a word that says what it is.
 */
#include "numolefays.h"

#include <inttypes.h>
#include <stdio.h>
#include <stdlib.h>

enum { AXES = 2, TOP = 4, ZERO_BORDER = 0, WITH_BORDER = 1, POINTS = 129, STEPS = 64 };

/* Every call here is meant to succeed. */
static void must(uint32_t number)
{
    if (number != NUMOLEFAYS_SUCCESS) {
        fprintf(stderr, "answers: refused with %u\n", (unsigned)number);
        exit(1);
    }
}

/* N of every shape of one sort, of 1 to `most` axes, or 0 where it is refused with 19. */
static void counts(const char *word, uint8_t border, uint32_t most)
{
    for (uint32_t d = 1; d <= most; d++)
        for (uint32_t n = 0; n <= 8; n++) {
            uint64_t points = 0, place;
            uint32_t number = numolefays_count(d, n, border, &points, &place);
            if (number != NUMOLEFAYS_TOO_MANY_POINTS)
                must(number);
            printf("%s %u %u %" PRIu64 "\n", word, (unsigned)d, (unsigned)n, points);
        }
}

/* A coordinate in parts of 2^(top + 1). */
static uint32_t part(uint32_t top, uint32_t level, uint32_t index)
{
    return index << (top - level);
}

/* The points of two axes and top level 3: number, and coordinates in sixteenths. */
static void grid(void)
{
    uint64_t points, place;
    must(numolefays_count(2, 3, ZERO_BORDER, &points, &place));
    for (uint64_t p = 0; p < points; p++) {
        uint32_t m[8], l[8], i[8];
        must(numolefays_point_of_number(2, 3, ZERO_BORDER, p, m, l, i, &place));
        printf("point %" PRIu64 " %u %u\n", p, (unsigned)part(3, l[0], i[0]), (unsigned)part(3, l[1], i[1]));
    }
}

/* A smooth surface, 10,000 x (1 - x) (3 - 2x) y (1 - y)^3, to the nearest whole number; coordinates come in 32nds. */
static int64_t rate(int64_t x, int64_t y)
{
    const int64_t whole = INT64_C(1) << 35;
    return (10000 * x * (32 - x) * (96 - 2 * x) * y * (32 - y) * (32 - y) * (32 - y) + whole / 2) / whole;
}

/*
 * The cut where axis 2 is 1/4: the rates sampled on it, and the estimates of the fully turned table and of the half-turned
 * one, each handed to adopt.
 */
static void cut(void)
{
    int64_t full[POINTS], half[POINTS], estimate;
    uint64_t place;
    uint8_t forward;

    for (uint64_t p = 0; p < POINTS; p++) {
        uint32_t m[8], l[8], i[8];
        must(numolefays_point_of_number(AXES, TOP, ZERO_BORDER, p, m, l, i, &place));
        full[p] = half[p] = rate(part(TOP, l[0], i[0]), part(TOP, l[1], i[1]));
        if (part(TOP, l[1], i[1]) == 8)
            printf("sample %u %" PRId64 "\n", (unsigned)part(TOP, l[0], i[0]), full[p]);
    }
    must(numolefays_rates_to_coefficients(AXES, TOP, ZERO_BORDER, full, POINTS, &place));
    must(numolefays_load(AXES, TOP, ZERO_BORDER, half, POINTS, &forward, &place));
    must(numolefays_forward(AXES, TOP, ZERO_BORDER, &forward, half, POINTS, 1, &place));
    /* here an estimate is refused with 17, place 2 */
    const uint32_t middle[AXES] = {NUMOLEFAYS_UNIT / 2, NUMOLEFAYS_UNIT / 2};
    uint32_t number = numolefays_estimate(AXES, TOP, ZERO_BORDER, forward, half, POINTS, middle, AXES, &estimate, &place);
    printf("half %u %" PRIu64 "\n", (unsigned)number, place);

    for (uint32_t k = 0; k <= STEPS; k++) {
        const uint32_t at[AXES] = {k * (NUMOLEFAYS_UNIT / STEPS), NUMOLEFAYS_UNIT / 4};
        int64_t right, wrong;
        must(numolefays_adopt(AXES, TOP, ZERO_BORDER, full, POINTS, &forward, &place));
        must(numolefays_estimate(AXES, TOP, ZERO_BORDER, forward, full, POINTS, at, AXES, &right, &place));
        must(numolefays_adopt(AXES, TOP, ZERO_BORDER, half, POINTS, &forward, &place));
        must(numolefays_estimate(AXES, TOP, ZERO_BORDER, forward, half, POINTS, at, AXES, &wrong, &place));
        printf("cut %u %" PRId64 " %" PRId64 "\n", (unsigned)k, right, wrong);
    }
}

int main(void)
{
    counts("count", ZERO_BORDER, 8);
    counts("bordered", WITH_BORDER, 4);
    grid();
    cut();
    return 0;
}

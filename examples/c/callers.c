/*
 * Five callers of the front page. The first four on one small table: 2 axes, top level 1, rates 4, 3, 5, 2, 6. Then their calls on
 * a table with values on the border. Last a planner's day: four offices under one account.
 */
#include "numolefays.h"

#include <inttypes.h>
#include <stdio.h>
#include <stdlib.h>
#include <string.h>

enum { AXES = 2, TOP = 1, POINTS = 5 };

/* What is kept of a table between two calls, here and in a file. */
struct kept {
    uint32_t axes;
    uint32_t level;
    uint8_t border;
    uint8_t forward;
    int64_t table[POINTS];
};

static void show(const char *what, const struct kept *k)
{
    printf("%s: forward byte %u, table", what, (unsigned)k->forward);
    for (size_t p = 0; p < POINTS; p++)
        printf(" %" PRId64, k->table[p]);
    printf("\n");
}

/* The place goes in by address: C leaves open whether an argument is read before the call beside it. */
static void tell(const char *what, uint32_t number, const uint64_t *place)
{
    if (number == NUMOLEFAYS_SUCCESS)
        printf("%s: done\n", what);
    else
        printf("%s: refused with %u, place %" PRIu64 "\n", what, (unsigned)number, *place);
}

/* A call that this program relies on. */
static void must(const char *what, uint32_t number, const uint64_t *place)
{
    if (number != NUMOLEFAYS_SUCCESS) {
        tell(what, number, place);
        exit(2);
    }
}

/* The loader: each rate has one fixed number, by which the file has it. */
static void loader(struct kept *k)
{
    static const uint8_t file[] = {0x02, 0x01, 0x08, 0x06, 0x0A, 0x04, 0x0C};
    uint64_t points, place, number;
    uint32_t marks[8], levels[8], indices[8], end = 0;

    must("file", numolefays_read_house_file(file, sizeof file, k->table, POINTS, &k->axes, &k->level, &place), &place);
    k->border = 0;
    must("count", numolefays_count(k->axes, k->level, k->border, &points, &place), &place);
    printf("axes %u, level %u, points %" PRIu64 "\n", (unsigned)k->axes, (unsigned)k->level, points);

    must("first point", numolefays_point_of_number(k->axes, k->level, k->border, 0, marks, levels, indices, &place), &place);
    while (!end) {
        must("number",
             numolefays_number_of_point(k->axes, k->level, k->border, marks, AXES, levels, AXES, indices, AXES, &number, &place), &place);
        printf("point %" PRIu64 ": levels %u %u, indices %u %u, rate %" PRId64 "\n", number, (unsigned)levels[0], (unsigned)levels[1],
               (unsigned)indices[0], (unsigned)indices[1], k->table[number]);
        uint32_t next_marks[8], next_levels[8], next_indices[8];
        must("successor",
             numolefays_successor(k->axes, k->level, k->border, marks, AXES, levels, AXES, indices, AXES, next_marks, next_levels,
                                  next_indices, &end, &place), &place);
        if (!end) {
            memcpy(marks, next_marks, sizeof marks);
            memcpy(levels, next_levels, sizeof levels);
            memcpy(indices, next_indices, sizeof indices);
        }
    }

    int64_t wrong[POINTS] = {4, 3, INT64_C(2147483648), 2, 6};
    uint8_t forward = 0;
    tell("load of a rate that is none", numolefays_load(k->axes, k->level, k->border, wrong, POINTS, &forward, &place), &place);
    tell("load", numolefays_load(k->axes, k->level, k->border, k->table, POINTS, &k->forward, &place), &place);
    show("loaded", k);
}

/* The retabulation job, up to where it is stopped: table and state go to a file. */
static void job_begins(struct kept *k, FILE *saved)
{
    uint64_t place;

    tell("forward on axis 1", numolefays_forward(k->axes, k->level, k->border, &k->forward, k->table, POINTS, 1, &place), &place);
    show("stopped", k);
    if (fwrite(k, sizeof *k, 1, saved) != 1)
        exit(2);
}

/* The job goes on from the file. What it hands in again was done, and is refused; the rest is carried out. */
static void job_goes_on(struct kept *k, FILE *saved)
{
    static const uint8_t directions[] = {0, 0};
    static const uint32_t turned[] = {1, 2};
    uint32_t numbers[2];
    uint64_t places[2], place;

    rewind(saved);
    if (fread(k, sizeof *k, 1, saved) != 1)
        exit(2);
    show("read back", k);
    must("run",
         numolefays_run(k->axes, k->level, k->border, &k->forward, k->table, POINTS, directions, 2, turned, 2, numbers, 2, places, 2, &place),
         &place);
    tell("forward on axis 1", numbers[0], &places[0]);
    tell("forward on axis 2", numbers[1], &places[1]);
    show("coefficients", k);
}

static void ask(const struct kept *k, uint32_t x, uint32_t y)
{
    const uint32_t coordinates[AXES] = {x, y};
    int64_t estimate = 0;
    uint64_t absolute_sum, margin = 0, place;
    uint32_t number = numolefays_estimate_with_margin(k->axes, k->level, k->border, k->forward, k->table, POINTS, coordinates, AXES,
                                                      &estimate, &absolute_sum, &margin, &place);

    printf("estimate at %u %u", (unsigned)x, (unsigned)y);
    if (number == NUMOLEFAYS_SUCCESS)
        printf(": %" PRId64 ", at most %" PRIu64 " off, in units of 1/4\n", estimate, margin);
    else
        tell("", number, &place);
}

/* The analyst: estimates from fully turned tables only, each with its margin. */
static void analyst(const struct kept *half, const struct kept *whole)
{
    struct kept k = *whole;
    uint64_t place;

    ask(half, NUMOLEFAYS_UNIT / 2, NUMOLEFAYS_UNIT / 2);
    k.forward = 0;
    tell("adopt", numolefays_adopt(k.axes, k.level, k.border, k.table, POINTS, &k.forward, &place), &place);
    ask(&k, NUMOLEFAYS_UNIT / 2, NUMOLEFAYS_UNIT / 2);     /* point 0, rate 4 */
    ask(&k, NUMOLEFAYS_UNIT / 4, NUMOLEFAYS_UNIT / 2);     /* point 1, rate 3 */
    ask(&k, NUMOLEFAYS_UNIT / 2, 3 * NUMOLEFAYS_UNIT / 4); /* point 4, rate 6 */
    ask(&k, 160000, 800000);
    ask(&k, NUMOLEFAYS_UNIT, 800000);
    ask(&k, 160000, NUMOLEFAYS_UNIT + 1);
}

/* The rates as a house file, the same for every such table, and read back; a longer file of the same table has this one as its form. */
static void file_again(const struct kept *rates)
{
    static const uint8_t longer[] = {0x82, 0x00, 0x01, 0x88, 0x80, 0x00, 0x06, 0x0A, 0x04, 0x0C};
    uint8_t file[2 + 5 * POINTS], form[sizeof longer];
    uint64_t length, points, form_length, place;
    struct kept again = {0};

    must("writer", numolefays_write_house_file(rates->axes, rates->level, rates->table, POINTS, file, sizeof file, &length, &place), &place);
    printf("house file:");
    for (size_t k = 0; k < length; k++)
        printf(" %02x", (unsigned)file[k]);
    must("shape", numolefays_house_file_shape(file, length, &again.axes, &again.level, &points, &place), &place);
    must("reader", numolefays_read_house_file(file, length, again.table, POINTS, &again.axes, &again.level, &place), &place);
    printf("\nread back, %" PRIu64 " points: %s\n", points,
           again.axes == rates->axes && again.level == rates->level && memcmp(again.table, rates->table, sizeof again.table) == 0
               ? "the same shape and rates" : "another table");
    must("rewriting", numolefays_rewrite_house_file(longer, sizeof longer, POINTS, form, sizeof form, &form_length, &place), &place);
    printf("rewritten from %zu bytes: %s\n", sizeof longer,
           form_length == length && memcmp(form, file, length) == 0 ? "the same file" : "another file");
}

/* The reviewer: the very rates that were sampled come back, by single turns and whole; a table that no rates have is refused and left. */
static void reviewer(const struct kept *coefficients)
{
    struct kept k = *coefficients;
    uint64_t place;

    tell("unload", numolefays_unload(k.axes, k.level, k.border, k.forward, k.table, POINTS, &place), &place);
    tell("back on axis 1", numolefays_back(k.axes, k.level, k.border, &k.forward, k.table, POINTS, 1, &place), &place);
    tell("back on axis 2", numolefays_back(k.axes, k.level, k.border, &k.forward, k.table, POINTS, 2, &place), &place);
    tell("unload", numolefays_unload(k.axes, k.level, k.border, k.forward, k.table, POINTS, &place), &place);
    show("rates", &k);

    tell("rates to coefficients", numolefays_rates_to_coefficients(k.axes, k.level, k.border, k.table, POINTS, &place), &place);
    printf("the coefficients of the job: %s\n", memcmp(k.table, coefficients->table, sizeof k.table) == 0 ? "the same" : "others");
    tell("coefficients to rates", numolefays_coefficients_to_rates(k.axes, k.level, k.border, k.table, POINTS, &place), &place);
    show("rates", &k);
    file_again(&k);

    k = *coefficients;
    k.table[3] += 1;
    tell("coefficients to rates, one changed", numolefays_coefficients_to_rates(k.axes, k.level, k.border, k.table, POINTS, &place), &place);
    show("left", &k);

    /* the parents of that point, number 3, on axis 2: what its coefficient was made with */
    for (uint32_t side = 0; side < 2; side++) {
        const uint32_t marks[2] = {0, 0}, levels[2] = {0, 1}, indices[2] = {1, 1};
        uint32_t up_marks[8] = {0}, up_levels[8] = {0}, up_indices[8] = {0}, none = 0;
        tell(side == 0 ? "parent on the left" : "parent on the right",
             numolefays_parent(k.axes, k.level, k.border, marks, 2, levels, 2, indices, 2, 2, side, up_marks, up_levels, up_indices,
                               &none, &place), &place);
        if (none == 1)
            printf("  the border\n");
        else
            printf("  levels %u %u, indices %u %u\n", (unsigned)up_levels[0], (unsigned)up_levels[1], (unsigned)up_indices[0],
                   (unsigned)up_indices[1]);
    }
}

/*
 * Household size over income, which does not vanish at the lowest income: one axis, top level 1, with values on the border. The
 * sizes at 1/2, 1/4 and 3/4 of the axis, then on its lower and its upper border.
 */
static void sizes(void)
{
    static const uint32_t coordinates[] = {0, NUMOLEFAYS_UNIT / 8, NUMOLEFAYS_UNIT / 4, 7 * (NUMOLEFAYS_UNIT / 8), NUMOLEFAYS_UNIT};
    struct kept k = {1, TOP, 1, 0, {3, 2, 4, 1, 2}};
    uint32_t marks[8], levels[8], indices[8];
    uint64_t points, number, place;

    must("count", numolefays_count(k.axes, k.level, k.border, &points, &place), &place);
    for (uint64_t p = 0; p < points; p++) {
        must("point", numolefays_point_of_number(k.axes, k.level, k.border, p, marks, levels, indices, &place), &place);
        printf("point %" PRIu64 ": mark %u, level %u, index %u, size %" PRId64 "\n", p, (unsigned)marks[0], (unsigned)levels[0],
               (unsigned)indices[0], k.table[p]);
    }

    tell("load", numolefays_load(k.axes, k.level, k.border, k.table, POINTS, &k.forward, &place), &place);
    tell("forward", numolefays_forward(k.axes, k.level, k.border, &k.forward, k.table, POINTS, 1, &place), &place);
    show("coefficients", &k);
    for (size_t c = 0; c < sizeof coordinates / sizeof *coordinates; c++) {
        int64_t estimate;
        must("estimate", numolefays_estimate(k.axes, k.level, k.border, k.forward, k.table, POINTS, &coordinates[c], 1, &estimate, &place),
             &place);
        printf("estimate at %u: %" PRId64 ", in units of 1/2\n", (unsigned)coordinates[c], estimate);
    }

    /* point 1, at 1/4: its parents are the lower border, which is point 3, and point 0 */
    must("point", numolefays_point_of_number(k.axes, k.level, k.border, 1, marks, levels, indices, &place), &place);
    for (uint32_t side = 0; side < 2; side++) {
        uint32_t up_marks[8], up_levels[8], up_indices[8], none;
        must("parent",
             numolefays_parent(k.axes, k.level, k.border, marks, 1, levels, 1, indices, 1, 1, side, up_marks, up_levels, up_indices,
                               &none, &place), &place);
        must("number",
             numolefays_number_of_point(k.axes, k.level, k.border, up_marks, 1, up_levels, 1, up_indices, 1, &number, &place), &place);
        printf("parent of point 1 on the %s: point %" PRIu64 "\n", side == 0 ? "left" : "right", number);
    }

    tell("back", numolefays_back(k.axes, k.level, k.border, &k.forward, k.table, POINTS, 1, &place), &place);
    tell("unload", numolefays_unload(k.axes, k.level, k.border, k.forward, k.table, POINTS, &place), &place);
    show("sizes", &k);

    /* a border point without border values, and border values on five axes */
    marks[0] = NUMOLEFAYS_LOWER_BORDER;
    tell("number of a border point, zero border", numolefays_number_of_point(1, TOP, 0, marks, 1, (const uint32_t[]){0}, 1,
                                                                             (const uint32_t[]){1}, 1, &number, &place), &place);
    tell("count of five axes with border values", numolefays_count(5, TOP, 1, &points, &place), &place);
}

/* One call of the planner's day. A closing has no axes and no level. */
enum kind { OPEN, CLOSE };
struct call {
    enum kind kind;
    uint32_t office, tag, axes, level;
};

static void carry_out(uint8_t account[32], const struct call *c)
{
    uint64_t by_office[NUMOLEFAYS_OFFICES], in_all, used, free_points, place;
    uint32_t number;

    if (c->kind == OPEN) {
        printf("open, office %u, tag %u, axes %u, level %u: ", (unsigned)c->office, (unsigned)c->tag,
               (unsigned)c->axes, (unsigned)c->level);
        number = numolefays_open_table(account, c->office, c->tag, c->axes, c->level, &place);
    } else {
        printf("close, office %u, tag %u: ", (unsigned)c->office, (unsigned)c->tag);
        number = numolefays_close_table(account, c->office, c->tag, &place);
    }
    if (number == NUMOLEFAYS_SUCCESS)
        printf("done");
    else
        printf("refused with %u", (unsigned)number);
    must("usage", numolefays_account_usage(account, by_office, &in_all, &used, &free_points, &place), &place);
    printf("; %" PRIu64 " common points free\n", free_points);
}

static void under(const uint8_t account[32], uint32_t office, uint32_t tag)
{
    uint32_t axes, level, none;
    uint64_t place;

    must("table", numolefays_table_under(account, office, tag, &axes, &level, &none, &place), &place);
    printf("office %u, tag %u: ", (unsigned)office, (unsigned)tag);
    if (none == 1)
        printf("free\n");
    else
        printf("axes %u, level %u\n", (unsigned)axes, (unsigned)level);
}

/* The planner: four offices open and close tables under one account of points. */
static void offices(void)
{
    static const struct call day[] = {
        {OPEN, 1, 0, 8, 5}, {OPEN, 2, 0, 4, 7},
        {OPEN, 3, 0, 3, 7}, /* more common points than are free */
        {OPEN, 3, 0, 3, 6}, {OPEN, 3, 1, 3, 5},
        {OPEN, 3, 1, 1, 0}, /* the tag is open */
        {OPEN, 4, 0, 2, 8},
        {OPEN, 4, 8, 2, 8}, /* no such tag */
        {OPEN, 5, 0, 2, 8}, /* no such office */
        {OPEN, 4, 1, 8, 6}, /* a shape of too many points */
        {CLOSE, 2, 3, 0, 0}, /* nothing is open there */
        {CLOSE, 1, 0, 0, 0}, {OPEN, 3, 2, 3, 7},
    };
    uint8_t account[32];
    uint64_t by_office[NUMOLEFAYS_OFFICES], in_all, used, free_points, place;

    must("empty account", numolefays_empty_account(account, &place), &place);
    for (size_t c = 0; c < sizeof day / sizeof *day; c++)
        carry_out(account, &day[c]);

    must("usage", numolefays_account_usage(account, by_office, &in_all, &used, &free_points, &place), &place);
    printf("points open by office:");
    for (size_t o = 0; o < NUMOLEFAYS_OFFICES; o++)
        printf(" %" PRIu64, by_office[o]);
    printf("; in all %" PRIu64 "\n", in_all);
    printf("common points: %" PRIu64 " in use, %" PRIu64 " free\n", used, free_points);
    under(account, 3, 2);
    under(account, 1, 0);

    /* a line for each office */
    printf("account:\n");
    for (size_t b = 0; b < sizeof account; b++)
        printf(" %02x%s", (unsigned)account[b], b % NUMOLEFAYS_TAGS == NUMOLEFAYS_TAGS - 1 ? "\n" : "");

    account[31] = 0x90; /* 9 axes */
    tell("usage of an account with a byte 0x90",
         numolefays_account_usage(account, by_office, &in_all, &used, &free_points, &place), &place);
}

int main(void)
{
    struct kept k, half;
    FILE *saved = tmpfile();

    if (saved == NULL)
        return 2;
    memset(&k, 0, sizeof k);
    printf("-- loader\n");
    loader(&k);
    printf("-- retabulation job\n");
    job_begins(&k, saved);
    half = k;
    memset(&k, 0, sizeof k);
    job_goes_on(&k, saved);
    fclose(saved);
    printf("-- analyst\n");
    analyst(&half, &k);
    printf("-- reviewer\n");
    reviewer(&k);
    printf("-- with values on the border\n");
    sizes();
    printf("-- four offices\n");
    offices();
    return 0;
}

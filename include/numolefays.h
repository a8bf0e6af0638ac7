/*
 * Household surface tables: points, turns and estimates, for C and C++.
 *
 * docs/MANUAL.md explains every word below; the numbers in brackets name its sections. Link with
 * target/staticlib/libnumolefays.a (`tools/build`), which needs memcpy and memset and nothing
 * else. Each function does what the library's call of that name does, and is proved to: crates/numolefays.
 *
 * Answers. Every function answers 0 where the call succeeded, else the number of the refusal, the first that
 * holds in the order given [14]. `*place` then gets the refusal's place, and 0 where the refusal names none and
 * where the call succeeded. Where a call is refused, every output but `*place` and every buffer hold what they
 * held.
 *
 * Values. A shape is a number of axes, a top level, 0 to 8, and whether its tables have values on the border [1].
 * `border` 0 says no: the surface is 0 there, and there are 1 to 8 axes; every other number says yes, and there are
 * 1 to 4. Its table has N numbers [3]. A state is the shape and a byte of forward axes, bit t - 1 for axis t [8].
 * The caller keeps them and hands them in. There are no preconditions on values: any number, list and contents may
 * be handed in, and what is bad is refused.
 *
 * Points. A point has a mark, a level and an index on each axis [2]. The mark is 0 inside; with border values it can
 * also be 1, on the lower border of the axis, or 2, on the upper one, and the level is 0 and the index 1 there. A
 * point goes in as three lists, one item for each axis, and comes out in three arrays of eight, 0 in the places past
 * the last axis.
 *
 * Pointers. C cannot check these, so here the caller is asked for something [15]:
 * - every pointer is aligned and not null, also where a length is 0;
 * - it points to as many items as the length beside it says, or to one, or to the 8, 4 or 32 of an array;
 * - what a function writes overlaps nothing else that it is handed;
 * - nobody else reads or writes it until the function returns.
 * A call with a wrong pointer or length is outside of everything that is proved.
 *
 * Threads. A function keeps no pointer and no memory of its own, so calls on different tables and accounts can run at
 * once.
 */
#ifndef NUMOLEFAYS_H
#define NUMOLEFAYS_H

#include <stddef.h>
#include <stdint.h>

#ifdef __cplusplus
extern "C" {
#endif

/* The numbers of the refusals [14]. Where no place is named, it is 0. */
enum numolefays_refusal {
    NUMOLEFAYS_SUCCESS = 0,          /* not refused */
    /* because of the input */
    NUMOLEFAYS_AXES = 1,             /* d outside 1 to 8, with border values outside 1 to 4; a list of top levels
                                        not 1 to 8 long */
    NUMOLEFAYS_LEVEL = 2,            /* n, or one of a list of top levels, above 8 */
    NUMOLEFAYS_TABLE_LENGTH = 3,     /* table not of exactly N places (reader: fewer than N; component grid:
                                        not of the grid's own number of points);
                                        output buffer shorter than the file that is written */
    NUMOLEFAYS_RATE = 4,             /* a rate out of range; place: smallest such point number (component
                                        grid: smallest such position in the layout) */
    NUMOLEFAYS_AXIS = 5,             /* axis outside 1 to d; place: the axis given */
    NUMOLEFAYS_POINT_NUMBER = 6,     /* point number N or more */
    NUMOLEFAYS_LIST_LENGTH = 7,      /* a list of coordinates, marks, levels or indices not of
                                        length d (run: lists not of one length) */
    NUMOLEFAYS_COORDINATE = 8,       /* a coordinate above 1,048,576; place: first such axis */
    NUMOLEFAYS_NO_POINT = 9,         /* marks, levels and indices that name no point of the shape */
    NUMOLEFAYS_CONTENTS = 10,        /* the contents do not allow the call; see each function */
    NUMOLEFAYS_FILE_ENDS = 11,       /* the file ends inside or before a number */
    NUMOLEFAYS_FILED_NUMBER = 12,    /* a filed number of more than 5 bytes or too large */
    NUMOLEFAYS_BYTES_LEFT = 13,      /* bytes after the last rate */
    /* because of the state */
    NUMOLEFAYS_STRAY_BIT = 14,       /* a bit set above axis d */
    NUMOLEFAYS_ALREADY_FORWARD = 15, /* forward on an axis already forward; place: the axis */
    NUMOLEFAYS_NOT_FORWARD = 16,     /* back on an axis not forward; place: the axis */
    NUMOLEFAYS_STILL_SAMPLED = 17,   /* estimate while an axis is not forward; place: first such axis */
    NUMOLEFAYS_STILL_FORWARD = 18,   /* unload while an axis is forward; place: first such axis */
    /* because of the input */
    NUMOLEFAYS_TOO_MANY_POINTS = 19, /* a shape or a component grid of more than 32,768 points */
    /* because of an account, or of what is asked of it */
    NUMOLEFAYS_ALLOWANCE = 20,       /* an account that no calls leave, from an empty one on; an opening would take
                                        the common points above 49,152 */
    NUMOLEFAYS_TAG = 21,             /* opening under an open tag, or closing one that is not open */
    NUMOLEFAYS_NO_SLOT = 22          /* office outside 1 to 4, or tag above 7 */
};

/* ---- points [2] ---- */

/* The marks. Without border values a point has no other than 0. */
enum numolefays_mark {
    NUMOLEFAYS_INSIDE = 0,
    NUMOLEFAYS_LOWER_BORDER = 1,
    NUMOLEFAYS_UPPER_BORDER = 2
};

/*
 * How many points the shape has: N, at most 32,768 [3]. A larger shape is refused by every call.
 * Refused: 1, 2, 19.
 */
uint32_t numolefays_count(uint32_t axes, uint32_t level, uint8_t border, uint64_t *points, uint64_t *place);

/*
 * The number of a point, from 0 to N - 1 [4].
 * Refused: 1, 2, 19, 7 (any of the lists), 9.
 */
uint32_t numolefays_number_of_point(uint32_t axes, uint32_t level, uint8_t border, const uint32_t *marks,
                                    size_t marks_length, const uint32_t *levels, size_t levels_length,
                                    const uint32_t *indices, size_t indices_length, uint64_t *number,
                                    uint64_t *place);

/*
 * The point of a number [4].
 * Refused: 1, 2, 19, 6.
 */
uint32_t numolefays_point_of_number(uint32_t axes, uint32_t level, uint8_t border, uint64_t number,
                                    uint32_t marks[8], uint32_t levels[8], uint32_t indices[8], uint64_t *place);

/*
 * The successor of a point [5]: the point numbered one higher goes to the arrays, and `*end` gets 0. After the last
 * point `*end` gets 1 and the arrays hold what they held; this is no refusal.
 * Refused: 1, 2, 19, 7 (any of the lists), 9.
 */
uint32_t numolefays_successor(uint32_t axes, uint32_t level, uint8_t border, const uint32_t *marks,
                              size_t marks_length, const uint32_t *levels, size_t levels_length,
                              const uint32_t *indices, size_t indices_length, uint32_t next_marks[8],
                              uint32_t next_levels[8], uint32_t next_indices[8], uint32_t *end, uint64_t *place);

/*
 * The parent of a point on an axis [6]. Side 0 is left, toward 0; every other number is right, toward 1. The
 * parent goes to the arrays, and `*none` gets 0. Where there is none, `*none` gets 1 and the arrays hold what they
 * held; this is no refusal. Where the neighbour is the border, the parent is the point there if there are border
 * values, else there is none. A point on the border of this axis has none.
 * Refused: 1, 2, 19, 5 (the axis given), 7 (any of the lists), 9.
 */
uint32_t numolefays_parent(uint32_t axes, uint32_t level, uint8_t border, const uint32_t *marks, size_t marks_length,
                           const uint32_t *levels, size_t levels_length, const uint32_t *indices,
                           size_t indices_length, uint32_t axis, uint32_t side, uint32_t parent_marks[8],
                           uint32_t parent_levels[8], uint32_t parent_indices[8], uint32_t *none,
                           uint64_t *place);

/* ---- tables [7] ---- */

/*
 * Load [9]: a table of N rates, each from -2,147,483,648 to 2,147,483,647, becomes a loaded table, each rate
 * times 2^d. `*forward` gets 0: no axis is forward.
 * Refused: 1, 2, 19, 3, 4 (the smallest point number with no rate).
 */
uint32_t numolefays_load(uint32_t axes, uint32_t level, uint8_t border, int64_t *table, size_t table_length,
                         uint8_t *forward, uint64_t *place);

/*
 * Adopt [9]: a table of N coefficients, which is only read. `*forward` gets a bit for each axis: all are
 * forward. Any numbers within the content limit pass, also those of a table that was not turned on every axis:
 * only the byte of a state can tell.
 * Refused: 1, 2, 19, 3, 10 (a value past 2^47 on either side of zero).
 */
uint32_t numolefays_adopt(uint32_t axes, uint32_t level, uint8_t border, const int64_t *table, size_t table_length,
                          uint8_t *forward, uint64_t *place);

/*
 * Forward on an axis [8]: each value becomes itself minus half the sum of its two parents' values, read as they
 * were before the turn; where there is no parent, 0 is read. With border values those of points on the border of
 * this axis stay. `*forward` gets the bit of the axis.
 * Refused: 1, 2, 14, 19, 3, 5 (the axis given), 15 (the axis), 10 (an odd sum, or a value past 2^47 before or
 * after).
 */
uint32_t numolefays_forward(uint32_t axes, uint32_t level, uint8_t border, uint8_t *forward, int64_t *table,
                            size_t table_length, uint32_t axis, uint64_t *place);

/*
 * Back on an axis [8]: the table becomes the one that an accepted forward turn takes to the present one.
 * `*forward` loses the bit of the axis.
 * Refused: 1, 2, 14, 19, 3, 5 (the axis given), 16 (the axis), 10 (there is no such table).
 */
uint32_t numolefays_back(uint32_t axes, uint32_t level, uint8_t border, uint8_t *forward, int64_t *table,
                         size_t table_length, uint32_t axis, uint64_t *place);

/*
 * Unload [9]: a table with no axis forward becomes rates, each value divided by 2^d.
 * Refused: 1, 2, 14, 19, 3, 18 (the first forward axis), 10 (a value that is not 2^d times a rate).
 */
uint32_t numolefays_unload(uint32_t axes, uint32_t level, uint8_t border, uint8_t forward, int64_t *table,
                           size_t table_length, uint64_t *place);

/*
 * Rates to coefficients, whole [9]: a table of N rates is loaded and turned forward on every axis.
 * Refused: 1, 2, 19, 3, 4 (the smallest point number with no rate). 10 cannot occur.
 */
uint32_t numolefays_rates_to_coefficients(uint32_t axes, uint32_t level, uint8_t border, int64_t *table,
                                          size_t table_length, uint64_t *place);

/*
 * Coefficients to rates, whole [9]: the table becomes the rates that have these coefficients.
 * Refused: 1, 2, 19, 3, 10 (no rates have them).
 */
uint32_t numolefays_coefficients_to_rates(uint32_t axes, uint32_t level, uint8_t border, int64_t *table,
                                          size_t table_length, uint64_t *place);

/*
 * A list of turns, in order [10]: direction i (0 forward, every other number back) on axis turned[i].
 * numbers[i] and places[i] get the number and the place of that turn's refusal (5, 15 or 16, 10), and 0 and 0
 * where it was carried out. A refused turn leaves table and state, and the next is carried out. `*forward` gets
 * the state after the last turn. The rest of a list can be handed in later.
 * Refused: 1, 2, 14, 19, 3, 7 (the four lists are not of one length). Refusals of the turns are no refusals of the
 * run.
 */
uint32_t numolefays_run(uint32_t axes, uint32_t level, uint8_t border, uint8_t *forward, int64_t *table,
                        size_t table_length, const uint8_t *directions, size_t directions_length,
                        const uint32_t *turned, size_t turned_length, uint32_t *numbers, size_t numbers_length,
                        uint64_t *places, size_t places_length, uint64_t *place);

/* ---- estimates [11] ---- */

/* A coordinate of this is 1; coordinates run from 0 to this. */
#define NUMOLEFAYS_UNIT UINT32_C(1048576)

/*
 * The estimate at a list of coordinates, one for each axis, each from 0 to 1,048,576 and meaning that many
 * 1,048,576ths: in the table's unit, 2^d times a rate. Its last division is to the nearest whole number, halves
 * away from zero; the joint weights before it are rounded down. With X the coordinate of an axis, a point on the
 * lower border of it weighs 1,048,576 - X on it, and one on the upper border X.
 * The table is only read, and every axis must be forward.
 * Refused: 1, 2, 14, 19, 3, 17 (the first axis that is not forward), 7, 8 (the first axis with such a coordinate),
 * 10 (a value past 2^47).
 */
uint32_t numolefays_estimate(uint32_t axes, uint32_t level, uint8_t border, uint8_t forward, const int64_t *table,
                             size_t table_length, const uint32_t *coordinates, size_t coordinates_length,
                             int64_t *estimate, uint64_t *place);

/*
 * The same estimate, and how far rounding can have moved it: the exact value of the surface differs from it by at
 * most *margin, in the same unit. *absolute_sum is S, the sum of the absolute coefficients of the points whose
 * weight there is above zero on each axis; *margin is 1/2 plus d - 1 times S over 1,048,576, rounded up. It says
 * nothing of how far the surface is from the truth between the samples.
 * Refused: 1, 2, 14, 19, 3, 17, 7, 8, 10, as the estimate alone.
 */
uint32_t numolefays_estimate_with_margin(uint32_t axes, uint32_t level, uint8_t border, uint8_t forward,
                                         const int64_t *table, size_t table_length, const uint32_t *coordinates,
                                         size_t coordinates_length, int64_t *estimate, uint64_t *absolute_sum,
                                         uint64_t *margin, uint64_t *place);

/* ---- component grids [18] ---- */

/*
 * Rates to coefficients on a component grid: a full grid, refined differently on each axis, without border values.
 * The list has the top level of each axis, axis 1 first; it is only read. The grid has all points whose level on
 * each axis is within that axis's top level m: 2^(m+1) - 1 on an axis, and the product of these numbers in all. The
 * table has a rate for each point, by coordinate, axis 1 running fastest: a point stands at the sum over axes of
 * (index * 2^(m - level) - 1) times the product of the points of the axes before. Each rate times 2^d, d being the
 * length of the list, is changed by the rule of the forward turn [8] on every axis, smallest first.
 * Refused: 1 (the list is not 1 to 8 long), 2 (a top level above 8), 19, 3 (not exactly the grid's own number of
 * points), 4 (the smallest position in the layout with no rate). 10 cannot occur.
 */
uint32_t numolefays_component_coefficients(const uint32_t *levels, size_t levels_length, int64_t *table,
                                           size_t table_length, uint64_t *place);

/* ---- an account of four offices [20]: tables without border values ---- */

/*
 * Four offices open tables under one account of 65,536 points: each has 4,096 of its own, and 49,152 are common. The
 * common points in use are the sum over the offices of what each has open above 4,096. An account holds no table: only
 * which shape each office has open under which tag. The caller keeps it and hands it in; an opening or a closing that is
 * not refused changes one byte of it.
 *
 * Its 32 bytes: that of office 1 to 4 and tag 0 to 7 is at place (office - 1) * 8 + tag. It is 0 where nothing is open,
 * else 16 * d + n. Any 32 bytes may be handed in. Those that no calls leave, from an empty account on, are refused with
 * 20 before anything else: a byte that is neither 0 nor that of a shape which passes, or more than 49,152 common points
 * in use.
 */
#define NUMOLEFAYS_OFFICES 4
#define NUMOLEFAYS_TAGS 8
#define NUMOLEFAYS_OWN_POINTS UINT64_C(4096)
#define NUMOLEFAYS_COMMON_POINTS UINT64_C(49152)

/*
 * An account in which nothing is open: 32 times 0.
 * Refused: never.
 */
uint32_t numolefays_empty_account(uint8_t account[32], uint64_t *place);

/*
 * An office opens a table under one of its tags.
 * Refused: 20 (the account), 1, 2, 19, 22, 21 (the tag is open), 20 (the common points would pass 49,152).
 */
uint32_t numolefays_open_table(uint8_t account[32], uint32_t office, uint32_t tag, uint32_t axes, uint32_t level,
                               uint64_t *place);

/*
 * An office closes the table under one of its tags. What the office had open above 4,096 is given back first: these
 * points are common again.
 * Refused: 20 (the account), 22, 21 (the tag is not open).
 */
uint32_t numolefays_close_table(uint8_t account[32], uint32_t office, uint32_t tag, uint64_t *place);

/*
 * The points open, by office and in all, and the common points in use and free, which are 49,152 together. The
 * account is only read.
 * Refused: 20 (the account).
 */
uint32_t numolefays_account_usage(const uint8_t account[32], uint64_t by_office[4], uint64_t *in_all,
                                  uint64_t *common_used, uint64_t *common_free, uint64_t *place);

/*
 * The axes and the top level of the table that is open under a tag, and `*none` gets 0. Where nothing is open, `*none`
 * gets 1 and the other two hold what they held; this is no refusal. The account is only read.
 * Refused: 20 (the account), 22.
 */
uint32_t numolefays_table_under(const uint8_t account[32], uint32_t office, uint32_t tag, uint32_t *axes,
                                uint32_t *level, uint32_t *none, uint64_t *place);

/* ---- house files [12, 16]: tables without border values ---- */

/*
 * A house file's N rates into the first N places of the table; the places after them hold what they held.
 * `*axes` and `*level` get the file's shape. To load it, hand in the first N places, and `border` 0.
 * Refused: 11 or 12 for d, 11 or 12 for n, 1, 2, 19, 3 (fewer than N places), 11 or 12 for each rate, 13.
 */
uint32_t numolefays_read_house_file(const uint8_t *bytes, size_t bytes_length, int64_t *table,
                                    size_t table_length, uint32_t *axes, uint32_t *level, uint64_t *place);

/*
 * The shape of a house file and its N, from the first two numbers alone: how long a table to lend to the reader.
 * Whether N rates come after them is for the reader to say.
 * Refused: 11 or 12 for d, 11 or 12 for n, 1, 2, 19.
 */
uint32_t numolefays_house_file_shape(const uint8_t *bytes, size_t bytes_length, uint32_t *axes, uint32_t *level,
                                     uint64_t *points, uint64_t *place);

/*
 * The house file of a shape and its N rates, each number in its fewest groups: equal tables, equal files. The
 * rates are only read. `*length` gets the file's length, at most 2 + 5 N; the file goes to the first `*length`
 * bytes of the output buffer, and the bytes after them hold what they held.
 * Refused: 1, 2, 19, 3 (not exactly N rates), 4 (the smallest point number with no rate), 3 (output buffer shorter
 * than the file).
 */
uint32_t numolefays_write_house_file(uint32_t axes, uint32_t level, const int64_t *rates, size_t rates_length,
                                     uint8_t *out, size_t out_length, uint64_t *length, uint64_t *place);

/*
 * A house file read and written again, without a table: the one form of all files of that shape and these rates.
 * It is never longer than the file, and rewriting it changes no byte; but the two buffers must not overlap [15].
 * A file of more than most_points points is refused as by a reader with that many places; 32,768 is always enough.
 * `*length` gets the form's length; the form goes to the first `*length` bytes of the output buffer, and the bytes
 * after them hold what they held.
 * Refused: 11 or 12 for d, 11 or 12 for n, 1, 2, 19, 3 (N above most_points), 11 or 12 for each rate, 13, 3 (output
 * buffer shorter than the form).
 */
uint32_t numolefays_rewrite_house_file(const uint8_t *bytes, size_t bytes_length, size_t most_points,
                                       uint8_t *out, size_t out_length, uint64_t *length, uint64_t *place);

#ifdef __cplusplus
}
#endif

#endif

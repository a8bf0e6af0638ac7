//! Each call at the edges of its types, with later refusals matching too, one case after the other.

use super::{estimates, files, points, rates, runs, turns, writes};
use crate::draw::Draw;
use crate::inputs::{self, END, LIMIT, OLD_END};
use crate::model::{self, grid::count};
use crate::report::Report;

const TOP: u32 = u32::MAX;
const PAST: i64 = LIMIT + 1;
pub const LEAST: i64 = -2_147_483_648;
pub const MOST: i64 = 2_147_483_647;

/// These values and then zeros.
fn padded(values: &[i64], places: usize) -> Vec<i64> {
    let mut table = values.to_vec();
    table.resize(places, 0);
    table
}

fn places(axes: u32, level: u32) -> usize {
    count(axes, level) as usize
}

// ---- points

pub fn of_points(draw: &mut Draw, report: &mut Report) {
    let shapes = [
        (0, 8),
        (9, 8),
        (TOP, 8),
        (1, 9),
        (8, 9),
        (8, TOP),
        (0, 9),
        (9, 9),
        (TOP, TOP),
        (1, 0),
        (2, 2),
        (3, 2),
        (2, 3),
        (1, 8),
        (8, 4),
        (8, 5),
        (4, 7),
        // 19
        (8, 6),
        (8, 8),
        (4, 8),
    ];
    for (axes, level) in shapes {
        points::count_of(draw, report, axes, level);
    }
    for (axes, level, levels, indices) in lists() {
        points::number_of(draw, report, axes, level, levels, indices);
        points::successor(draw, report, axes, level, levels, indices);
        for axis in (0..=10).chain([TOP]) {
            for side in [0, 1, 2, TOP] {
                points::parent(draw, report, axes, level, levels, indices, axis, side);
            }
        }
    }
    let numbers = [
        (2, 3, 0),
        (2, 3, 34),
        (2, 3, 48),
        (2, 3, 49),
        (2, 3, (1 << 32) + 34),
        (2, 3, u64::MAX),
        (1, 0, 0),
        (1, 0, 1),
        (1, 8, 510),
        (8, 5, 31_744),
        (8, 5, 31_745),
        (8, 5, 1 << 32),
        // 19, where 6 matches too or nothing else does
        (8, 8, 0),
        (8, 8, 2_228_224),
        (8, 8, 2_228_225),
        (8, 6, 31_744),
        (4, 8, 1),
        (4, 8, u64::MAX),
        (0, 3, 0),
        (9, 9, u64::MAX),
        (2, 9, u64::MAX),
    ];
    for (axes, level, number) in numbers {
        points::point_of(draw, report, axes, level, number);
    }
}

/// Levels and indices of points, of the wrong length, and that name no point.
pub fn lists() -> Vec<(u32, u32, &'static [u32], &'static [u32])> {
    vec![
        (2, 3, &[1, 2], &[3, 1]),
        (2, 3, &[0, 0], &[1, 1]),
        (2, 3, &[1, 2], &[3, 7]),
        (2, 3, &[0, 2], &[1, 7]),
        (2, 3, &[0, 3], &[1, 15]),
        (1, 0, &[0], &[1]),
        (1, 8, &[8], &[511]),
        (1, 8, &[8], &[257]),
        (8, 0, &[0; 8], &[1; 8]),
        (8, 5, &[0, 0, 0, 0, 0, 0, 0, 5], &[1, 1, 1, 1, 1, 1, 1, 61]),
        (8, 5, &[0, 0, 0, 0, 0, 0, 0, 5], &[1, 1, 1, 1, 1, 1, 1, 63]),
        // 7, also where the lists name nothing
        (2, 3, &[1], &[3, 1]),
        (2, 3, &[1, 2], &[3]),
        (2, 3, &[1, 2, 0], &[3, 1]),
        (2, 3, &[1, 2], &[3, 1, 1]),
        (2, 3, &[1, 2, 0], &[3, 1, 1]),
        (2, 3, &[], &[]),
        (2, 3, &[], &[0, TOP]),
        (2, 3, &[200], &[0, 0]),
        (2, 3, &[200, 0], &[1]),
        (2, 3, &[TOP, 1], &[0]),
        (8, 5, &[0; 9], &[1; 9]),
        // 9: a level or a sum too large, also where a sum of 32 bits would come out small
        (2, 2, &[1, 2], &[3, 1]),
        (2, 3, &[2, 2], &[1, 1]),
        (2, 3, &[200, 0], &[1, 1]),
        (2, 3, &[0, 200], &[1, 1]),
        (2, 3, &[TOP, 0], &[1, 1]),
        (2, 3, &[0, TOP], &[1, 1]),
        (2, 3, &[TOP, 4], &[1, 1]),
        (2, 3, &[1, TOP], &[1, 1]),
        (2, 3, &[1 << 31, 1 << 31], &[1, 1]),
        (1, 8, &[9], &[1]),
        (1, 8, &[31], &[1]),
        (1, 8, &[32], &[1]),
        // 9: an index that is even or too large for its level
        (2, 3, &[1, 2], &[2, 1]),
        (2, 3, &[1, 2], &[4, 1]),
        (2, 3, &[1, 2], &[0, 1]),
        (2, 3, &[1, 2], &[3, 0]),
        (2, 3, &[1, 2], &[5, 1]),
        (2, 3, &[1, 2], &[3, 9]),
        (2, 3, &[1, 2], &[TOP, 1]),
        (2, 3, &[1, 2], &[3, TOP]),
        (2, 3, &[0, 0], &[3, 1]),
        (1, 8, &[8], &[512]),
        (1, 8, &[8], &[513]),
        // 1 before 2, and both before 7 and 9
        (0, 3, &[], &[]),
        (9, 3, &[200], &[0]),
        (9, 9, &[200], &[0]),
        (TOP, TOP, &[1, 2], &[3, 1]),
        (2, 9, &[1, 2], &[3, 1]),
        (2, 9, &[200], &[0]),
        (2, TOP, &[200], &[0, 0]),
        // 19 after both, and before 7 and 9
        (9, 8, &[0; 9], &[1; 9]),
        (8, 9, &[0; 8], &[1; 8]),
        (8, 8, &[0; 8], &[1; 8]),
        (8, 8, &[0, 0, 0, 0, 0, 0, 0, 8], &[1, 1, 1, 1, 1, 1, 1, 511]),
        (8, 8, &[0; 9], &[1; 9]),
        (8, 6, &[0; 8], &[1, 1, 1, 1, 1, 1, 1, 2]),
        (6, 6, &[6, 1, 0, 0, 0, 0], &[1; 6]),
        (5, 7, &[], &[]),
        (4, 8, &[0; 4], &[1; 4]),
        (4, 8, &[TOP; 4], &[0; 3]),
    ]
}

// ---- turns

pub fn of_turns(draw: &mut Draw, report: &mut Report) {
    let refused = [
        // 1 and 2
        (0, 9, 255, 0, 0),
        (9, 9, 255, 0, 0),
        (TOP, TOP, 255, 512, TOP),
        (1, 9, 255, 0, 0),
        (8, 9, 255, 0, 0),
        (8, TOP, 255, 512, TOP),
        // 14; no bit of a byte is above axis 8
        (1, 8, 2, 0, 0),
        (2, 1, 4, 4, 0),
        (2, 1, 128, 6, 3),
        (7, 1, 128, 15, 1),
        (2, 1, 3, 4, 0),
        (8, 1, 255, 16, 0),
        // 3
        (2, 1, 0, 0, 0),
        (2, 1, 0, 4, 3),
        (2, 1, 3, 6, TOP),
        (2, 3, 1, 17, 1),
        (2, 2, 1, 49, 1),
        (1, 8, 1, 512, 1),
        (8, 5, 0, 512, 0),
        // 19 after 14 and before 3
        (7, 6, 128, 512, 0),
        (4, 8, 16, 1, 0),
        (8, 8, 0, 512, 0),
        (8, 6, 255, 0, 1),
        (7, 6, 127, 2, 8),
        (4, 8, 0, 1, 1),
        (4, 8, 15, 1, 1),
        // 5
        (2, 1, 3, 5, 0),
        (2, 1, 3, 5, 3),
        (2, 1, 0, 5, TOP),
        (8, 1, 255, 17, 9),
        (8, 1, 0, 17, 264),
        (1, 8, 1, 511, 2),
        // 15 and 16, and 10 the other way
        (2, 1, 1, 5, 1),
        (2, 1, 2, 5, 1),
        (2, 1, 1, 5, 2),
        (2, 1, 2, 5, 2),
        (8, 1, 128, 17, 8),
        (8, 1, 127, 17, 8),
    ];
    for (axes, level, bits, places, axis) in refused {
        let table = &padded(&[PAST, 1], 512)[..places];
        for back in [false, true] {
            turns::turn(draw, report, back, axes, level, bits, table, axis);
        }
    }
    let half = LIMIT / 2;
    let contents: [(u32, &[i64]); 31] = [
        // a point of level 0 stays as it is
        (0, &[LIMIT]),
        (0, &[PAST]),
        (0, &[-LIMIT]),
        (0, &[-PAST]),
        (0, &[i64::MAX]),
        (0, &[i64::MIN]),
        // an odd sum is refused; on the way back it may be one of values that were raised
        (1, &[2, 0, 0]),
        (1, &[1, 0, 0]),
        (1, &[-1, 7, 7]),
        (2, &[2, 3, 3]),
        (2, &[2, 4, 2]),
        (2, &[2, 4, 2, 9, 9, 9, 9]),
        (2, &[4, 0, 1]),
        // at the end of the limit after the forward turn, and one past it
        (1, &[-2, LIMIT - 1]),
        (1, &[-2, LIMIT]),
        (1, &[2, 0, 1 - LIMIT]),
        (1, &[2, 0, -LIMIT]),
        (1, &[-LIMIT, half]),
        (1, &[-LIMIT, half + 1]),
        // the same after the turn back
        (1, &[2, LIMIT - 1]),
        (1, &[2, 0, LIMIT]),
        (1, &[-2, 1 - LIMIT]),
        (1, &[-2, 0, -LIMIT]),
        (1, &[LIMIT, 0, half]),
        (1, &[LIMIT, 0, half + 1]),
        // sums that would not fit 64 bits
        (1, &[i64::MIN, i64::MAX]),
        (1, &[i64::MAX - 1, i64::MIN]),
        (2, &[i64::MAX; 3]),
        (2, &[i64::MIN; 3]),
        (2, &[LIMIT; 3]),
        (2, &[-LIMIT, LIMIT, -LIMIT]),
    ];
    for (level, values) in contents {
        let table = padded(values, places(1, level));
        turns::turn(draw, report, false, 1, level, 0, &table, 1);
        turns::turn(draw, report, true, 1, level, 1, &table, 1);
    }
}

// ---- tables

pub fn of_tables(draw: &mut Draw, report: &mut Report) {
    // 1, 2, 19 and 3, where 4 or 10 matches too
    let refused = [
        (0, 9, 0),
        (9, 9, 0),
        (TOP, TOP, 512),
        (1, 9, 0),
        (8, 9, 512),
        (8, TOP, 17),
        (8, 6, 0),
        (7, 6, 17),
        (6, 6, 512),
        (5, 7, 1),
        (4, 8, 1),
        (8, 8, 1),
        (2, 1, 0),
        (2, 1, 4),
        (2, 1, 6),
        (2, 3, 17),
        (2, 2, 49),
        (1, 8, 512),
        (8, 5, 512),
        (9, 0, 1),
    ];
    for (axes, level, places) in refused {
        let table = &padded(&[PAST, 1], 512)[..places];
        rates::load(draw, report, axes, level, table);
        rates::adopt(draw, report, axes, level, table);
        rates::unload(draw, report, axes, level, 0, table);
        rates::rates_to_coefficients(draw, report, axes, level, table);
        rates::coefficients_to_rates(draw, report, axes, level, table);
    }
    // the ends of the rates, of the limit and of what 2^d times a rate can be, and the first place that is past one
    let contents: [(u32, u32, &[i64]); 62] = [
        (8, 0, &[1]),
        (1, 8, &[1]),
        (3, 0, &[5]),
        (1, 0, &[MOST]),
        (1, 0, &[MOST + 1]),
        (1, 0, &[LEAST]),
        (1, 0, &[LEAST - 1]),
        (1, 0, &[i64::MAX]),
        (1, 0, &[i64::MIN]),
        (8, 0, &[MOST]),
        (8, 0, &[LEAST]),
        (8, 0, &[MOST + 1]),
        (8, 0, &[LEAST - 1]),
        (1, 1, &[MOST, LEAST, MOST]),
        (1, 1, &[0, MOST + 1, LEAST - 1]),
        (1, 1, &[0, LEAST - 1, MOST + 1]),
        (1, 1, &[LEAST, MOST, i64::MAX]),
        (2, 1, &[0, 0, 0, i64::MIN, i64::MAX]),
        (2, 1, &[LEAST, MOST, MOST, MOST, MOST]),
        (1, 0, &[LIMIT]),
        (1, 0, &[PAST]),
        (1, 0, &[-LIMIT]),
        (1, 0, &[-PAST]),
        (8, 0, &[LIMIT]),
        (8, 0, &[-PAST]),
        (2, 1, &[LIMIT, -LIMIT, 1, LIMIT, -LIMIT]),
        (2, 1, &[0, 0, 0, 0, PAST]),
        (2, 1, &[i64::MIN]),
        (1, 0, &[1]),
        (1, 0, &[-1]),
        (1, 0, &[2]),
        (1, 0, &[-2]),
        (1, 0, &[-3]),
        (1, 0, &[2 * MOST]),
        (1, 0, &[2 * MOST + 1]),
        (1, 0, &[2 * MOST + 2]),
        (1, 0, &[2 * LEAST]),
        (1, 0, &[2 * LEAST - 1]),
        (1, 0, &[2 * LEAST - 2]),
        (8, 0, &[256 * MOST]),
        (8, 0, &[256 * MOST + 128]),
        (8, 0, &[256 * MOST + 256]),
        (8, 0, &[256 * LEAST]),
        (8, 0, &[256 * LEAST - 256]),
        (8, 0, &[128]),
        (8, 0, &[255]),
        (8, 0, &[256]),
        (8, 0, &[i64::MAX]),
        (8, 0, &[i64::MIN]),
        (1, 1, &[2, 4, 5]),
        (1, 1, &[2, 4, 6]),
        (1, 1, &[6, 7, 12]),
        (1, 1, &[6, 8, 11]),
        (1, 1, &[6, 9, 11]),
        (1, 1, &[2, 1, 2 * MOST - 1]),
        (1, 1, &[2, 1, 2 * MOST + 1]),
        (1, 1, &[3]),
        (2, 1, &[16, 4, 12, 0, 17]),
        (2, 1, &[16, 4, 12, 0, 20]),
        (2, 1, &[18, 4, 12, 0, 16]),
        (2, 1, &[1]),
        (2, 1, &[0, 0, 0, 0, i64::MIN]),
    ];
    for (axes, level, values) in contents {
        let table = &padded(values, places(axes, level));
        rates::load(draw, report, axes, level, table);
        rates::adopt(draw, report, axes, level, table);
        rates::unload(draw, report, axes, level, 0, table);
        rates::rates_to_coefficients(draw, report, axes, level, table);
        rates::coefficients_to_rates(draw, report, axes, level, table);
    }
    // unload: 1, 2, 14, 19, 3 and 18, where all that comes later matches too
    let states = [
        (0, 9, 255, 0),
        (9, 9, 255, 0),
        (TOP, TOP, 255, 512),
        (1, 9, 255, 0),
        (8, 9, 255, 512),
        (8, TOP, 255, 17),
        (1, 8, 2, 0),
        (2, 1, 4, 4),
        (2, 1, 128, 6),
        (7, 0, 128, 1),
        (7, 0, 255, 0),
        (2, 1, 3, 4),
        (2, 1, 3, 0),
        (2, 1, 0, 6),
        (8, 1, 255, 16),
        (8, 5, 0, 512),
        (7, 8, 128, 1),
        (8, 8, 0, 512),
        (8, 6, 255, 0),
        (7, 6, 1, 17),
        (4, 8, 0, 1),
        (2, 1, 1, 5),
        (2, 1, 2, 5),
        (2, 1, 3, 5),
        (8, 0, 128, 1),
        (8, 0, 255, 1),
        (8, 0, 192, 1),
        (1, 0, 1, 1),
    ];
    for (axes, level, bits, places) in states {
        rates::unload(draw, report, axes, level, bits, &padded(&[PAST, 1], 512)[..places]);
        rates::unload(draw, report, axes, level, bits, &padded(&[256], 512)[..places]);
    }
}

// ---- runs

/// Every wrong length of each list, lists of none, and states that no turn takes; on two axes and top level 1: forward on 2, forward on 3, back on 1,
/// back on 2.
pub fn of_runs(draw: &mut Draw, report: &mut Report) {
    let lengths = [
        (3, 3, 3, 3),
        (2, 3, 3, 3),
        (4, 3, 3, 3),
        (3, 2, 3, 3),
        (3, 4, 3, 3),
        (3, 3, 2, 3),
        (3, 3, 4, 3),
        (3, 3, 3, 2),
        (3, 3, 3, 4),
        (0, 1, 0, 0),
        (0, 0, 1, 0),
        (0, 0, 0, 1),
        (1, 0, 0, 0),
        (0, 0, 0, 0),
        (4, 4, 4, 4),
        (1, 1, 1, 1),
        (2, 2, 2, 2),
    ];
    let states = [
        (2, 1, 0, 5),
        (2, 1, 2, 5),
        (2, 1, 3, 5),
        (2, 1, 4, 5),
        (2, 1, 128, 4),
        (2, 1, 0, 4),
        (2, 1, 0, 6),
        (2, 1, 3, 0),
        (0, 9, 255, 5),
        (9, 1, 255, 4),
        (TOP, TOP, 0, 5),
        (2, 9, 255, 4),
        (8, TOP, 0, 0),
        (1, 1, 2, 2),
        (7, 0, 128, 1),
        (8, 0, 255, 1),
        (7, 6, 128, 5),
        (7, 6, 0, 5),
        (8, 8, 255, 0),
        (4, 8, 0, 1),
        (8, 5, 0, 5),
    ];
    for (axes, level, bits, places) in states {
        let table = &padded(&[16, 12, 20, 8, 24], 6)[..places];
        for (a, b, c, d) in lengths {
            let lists = runs::Lists {
                directions: [0, 0, 1, 9][..a].to_vec(),
                axes: [2, 3, 1, 2][..b].to_vec(),
                numbers: vec![77; c],
                places: vec![77; d],
            };
            runs::run(draw, report, axes, level, bits, table, &lists);
        }
    }
}

// ---- estimates

pub fn of_estimates(draw: &mut Draw, report: &mut Report) {
    // 1, 2, 14, 19 and 3, where all that comes later matches too
    let worst = [
        (0, 9, 255),
        (9, 9, 255),
        (TOP, TOP, 0),
        (1, 9, 255),
        (8, 9, 0),
        (8, TOP, 255),
        (1, 8, 2),
        (2, 1, 4),
        (2, 1, 128),
        (7, 0, 255),
        (7, 8, 128),
        (4, 8, 16),
        (8, 8, 0),
        (8, 6, 255),
        (7, 6, 0),
        (5, 7, 31),
        (2, 1, 0),
        (8, 5, 0),
    ];
    for (axes, level, bits) in worst {
        estimates::estimate(draw, report, axes, level, bits, &[PAST, -PAST], &[END + 1]);
    }
    // 17 on eight axes
    for bits in [254, 253, 251, 247, 239, 223, 191, 127, 63, 160, 0, 255] {
        estimates::estimate(draw, report, 8, 0, bits, &[PAST], &[END + 1]);
    }
    let line: [(&[i64], u32); 24] = [
        (&[6, 7, 11], END / 4),
        (&[6, 7, 11], END / 8),
        (&[6, 7, 11], 0),
        (&[6, 7, 11], 1),
        (&[-6, -7, -11], 1),
        (&[6, 7, 11], END),
        (&[6, 7, 11], END + 1),
        (&[6, 7, 11], TOP),
        (&[6, 7, 11], END + 2),
        (&[6, 7, 11], 2 * END),
        // the old end and 16 are as other numbers now
        (&[6, 7, 11], OLD_END),
        (&[6, 7, 11], OLD_END + 1),
        (&[LIMIT; 3], OLD_END + 1),
        (&[6, 7, 11], 16),
        // 10, also at points of weight 0; the ends of the limit pass
        (&[PAST, 0, 0], END / 2),
        (&[PAST, 0, 0], 0),
        (&[0, PAST, 0], END / 4 * 3),
        (&[0, 0, -PAST], END / 4),
        (&[0, 0, i64::MAX], 0),
        (&[i64::MIN, 0, 0], END),
        (&[i64::MAX, i64::MIN, PAST], 480_000),
        (&[LIMIT; 3], END / 3),
        (&[-LIMIT; 3], END / 3),
        (&[LIMIT, -LIMIT, 0], END / 4 - 1),
    ];
    for (table, x) in line {
        estimates::estimate(draw, report, 1, 1, 1, table, &[x]);
    }
    let past = [16, 4, 12, 0, -PAST];
    type Case<'a> = (u32, u32, u8, &'a [i64], &'a [u32]);
    let others: [Case; 37] = [
        (2, 1, 0, &[], &[END + 1]),
        (2, 1, 3, &[PAST, 0, 0, 0], &[0, END + 1]),
        (2, 1, 3, &[0, 0, 0, 0, 0, PAST], &[0, 0]),
        (1, 1, 1, &[0; 4], &[0]),
        (2, 1, 0, &[PAST, 0, 0, 0, 0], &[END + 1]),
        (2, 1, 1, &[PAST, 0, 0, 0, 0], &[END + 1, 0, 0]),
        (2, 1, 2, &[0; 5], &[0, END + 1]),
        (1, 0, 0, &[7], &[END / 2]),
        // 7
        (1, 0, 1, &[PAST], &[]),
        (1, 0, 1, &[PAST], &[END + 1, END + 1]),
        (2, 1, 3, &[PAST, 0, 0, 0, 0], &[END + 1]),
        (2, 1, 3, &[0; 5], &[END + 1, 0, 0]),
        (2, 1, 3, &[0; 5], &[1]),
        (8, 0, 255, &[0], &[1; 7]),
        (8, 0, 255, &[0], &[1; 9]),
        // 8
        (2, 1, 3, &past, &[END + 1, END + 1]),
        (2, 1, 3, &past, &[END, END + 1]),
        (2, 1, 3, &past, &[END + 1, 0]),
        (2, 1, 3, &past, &[TOP, 0]),
        (2, 1, 3, &past, &[0, TOP]),
        (2, 1, 3, &past, &[1 << 31, 2 * END]),
        (2, 1, 3, &past, &[END, END]),
        (2, 1, 3, &past, &[END / 2, END / 2]),
        (8, 0, 255, &[0], &[1, 1, 1, 1, 1, 1, 1, END + 1]),
        (8, 0, 255, &[PAST], &[END, END, END, END + 1, END, END, END, TOP]),
        (8, 0, 255, &[256], &[END - 1; 8]),
        (8, 0, 255, &[LIMIT], &[OLD_END; 8]),
        (8, 0, 255, &[LIMIT], &[OLD_END + 1; 8]),
        (8, 0, 255, &[LIMIT], &[END / 2, END / 2, END / 2, END / 2, END / 2, END / 2, END / 2, 1]),
        (8, 0, 255, &[-LIMIT], &[END / 2, END / 2, END / 2, END - 1, END / 2, END / 2, END / 2, 1]),
        (8, 0, 255, &[-PAST], &[0; 8]),
        (2, 1, 3, &[16, 4, 12, 0, 16], &[END / 4 * 3, END / 4]),
        (2, 1, 3, &[-1, 0, 0, 0, 0], &[1, 1]),
        (2, 0, 3, &[LIMIT], &[1, 1]),
        (2, 0, 3, &[-LIMIT], &[1, 1]),
        // 16 times old coordinates that had another estimate
        (2, 0, 3, &[7], &[16 * 5_900, 16 * 13_000]),
        (3, 0, 7, &[22], &[16 * 5_000, 16 * 8_000, 16 * 20_000]),
    ];
    for (axes, level, bits, table, coordinates) in others {
        estimates::estimate(draw, report, axes, level, bits, table, coordinates);
    }
}

/// Each axis in turn at the end, beside it and past it, and at numbers that are other ones where they are kept in fewer
/// bits or multiplied in 32; the axes before it at the end, those after it anywhere or past the end as well.
pub fn of_ends(draw: &mut Draw, report: &mut Report) {
    let beside = [OLD_END - 1, OLD_END, OLD_END + 1, END - 1, END, END + 1, END + 2, TOP - 1, TOP];
    let numbers: Vec<u32> = beside.into_iter().chain((17..32).flat_map(|k| [1 << k, (1 << k) + 1])).collect();
    for axes in 1..=8 {
        let table: Vec<i64> = (0..count(axes, 1)).map(|_| draw.between(-LIMIT, LIMIT)).collect();
        for axis in 1..=axes as usize {
            for &x in &numbers {
                let mut coordinates = vec![END; axes as usize];
                coordinates[axis - 1] = x;
                coordinates[axis..].fill_with(|| inputs::coordinate(draw));
                let refused = (x > 1_048_576).then_some((8, axis as u64));
                end(draw, report, axes, &table, &coordinates, refused);
                coordinates[axis..].fill(TOP);
                let next = (axis < axes as usize).then_some((8, axis as u64 + 1));
                end(draw, report, axes, &table, &coordinates, refused.or(next));
            }
        }
    }
}

fn end(
    draw: &mut Draw,
    report: &mut Report,
    axes: u32,
    table: &[i64],
    coordinates: &[u32],
    refused: Option<model::Refused>,
) {
    let got = estimates::answered(draw, report, axes, 1, inputs::all_bits(axes), table, coordinates);
    let say = || format!("coordinates {coordinates:?}");
    report.same("estimate", "refused for the end", &refused, &got.estimate.err(), &say);
    report.same("margin", "refused for the end", &refused, &got.with_margin.err(), &say);
}

// ---- files written

/// Numbers that are no rate: beside the ends, at the ends of the type, and those that come out as a rate where 32 bits of
/// them are taken or where twice the number wraps around.
pub const NO_RATES: [i64; 16] = [
    MOST + 1,
    MOST + 2,
    LEAST - 1,
    LEAST - 2,
    1 << 32,
    (1 << 32) + 5,
    -(1 << 32),
    -(1 << 32) - 5,
    1 << 62,
    (1 << 62) + 5,
    (-1 << 63) + 5,
    -(1 << 62),
    i64::MAX,
    i64::MAX - 1,
    i64::MIN,
    i64::MIN + 1,
];

pub fn of_writes(draw: &mut Draw, report: &mut Report) {
    // 1, 2, 19 and 3, where 4 and a short output buffer match too
    let refused = [
        (0, 9, 0),
        (9, 9, 0),
        (TOP, TOP, 512),
        (9, 0, 1),
        (0, 0, 1),
        (1, 9, 0),
        (8, 9, 512),
        (8, TOP, 17),
        (256 + 1, 1, 3),
        (1, 256 + 1, 3),
        (2, 1, 0),
        (2, 1, 4),
        (2, 1, 6),
        (2, 3, 17),
        (2, 2, 49),
        (1, 8, 0),
        (1, 8, 510),
        (1, 8, 512),
        (8, 5, 512),
        (8, 6, 512),
        (7, 6, 1),
        (4, 8, 1),
        (8, 8, 0),
        (1, 0, 0),
        (1, 0, 2),
    ];
    for (axes, level, places) in refused {
        for first in [PAST, 1] {
            let rates = &padded(&[first, 1], 512)[..places];
            for room in [0, 1, places + 1, places + 2, 4_000] {
                writes::write(draw, report, axes, level, rates, room);
            }
        }
    }
    // 4 at every place, or at both ends and between; alone and with others after it; also where the buffer is short
    for (axes, level) in [(1, 0), (8, 0), (1, 1), (2, 1), (3, 2), (2, 3), (1, 8), (8, 3)] {
        let n = places(axes, level);
        let some: Vec<usize> = if n <= 49 { (0..n).collect() } else { vec![0, 1, n / 2, n - 2, n - 1] };
        for p in some {
            for value in NO_RATES {
                let mut rates = vec![draw.of(&[0, -1, 64, LEAST, MOST]); n];
                let length = 2 + n * 5;
                rates[p] = value;
                writes::write(draw, report, axes, level, &rates, length);
                writes::write(draw, report, axes, level, &rates, 0);
                let q = p + draw.index(n - p);
                rates[q] = draw.of(&NO_RATES);
                rates[n - 1] = draw.of(&NO_RATES);
                let room = draw.of(&[0, 1, n + 1, length]);
                writes::write(draw, report, axes, level, &rates, room);
            }
        }
    }
    // each size of a filed number, alone and at either end of a table, with every room around the file's length
    for border in [0, 1 << 7, 1 << 14, 1 << 21, 1 << 28, 1 << 31, 1 << 32] {
        for filed in (border - 4i64..border + 4).filter(|v| (0..1 << 32).contains(v)) {
            let rate = inputs::rate_filed_as(filed as u64);
            let tables: [(u32, u32, &[i64]); 4] =
                [(1, 0, &[rate]), (8, 0, &[rate]), (1, 1, &[rate, 0, rate]), (2, 1, &[0, -1, rate, LEAST, rate])];
            for (axes, level, rates) in tables {
                let length = model::files::file_of(axes, level, rates).len();
                for room in (0..=length + 2).chain(writes::rooms(length)) {
                    writes::write(draw, report, axes, level, rates, room);
                }
                writes::laws(draw, report, axes, level, rates);
            }
        }
    }
}

pub fn of_rewrites(draw: &mut Draw, report: &mut Report) {
    // good files whole, cut off after every byte and with bytes left, with places and room around what they need
    let tables: [(u32, u32, &[i64]); 7] = [
        (1, 0, &[0]),
        (8, 0, &[LEAST]),
        (1, 1, &[3, 5, 7]),
        (1, 1, &[LEAST, MOST, -65]),
        (2, 1, &[4, 3, 5, 2, 6]),
        (2, 1, &[64, -64, 8_192, -8_193, 1 << 20]),
        (3, 1, &[63, -64, -65, 64, 0, MOST, LEAST]),
    ];
    for (axes, level, rates) in tables {
        for needless in [1000, 3, 1] {
            let bytes = files::file(draw, axes, level, rates, needless);
            let length = model::files::file_of(axes, level, rates).len();
            for most_points in writes::most_points(rates.len()) {
                for room in (0..=length + 2).chain(writes::rooms(length)) {
                    writes::rewrite(draw, report, &bytes, most_points, room);
                }
                for end in 0..bytes.len() {
                    let room = draw.of(&[0, length - 1, length, 60]);
                    writes::rewrite(draw, report, &bytes[..end], most_points, room);
                }
                for left in [0, 1, 128, 255] {
                    let room = draw.of(&[0, length - 1, length, 60]);
                    let mut longer = bytes.clone();
                    longer.extend(vec![left; 1 + draw.index(7)]);
                    writes::rewrite(draw, report, &longer, most_points, room);
                }
            }
            // a number of six bytes, or too large, put before each byte
            for at in 0..=bytes.len() {
                for bad in [[0x80, 0x80, 0x80, 0x80, 0x80, 0x00], [0xff, 0xff, 0xff, 0xff, 0x10, 0x00]] {
                    let mut damaged = bytes.clone();
                    damaged.splice(at..at, bad);
                    for (most_points, room) in [(0, 0), (rates.len(), 0), (rates.len(), length), (90, 90)] {
                        writes::rewrite(draw, report, &damaged, most_points, room);
                    }
                }
            }
        }
    }
    // the first two numbers, and refusals that come later matching too
    for bytes in heads(draw) {
        for most_points in [0, 3, usize::MAX] {
            for room in [0, 4] {
                writes::rewrite(draw, report, &bytes, most_points, room);
            }
        }
    }
}

pub fn of_file_shapes(draw: &mut Draw, report: &mut Report) {
    for bytes in heads(draw) {
        for end in 0..=bytes.len() {
            writes::file_shape(draw, report, &bytes[..end]);
        }
    }
}

/// Beginnings of files: d and n of every size, in their fewest groups and not, with nothing or something after them.
fn heads(draw: &mut Draw) -> Vec<Vec<u8>> {
    let around = |v: u64| [v - 1, v, v + 1];
    let mut numbers: Vec<u64> = (0..=10).collect();
    for bits in [7, 8, 14, 16, 21, 28, 31, 32, 33, 35, 36, 42] {
        numbers.extend(around(1 << bits));
    }
    let mut found = Vec::new();
    for &d in &numbers {
        for &n in &numbers {
            let mut bytes = model::files::filed(d, draw.of(&[0, 0, 1, 2, 4]));
            bytes.extend(model::files::filed(n, draw.of(&[0, 0, 1, 2, 4])));
            let rest: &[u8] = draw.of(&[&[], &[], &[0], &[0x80], &[0xff; 7], &[6, 10, 14]]);
            bytes.extend(rest);
            found.push(bytes);
        }
    }
    found
}

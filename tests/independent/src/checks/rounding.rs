//! Estimates on halves, beside them and on whole units: the sum is chosen, and the table made to have it. Each
//! table is also handed in negated.

use super::estimates::answered;
use super::short;
use crate::draw::Draw;
use crate::inputs::{self, END, LIMIT, OLD_END};
use crate::model::estimates::{joint_weights, sum, UNIT};
use crate::model::grid::count;
use crate::model::margin::Estimated;
use crate::report::Report;

const HALF: i128 = UNIT / 2;

/// What the last division leaves: nothing, a half, and one or two 1,048,576ths to either side of both.
const LEFT: [i128; 10] = [0, 1, 2, HALF - 2, HALF - 1, HALF, HALF + 1, HALF + 2, UNIT - 2, UNIT - 1];

pub fn rounding(draw: &mut Draw, report: &mut Report) {
    coefficient_as_sum(draw, report);
    for axes in 1..=8 {
        for level in 0..=2 {
            chosen_coordinates(draw, report, axes, level);
        }
        for level in [0, 1, 2, 3, 6, 8] {
            if count(axes, level) <= 1_200 {
                chosen_sums(draw, report, axes, level);
            }
        }
    }
}

/// A table and its negative: the library's two answers are each other's negative as well, with the same S and margin,
/// or both refusals.
fn both_signs(draw: &mut Draw, report: &mut Report, axes: u32, level: u32, table: &[i64], coordinates: &[u32]) {
    let (all, negative) = (inputs::all_bits(axes), table.iter().map(|c| -c).collect::<Vec<_>>());
    let one = answered(draw, report, axes, level, all, table, coordinates);
    let other = answered(draw, report, axes, level, all, &negative, coordinates);
    let say = || format!("axes {axes} level {level} coordinates {coordinates:?} table {}", short(table));
    report.same("estimate", "negated", &one.estimate.map(i64::wrapping_neg), &other.estimate, &say);
    let negated = one.with_margin.map(|found| Estimated { estimate: found.estimate.wrapping_neg(), ..found });
    report.same("margin", "negated", &negated, &other.with_margin, &say);
}

/// One point of joint weight 1, so that its coefficient is the sum: of the first and the last axis one has
/// weight 2 and one half a unit, and those between them are at the point.
fn coefficient_as_sum(draw: &mut Draw, report: &mut Report) {
    let mut sums = vec![i128::from(LIMIT), i128::from(LIMIT) + 1];
    let most = i128::from(LIMIT) / UNIT;
    for whole in [0, 1, 2, 3, 4, 1 << 16, most - 2, most - 1] {
        sums.extend(LEFT.map(|left| whole * UNIT + left));
    }
    for axes in 2..=8 {
        for (first, last) in [(1, END / 4), (END / 4 * 3, 1), (END - 1, END / 4 * 3), (END / 4, END - 1)] {
            let mut coordinates = vec![END / 2; axes as usize];
            coordinates[0] = first;
            coordinates[axes as usize - 1] = last;
            for &sum in &sums {
                both_signs(draw, report, axes, 0, &[sum as i64], &coordinates);
            }
        }
    }
}

/// Each axis in turn at and beside the ends, at points of levels 0 and 1, about the old end, and past the end; the
/// others at such points.
fn chosen_coordinates(draw: &mut Draw, report: &mut Report, axes: u32, level: u32) {
    for axis in 0..axes as usize {
        for x in [0, 1, OLD_END, OLD_END + 1, END / 4, END / 2, END / 4 * 3, END - 1, END, END + 1] {
            let points = [END / 4, END / 2, END / 2, END / 4 * 3];
            let mut coordinates: Vec<u32> = (0..axes).map(|_| draw.of(&points)).collect();
            coordinates[axis] = x;
            let [zeros, small, any, ends] = tables(draw, axes, level);
            let mut past = zeros.clone();
            past[draw.index(zeros.len())] = LIMIT + 1;
            for table in [zeros, small, any, ends, past] {
                both_signs(draw, report, axes, level, &table, &coordinates);
            }
        }
    }
}

/// Zeros, small numbers, any, and those at and beside the ends of the content limit.
fn tables(draw: &mut Draw, axes: u32, level: u32) -> [Vec<i64>; 4] {
    let places = count(axes, level) as usize;
    let ends = [LIMIT, -LIMIT, LIMIT - 1, 1 - LIMIT];
    [
        vec![0; places],
        (0..places).map(|_| draw.between(-9, 9)).collect(),
        (0..places).map(|_| draw.between(-LIMIT, LIMIT)).collect(),
        (0..places).map(|_| draw.of(&ends)).collect(),
    ]
}

/// Tables that leave each number of 1,048,576ths, with an even and an odd number of whole units. On one axis all
/// weights are even, and so is what is left.
fn chosen_sums(draw: &mut Draw, report: &mut Report, axes: u32, level: u32) {
    let least = if axes == 1 { 2 } else { 1 };
    for _ in 0..2 {
        let (coordinates, weights, p) = spot(draw, axes, level, least);
        // this coefficient of point p adds `least` to the sum, and whole pairs of units
        let (two_units, weight) = (2 * UNIT as u64, weights[p] as u64);
        let adds_least = (1..two_units).find(|c| c * weight % two_units == least as u64).expect("an odd multiple");
        for mut table in tables(draw, axes, level) {
            for left in LEFT.into_iter().filter(|left| left % least == 0) {
                for wanted in [left, left + UNIT] {
                    table[p] = 0;
                    let missing = wanted - sum(&table, &weights);
                    table[p] = (missing / least * i128::from(adds_least)).rem_euclid(2 * UNIT) as i64;
                    both_signs(draw, report, axes, level, &table, &coordinates);
                }
            }
        }
    }
}

/// Coordinates, the joint weights there, and a point whose weight is an odd multiple of `least`.
fn spot(draw: &mut Draw, axes: u32, level: u32, least: i128) -> (Vec<u32>, Vec<i128>, usize) {
    loop {
        let coordinates: Vec<u32> = (0..axes).map(|_| inputs::coordinate(draw)).collect();
        let weights = joint_weights(UNIT, axes, level, &coordinates);
        let odd: Vec<usize> = (0..weights.len()).filter(|&p| weights[p] / least % 2 == 1).collect();
        if !odd.is_empty() {
            return (coordinates, weights, draw.of(&odd));
        }
    }
}

//! Change request e on one axis: an old coordinate times 16 gives the old estimate.

use super::estimates::answered;
use super::short;
use crate::draw::Draw;
use crate::inputs::{self, LIMIT, OLD_END};
use crate::model::estimates::{estimate_in, OLD_UNIT};
use crate::model::grid::count;
use crate::model::rates::coefficients;
use crate::report::Report;

/// The ends, points of levels 0 and 1, what is beside these, and some past the end: the last times 16 just fits 32 bits.
const OLD: [u32; 20] = [
    0,
    1,
    2,
    16_383,
    16_384,
    16_385,
    21_845,
    32_767,
    32_768,
    32_769,
    43_691,
    49_151,
    49_152,
    49_153,
    OLD_END - 1,
    OLD_END,
    OLD_END + 1,
    OLD_END + 2,
    2 * OLD_END,
    (1 << 28) - 1,
];

/// The library at 16 times the coordinate, and the separate code at the coordinate with the old unit.
pub fn one_axis(draw: &mut Draw, report: &mut Report) {
    for level in 0..=8 {
        for table in tables(draw, level) {
            let drawn: Vec<u32> = (0..300).map(|_| inputs::old_coordinate(draw)).collect();
            for &old in OLD.iter().chain(&drawn) {
                let want = estimate_in(OLD_UNIT, 1, level, 1, &table, &[old]);
                let got = answered(draw, report, 1, level, 1, &table, &[16 * old]);
                let say = || format!("level {level} old coordinate {old} table {}", short(&table));
                report.same("estimate", "old coordinate times 16", &want, &got.estimate, &say);
                let with_margin = got.with_margin.map(|found| (found.estimate, found.margin));
                report.same("margin", "1 on one axis", &want.map(|estimate| (estimate, 1)), &with_margin, &say);
            }
        }
    }
}

/// Ends of the content limit, those with what is past one, any contents, small numbers, coefficients of rates.
fn tables(draw: &mut Draw, level: u32) -> Vec<Vec<i64>> {
    let places = count(1, level) as usize;
    let ends = [LIMIT, -LIMIT];
    let either: Vec<i64> = (0..places).map(|_| draw.of(&ends)).collect();
    let mut past = either.clone();
    past[draw.index(places)] = draw.of(&[LIMIT + 1, -LIMIT - 1]);
    let rates = inputs::rates(draw, places);
    vec![
        vec![LIMIT; places],
        vec![-LIMIT; places],
        (0..places).map(|p| ends[p % 2]).collect(),
        either,
        past,
        (0..places).map(|_| draw.between(-LIMIT, LIMIT)).collect(),
        (0..places).map(|_| draw.between(-9, 9)).collect(),
        coefficients(1, level, &rates),
    ]
}

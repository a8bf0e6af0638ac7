//! Without border values the surface is 0 on the border, and no point is reached there.

use super::estimates::answered;
use super::short;
use crate::draw::Draw;
use crate::inputs::{self, LIMIT};
use crate::model::grid::count;
use crate::model::margin::Estimated;
use crate::report::Report;

/// Each axis in turn at either end, the others anywhere: every table is read as 0.
pub fn border(draw: &mut Draw, report: &mut Report) {
    for axes in 1..=8 {
        for level in (0..=8).filter(|&level| count(axes, level) <= 7_000) {
            for table in tables(draw, axes, level) {
                for axis in 0..axes as usize {
                    for end in [0, 1_048_576] {
                        let mut coordinates: Vec<u32> = (0..axes).map(|_| inputs::coordinate(draw)).collect();
                        coordinates[axis] = end;
                        let got = answered(draw, report, axes, level, inputs::all_bits(axes), &table, &coordinates);
                        let say = || format!("axes {axes} level {level} at {coordinates:?} table {}", short(&table));
                        report.same("estimate", "0 on the border", &Ok(0), &got.estimate, &say);
                        let nothing = Estimated { estimate: 0, absolute_sum: 0, margin: 1 };
                        report.same("margin", "nothing on the border", &Ok(nothing), &got.with_margin, &say);
                    }
                }
            }
        }
    }
}

/// Tables at the content limit, all on one side of zero and on both, and any.
fn tables(draw: &mut Draw, axes: u32, level: u32) -> [Vec<i64>; 4] {
    let places = count(axes, level) as usize;
    [
        vec![LIMIT; places],
        vec![-LIMIT; places],
        (0..places).map(|_| draw.of(&[LIMIT, -LIMIT])).collect(),
        (0..places).map(|_| draw.between(-LIMIT, LIMIT)).collect(),
    ]
}

//! Estimates, and the same with their margin.

use super::{answer, margins, misreadings, refusal, short};
use crate::boundary;
use crate::draw::Draw;
use crate::inputs::{self, END};
use crate::model::estimates as model;
use crate::model::grid::{count, grid};
use crate::model::margin::{Estimated, Reached};
use crate::model::rates::coefficients;
use crate::model::Refused;
use crate::report::Report;
use numolefays::{Shape, State};

const CALL: &str = "estimate";

/// One call of each of the two, through the boundary and through the wrapper.
pub fn estimate(
    draw: &mut Draw,
    report: &mut Report,
    axes: u32,
    level: u32,
    bits: u8,
    table: &[i64],
    coordinates: &[u32],
) {
    let _ = answered(draw, report, axes, level, bits, table, coordinates);
}

/// What the library answers to both calls.
pub struct Answers {
    pub estimate: Result<i64, Refused>,
    pub with_margin: Result<Estimated, Refused>,
}

/// The same calls; returns what the library answers.
pub fn answered(
    draw: &mut Draw,
    report: &mut Report,
    axes: u32,
    level: u32,
    bits: u8,
    table: &[i64],
    coordinates: &[u32],
) -> Answers {
    let want = model::estimate(axes, level, bits, table, coordinates);
    report.case(CALL, answer(&want).0);
    misreadings::of_call(report, axes, level, table, coordinates, &want);
    let say = || format!("axes {axes} level {level} bits {bits:#x} coordinates {coordinates:?} table {}", short(table));
    let junk = draw.bits() as i64;
    let (mut found, mut at) = (junk, draw.bits());
    let (handed, handed_at) = (table.to_vec(), coordinates.to_vec());
    let got = boundary::estimate(axes, level, bits, &handed, &handed_at, &mut found, &mut at);
    report.same(CALL, "answer and place", &answer(&want), &(got, at), &say);
    report.same(CALL, "estimate", &want.unwrap_or(junk), &found, &say);
    report.same(CALL, "table", table, &handed[..], &say);
    report.same(CALL, "coordinates", coordinates, &handed_at[..], &say);
    let state = State::saved(Shape::new(axes, level), bits);
    report.same(CALL, "wrapper", &want.map_err(refusal), &state.estimate(table, coordinates), &say);
    let estimate = if got == 0 { Ok(found) } else { Err((got, at)) };
    // drawn on their own, so that the inputs of what comes later stay as they are
    let mut outputs = Draw::new(junk as u64);
    let with_margin = margins::beside(&mut outputs, report, axes, level, bits, table, coordinates, &want, &estimate);
    Answers { estimate, with_margin }
}

/// At the points of a grid, every one or every so manieth, the estimate from the coefficients of accepted rates is the
/// rate times 2^d, and so is the exact value.
pub fn through_rates(draw: &mut Draw, report: &mut Report, axes: u32, level: u32) {
    let places = count(axes, level) as usize;
    let rates = inputs::rates(draw, places);
    let shape = Shape::new(axes, level);
    let mut table = rates.clone();
    let say = || format!("axes {axes} level {level} rates {}", short(&rates));
    report.same("whole forward", "rates to read", &Ok(()), &shape.rates_to_coefficients(&mut table), &say);
    let Ok(state) = shape.adopt(&table) else {
        report.same("adopt", "coefficients to read", &true, &false, &say);
        return;
    };
    report.made("whole forward", 1);
    report.made("adopt", 1);
    let points = grid(axes, level);
    for (at, &rate) in points.order.iter().zip(&rates).step_by(1 + places / 600) {
        let coordinates: Vec<u32> = at[..axes as usize].iter().map(|&c| u32::from(c) * (END / 512)).collect();
        report.walked(CALL);
        report.same(CALL, "at a point", &Ok(rate << axes), &state.estimate(&table, &coordinates), &say);
        let there = Reached::new(axes, level, &table, &coordinates);
        let want = margins::wrapped(there.with_margin(rate << axes));
        report.walked("margin");
        report.same("margin", "at a point", &Ok(want), &state.estimate_with_margin(&table, &coordinates), &say);
        let exact = there.exact().is(rate << axes, 1);
        report.same("separate code with itself", "exact value at a point", &true, &exact, &say);
    }
}

/// Every spot of the finest lattice, the points and what lies between them: a table of rates and any other.
pub fn lattice(draw: &mut Draw, report: &mut Report, axes: u32, level: u32) {
    let places = count(axes, level) as usize;
    let rates = inputs::rates(draw, places);
    let any: Vec<i64> = (0..places).map(|_| draw.between(-inputs::LIMIT, inputs::LIMIT)).collect();
    let side = 2u32.pow(level + 1);
    for table in [any, coefficients(axes, level, &rates)] {
        for spot in 0..(side + 1).pow(axes) {
            let coordinates: Vec<u32> =
                (0..axes).map(|t| spot / (side + 1).pow(t) % (side + 1) * (END / side)).collect();
            estimate(draw, report, axes, level, inputs::all_bits(axes), &table, &coordinates);
        }
    }
}

/// Tables of nothing but the ends of the content limit, where the weights have the largest sums, and elsewhere.
pub fn extremes(draw: &mut Draw, report: &mut Report, axes: u32, level: u32) {
    let places = count(axes, level) as usize;
    let ends = [inputs::LIMIT, -inputs::LIMIT];
    let either: Vec<i64> = (0..places).map(|_| draw.of(&ends)).collect();
    let alternating: Vec<i64> = (0..places).map(|p| ends[p % 2]).collect();
    for table in [either, alternating, vec![ends[0]; places], vec![ends[1]; places]] {
        for k in 0..12 {
            let thirds = |draw: &mut Draw| draw.of(&[END / 3, END - END / 3]);
            let coordinates: Vec<u32> =
                (0..axes).map(|_| if k < 8 { thirds(draw) } else { inputs::coordinate(draw) }).collect();
            estimate(draw, report, axes, level, inputs::all_bits(axes), &table, &coordinates);
        }
    }
}

/// One random table, read at a few places.
pub fn random(draw: &mut Draw, report: &mut Report, most: u64) {
    let (axes, level) = inputs::shape(draw, most);
    let all = inputs::all_bits(axes);
    let bits = if draw.one_in(8) { inputs::bits(draw, axes) } else { all };
    let table = match draw.below(4) {
        0 if inputs::is_shape(axes, level) => {
            (0..count(axes, level)).map(|_| draw.between(-inputs::LIMIT, inputs::LIMIT)).collect()
        }
        _ => inputs::any_contents(draw, axes, level, all),
    };
    for _ in 0..3 {
        let coordinates = inputs::coordinates(draw, axes);
        estimate(draw, report, axes, level, bits, &table, &coordinates);
    }
    if draw.one_in(40) {
        let (axes, level) = inputs::good_shape(draw, most.min(400));
        through_rates(draw, report, axes, level);
    }
}

//! Forward and back on one axis.

use super::{answer, refusal, short};
use crate::boundary;
use crate::draw::Draw;
use crate::inputs;
use crate::lent;
use crate::model::turns as model;
use crate::model::Refused;
use crate::report::Report;
use numolefays::{Shape, State};

#[allow(clippy::too_many_arguments)]
pub fn turn(
    draw: &mut Draw,
    report: &mut Report,
    back: bool,
    axes: u32,
    level: u32,
    bits: u8,
    table: &[i64],
    axis: u32,
) {
    let want = model::turn(back, axes, level, bits, table, axis);
    against(draw, report, back, axes, level, bits, table, axis, &want);
}

/// A call that has to answer this.
#[allow(clippy::too_many_arguments)]
pub fn against(
    draw: &mut Draw,
    report: &mut Report,
    back: bool,
    axes: u32,
    level: u32,
    bits: u8,
    table: &[i64],
    axis: u32,
    want: &Result<(Vec<i64>, u8), Refused>,
) {
    let call = if back { "back" } else { "forward" };
    report.case(call, answer(want).0);
    let say = || format!("axes {axes} level {level} bits {bits:#x} axis {axis} table {}", short(table));
    let want_table = want.as_ref().map_or(table, |w| &w.0);
    let want_bits = want.as_ref().map_or(bits, |w| w.1);

    let (mut forward, mut at) = (bits, draw.bits());
    let mut lent = lent::table(table, draw);
    let got = if back {
        boundary::back(axes, level, &mut forward, lent.slice(), axis, &mut at)
    } else {
        boundary::forward(axes, level, &mut forward, lent.slice(), axis, &mut at)
    };
    report.same(call, "answer and place", &answer(want), &(got, at), &say);
    report.same(call, "bits", &want_bits, &forward, &say);
    report.same(call, "table", want_table, lent.contents(), &say);
    report.same(call, "outside the table", &true, &lent.guarded(), &say);

    let mut again = table.to_vec();
    let mut state = State::saved(Shape::new(axes, level), bits);
    let got = if back { state.back(&mut again, axis) } else { state.forward(&mut again, axis) };
    report.same(call, "wrapper", &want.as_ref().map(|_| ()).map_err(|&r| refusal(r)), &got, &say);
    report.same(call, "wrapper's state", &State::saved(Shape::new(axes, level), want_bits), &state, &say);
    let forward: Vec<u32> = (1..=8).filter(|&t| crate::model::is_forward(want_bits, t)).collect();
    report.same(call, "wrapper's axes", &forward, &(0..=9).filter(|&t| state.is_forward(t)).collect(), &say);
    report.same(call, "wrapper's table", want_table, &again[..], &say);
}

/// Thirty calls one after the other on one table: back on an axis that is forward and forward on one that is not, and now and then the other way, with
/// another set, shape or length.
pub fn carried(draw: &mut Draw, report: &mut Report, axes: u32, level: u32) {
    let any = inputs::bits(draw, axes) & inputs::all_bits(axes);
    let mut bits = draw.of(&[0, inputs::all_bits(axes), any]);
    let mut table = inputs::contents(draw, axes, level, bits);
    for _ in 0..30 {
        let axis = inputs::axis(draw, axes);
        let handed = if draw.one_in(8) { inputs::bits(draw, axes) } else { bits };
        let held = (1..=8).contains(&axis) && crate::model::is_forward(handed, axis);
        let back = held != draw.one_in(4);
        let places = if draw.one_in(16) { inputs::places(draw, axes, level).min(table.len()) } else { table.len() };
        let (a, l) = if draw.one_in(16) { inputs::shape(draw, 300) } else { (axes, level) };
        turn(draw, report, back, a, l, handed, &table[..places], axis);
        if let Ok((after, set)) = model::turn(back, a, l, handed, &table[..places], axis) {
            if (a, l) == (axes, level) {
                (table, bits) = (after, set);
            }
        }
    }
}

/// One random case of each.
pub fn random(draw: &mut Draw, report: &mut Report, most: u64) {
    for back in [false, true] {
        let (axes, level) = inputs::shape(draw, most);
        let axis = inputs::axis(draw, axes);
        let mut bits = inputs::bits(draw, axes);
        // mostly an axis that the turn can take
        if (1..=8).contains(&axis) && axis <= axes && !draw.one_in(8) {
            let bit = 1 << (axis - 1);
            bits = if back { bits | bit } else { bits & !bit };
        }
        let table = inputs::any_contents(draw, axes, level, bits);
        turn(draw, report, back, axes, level, bits, &table, axis);
    }
}

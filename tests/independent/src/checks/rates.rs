//! Load, adopt, unload, and the whole calls.

use super::{answer, refusal, short};
use crate::boundary;
use crate::draw::Draw;
use crate::inputs;
use crate::lent;
use crate::model::grid::count;
use crate::model::rates as model;
use crate::model::Refused;
use crate::report::Report;
use numolefays::{Refusal, Shape, State};

pub fn load(draw: &mut Draw, report: &mut Report, axes: u32, level: u32, table: &[i64]) {
    const CALL: &str = "load";
    let want = model::load(axes, level, table);
    report.case(CALL, answer(&want).0);
    let say = || format!("axes {axes} level {level} table {}", short(table));
    let want_table = want.as_ref().map_or(table, |w| &w.0);

    let junk = draw.bits() as u8;
    let (mut forward, mut at) = (junk, draw.bits());
    let mut lent = lent::table(table, draw);
    let got = boundary::load(axes, level, lent.slice(), &mut forward, &mut at);
    report.same(CALL, "answer and place", &answer(&want), &(got, at), &say);
    report.same(CALL, "table", want_table, lent.contents(), &say);
    report.same(CALL, "bits", &want.as_ref().map_or(junk, |w| w.1), &forward, &say);
    report.same(CALL, "outside the table", &true, &lent.guarded(), &say);

    let mut again = table.to_vec();
    let got = Shape::new(axes, level).load(&mut again);
    let state = want.as_ref().map(|w| State::saved(Shape::new(axes, level), w.1)).map_err(|&r| refusal(r));
    report.same(CALL, "wrapper", &state, &got, &say);
    report.same(CALL, "wrapper's table", want_table, &again[..], &say);
}

pub fn adopt(draw: &mut Draw, report: &mut Report, axes: u32, level: u32, table: &[i64]) {
    const CALL: &str = "adopt";
    let want = model::adopt(axes, level, table);
    report.case(CALL, answer(&want).0);
    let say = || format!("axes {axes} level {level} table {}", short(table));
    let junk = draw.bits() as u8;
    let (mut forward, mut at) = (junk, draw.bits());
    let mut lent = lent::table(table, draw);
    let got = boundary::adopt(axes, level, lent.slice(), &mut forward, &mut at);
    report.same(CALL, "answer and place", &answer(&want), &(got, at), &say);
    report.same(CALL, "table", table, lent.contents(), &say);
    report.same(CALL, "bits", &want.unwrap_or(junk), &forward, &say);
    let state = want.map(|bits| State::saved(Shape::new(axes, level), bits)).map_err(refusal);
    report.same(CALL, "wrapper", &state, &Shape::new(axes, level).adopt(table), &say);
}

pub fn unload(draw: &mut Draw, report: &mut Report, axes: u32, level: u32, bits: u8, table: &[i64]) {
    let want = model::unload(axes, level, bits, table);
    let state = State::saved(Shape::new(axes, level), bits);
    let say = || format!("axes {axes} level {level} bits {bits:#x} table {}", short(table));
    in_place(
        "unload",
        draw,
        report,
        table,
        want,
        &say,
        |t, place| boundary::unload(axes, level, bits, t, place),
        |t| state.unload(t),
    );
}

pub fn rates_to_coefficients(draw: &mut Draw, report: &mut Report, axes: u32, level: u32, table: &[i64]) {
    let want = model::rates_to_coefficients(axes, level, table);
    let shape = Shape::new(axes, level);
    let say = || format!("axes {axes} level {level} table {}", short(table));
    in_place(
        "whole forward",
        draw,
        report,
        table,
        want,
        &say,
        |t, place| boundary::rates_to_coefficients(axes, level, t, place),
        |t| shape.rates_to_coefficients(t),
    );
}

pub fn coefficients_to_rates(draw: &mut Draw, report: &mut Report, axes: u32, level: u32, table: &[i64]) {
    let want = model::coefficients_to_rates(axes, level, table);
    let shape = Shape::new(axes, level);
    let say = || format!("axes {axes} level {level} table {}", short(table));
    in_place(
        "whole back",
        draw,
        report,
        table,
        want,
        &say,
        |t, place| boundary::coefficients_to_rates(axes, level, t, place),
        |t| shape.coefficients_to_rates(t),
    );
}

/// The coefficients of accepted rates with one place off by 1 or by 2^d either way, sixteen times, and as they are.
pub fn one_off(draw: &mut Draw, report: &mut Report, axes: u32, level: u32) {
    let rates = inputs::rates(draw, count(axes, level) as usize);
    let coefficients = model::coefficients(axes, level, &rates);
    for _ in 0..16 {
        let mut table = coefficients.clone();
        table[draw.index(rates.len())] += draw.of(&[1, -1, 1 << axes, -(1 << axes)]);
        coefficients_to_rates(draw, report, axes, level, &table);
    }
    coefficients_to_rates(draw, report, axes, level, &coefficients);
    adopt(draw, report, axes, level, &coefficients);
}

/// A call that answers nothing but a refusal and works in the table.
#[allow(clippy::too_many_arguments)]
pub fn in_place(
    call: &'static str,
    draw: &mut Draw,
    report: &mut Report,
    table: &[i64],
    want: Result<Vec<i64>, Refused>,
    say: &dyn Fn() -> String,
    raw: impl Fn(&mut [i64], &mut u64) -> u32,
    safe: impl Fn(&mut [i64]) -> Result<(), Refusal>,
) {
    report.case(call, answer(&want).0);
    let want_table = want.as_ref().map_or(table, |w| w);
    let mut at = draw.bits();
    let mut lent = lent::table(table, draw);
    let got = raw(lent.slice(), &mut at);
    report.same(call, "answer and place", &answer(&want), &(got, at), say);
    report.same(call, "table", want_table, lent.contents(), say);
    report.same(call, "outside the table", &true, &lent.guarded(), say);
    let mut again = table.to_vec();
    let got = safe(&mut again);
    report.same(call, "wrapper", &want.as_ref().map(|_| ()).map_err(|&r| refusal(r)), &got, say);
    report.same(call, "wrapper's table", want_table, &again[..], say);
}

/// One random case of each.
pub fn random(draw: &mut Draw, report: &mut Report, most: u64) {
    let (axes, level) = inputs::shape(draw, most);
    let places = inputs::places(draw, axes, level);
    let table = inputs::any_rates(draw, places);
    load(draw, report, axes, level, &table);
    let (axes, level) = inputs::shape(draw, most);
    let places = inputs::places(draw, axes, level);
    let table = inputs::any_rates(draw, places);
    rates_to_coefficients(draw, report, axes, level, &table);
    let (axes, level) = inputs::shape(draw, most);
    let table = inputs::any_contents(draw, axes, level, inputs::all_bits(axes));
    adopt(draw, report, axes, level, &table);
    let (axes, level) = inputs::shape(draw, most);
    let table = inputs::any_contents(draw, axes, level, inputs::all_bits(axes));
    coefficients_to_rates(draw, report, axes, level, &table);
    let (axes, level) = inputs::shape(draw, most);
    let bits = if draw.one_in(3) { inputs::bits(draw, axes) } else { 0 };
    let table = inputs::any_contents(draw, axes, level, 0);
    unload(draw, report, axes, level, bits, &table);
}

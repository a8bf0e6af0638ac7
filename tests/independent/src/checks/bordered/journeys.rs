//! Whole ways of a table with border values: a load, turns in any order with stops between them, estimates, all back.

use super::inputs::estimates;
use super::random::some_turns;
use super::{walks, Desk};
use crate::checks::short;
use crate::inputs::{self, END};
use crate::model::bordered::calls::{demand3, Call, Written};
use crate::model::bordered::grid::grid;
use crate::model::bordered::readings::RIGHT;
use crate::model::bordered::Shape;
use crate::model::is_forward;

pub fn all(desk: &mut Desk, with_large: bool) {
    for (axes, level) in walks::shapes(7_000) {
        let small = Shape::new(axes, level, 1).count() <= 700;
        for _ in 0..if small { 6 } else { 1 } {
            let shape = Shape::new(axes, level, super::inputs::flag(&mut desk.draw));
            way(desk, shape);
            lists_of_turns(desk, shape);
            extremes(desk, shape);
        }
    }
    if with_large {
        for (axes, level) in [(4, 5), (3, 7), (2, 8)] {
            way(desk, Shape::new(axes, level, 1));
        }
        largest(desk);
    }
}

/// The largest shapes with border values, 21,249 points on three axes and 20,481 on four: rates at the ends of their range,
/// turned and back, and the largest sums.
fn largest(desk: &mut Desk) {
    for (axes, level) in [(3, 7), (4, 5)] {
        let shape = Shape::new(axes, level, 1);
        let rates: Vec<i64> = (0..shape.count()).map(|_| desk.draw.of(&[i32::MIN.into(), i32::MAX.into()])).collect();
        let table = done(desk, shape, Call::ToCoefficients(rates)).table.expect("a table");
        done(desk, shape, Call::ToRates(table.clone()));
        let axis = 1 + desk.draw.below(u64::from(axes)) as u32;
        let back = done(desk, shape, Call::Turn { back: true, bits: shape.all_bits(), table, axis });
        let (table, bits) = (back.table.expect("a table"), back.bits.expect("bits"));
        done(desk, shape, Call::Turn { back: false, bits, table, axis });
        extremes(desk, shape);
    }
}

/// What a call that has to succeed leaves.
fn done(desk: &mut Desk, shape: Shape, call: Call) -> Written {
    let answer = desk.answered(shape, &call);
    answer.unwrap_or_else(|why| panic!("{}: refused with {why:?}", super::said(shape, &call)))
}

/// A table from rates, turned forward on every axis in some order, now and then one back between; then what it says at its
/// points and elsewhere, and back in another order to the rates. Each turn is handed what the one before it left, as after
/// a stop.
fn way(desk: &mut Desk, shape: Shape) {
    let rates = inputs::rates(&mut desk.draw, shape.count());
    let say = || format!("{shape:?} rates {}", short(&rates));
    let loaded = done(desk, shape, Call::Load(rates.clone()));
    let (mut table, mut bits) = (loaded.table.expect("a table"), 0);
    for goal in [shape.all_bits(), 0] {
        while bits != goal {
            let axis = 1 + desk.draw.below(u64::from(shape.axes)) as u32;
            let back = is_forward(bits, axis);
            // mostly toward the goal
            if back == (goal == 0) || desk.draw.one_in(5) {
                let after = done(desk, shape, Call::Turn { back, bits, table, axis });
                (table, bits) = (after.table.expect("a table"), after.bits.expect("bits"));
            }
        }
        if goal != 0 {
            let whole = done(desk, shape, Call::ToCoefficients(rates.clone())).table;
            desk.report.same("bordered forward", "one axis after the other", &whole, &Some(table.clone()), &say);
            done(desk, shape, Call::Adopt(table.clone()));
            through_rates(desk, shape, &rates, &table);
            let again = done(desk, shape, Call::ToRates(table.clone())).table;
            desk.report.same("bordered whole back", "rates", &Some(rates.clone()), &again, &say);
            one_off(desk, shape, &table);
        }
    }
    let unloaded = done(desk, shape, Call::Unload { bits, table }).table;
    desk.report.same("bordered unload", "after all turns", &Some(rates.clone()), &unloaded, &say);
}

/// At the points, the borders among them, the estimate is the rate times 2^d; and anywhere else.
fn through_rates(desk: &mut Desk, shape: Shape, rates: &[i64], table: &[i64]) {
    let points = grid(shape, &RIGHT);
    let step = 1 + rates.len() / 40;
    let first = desk.draw.index(step);
    for p in (first..rates.len()).step_by(step).chain([rates.len() - 1]) {
        let at = points.order[p];
        let coordinates: Vec<u32> = at[..shape.axes as usize].iter().map(|&c| u32::from(c) * (END / 512)).collect();
        for call in estimates(shape.all_bits(), table, &coordinates) {
            let found = done(desk, shape, call).numbers[0];
            let say = || format!("{shape:?} at {coordinates:?} rates {}", short(rates));
            desk.report.same("bordered estimate", "at a point", &(rates[p] << shape.axes), &found, &say);
        }
    }
    for _ in 0..4 {
        let coordinates: Vec<u32> = (0..shape.axes).map(|_| inputs::coordinate(&mut desk.draw)).collect();
        for call in estimates(shape.all_bits(), table, &coordinates) {
            done(desk, shape, call);
        }
    }
}

/// Coefficients of rates with one place off, a place of the border and one of any.
fn one_off(desk: &mut Desk, shape: Shape, table: &[i64]) {
    for _ in 0..3 {
        for p in [desk.draw.index(table.len()), table.len() - 1 - desk.draw.index(table.len().min(30))] {
            let mut off = table.to_vec();
            off[p] += desk.draw.of(&[1, -1, 1 << shape.axes, -(1 << shape.axes)]);
            desk.call(shape, &Call::ToRates(off.clone()));
            let axis = 1 + desk.draw.below(u64::from(shape.axes)) as u32;
            desk.call(shape, &Call::Turn { back: true, bits: shape.all_bits(), table: off, axis });
        }
    }
}

/// Demand 3: a load, then a list of turns, whole and in two parts, against nothing but what the set of axes says.
fn lists_of_turns(desk: &mut Desk, shape: Shape) {
    let rates = inputs::rates(&mut desk.draw, shape.count());
    let count = desk.draw.index(25);
    let (directions, axes) = some_turns(desk, shape, count);
    let want = demand3(shape, &rates, &directions, &axes);
    let say = || format!("{shape:?} directions {directions:?} axes {axes:?} rates {}", short(&rates));
    for cut in [0, desk.draw.index(count + 1)] {
        let mut now = done(desk, shape, Call::Load(rates.clone()));
        let (mut numbers, mut places) = (vec![], vec![]);
        for part in [0..cut, cut..count] {
            let call = Call::Run {
                bits: now.bits.expect("bits"),
                table: now.table.expect("a table"),
                directions: directions[part.clone()].to_vec(),
                axes: axes[part.clone()].to_vec(),
                numbers: vec![7; part.len()],
                places: vec![7; part.len()],
            };
            now = done(desk, shape, call);
            let (n, p) = now.answers.clone().expect("answers");
            numbers.extend(n);
            places.extend(p);
        }
        let got = Written { answers: Some((numbers, places)), ..now };
        desk.report.same("bordered run", "by the set of axes alone", &want, &got, &say);
    }
}

/// Tables of nothing but the ends of the limit, where sums are largest, and where a margin's S is.
fn extremes(desk: &mut Desk, shape: Shape) {
    let ends = [inputs::LIMIT, -inputs::LIMIT];
    let either: Vec<i64> = (0..shape.count()).map(|_| desk.draw.of(&ends)).collect();
    for table in [either, vec![ends[0]; shape.count()], vec![ends[1]; shape.count()]] {
        for k in 0..4 {
            let of = |draw: &mut crate::draw::Draw| match k {
                0 | 1 => draw.of(&[END / 3, END - END / 3]),
                2 => draw.of(&[0, 1, END / 2, END - 1, END]),
                _ => inputs::coordinate(draw),
            };
            let coordinates: Vec<u32> = (0..shape.axes).map(|_| of(&mut desk.draw)).collect();
            for call in estimates(shape.all_bits(), &table, &coordinates) {
                done(desk, shape, call);
            }
        }
    }
}

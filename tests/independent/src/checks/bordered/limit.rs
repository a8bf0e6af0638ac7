//! Change request h, of both sorts: a table of more than 32,768 points is refused with 19 by every call with a shape, after 1, 2
//! and 14 and before all else, and the largest tables that are not are taken.

use super::inputs::{estimates, flag};
use super::{said, Desk};
use crate::inputs::{self, END, LIMIT};
use crate::model::bordered::calls::{Call, Written};
use crate::model::bordered::grid::grid;
use crate::model::bordered::readings::RIGHT;
use crate::model::bordered::{Lists, Shape};
use crate::model::MOST_POINTS;

/// The highest top level that passes, by the number of axes: without border values, and with them.
const TOPS: [&[u32]; 2] = [&[8, 8, 8, 7, 6, 5, 5, 5], &[8, 8, 7, 5]];

pub fn all(desk: &mut Desk, with_large: bool) {
    let mut largest = vec![];
    let mut too_large = vec![];
    for (border, tops) in TOPS.into_iter().enumerate() {
        for (axes, &top) in (1..).zip(tops) {
            let border = if border == 0 { 0 } else { flag(&mut desk.draw) };
            let shape = |level| Shape::new(axes, level, border);
            (0..=top).for_each(|level| counted(desk, shape(level)));
            largest.push(shape(top));
            too_large.extend((top + 1..=8).map(shape));
        }
    }
    for &shape in &too_large {
        refused(desk, shape);
        whole_tables(desk, shape);
    }
    for shape in largest {
        taken(desk, shape, with_large);
    }
}

/// A call and what it has to answer, where nothing else need be known of the answer.
fn by_hand(desk: &mut Desk, shape: Shape, call: &Call, number: u32) -> Written {
    let got = desk.answered(shape, call);
    let refused = got.as_ref().err().copied();
    let want = if number == 0 { None } else { Some((number, 0)) };
    desk.report.same(call.kind(shape), "by hand", &want, &refused, &|| said(shape, call));
    got.unwrap_or_default()
}

/// A shape that passes has its count, which is odd: none has 32,768 points.
fn counted(desk: &mut Desk, shape: Shape) {
    let n = by_hand(desk, shape, &Call::Count, 0).numbers[0];
    desk.report.same(Call::Count.kind(shape), "an odd number of points", &1, &(n % 2), &|| format!("{shape:?}"));
}

/// Of each call every set of what is refused later, all matching at once, with and without a bit above axis d; on tables of a
/// few places, also of one, which is what 16 bits hold of N for d=4 and d=8, n=8 without the flag.
fn refused(desk: &mut Desk, shape: Shape) {
    let n = shape.count() as u64;
    by_hand(desk, shape, &Call::Count, 19);
    for which in 0..1u32 << 6 {
        let is = |k: u32| which >> k & 1 == 1;
        let places = desk.draw.of(&[0, 1, 2, 17]);
        for call in calls(desk, shape, places, [0, 1, 2, 3, 4, 5].map(is)) {
            let set = u32::from(call.bits().unwrap_or(0));
            by_hand(desk, shape, &call, if set >> shape.axes != 0 { 14 } else { 19 });
            // 1 and 2 come before both
            let axes = if shape.flagged() { desk.draw.of(&[0, 5, 8, 9, 256]) } else { desk.draw.of(&[0, 9, 256]) };
            let level = desk.draw.of(&[9, 10, 256, u32::MAX]);
            match desk.draw.below(8) {
                0 => by_hand(desk, Shape { axes, ..shape }, &call, 1),
                1 => by_hand(desk, Shape { axes, level, ..shape }, &call, 1),
                2 => by_hand(desk, Shape { level, ..shape }, &call, 2),
                _ => continue,
            };
        }
        let numbers = [0, 1, 31_744, 32_767, 32_768, n - 1, n, n + 1, 1 << 32, u64::MAX];
        let number = desk.draw.of(&numbers);
        by_hand(desk, shape, &Call::Point(number), 19);
    }
}

/// Every call but the count and the point of a number, for a table of so many places and with these faults: a bit above axis
/// d, an axis that is none, an axis forward that must not be or the other way, lists of the wrong length, lists that name
/// nothing or a coordinate past the end, contents past the limit or no rates.
fn calls(desk: &mut Desk, shape: Shape, places: usize, faults: [bool; 6]) -> Vec<Call> {
    let [stray, axis, state, length, names, contents] = faults;
    let (draw, axes) = (&mut desk.draw, shape.axes);
    let stray = if stray && axes < 8 { 1u8 << (axes + draw.below(u64::from(8 - axes)) as u32) } else { 0 };
    let (none, all) = if state { (shape.all_bits(), 0) } else { (0, shape.all_bits()) };
    let axis = if axis { draw.of(&[0, axes + 1, 9, 256 + 1, u32::MAX]) } else { 1 + draw.below(axes.into()) as u32 };
    let many = if length { draw.of(&[0, axes as usize - 1, axes as usize + 1]) } else { axes as usize };
    let of = Lists {
        marks: vec![if names { 3 } else { 0 }; axes as usize],
        levels: vec![if names { draw.of(&[1, 8, 200, u32::MAX]) } else { 0 }; many],
        indices: vec![1; axes as usize],
    };
    let coordinates = vec![if names { END + 1 } else { END / 2 }; many];
    let table = vec![if contents { LIMIT + 1 } else { 0 }; places];
    let rates = vec![if contents { 1 << 31 } else { -1 }; places];
    let turn = |back: bool, bits: u8| Call::Turn { back, bits: stray | bits, table: table.clone(), axis };
    let mut calls = vec![
        Call::Number(of.clone()),
        Call::Successor(of.clone()),
        Call::Parent { of, axis, side: draw.below(2) as u32 },
        Call::Load(rates.clone()),
        Call::ToCoefficients(rates),
        Call::Adopt(table.clone()),
        Call::ToRates(table.clone()),
        turn(false, none),
        turn(true, all),
        Call::Unload { bits: stray | none, table: table.clone() },
        Call::Run {
            bits: stray | none,
            table: table.clone(),
            directions: vec![0, 1],
            axes: vec![axis; if length { 3 } else { 2 }],
            numbers: vec![77; 2],
            places: vec![77; 2],
        },
    ];
    calls.extend(estimates(stray | all, &table, &coordinates));
    calls
}

/// Tables of exactly N places, that nothing else would refuse, and of a place more and less, and of 32,768; where N is below
/// 70,000.
fn whole_tables(desk: &mut Desk, shape: Shape) {
    let n = shape.count();
    if n < 70_000 {
        for places in [n, n - 1, n + 1, MOST_POINTS as usize] {
            for call in calls(desk, shape, places, [false; 6]) {
                by_hand(desk, shape, &call, 19);
            }
        }
    }
}

/// Every call on a table of one of the largest shapes, from rates and back; the large tables themselves only where they are
/// wanted.
fn taken(desk: &mut Desk, shape: Shape, with_large: bool) {
    let n = shape.count();
    for (number, refused) in [(n - 1, 0), (n, 6), (MOST_POINTS as usize, 6)] {
        by_hand(desk, shape, &Call::Point(number as u64), refused);
    }
    let of = grid(shape, &RIGHT).lists(n - 1).lists(shape.axes);
    let number = by_hand(desk, shape, &Call::Number(of.clone()), 0).numbers;
    let end = by_hand(desk, shape, &Call::Successor(of.clone()), 0).numbers;
    desk.report.same("successor", "the last point", &(vec![n as i64 - 1], vec![1]), &(number, end), &|| {
        said(shape, &Call::Count)
    });
    for axis in 1..=shape.axes {
        for side in [0, 1] {
            by_hand(desk, shape, &Call::Parent { of: of.clone(), axis, side }, 0);
        }
    }
    for places in [0, n - 1, n + 1, MOST_POINTS as usize] {
        for call in calls(desk, shape, places, [false; 6]) {
            by_hand(desk, shape, &call, if call.is_of_points() { 0 } else { 3 });
        }
    }
    if n > 7_000 && !with_large {
        return;
    }
    let rates = inputs::rates(&mut desk.draw, n);
    let loaded = by_hand(desk, shape, &Call::Load(rates.clone()), 0).table.expect("a table");
    let (all, axis) = (shape.all_bits(), shape.axes);
    let turned = by_hand(desk, shape, &Call::Turn { back: false, bits: 0, table: loaded.clone(), axis }, 0);
    let (table, bits) = (turned.table.expect("a table"), turned.bits.expect("bits"));
    by_hand(desk, shape, &Call::Turn { back: true, bits, table: table.clone(), axis }, 0);
    let (numbers, places) = (vec![7; 3], vec![7; 3]);
    let run = Call::Run { bits, table, directions: vec![0, 1, 0], axes: vec![axis, axis, 1], numbers, places };
    by_hand(desk, shape, &run, 0);
    by_hand(desk, shape, &Call::Unload { bits: 0, table: loaded }, 0);
    let coefficients = by_hand(desk, shape, &Call::ToCoefficients(rates), 0).table.expect("a table");
    by_hand(desk, shape, &Call::Adopt(coefficients.clone()), 0);
    let coordinates: Vec<u32> = (0..shape.axes).map(|_| inputs::coordinate(&mut desk.draw)).collect();
    for call in estimates(all, &coefficients, &coordinates) {
        by_hand(desk, shape, &call, 0);
    }
    by_hand(desk, shape, &Call::ToRates(coefficients), 0);
}

//! The request's own examples, and others worked by hand.

use super::Desk;
use crate::model::bordered::calls::{Answer, Call, Written};
use crate::model::bordered::{Eights, Lists, Shape};

fn padded(list: &[u32]) -> [u32; 8] {
    let mut eight = [0; 8];
    eight[..list.len()].copy_from_slice(list);
    eight
}

fn lists(marks: &[u32], levels: &[u32], indices: &[u32]) -> Lists {
    Lists { marks: marks.to_vec(), levels: levels.to_vec(), indices: indices.to_vec() }
}

fn eights(marks: &[u32], levels: &[u32], indices: &[u32]) -> Eights {
    Eights { marks: padded(marks), levels: padded(levels), indices: padded(indices) }
}

fn number(n: i64) -> Answer {
    Ok(Written { numbers: vec![n], ..Written::default() })
}

fn table(values: &[i64]) -> Answer {
    Ok(Written { table: Some(values.to_vec()), ..Written::default() })
}

pub fn worked(desk: &mut Desk) {
    let mut by_hand = |shape: Shape, call: Call, want: Answer| {
        let got = desk.answered(shape, &call);
        desk.report.same(call.kind(shape), "by hand", &want, &got, &|| super::said(shape, &call));
    };
    let bordered = |axes, level| Shape::new(axes, level, 1);
    // how many points, and what is no shape
    let sizes = [
        (1, 0, 3),
        (1, 1, 5),
        (2, 0, 9),
        (2, 1, 21),
        (3, 3, 593),
        (4, 0, 81),
        (4, 5, 20_481),
        (3, 7, 21_249),
        (2, 8, 6_145),
        (1, 8, 513),
    ];
    for (axes, level, n) in sizes {
        by_hand(bordered(axes, level), Call::Count, number(n));
    }
    for (axes, level, border, refused) in [
        (0, 0, 1, 1),
        (5, 0, 1, 1),
        (8, 0, 1, 1),
        (9, 0, 1, 1),
        (5, 9, 1, 1),
        (4, 9, 1, 2),
        (1, 9, 255, 2),
        (5, 0, 128, 1),
        (9, 0, 0, 1),
        (5, 9, 0, 2),
        (3, 8, 1, 19),
        (4, 6, 255, 19),
        (4, 7, 2, 19),
        (4, 8, 128, 19),
        (5, 8, 1, 1),
        (3, 9, 1, 2),
        (4, 8, 0, 19),
    ] {
        by_hand(Shape::new(axes, level, border), Call::Count, Err((refused, 0)));
    }

    // the request's line
    let line = bordered(1, 1);
    let rates = [3, 5, 7, 1, 9];
    by_hand(line, Call::ToCoefficients(rates.to_vec()), table(&[-4, 6, 2, 2, 18]));
    by_hand(line, Call::ToRates(vec![-4, 6, 2, 2, 18]), table(&rates));
    let loaded = vec![6, 10, 14, 2, 18];
    by_hand(
        line,
        Call::Load(rates.to_vec()),
        Ok(Written { table: Some(loaded.clone()), bits: Some(0), ..Written::default() }),
    );
    let turned = Written { table: Some(vec![-4, 6, 2, 2, 18]), bits: Some(1), ..Written::default() };
    by_hand(line, Call::Turn { back: false, bits: 0, table: loaded, axis: 1 }, Ok(turned));
    // at the borders, at the points and between: twice the rates 1, 5, 3, 7, 9, and straight lines
    for (x, value, sum, margin) in [
        (0, 2, 2, 1),
        (262_144, 10, 30, 1),
        (524_288, 6, 24, 1),
        (786_432, 14, 26, 1),
        (1_048_576, 18, 18, 1),
        (131_072, 6, 30, 1),
        (1_048_575, 18, 26, 1),
    ] {
        let coefficients = vec![-4, 6, 2, 2, 18];
        let estimate = Call::Estimate { bits: 1, table: coefficients.clone(), coordinates: vec![x] };
        by_hand(line, estimate, number(value));
        let with_margin = Call::Margin { bits: 1, table: coefficients, coordinates: vec![x] };
        by_hand(line, with_margin, Ok(Written { numbers: vec![value, sum, margin], ..Written::default() }));
    }

    // two axes, top level 0: the middle, then the faces by marks from the last axis, then the corners
    let order: [([u32; 2], u64); 9] = [
        ([0, 0], 0),
        ([1, 0], 1),
        ([2, 0], 2),
        ([0, 1], 3),
        ([0, 2], 4),
        ([1, 1], 5),
        ([2, 1], 6),
        ([1, 2], 7),
        ([2, 2], 8),
    ];
    let square = bordered(2, 0);
    for (marks, n) in order {
        by_hand(square, Call::Number(lists(&marks, &[0, 0], &[1, 1])), number(n as i64));
        let point = Written { point: Some(eights(&marks, &[0, 0], &[1, 1])), ..Written::default() };
        by_hand(square, Call::Point(n), Ok(point));
        let next = order.get(n as usize + 1).map(|(marks, _)| eights(marks, &[0, 0], &[1, 1]));
        let numbers = vec![i64::from(next.is_none())];
        let successor = Written { numbers, point: next, ..Written::default() };
        by_hand(square, Call::Successor(lists(&marks, &[0, 0], &[1, 1])), Ok(successor));
    }
    // rates 1 to 9 there, in the order of the numbers, and four times each: an edge loses half of its two corners, the middle
    // half of the edges on each axis, less a quarter of the corners that both take
    let coefficients =
        [4 - 2 * (2 + 3) - 2 * (4 + 5) + (6 + 7 + 8 + 9), 8 - 28, 12 - 32, 16 - 26, 20 - 34, 24, 28, 32, 36];
    by_hand(square, Call::ToCoefficients((1..=9).collect()), table(&coefficients));
    by_hand(square, Call::ToRates(coefficients.to_vec()), table(&(1..=9).collect::<Vec<i64>>()));
    let at = |x, y| Call::Estimate { bits: 3, table: coefficients.to_vec(), coordinates: vec![x, y] };
    for (x, y, rate) in
        [(0, 0, 6), (1, 0, 4), (2, 0, 7), (0, 1, 2), (1, 1, 1), (2, 1, 3), (0, 2, 8), (1, 2, 5), (2, 2, 9)]
    {
        by_hand(square, at(x * 524_288, y * 524_288), number(4 * rate));
    }

    // two axes, top level 1: five inner points, three on each of four edges, four corners
    let square = bordered(2, 1);
    for (marks, levels, indices, n) in [
        ([0, 0], [0, 0], [1, 1], 0),
        ([0, 0], [1, 0], [1, 1], 1),
        ([0, 0], [0, 1], [1, 3], 4),
        ([1, 0], [0, 0], [1, 1], 5),
        ([1, 0], [0, 1], [1, 3], 7),
        ([2, 0], [0, 0], [1, 1], 8),
        ([0, 1], [0, 0], [1, 1], 11),
        ([0, 1], [1, 0], [3, 1], 13),
        ([0, 2], [1, 0], [1, 1], 15),
        ([1, 1], [0, 0], [1, 1], 17),
        ([2, 1], [0, 0], [1, 1], 18),
        ([1, 2], [0, 0], [1, 1], 19),
        ([2, 2], [0, 0], [1, 1], 20),
    ] {
        by_hand(square, Call::Number(lists(&marks, &levels, &indices)), number(n));
        let point = Written { point: Some(eights(&marks, &levels, &indices)), ..Written::default() };
        by_hand(square, Call::Point(n as u64), Ok(point));
    }
    // beside a point: the border of the axis, a parent, and nothing for a border point of the axis
    let beside = |marks: [u32; 2], levels: [u32; 2], indices: [u32; 2], axis, side| Call::Parent {
        of: lists(&marks, &levels, &indices),
        axis,
        side,
    };
    for (call, point) in [
        (beside([0, 0], [1, 0], [1, 1], 1, 0), Some(eights(&[1, 0], &[0, 0], &[1, 1]))),
        (beside([0, 0], [1, 0], [1, 1], 1, 1), Some(eights(&[0, 0], &[0, 0], &[1, 1]))),
        (beside([0, 0], [1, 0], [1, 1], 2, 0), Some(eights(&[0, 1], &[1, 0], &[1, 1]))),
        (beside([0, 0], [1, 0], [3, 1], 1, 9), Some(eights(&[2, 0], &[0, 0], &[1, 1]))),
        (beside([0, 1], [0, 0], [1, 1], 1, 0), Some(eights(&[1, 1], &[0, 0], &[1, 1]))),
        (beside([0, 1], [0, 0], [1, 1], 1, 1), Some(eights(&[2, 1], &[0, 0], &[1, 1]))),
        (beside([0, 1], [0, 0], [1, 1], 2, 0), None),
        (beside([0, 1], [0, 0], [1, 1], 2, 1), None),
        (beside([2, 1], [0, 0], [1, 1], 1, 1), None),
    ] {
        let numbers = vec![i64::from(point.is_none())];
        by_hand(square, call, Ok(Written { numbers, point, ..Written::default() }));
    }
}

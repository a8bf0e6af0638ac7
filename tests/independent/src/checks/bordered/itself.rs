//! The separate code against itself: second ways to what it answers, and tables without border values by the other code.

use super::{said, Desk};
use crate::checks::short;
use crate::model::bordered::calls::{Answer, Call, Written};
use crate::model::bordered::estimates::Seen;
use crate::model::bordered::grid::{grid, on_border};
use crate::model::bordered::readings::RIGHT;
use crate::model::bordered::{Eights, Lists, Shape};
use crate::model::grid::{level_and_index, At};
use crate::model::margin::Estimated;
use crate::model::{self, Refused};
use crate::report::Report;

const CALL: &str = "separate code with itself";

/// What one call answers, by other means where there are some.
pub fn looked_at(report: &mut Report, shape: Shape, call: &Call, want: &Answer) {
    let say = || said(shape, call);
    if !shape.flagged() {
        if let Some(other) = without_border(shape, call) {
            report.same(CALL, "without border values", &other, want, &say);
        }
    }
    let Ok(written) = want else { return };
    let mut same = |what: &str, is: bool| report.same(CALL, what, &true, &is, &say);
    match call {
        Call::Point(n) => {
            let lists = written.point.expect("a point").lists(shape.axes);
            same("number of the point of a number", Call::Number(lists).answer(shape) == number(*n));
        }
        Call::Number(lists) => {
            let point = Call::Point(written.numbers[0] as u64).answer(shape).ok().and_then(|w| w.point);
            same("point of the number of a point", point.is_some_and(|p| p.lists(shape.axes) == *lists));
        }
        Call::ToCoefficients(rates) if rates.len() <= 700 => {
            same("coefficients by a stencil", written.table == Some(by_stencil(shape, rates)));
        }
        Call::ToRates(table) if table.len() <= 60 => {
            same("rates by the surface at the points", written.table == surface_at_points(shape, table));
        }
        Call::Margin { table, coordinates, .. } => {
            let reached = Seen::new(shape, coordinates, &RIGHT).reached(table);
            let [estimate, absolute_sum, margin] = written.numbers[..] else { unreachable!("three numbers") };
            let answer = Estimated { estimate, absolute_sum: absolute_sum as u64, margin: margin as u64 };
            let exact = reached.exact();
            same("the exact value within the margin", exact.within_margin(&answer));
            same("within the bound", exact.within_bound(shape.axes, &answer));
        }
        _ => (),
    }
}

fn number(n: u64) -> Answer {
    Ok(Written { numbers: vec![n as i64], ..Written::default() })
}

/// The answer of the code that knows of no border values; none to lists with marks, of which it has none.
fn without_border(shape: Shape, call: &Call) -> Option<Answer> {
    let (axes, level) = (shape.axes, shape.level);
    let unmarked = |lists: &Lists| lists.marks.iter().all(|&m| m == 0) && lists.marks.len() == lists.levels.len();
    let point = |(levels, indices): model::points::Lists| Eights { marks: [0; 8], levels, indices };
    let one = |n: Result<i64, Refused>| n.map(|n| Written { numbers: vec![n], ..Written::default() });
    let or_none = |found: Result<Option<model::points::Lists>, Refused>| {
        found.map(|p| Written { numbers: vec![i64::from(p.is_none())], point: p.map(point), ..Written::default() })
    };
    let whole = |t: Result<Vec<i64>, Refused>| t.map(|t| Written { table: Some(t), ..Written::default() });
    let with_bits = |t: Result<(Vec<i64>, u8), Refused>| {
        t.map(|(t, bits)| Written { table: Some(t), bits: Some(bits), ..Written::default() })
    };
    Some(match call {
        Call::Count => one(model::points::points(axes, level).map(|n| n as i64)),
        Call::Number(of) if unmarked(of) => {
            one(model::points::number_of(axes, level, &of.levels, &of.indices).map(|n| n as i64))
        }
        Call::Point(n) => {
            model::points::point_of(axes, level, *n).map(|p| Written { point: Some(point(p)), ..Written::default() })
        }
        Call::Successor(of) if unmarked(of) => or_none(model::points::successor(axes, level, &of.levels, &of.indices)),
        Call::Parent { of, axis, side } if unmarked(of) => {
            or_none(model::points::parent(axes, level, &of.levels, &of.indices, *axis, *side != 0))
        }
        Call::Load(rates) => with_bits(model::rates::load(axes, level, rates)),
        Call::Adopt(table) => {
            model::rates::adopt(axes, level, table).map(|bits| Written { bits: Some(bits), ..Written::default() })
        }
        Call::Turn { back, bits, table, axis } => {
            with_bits(model::turns::turn(*back, axes, level, *bits, table, *axis))
        }
        Call::Unload { bits, table } => whole(model::rates::unload(axes, level, *bits, table)),
        Call::ToCoefficients(rates) => whole(model::rates::rates_to_coefficients(axes, level, rates)),
        Call::ToRates(table) => whole(model::rates::coefficients_to_rates(axes, level, table)),
        Call::Run { bits, table, directions, axes: turned, numbers, places } => {
            model::runs::run(axes, level, *bits, table, directions, turned, numbers.len(), places.len()).map(|run| {
                let answers = Some((run.numbers, run.places));
                Written { table: Some(run.table), bits: Some(run.bits), answers, ..Written::default() }
            })
        }
        Call::Estimate { bits, table, coordinates } => {
            one(model::estimates::estimate(axes, level, *bits, table, coordinates))
        }
        Call::Margin { bits, table, coordinates } => {
            model::margin::estimate_with_margin(axes, level, *bits, table, coordinates).map(|found| {
                let numbers = vec![found.estimate, found.absolute_sum as i64, found.margin as i64];
                Written { numbers, ..Written::default() }
            })
        }
        _ => return None,
    })
}

/// Each coefficient as the sum over the points that stand at or beside it on each axis, of weight 2 at it and −1 beside it;
/// on an axis of whose border it is, of weight 2 alone.
fn by_stencil(shape: Shape, rates: &[i64]) -> Vec<i64> {
    let grid = grid(shape, &RIGHT);
    let rate = |at: &At| grid.number.get(at).map_or(0, |&p| i128::from(rates[p]));
    grid.order.iter().map(|&at| stencil(&rate, shape.axes as usize, 0, at) as i64).collect()
}

fn stencil(rate: &dyn Fn(&At) -> i128, axes: usize, t: usize, at: At) -> i128 {
    if t == axes {
        return rate(&at);
    }
    let mut sum = 2 * stencil(rate, axes, t + 1, at);
    if !on_border(at[t]) {
        let step = 512 / 2u16.pow(level_and_index(at[t]).0 + 1);
        for c in [at[t] - step, at[t] + step] {
            let mut beside = at;
            beside[t] = c;
            sum -= stencil(rate, axes, t + 1, beside);
        }
    }
    sum
}

/// The value of the surface at every point, over 2^d: the sum over all points of coefficient times the product of hat
/// functions, those of a border one at it and falling in a straight line to the other.
fn surface_at_points(shape: Shape, table: &[i64]) -> Option<Vec<i64>> {
    let grid = grid(shape, &RIGHT);
    let hat = |x: u16, c: u16| {
        let (l, i) = match c {
            0 => return 512 - i128::from(x),
            512 => return i128::from(x),
            _ => level_and_index(c),
        };
        let apart = (i128::from(x) * 2i128.pow(l + 1) - i128::from(i) * 512).abs();
        (512 - apart).max(0)
    };
    let (axes, whole) = (shape.axes as usize, 1024i128.pow(shape.axes));
    let value = |x: &At| {
        let of = |(at, &c): (&At, &i64)| i128::from(c) * (0..axes).map(|t| hat(x[t], at[t])).product::<i128>();
        let sum: i128 = grid.order.iter().zip(table).map(of).sum();
        (sum % whole == 0).then_some(sum / whole).and_then(|v| i64::try_from(v).ok())
    };
    grid.order.iter().map(value).collect()
}

/// The points that were found against a sum over faces, and the axes of whole turns in the other order.
pub fn itself(desk: &mut Desk) {
    for axes in 1..=4 {
        for level in 0..=8 {
            let choose = |k: u32| (0..k).fold(1, |c, i| c * (axes - i) / (i + 1));
            let of_inner = |k: u32| if k == axes { 1 } else { model::grid::count(axes - k, level) as usize };
            let sum: usize = (0..=axes).map(|k| (choose(k) * 2u32.pow(k)) as usize * of_inner(k)).sum();
            let found = Shape::new(axes, level, 1).count();
            desk.report.same(CALL, "points found and a sum over faces", &sum, &found, &|| format!("{axes} {level}"));
        }
    }
    for (axes, level) in super::walks::shapes(1_200) {
        let shape = Shape::new(axes, level, desk.draw.of(&[1, 2, 255]));
        let grid = grid(shape, &RIGHT);
        let rates = crate::inputs::rates(&mut desk.draw, shape.count());
        let loaded = model::bordered::turns::loaded(shape, &grid, &rates, &RIGHT);
        let turned = |mut axes: Box<dyn Iterator<Item = u32>>| {
            axes.try_fold(loaded.clone(), |v, t| model::bordered::turns::forward_of(&grid, &v, t as usize - 1))
        };
        let (up, down) = (turned(Box::new(1..=axes)), turned(Box::new((1..=axes).rev())));
        let say = || format!("{shape:?} rates {}", short(&rates));
        desk.report.same(CALL, "axes in the other order", &true, &(up.is_some() && up == down), &say);
    }
}

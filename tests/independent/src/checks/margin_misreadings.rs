//! Wrong readings of the rule of a margin, and how many calls would show a library that follows one.

use crate::model::estimates::{OLD_UNIT, UNIT};
use crate::model::grid::grid;
use crate::model::margin::Estimated;
use crate::report::Report;

/// What a point adds to S, by its coefficient and what is left on each axis: its weight there, or where that is zero,
/// zero or less. S is the size of the sum.
type Adds = fn(coefficient: i128, left: &[i64]) -> i128;

const RIGHT: Adds = |c, left| size_where(reached(left), c);

const SUMS: [(&str, Adds); 14] = [
    ("S over points of joint weight above zero", |c, left| size_where(joint(left) > 0, c)),
    ("S over points of joint weight above zero on the first two axes", |c, left| {
        size_where(reached(left) && joint(&left[..left.len().min(2)]) > 0, c)
    }),
    ("S over points of joint weight above zero before axis d", |c, left| {
        size_where(reached(left) && joint(&left[..left.len() - 1]) > 0, c)
    }),
    ("S over all points", |c, _| size_where(true, c)),
    ("S over points with a weight above zero on some axis", |c, left| size_where(left.iter().any(|&w| w > 0), c)),
    ("S over points with a weight above zero on axis 1", |c, left| size_where(left[0] > 0, c)),
    ("S over points with a weight above zero on axis d", |c, left| size_where(left[left.len() - 1] > 0, c)),
    ("S over points with a weight above zero before axis d", |c, left| size_where(reached(&left[..left.len() - 1]), c)),
    ("S over points with a weight above zero after axis 1", |c, left| size_where(reached(&left[1..]), c)),
    ("S over points whose weight just ends there as well", |c, left| size_where(left.iter().all(|&w| w >= 0), c)),
    ("S over points that lose something in a joint weight", |c, left| size_where(reached(left) && loses(left), c)),
    ("S with signs, and its size", |c, left| if reached(left) { c } else { 0 }),
    ("S of coefficients above zero", |c, left| size_where(c > 0 && reached(left), c)),
    ("S of coefficients times their joint weights", |c, left| c.abs() * i128::from(joint(left)) / UNIT),
];

/// The margin, by d and S. To the nearest, halves down, is without the half; to the nearest, halves up, is 1 more than
/// the rest rounded down.
type Margin = fn(axes: i128, absolute_sum: i128) -> i128;

const MARGIN: Margin = |d, s| up(UNIT + 2 * (d - 1) * s);

const MARGINS: [(&str, Margin); 14] = [
    ("d for d − 1", |d, s| up(UNIT + 2 * d * s)),
    ("d − 2 for d − 1", |d, s| up(UNIT + 2 * (d - 2).max(0) * s)),
    ("1 for d − 1", |_, s| up(UNIT + 2 * s)),
    ("rounded down", |d, s| (UNIT + 2 * (d - 1) * s) / TWO_UNITS),
    ("to the nearest, halves up", |d, s| (UNIT + 2 * (d - 1) * s + UNIT) / TWO_UNITS),
    ("without the half", |d, s| up(2 * (d - 1) * s)),
    ("1 for the half", |d, s| up(TWO_UNITS + 2 * (d - 1) * s)),
    ("half of the rest as well", |d, s| up(UNIT + (d - 1) * s)),
    ("0 where S is 0", |d, s| if s == 0 { 0 } else { MARGIN(d, s) }),
    ("0 on one axis", |d, s| if d == 1 { 0 } else { MARGIN(d, s) }),
    ("one more where it is whole", |d, s| (UNIT + 2 * (d - 1) * s) / TWO_UNITS + 1),
    ("S / 1,048,576 rounded down first", |d, s| up(UNIT + TWO_UNITS * (d - 1) * (s / UNIT))),
    ("S / 1,048,576 rounded up first", |d, s| up(UNIT + TWO_UNITS * (d - 1) * ((s + UNIT - 1) / UNIT))),
    ("S / 65,536", |d, s| up(UNIT + TWO_UNITS / OLD_UNIT * (d - 1) * s)),
];

const TWO_UNITS: i128 = 2 * UNIT;
const SHORT_UNIT: i64 = UNIT as i64;

/// So many 2,097,152nds, rounded up.
fn up(of_two_units: i128) -> i128 {
    (of_two_units + TWO_UNITS - 1) / TWO_UNITS
}

fn size_where(counted: bool, coefficient: i128) -> i128 {
    if counted {
        coefficient.abs()
    } else {
        0
    }
}

/// Whether each weight is above zero.
fn reached(left: &[i64]) -> bool {
    left.iter().all(|&w| w > 0)
}

/// The joint weight on these axes; on none it is the unit.
fn joint(left: &[i64]) -> i64 {
    left.iter().fold(SHORT_UNIT, |joint, &w| joint * w.max(0) / SHORT_UNIT)
}

/// Whether a division on the way to the joint weight leaves something.
fn loses(left: &[i64]) -> bool {
    (1..left.len()).any(|t| joint(&left[..t]) * left[t] % SHORT_UNIT != 0)
}

pub fn names() -> impl Iterator<Item = &'static str> {
    SUMS.iter().map(|reading| reading.0).chain(MARGINS.iter().map(|reading| reading.0))
}

/// A call with this answer: the wrong readings that give another S or another margin. Tables of more than 7,000 points
/// show none that others do not.
pub fn of_call(report: &mut Report, axes: u32, level: u32, table: &[i64], coordinates: &[u32], answer: &Estimated) {
    if table.len() > 7_000 {
        return;
    }
    let (mut right, mut sums) = (0, [0; SUMS.len()]);
    for ((levels, indices), &c) in grid(axes, level).lists.iter().zip(table) {
        let mut left = [0; 8];
        for t in 0..axes as usize {
            let apart = (i64::from(coordinates[t]) << (levels[t] + 1)) - i64::from(indices[t]) * SHORT_UNIT;
            left[t] = SHORT_UNIT - apart.abs();
        }
        let left = &left[..axes as usize];
        right += RIGHT(c.into(), left);
        for (sum, (_, adds)) in sums.iter_mut().zip(&SUMS) {
            *sum += adds(c.into(), left);
        }
    }
    let (d, s) = (i128::from(axes), i128::from(answer.absolute_sum));
    let say = || format!("axes {axes} level {level} coordinates {coordinates:?} table {}", super::short(table));
    let mut same = |what, one, other| report.same("separate code with itself", what, &one, &other, &say);
    same("S", s, right);
    same("margin by rounding up", i128::from(answer.margin), MARGIN(d, s));
    for ((name, _), sum) in SUMS.iter().zip(sums) {
        if sum.abs() != s {
            report.shown(name);
        }
    }
    for (name, margin) in MARGINS {
        if margin(d, s) != i128::from(answer.margin) {
            report.shown(name);
        }
    }
}

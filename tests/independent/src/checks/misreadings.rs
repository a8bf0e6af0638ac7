//! Wrong readings of the rule of an estimate, and how many calls would show a library that follows one.

use super::short;
use crate::model::estimates::{AxisWeights, OLD_UNIT, UNIT};
use crate::model::grid::{grid, At};
use crate::model::Refused;
use crate::report::Report;

const HALF: i128 = UNIT / 2;

/// Whether the last division goes to the whole number further from zero, of the two about it: by whether the
/// sum is negative, the whole units in its size, and what is left of its size.
type Further = fn(negative: bool, whole: i128, left: i128) -> bool;

const RIGHT: Further = |_, _, left| left >= HALF;

/// The last division read wrongly.
const DIVISIONS: [(&str, Further); 11] = [
    ("down, as in document 01", |negative, _, left| negative && left > 0),
    ("up", |negative, _, left| !negative && left > 0),
    ("toward zero", |_, _, _| false),
    ("away from zero", |_, _, left| left > 0),
    ("halves up", |negative, _, left| left > HALF || left == HALF && !negative),
    ("halves down", |negative, _, left| left > HALF || left == HALF && negative),
    ("halves toward zero", |_, _, left| left > HALF),
    ("halves to even", |_, whole, left| left > HALF || left == HALF && whole % 2 == 1),
    ("halves to odd", |_, whole, left| left > HALF || left == HALF && whole % 2 == 0),
    ("one 1,048,576th below a half taken for one", |_, _, left| left >= HALF - 1),
    ("a half still 32,768", |_, _, left| left >= OLD_UNIT / 2),
];

/// What is read as the weight of a point on an axis.
#[derive(Clone, Copy)]
enum Weight {
    Right,
    /// Rounded down to 65,536ths, and those times 16.
    Rounded,
    /// That of the coordinate rounded down to 65,536ths, and those times 16.
    OfRounded,
    /// That of the coordinate rounded down to 65,536ths, in these.
    Old,
}

/// The rule but for the rounding of the last division, of which each number may be read wrongly.
#[derive(Clone, Copy)]
struct Rule {
    weight: Weight,
    start: i128,
    /// The product of the joint weight and the weight on an axis, divided.
    divided: fn(product: i128, on_first_axis: bool, on_last_axis: bool) -> i128,
    /// What the sum is divided by.
    last: i128,
}

const RULE: Rule = Rule { weight: Weight::Right, start: UNIT, divided: |product, _, _| product / UNIT, last: UNIT };

const BEFORE_E: Rule =
    Rule { weight: Weight::Old, start: OLD_UNIT, divided: |product, _, _| product / OLD_UNIT, last: OLD_UNIT };

const RULES: [(&str, Rule); 9] = [
    ("joint weights to the nearest too", Rule { divided: |product, _, _| nearest(product, UNIT), ..RULE }),
    ("joint weights start at 65,536", Rule { start: OLD_UNIT, ..RULE }),
    (
        "joint weights divided by 65,536 on axis 1",
        Rule { divided: |product, on_first, _| product / if on_first { OLD_UNIT } else { UNIT }, ..RULE },
    ),
    (
        "joint weights divided by 65,536 on axis d",
        Rule { divided: |product, _, on_last| product / if on_last { OLD_UNIT } else { UNIT }, ..RULE },
    ),
    ("last division by 65,536", Rule { last: OLD_UNIT, ..RULE }),
    ("joint weights and last division in 65,536ths", Rule { start: OLD_UNIT, last: OLD_UNIT, ..RULE }),
    ("axis weights rounded down to 65,536ths", Rule { weight: Weight::Rounded, ..RULE }),
    ("axis weights of X rounded down to 65,536ths", Rule { weight: Weight::OfRounded, ..RULE }),
    ("as before e, X rounded down to 65,536ths", BEFORE_E),
];

/// As before e where no coordinate is rounded: on one axis the estimate is the same.
const BEFORE_E_ON_MORE_AXES: &str = "as before e, two axes or more, all X / 16 whole";

/// The largest coordinate that is not refused read wrongly.
const ENDS: [(&str, i128); 3] = [
    ("1,048,576 refused with 8", UNIT - 1),
    ("1,048,577 not refused with 8", UNIT + 1),
    ("65,537 still refused with 8", OLD_UNIT),
];

pub fn names() -> impl Iterator<Item = &'static str> {
    let divisions = DIVISIONS.iter().map(|division| division.0);
    let ends = ENDS.iter().map(|end| end.0);
    divisions.chain(RULES.iter().map(|rule| rule.0)).chain([BEFORE_E_ON_MORE_AXES]).chain(ends)
}

/// A call with this answer: the wrong readings that give another.
pub fn of_call(
    report: &mut Report,
    axes: u32,
    level: u32,
    table: &[i64],
    coordinates: &[u32],
    answer: &Result<i64, Refused>,
) {
    match *answer {
        Ok(estimate) => {
            of_coordinates(report, coordinates);
            of_estimate(report, axes, level, table, coordinates, estimate.into());
        }
        // these come when the coordinates are looked at, or later
        Err((8 | 10, _)) => of_coordinates(report, coordinates),
        Err(_) => (),
    }
}

/// A call that looks at the coordinates: refusal 8 names the first above the end.
fn of_coordinates(report: &mut Report, coordinates: &[u32]) {
    let first_above = |end| coordinates.iter().position(|&x| i128::from(x) > end);
    for (name, end) in ENDS {
        if first_above(end) != first_above(UNIT) {
            report.shown(name);
        }
    }
}

fn of_estimate(report: &mut Report, axes: u32, level: u32, table: &[i64], coordinates: &[u32], estimate: i128) {
    let spot = Spot::new(axes, level, table, coordinates);
    let total = spot.sum(&RULE);
    for (name, further) in DIVISIONS {
        if by_size_and_sign(total, further) != estimate {
            report.shown(name);
        }
    }
    for (name, rule) in &RULES {
        if spot.estimate(rule) != estimate {
            report.shown(name);
        }
    }
    let say = || format!("axes {axes} level {level} coordinates {coordinates:?} table {}", short(table));
    let mut same = |what, other| report.same("separate code with itself", what, &estimate, &other, &say);
    same("by size and sign", by_size_and_sign(total, RIGHT));
    same("by half a unit more", nearest(total, UNIT));
    if coordinates.iter().all(|x| x % 16 == 0) {
        let before = spot.estimate(&BEFORE_E);
        if axes == 1 {
            same("as before e", before);
        } else if before != estimate {
            report.shown(BEFORE_E_ON_MORE_AXES);
        }
    }
}

fn by_size_and_sign(sum: i128, further: Further) -> i128 {
    let (whole, left) = (sum.abs() / UNIT, sum.abs() % UNIT);
    sum.signum() * (whole + i128::from(further(sum < 0, whole, left)))
}

/// To the nearest, halves away from zero.
fn nearest(sum: i128, by: i128) -> i128 {
    sum.signum() * ((sum.abs() + by / 2) / by)
}

/// What an estimate is found from.
struct Spot {
    axes: usize,
    /// The points that weigh something on every axis, with their coefficients. By no reading does another count.
    seen: Vec<(At, i128)>,
    /// Axis weights as [`Weight`] has them.
    weights: [AxisWeights; 4],
}

impl Spot {
    fn new(axes: u32, level: u32, table: &[i64], coordinates: &[u32]) -> Spot {
        let sixteenths: Vec<u32> = coordinates.iter().map(|x| x / 16).collect();
        let right = AxisWeights::new(UNIT, level, coordinates);
        let old = AxisWeights::new(OLD_UNIT, level, &sixteenths);
        let all = grid(axes, level);
        let axes = axes as usize;
        let with_coefficients = all.order.iter().zip(table).map(|(&at, &c)| (at, i128::from(c)));
        let seen = with_coefficients.filter(|(at, _)| (0..axes).all(|t| right.of(at, t) > 0)).collect();
        let (rounded, of_rounded) = (right.each(|w| w / 16 * 16), old.each(|w| w * 16));
        Spot { axes, seen, weights: [right, rounded, of_rounded, old] }
    }

    fn sum(&self, rule: &Rule) -> i128 {
        let weights = &self.weights[rule.weight as usize];
        let times_weight =
            |at: &At, joint: i128, t: usize| (rule.divided)(joint * weights.of(at, t), t == 0, t == self.axes - 1);
        let joint = |at: &At| (0..self.axes).fold(rule.start, |joint, t| times_weight(at, joint, t));
        self.seen.iter().map(|(at, coefficient)| coefficient * joint(at)).sum()
    }

    fn estimate(&self, rule: &Rule) -> i128 {
        nearest(self.sum(rule), rule.last)
    }
}

//! Estimates of tables of either sort, with S and the margin: sums over all points.

use super::grid::{grid, on_border, term, Grid, LOWER};
use super::readings::{Counted, Reading, Weight};
use super::Shape;
use crate::model::estimates::{nearest, UNIT};
use crate::model::grid::At;
use crate::model::margin::Reached;
use std::sync::Arc;

/// The points of a shape as one coordinate list sees them.
pub struct Seen {
    shape: Shape,
    grid: Arc<Grid>,
    reading: Reading,
    /// For each axis the weight of every multiple of a step, in 512ths, by the multiple; the points are at such multiples.
    weights: Vec<Vec<i64>>,
    step: u16,
}

impl Seen {
    pub fn new(shape: Shape, coordinates: &[u32], reading: &Reading) -> Seen {
        let step = 512 / 2u16.pow(shape.level + 1);
        let of_axis = |&x: &u32| (0..=512).step_by(step.into()).map(|c| weight(x, c, reading.weight)).collect();
        let weights = coordinates.iter().map(of_axis).collect();
        Seen { shape, grid: grid(shape, reading), reading: *reading, weights, step }
    }

    /// The weight of a point on axis t, from 0.
    fn of(&self, at: &At, t: usize) -> i64 {
        self.weights[t][usize::from(at[t] / self.step)]
    }

    fn axes(&self) -> std::ops::Range<usize> {
        0..self.shape.axes as usize
    }

    /// The joint weight: for axes 1 to d in turn multiplied and rounded down. All numbers are at most 2^40.
    fn joint(&self, at: &At) -> i64 {
        let times = |joint, t| joint * self.of(at, t) / UNIT as i64;
        let border = |t: &usize| on_border(at[*t]);
        let (inner, borders) = (self.axes().filter(|t| !border(t)), self.axes().filter(border));
        match self.reading.weight {
            Weight::BordersFirst => borders.chain(inner).fold(UNIT as i64, times),
            Weight::BordersLast => inner.chain(borders).fold(UNIT as i64, times),
            _ => self.axes().fold(UNIT as i64, times),
        }
    }

    pub fn estimate(&self, table: &[i64]) -> i64 {
        let joint = |at| i128::from(self.joint(at));
        let sum = self.grid.order.iter().zip(table).map(|(at, &c)| i128::from(c) * joint(at)).sum();
        i64::try_from(nearest(UNIT, sum)).expect("an estimate fits 64 bits")
    }

    /// The points that S counts, each with its weights.
    pub fn reached(&self, table: &[i64]) -> Reached {
        let counts = |at: &At| {
            let by_weight = |t| !(self.reading.counted == Counted::ByInnerAxes && on_border(at[t]));
            let all_inner = !self.axes().any(|t| on_border(at[t]));
            self.axes().all(|t| !by_weight(t) || self.of(at, t) > 0)
                && (all_inner || self.reading.counted != Counted::InnerPoints)
        };
        let with_weights = |(at, &c): (&At, &i64)| {
            let mut all = [0; 8];
            self.axes().for_each(|t| all[t] = self.of(at, t) as u32);
            (c, all)
        };
        let counted = self.grid.order.iter().zip(table).filter(|(at, _)| counts(at));
        Reached::of_points(self.shape.axes, counted.map(with_weights).collect())
    }
}

/// Of an inner point unit − |X × 2^(l+1) − i × unit|, or 0 where that is negative; of the lower border unit − X, of the
/// upper X.
fn weight(x: u32, coordinate: u16, reading: Weight) -> i64 {
    let (x, unit) = (i64::from(x), UNIT as i64);
    if on_border(coordinate) {
        return match reading {
            Weight::Exchanged if coordinate == LOWER => x,
            Weight::Exchanged => unit - x,
            Weight::Right | Weight::BordersFirst | Weight::BordersLast if coordinate == LOWER => unit - x,
            Weight::Right | Weight::BordersFirst | Weight::BordersLast => x,
            Weight::AsInner => unit - (2 * x - unit).abs(),
            Weight::Whole => unit,
            Weight::Nothing => 0,
        };
    }
    let (l, i) = term(coordinate);
    let apart = (x * 2i64.pow(l + 1) - i64::from(i) * unit).abs();
    (unit - apart).max(0)
}

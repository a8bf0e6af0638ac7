//! Estimates: the sum over all points, to the nearest unit.

use super::grid::{grid, level_and_index, At};
use super::{is_forward, places, state, within, Refused};
use std::cmp::Reverse;

/// What a coordinate runs to, and what an axis weight and a joint weight count in: change request e.
pub const UNIT: i128 = 1_048_576;

/// The same before change request e.
pub const OLD_UNIT: i128 = 65_536;

pub fn estimate(axes: u32, level: u32, bits: u8, table: &[i64], coordinates: &[u32]) -> Result<i64, Refused> {
    estimate_in(UNIT, axes, level, bits, table, coordinates)
}

/// The estimate with coordinates and weights in this unit.
pub fn estimate_in(
    unit: i128,
    axes: u32,
    level: u32,
    bits: u8,
    table: &[i64],
    coordinates: &[u32],
) -> Result<i64, Refused> {
    state(axes, level, bits)?;
    places(axes, level, table.len())?;
    for t in 1..=axes {
        if !is_forward(bits, t) {
            return Err((17, u64::from(t)));
        }
    }
    if coordinates.len() != axes as usize {
        return Err((7, 0));
    }
    for (t, &x) in coordinates.iter().enumerate() {
        if i128::from(x) > unit {
            return Err((8, t as u64 + 1));
        }
    }
    if !table.iter().all(|&v| within(i128::from(v))) {
        return Err((10, 0));
    }
    let sum = sum(table, &joint_weights(unit, axes, level, coordinates));
    Ok(i64::try_from(nearest(unit, sum)).expect("an estimate fits 64 bits"))
}

/// The sum over all points of coefficient × joint weight.
pub fn sum(table: &[i64], joint_weights: &[i128]) -> i128 {
    table.iter().zip(joint_weights).map(|(&c, joint)| i128::from(c) * joint).sum()
}

/// The whole number nearest to sum / unit, and of two as near the one further from zero: found among three by
/// their distances.
pub fn nearest(unit: i128, sum: i128) -> i128 {
    let about = sum / unit;
    (about - 1..=about + 1)
        .min_by_key(|whole| ((whole * unit - sum).abs(), Reverse(whole.abs())))
        .expect("three numbers")
}

/// The joint weights of all points.
pub fn joint_weights(unit: i128, axes: u32, level: u32, coordinates: &[u32]) -> Vec<i128> {
    let weights = AxisWeights::new(unit, level, coordinates);
    let joint = |at: &At| (0..axes as usize).fold(unit, |joint, t| (joint * weights.of(at, t)).div_euclid(unit));
    grid(axes, level).order.iter().map(joint).collect()
}

/// For each axis the weight of every multiple of a step, by the multiple: it is looked up and not found again for each
/// point. The points of the level are at such multiples.
pub struct AxisWeights {
    step: u16,
    all: Vec<Vec<i128>>,
}

impl AxisWeights {
    pub fn new(unit: i128, level: u32, coordinates: &[u32]) -> AxisWeights {
        let step = 512 / 2u16.pow(level + 1);
        let of_axis = |&x: &u32| (0..512).step_by(step.into()).map(|c| weight(unit, x, c)).collect();
        AxisWeights { step, all: coordinates.iter().map(of_axis).collect() }
    }

    /// The weight of a point on axis t, from 0.
    pub fn of(&self, at: &At, t: usize) -> i128 {
        self.all[t][usize::from(at[t] / self.step)]
    }

    /// Each weight changed.
    pub fn each(&self, change: impl Fn(i128) -> i128) -> AxisWeights {
        let of_axis = |weights: &Vec<i128>| weights.iter().map(|&w| change(w)).collect();
        AxisWeights { step: self.step, all: self.all.iter().map(of_axis).collect() }
    }
}

/// Unit − |X × 2^(l+1) − i × unit|, or 0 where that is negative.
fn weight(unit: i128, x: u32, coordinate: u16) -> i128 {
    if coordinate == 0 {
        return 0;
    }
    let (l, i) = level_and_index(coordinate);
    let apart = (i128::from(x) * 2i128.pow(l + 1) - i128::from(i) * unit).abs();
    (unit - apart).max(0)
}

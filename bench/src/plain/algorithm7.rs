//! Estimates by algorithm 7 of document 001 with document 01's integers: one point for each level vector.

use super::grid::{first, next, Levels};
use super::{BITS, UNIT};

/// Which point of a level can have a weight at x, as (index − 1)/2, and its weight.
pub(super) fn hat(x: u64, level: u32) -> (u64, u64) {
    let place = if x < UNIT { (x << level) >> BITS } else { 0 };
    let apart = (x << (level + 1)).abs_diff((2 * place + 1) << BITS);
    (place, UNIT.saturating_sub(apart))
}

/// The sum over the level vectors, `hats` giving place and weight of an axis and a level; and where it is asked for, the sum
/// of the absolute coefficients of points with a weight above zero on each axis.
fn summed<const REACHED: bool>(
    axes: usize,
    level: u32,
    table: &[i64],
    hats: impl Fn(usize, u32) -> (u64, u64),
) -> (i64, u64) {
    let mut total: i128 = 0;
    let mut reached: u64 = 0;
    let mut start = 0;
    for sum in 0..=level {
        let mut levels: Levels = first(sum);
        loop {
            let (mut joint, mut position, mut shift, mut above) = (UNIT, 0, 0, REACHED);
            for (t, &l) in levels[..axes].iter().enumerate() {
                let (place, weight) = hats(t, l);
                joint = (joint * weight) >> BITS;
                position += place << shift;
                shift += l;
                above &= weight > 0;
            }
            let value = table[start + position as usize];
            total += i128::from(value) * i128::from(joint);
            if above {
                reached += value.unsigned_abs();
            }
            start += 1 << sum;
            if !next(axes, &mut levels) {
                break;
            }
        }
    }
    (nearest(total), reached)
}

/// The last division, by the unit, to the nearest: halves away from zero.
pub fn nearest(total: i128) -> i64 {
    let size = ((total.unsigned_abs() + u128::from(UNIT / 2)) >> BITS) as i64;
    if total < 0 {
        -size
    } else {
        size
    }
}

/// Literally: each weight where it is needed.
pub fn estimate(axes: usize, level: u32, table: &[i64], coordinates: &[u32]) -> i64 {
    summed::<false>(axes, level, table, |t, l| hat(u64::from(coordinates[t]), l)).0
}

/// Each axis's weights once.
pub fn estimate_tabulated(axes: usize, level: u32, table: &[i64], coordinates: &[u32]) -> i64 {
    let hats = tabulated(coordinates);
    summed::<false>(axes, level, table, |t, l| hats[t & 7][l.min(8) as usize]).0
}

fn tabulated(coordinates: &[u32]) -> [[(u64, u64); 9]; 8] {
    let mut hats = [[(0, 0); 9]; 8];
    for (row, &x) in hats.iter_mut().zip(coordinates) {
        for (l, h) in row.iter_mut().enumerate() {
            *h = hat(u64::from(x), l as u32);
        }
    }
    hats
}

/// The estimate, S and the margin: document 02, f.
pub fn with_margin(axes: usize, level: u32, table: &[i64], coordinates: &[u32]) -> (i64, u64, u64) {
    margined(axes, summed::<true>(axes, level, table, |t, l| hat(u64::from(coordinates[t]), l)))
}

pub fn with_margin_tabulated(axes: usize, level: u32, table: &[i64], coordinates: &[u32]) -> (i64, u64, u64) {
    let hats = tabulated(coordinates);
    margined(axes, summed::<true>(axes, level, table, |t, l| hats[t & 7][l.min(8) as usize]))
}

pub(super) fn margined(axes: usize, (estimate, reached): (i64, u64)) -> (i64, u64, u64) {
    let more = u128::from(reached) * (axes as u128 - 1) + u128::from(UNIT / 2);
    (estimate, reached, more.div_ceil(u128::from(UNIT)) as u64)
}

/// The place and weight that both use, for the hash map.
pub fn hat_of(x: u32, level: u32) -> (u32, u64) {
    let (place, weight) = hat(u64::from(x), level);
    (place as u32, weight)
}

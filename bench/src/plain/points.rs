//! Number of a point, point of a number, successor, parent.

use super::grid::{before_sum, check_shape, count, first, next, start, Levels, BINOMIAL};

/// A point by value, places past the last axis zero.
#[derive(Clone, Copy, Debug, PartialEq)]
pub struct Point {
    pub marks: Levels,
    pub levels: Levels,
    pub indices: Levels,
}

/// Refusal 1, 2 or 19 of the shape, 7 or 9 of a point that was handed in as three lists; all marks must be 0.
fn check_point(axes: u32, level: u32, marks: &[u32], levels: &[u32], indices: &[u32]) -> Option<u32> {
    check_shape(axes, level).or_else(|| check_lists(axes, level, marks, levels, indices))
}

fn check_lists(axes: u32, level: u32, marks: &[u32], levels: &[u32], indices: &[u32]) -> Option<u32> {
    let d = axes as usize;
    if marks.len() != d || levels.len() != d || indices.len() != d {
        return Some(7);
    }
    let mut left = level;
    for ((&m, &l), &i) in marks.iter().zip(levels).zip(indices) {
        if m != 0 || l > left || i % 2 == 0 || i >= 1 << (l + 1) {
            return Some(9);
        }
        left -= l;
    }
    None
}

pub(super) fn array(list: &[u32]) -> Levels {
    let mut out = [0; 8];
    out[..list.len()].copy_from_slice(list);
    out
}

/// The number of a point.
pub fn number_of(axes: u32, level: u32, marks: &[u32], levels: &[u32], indices: &[u32]) -> Result<u64, u32> {
    if let Some(refused) = check_point(axes, level, marks, levels, indices) {
        return Err(refused);
    }
    Ok(number(axes as usize, &array(levels), &array(indices)))
}

/// The number of a point that is known to be one (document 001, algorithm 5, with document 01's packing).
pub fn number(axes: usize, levels: &Levels, indices: &Levels) -> u64 {
    let mut position = 0;
    let mut shift = 0;
    for t in 0..axes {
        position += u64::from((indices[t] - 1) / 2) << shift;
        shift += levels[t];
    }
    start(axes, levels) + position
}

/// The point of a number.
pub fn point_of(axes: u32, level: u32, number: u64) -> Result<Point, u32> {
    if let Some(refused) = check_shape(axes, level) {
        return Err(refused);
    }
    if number >= count(axes as usize, level) {
        return Err(6);
    }
    let (levels, indices) = point(axes as usize, number);
    Ok(Point { marks: [0; 8], levels, indices })
}

/// The point of a number that is known to have one.
pub fn point(axes: usize, number: u64) -> (Levels, Levels) {
    let mut sum = 0;
    while before_sum(axes, sum + 1) <= number {
        sum += 1;
    }
    let inside = number - before_sum(axes, sum);
    let levels = vector_of(axes, sum, inside >> sum);
    let mut rest = (inside & ((1 << sum) - 1)) as u32;
    let mut indices = [0; 8];
    for t in 0..axes {
        indices[t] = 2 * (rest & ((1 << levels[t]) - 1)) + 1;
        rest >>= levels[t];
    }
    (levels, indices)
}

/// The level vector of this sum with this index: from the last axis down, the largest level that fits.
fn vector_of(axes: usize, sum: u32, index: u64) -> Levels {
    let mut levels = [0; 8];
    let (mut left, mut index) = (sum, index);
    for t in (1..axes).rev() {
        // vectors on axes 0..t of sum left − l, for each level l of axis t
        while BINOMIAL[t - 1 + (left - levels[t]) as usize][t - 1] <= index {
            index -= BINOMIAL[t - 1 + (left - levels[t]) as usize][t - 1];
            levels[t] += 1;
        }
        left -= levels[t];
    }
    levels[0] = left;
    levels
}

/// The point numbered one higher, or none after the last.
pub fn successor(axes: u32, level: u32, marks: &[u32], levels: &[u32], indices: &[u32]) -> Result<Option<Point>, u32> {
    if let Some(refused) = check_point(axes, level, marks, levels, indices) {
        return Err(refused);
    }
    let axes = axes as usize;
    let (mut levels, mut indices) = (array(levels), array(indices));
    for t in 0..axes {
        if indices[t] + 2 < 1 << (levels[t] + 1) {
            indices[t] += 2;
            return Ok(Some(Point { marks: [0; 8], levels, indices }));
        }
        indices[t] = 1;
    }
    let sum = levels.iter().sum::<u32>();
    if !next(axes, &mut levels) {
        if sum == level {
            return Ok(None);
        }
        levels = first(sum + 1);
    }
    Ok(Some(Point { marks: [0; 8], levels, indices }))
}

/// The point beside a point on an axis, or none where that is the border.
pub fn parent(
    axes: u32,
    level: u32,
    marks: &[u32],
    levels: &[u32],
    indices: &[u32],
    axis: u32,
    right: bool,
) -> Result<Option<Point>, u32> {
    if let Some(refused) = check_shape(axes, level) {
        return Err(refused);
    }
    if axis == 0 || axis > axes {
        return Err(5);
    }
    if let Some(refused) = check_lists(axes, level, marks, levels, indices) {
        return Err(refused);
    }
    let t = axis as usize - 1;
    let numerator = if right { indices[t] + 1 } else { indices[t] - 1 };
    if numerator == 0 || numerator == 1 << (levels[t] + 1) {
        return Ok(None);
    }
    let mut point = Point { marks: [0; 8], levels: array(levels), indices: array(indices) };
    let twos = numerator.trailing_zeros();
    (point.levels[t], point.indices[t]) = (levels[t] - twos, numerator >> twos);
    Ok(Some(point))
}

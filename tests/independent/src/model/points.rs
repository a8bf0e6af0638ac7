//! Count, number of a point, point of a number, successor, parent.

use super::grid::{count, grid, level_and_index, At};
use super::{axis as check_axis, shape, Refused};

pub type Lists = ([u32; 8], [u32; 8]);

pub fn points(axes: u32, level: u32) -> Result<u64, Refused> {
    shape(axes, level)?;
    Ok(count(axes, level) as u64)
}

/// The coordinates that levels and indices name, if they name a point of the shape: refusals 7 and 9.
fn coordinates(axes: u32, level: u32, levels: &[u32], indices: &[u32]) -> Result<At, Refused> {
    shape(axes, level)?;
    if levels.len() != axes as usize || indices.len() != axes as usize {
        return Err((7, 0));
    }
    let sum: u128 = levels.iter().map(|&l| u128::from(l)).sum();
    if sum > u128::from(level) {
        return Err((9, 0));
    }
    let mut at = [0; 8];
    for t in 0..axes as usize {
        // the levels are at most 8 now
        let denominator = 2u32.pow(levels[t] + 1);
        if indices[t] % 2 != 1 || indices[t] > denominator - 1 {
            return Err((9, 0));
        }
        at[t] = (indices[t] * (512 / denominator)) as u16;
    }
    Ok(at)
}

pub fn number_of(axes: u32, level: u32, levels: &[u32], indices: &[u32]) -> Result<u64, Refused> {
    let at = coordinates(axes, level, levels, indices)?;
    Ok(grid(axes, level).number[&at] as u64)
}

pub fn point_of(axes: u32, level: u32, number: u64) -> Result<Lists, Refused> {
    shape(axes, level)?;
    if u128::from(number) >= count(axes, level) {
        return Err((6, 0));
    }
    let (levels, indices) = grid(axes, level).lists[number as usize];
    Ok((levels.map(u32::from), indices.map(u32::from)))
}

pub fn successor(axes: u32, level: u32, levels: &[u32], indices: &[u32]) -> Result<Option<Lists>, Refused> {
    let next = number_of(axes, level, levels, indices)? + 1;
    if u128::from(next) == count(axes, level) {
        return Ok(None);
    }
    point_of(axes, level, next).map(Some)
}

/// The point at (i − 1) / 2^(l+1), or at (i + 1) / 2^(l+1), on this axis; none where that is 0 or 1.
pub fn parent(
    axes: u32,
    level: u32,
    levels: &[u32],
    indices: &[u32],
    axis: u32,
    right: bool,
) -> Result<Option<Lists>, Refused> {
    shape(axes, level)?;
    check_axis(axes, axis)?;
    let at = coordinates(axes, level, levels, indices)?[axis as usize - 1];
    let step = 512 / 2u16.pow(level_and_index(at).0 + 1);
    let beside = if right { at + step } else { at - step };
    if beside == 0 || beside == 512 {
        return Ok(None);
    }
    let (mut all_levels, mut all_indices) = ([0; 8], [0; 8]);
    all_levels[..levels.len()].copy_from_slice(levels);
    all_indices[..indices.len()].copy_from_slice(indices);
    (all_levels[axis as usize - 1], all_indices[axis as usize - 1]) = level_and_index(beside);
    Ok(Some((all_levels, all_indices)))
}

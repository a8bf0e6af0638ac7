//! Forward and back on one axis.

use super::grid::{grid, At, Grid, Values};
use super::{axis as check_axis, is_forward, places, state, within, Refused};

/// The two neighbours of a coordinate i / 2^(l+1), at (i ± 1) / 2^(l+1), in 512ths.
fn neighbours(coordinate: u16) -> [u16; 2] {
    let (level, _) = super::grid::level_and_index(coordinate);
    let step = 512 / 2u16.pow(level + 1);
    [coordinate - step, coordinate + step]
}

/// The sum of the values at the two neighbours of a point on axis t, from 0; a border counts as 0.
fn sum_beside(at: &At, t: usize, mut value: impl FnMut(At) -> Option<i128>) -> Option<i128> {
    let mut sum = 0;
    for c in neighbours(at[t]) {
        if c != 0 && c != 512 {
            let mut beside = *at;
            beside[t] = c;
            sum += value(beside)?;
        }
    }
    Some(sum)
}

/// The table after an accepted forward turn on axis t, from 0; none where it is not accepted.
pub fn forward_of(values: &Values, t: usize) -> Option<Values> {
    if !values.values().all(|&v| within(v)) {
        return None;
    }
    let mut after = Values::default();
    after.reserve(values.len());
    for (at, &v) in values {
        let sum = sum_beside(at, t, |b| Some(values[&b]))?;
        if sum % 2 != 0 || !within(v - sum / 2) {
            return None;
        }
        after.insert(*at, v - sum / 2);
    }
    Some(after)
}

/// The table that an accepted forward turn takes to this one, if there is one.
///
/// A forward turn that is accepted says of each value that the former one is the present one plus half the sum of the former
/// neighbours, which is even. So the former table is found value by value, a point after its neighbours; where a sum is odd
/// there is none. What was found is then put to the condition itself.
pub fn back_of(values: &Values, t: usize) -> Option<Values> {
    let mut former = Values::default();
    former.reserve(values.len());
    for at in values.keys() {
        former_at(values, t, *at, &mut former)?;
    }
    let leads_here = forward_of(&former, t)? == *values;
    leads_here.then_some(former)
}

fn former_at(values: &Values, t: usize, at: At, former: &mut Values) -> Option<i128> {
    if let Some(&v) = former.get(&at) {
        return Some(v);
    }
    let sum = sum_beside(&at, t, |b| former_at(values, t, b, former))?;
    if sum % 2 != 0 {
        return None;
    }
    let v = values[&at] + sum / 2;
    former.insert(at, v);
    Some(v)
}

/// A call: the table and the bits afterwards.
pub fn turn(back: bool, axes: u32, level: u32, bits: u8, table: &[i64], axis: u32) -> Result<(Vec<i64>, u8), Refused> {
    state(axes, level, bits)?;
    places(axes, level, table.len())?;
    check_axis(axes, axis)?;
    if is_forward(bits, axis) != back {
        return Err((if back { 16 } else { 15 }, u64::from(axis)));
    }
    let grid = grid(axes, level);
    let turned = turn_table(&grid, back, table, axis as usize - 1).ok_or((10, 0))?;
    let bit = 2u8.pow(axis - 1);
    Ok((turned, if back { bits - bit } else { bits + bit }))
}

pub fn turn_table(grid: &Grid, back: bool, table: &[i64], t: usize) -> Option<Vec<i64>> {
    let values = grid.values(table);
    let after = if back { back_of(&values, t) } else { forward_of(&values, t) };
    after.map(|a| grid.table(&a))
}

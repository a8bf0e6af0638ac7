//! Turns on tables of either sort, as lists of wide integers by point number.

use super::grid::Grid;
use super::readings::{Reading, Unit};
use super::Shape;
use crate::model::{is_rate, within};

pub type Wide = Vec<i128>;

pub fn wide(table: &[i64]) -> Wide {
    table.iter().map(|&v| i128::from(v)).collect()
}

/// For a buffer.
pub fn narrow(values: &[i128]) -> Vec<i64> {
    values.iter().map(|&v| i64::try_from(v).expect("contents fit a buffer")).collect()
}

/// The table after an accepted forward turn on axis t, from 0; none where it is not accepted.
pub fn forward_of(grid: &Grid, values: &[i128], t: usize) -> Option<Wide> {
    if !values.iter().all(|&v| within(v)) {
        return None;
    }
    let moved = |(p, &v): (usize, &i128)| {
        let sum: i128 = grid.near()[t][p].iter().flatten().map(|&q| values[q as usize]).sum();
        let after = v - sum / 2;
        (sum % 2 == 0 && within(after)).then_some(after)
    };
    values.iter().enumerate().map(moved).collect()
}

/// The table that an accepted forward turn takes to this one, if there is one: found value by value, a point after what
/// stands beside it, and then put to the condition itself.
pub fn back_of(grid: &Grid, values: &[i128], t: usize) -> Option<Wide> {
    let mut former = vec![None; values.len()];
    let found: Option<Wide> = (0..values.len()).map(|p| former_at(grid, values, t, p, &mut former)).collect();
    found.filter(|former| forward_of(grid, former, t).is_some_and(|after| after == values))
}

fn former_at(grid: &Grid, values: &[i128], t: usize, p: usize, former: &mut [Option<i128>]) -> Option<i128> {
    if former[p].is_none() {
        let mut sum = 0;
        for &q in grid.near()[t][p].iter().flatten() {
            sum += former_at(grid, values, t, q as usize, former)?;
        }
        former[p] = (sum % 2 == 0).then(|| values[p] + sum / 2);
    }
    former[p]
}

/// A loaded table.
pub fn loaded(shape: Shape, grid: &Grid, rates: &[i64], reading: &Reading) -> Wide {
    let unit = |p: usize| {
        let inner = || grid.lists(p).marks[..shape.axes as usize].iter().filter(|&&m| m == 0).count() as u32;
        2i128.pow(if reading.unit == Unit::Right { shape.axes } else { inner() })
    };
    rates.iter().enumerate().map(|(p, &r)| i128::from(r) * unit(p)).collect()
}

/// The table of a set of axes, smallest axis first; none where a wrong reading leaves a half that is not whole.
pub fn table_of_set(
    shape: Shape,
    grid: &Grid,
    rates: &[i64],
    axes: impl Iterator<Item = u32>,
    reading: &Reading,
) -> Option<Wide> {
    axes.fold(Some(loaded(shape, grid, rates, reading)), |table, axis| forward_of(grid, &table?, axis as usize - 1))
}

/// Each value divided by 2^d, where all are 2^d times a rate.
pub fn as_rates(axes: u32, table: &[i128]) -> Option<Vec<i64>> {
    let unit = 2i128.pow(axes);
    let rate = |&v: &i128| (v % unit == 0 && is_rate(v / unit)).then(|| (v / unit) as i64);
    table.iter().map(rate).collect()
}

/// The accepted rates that have these coefficients, if any do: a candidate by back turns, then the condition.
pub fn rates_of(shape: Shape, grid: &Grid, table: &[i64], reading: &Reading) -> Option<Vec<i64>> {
    let back = (0..shape.axes as usize).try_fold(wide(table), |values, t| back_of(grid, &values, t))?;
    let rates = as_rates(shape.axes, &back)?;
    let again = table_of_set(shape, grid, &rates, 1..=shape.axes, reading)?;
    (narrow(&again) == table).then_some(rates)
}

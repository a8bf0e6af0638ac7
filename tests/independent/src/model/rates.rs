//! Load, adopt, unload, and the whole calls.

use super::grid::{grid, level_and_index, At, Values};
use super::turns::{back_of, forward_of};
use super::{is_forward, is_rate, places, shape, state, within, Refused};

/// Refusal 4.
pub fn all_rates(table: &[i64]) -> Result<(), Refused> {
    for (p, &v) in table.iter().enumerate() {
        if !is_rate(i128::from(v)) {
            return Err((4, p as u64));
        }
    }
    Ok(())
}

fn unit(axes: u32) -> i64 {
    2i64.pow(axes)
}

pub fn load(axes: u32, level: u32, table: &[i64]) -> Result<(Vec<i64>, u8), Refused> {
    shape(axes, level)?;
    places(axes, level, table.len())?;
    all_rates(table)?;
    Ok((table.iter().map(|&r| r * unit(axes)).collect(), 0))
}

pub fn adopt(axes: u32, level: u32, table: &[i64]) -> Result<u8, Refused> {
    shape(axes, level)?;
    places(axes, level, table.len())?;
    if !table.iter().all(|&v| within(i128::from(v))) {
        return Err((10, 0));
    }
    Ok((1..=axes).map(|t| 2u8.pow(t - 1)).sum())
}

pub fn unload(axes: u32, level: u32, bits: u8, table: &[i64]) -> Result<Vec<i64>, Refused> {
    state(axes, level, bits)?;
    places(axes, level, table.len())?;
    for t in 1..=axes {
        if is_forward(bits, t) {
            return Err((18, u64::from(t)));
        }
    }
    as_rates(axes, table).ok_or((10, 0))
}

/// Each value divided by 2^d, where all are 2^d times a rate.
fn as_rates(axes: u32, table: &[i64]) -> Option<Vec<i64>> {
    let whole = |&v: &i64| v % unit(axes) == 0 && is_rate(i128::from(v / unit(axes)));
    table.iter().all(whole).then(|| table.iter().map(|v| v / unit(axes)).collect())
}

pub fn rates_to_coefficients(axes: u32, level: u32, table: &[i64]) -> Result<Vec<i64>, Refused> {
    shape(axes, level)?;
    places(axes, level, table.len())?;
    all_rates(table)?;
    Ok(coefficients(axes, level, table))
}

/// The coefficients of accepted rates. For small shapes each is the sum over the 3^d points that stand at or beside it on
/// each axis, of weight 2 at it and −1 beside it; for others the table of the set of all axes, smallest axis first.
pub fn coefficients(axes: u32, level: u32, rates: &[i64]) -> Vec<i64> {
    if 3usize.pow(axes) * rates.len() <= 60_000 {
        coefficients_by_stencil(axes, level, rates)
    } else {
        coefficients_by_turns(axes, level, rates)
    }
}

pub fn coefficients_by_turns(axes: u32, level: u32, rates: &[i64]) -> Vec<i64> {
    let grid = grid(axes, level);
    let loaded: Vec<i64> = rates.iter().map(|&r| r * unit(axes)).collect();
    let mut values = grid.values(&loaded);
    for t in 0..axes as usize {
        values = forward_of(&values, t).expect("a loaded table takes every forward turn");
    }
    grid.table(&values)
}

pub fn coefficients_by_stencil(axes: u32, level: u32, rates: &[i64]) -> Vec<i64> {
    let grid = grid(axes, level);
    let values = grid.values(rates);
    grid.order.iter().map(|at| stencil(&values, axes as usize, 0, *at) as i64).collect()
}

fn stencil(rates: &Values, axes: usize, t: usize, at: At) -> i128 {
    if t == axes {
        return rates[&at];
    }
    let step = 512 / 2u16.pow(level_and_index(at[t]).0 + 1);
    let mut sum = 2 * stencil(rates, axes, t + 1, at);
    for c in [at[t] - step, at[t] + step] {
        if c != 0 && c != 512 {
            let mut beside = at;
            beside[t] = c;
            sum -= stencil(rates, axes, t + 1, beside);
        }
    }
    sum
}

pub fn coefficients_to_rates(axes: u32, level: u32, table: &[i64]) -> Result<Vec<i64>, Refused> {
    shape(axes, level)?;
    places(axes, level, table.len())?;
    rates_of(axes, level, table).ok_or((10, 0))
}

/// The accepted rates that have these coefficients, if any do: a candidate, then the condition.
fn rates_of(axes: u32, level: u32, table: &[i64]) -> Option<Vec<i64>> {
    let small = table.len() <= 60 && axes <= 4 && table.iter().all(|&v| within(i128::from(v)));
    let loaded = if small { surface_at_points(axes, level, table)? } else { all_back(axes, level, table)? };
    let rates = as_rates(axes, &loaded)?;
    (coefficients(axes, level, &rates) == table).then_some(rates)
}

/// Back on every axis.
fn all_back(axes: u32, level: u32, table: &[i64]) -> Option<Vec<i64>> {
    let grid = grid(axes, level);
    let mut values = grid.values(table);
    for t in 0..axes as usize {
        values = back_of(&values, t)?;
    }
    Some(grid.table(&values))
}

/// The value of the surface at every point: the sum over all points of coefficient times the product of hat functions, which
/// is exact in units of 512^d.
fn surface_at_points(axes: u32, level: u32, table: &[i64]) -> Option<Vec<i64>> {
    let grid = grid(axes, level);
    let hat = |x: u16, c: u16| {
        let (l, i) = level_and_index(c);
        let apart = (i128::from(x) * 2i128.pow(l + 1) - i128::from(i) * 512).abs();
        (512 - apart).max(0)
    };
    let whole = 512i128.pow(axes);
    grid.order
        .iter()
        .map(|x| {
            let mut sum: i128 = 0;
            for (at, &c) in grid.order.iter().zip(table) {
                sum += i128::from(c) * (0..axes as usize).map(|t| hat(x[t], at[t])).product::<i128>();
            }
            (sum % whole == 0).then(|| sum / whole).and_then(|v| i64::try_from(v).ok())
        })
        .collect()
}

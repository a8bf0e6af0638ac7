//! Load, unload and the whole calls over the walk by level vector.

use super::is_rate;
use super::walk::Walk;

/// Rates times 2^d; refused with 4 and the smallest such point number.
pub fn load(axes: usize, table: &mut [i64]) -> Result<(), u64> {
    if let Some(p) = table.iter().position(|&v| !is_rate(v)) {
        return Err(p as u64);
    }
    table.iter_mut().for_each(|v| *v <<= axes);
    Ok(())
}

/// Divided by 2^d; refused with 10 where the answer is false.
pub fn unload(axes: usize, table: &mut [i64]) -> bool {
    let bad = table.iter().fold(false, |bad, &v| bad | (v & ((1 << axes) - 1) != 0) | !is_rate(v >> axes));
    if !bad {
        table.iter_mut().for_each(|v| *v >>= axes);
    }
    !bad
}

/// Rates to coefficients. The turns of a loaded table cannot be refused, so they are not tested.
pub fn rates_to_coefficients(walk: &Walk, axes: usize, table: &mut [i64]) -> Result<(), u64> {
    load(axes, table)?;
    (0..axes).for_each(|t| walk.forward_untested(table, t));
    Ok(())
}

/// Coefficients to rates; refused with 10, the table as it was, where the answer is false.
pub fn coefficients_to_rates(walk: &Walk, axes: usize, table: &mut [i64]) -> bool {
    for t in (0..axes).rev() {
        if !walk.back(table, t) {
            (t + 1..axes).for_each(|u| walk.forward_untested(table, u));
            return false;
        }
    }
    if !unload(axes, table) {
        (0..axes).for_each(|u| walk.forward_untested(table, u));
        return false;
    }
    true
}

//! The tables that all contestants are given.

use crate::plain::UNIT;

/// Rates from a fixed seed.
pub fn rates(count: usize) -> Vec<i64> {
    let mut x: u64 = 0x2545_f491_4f6c_dd1d;
    (0..count)
        .map(|_| {
            x ^= x << 13;
            x ^= x >> 7;
            x ^= x << 17;
            i64::from((x >> 32) as i32)
        })
        .collect()
}

/// Numbers below a bound, from a fixed seed.
pub fn numbers(count: usize, below: u64) -> Vec<u64> {
    rates(count).into_iter().map(|r| (r as u64).wrapping_mul(0x9e37_79b9_7f4a_7c15) % below).collect()
}

/// Lists of coordinates.
pub fn coordinates(count: usize, axes: usize) -> Vec<Vec<u32>> {
    let all = numbers(count * axes, UNIT + 1);
    all.chunks(axes).map(|list| list.iter().map(|&x| x as u32).collect()).collect()
}

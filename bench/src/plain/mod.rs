//! The opponents: document 01's calls as one would write them in plain Rust. Nothing here is proved, and nothing is taken
//! from the library. Each gives the same answers as the library, which the benchmark tests before it measures.

pub mod accounts;
pub mod algorithm6;
pub mod algorithm7;
pub mod bordered;
pub mod component;
pub mod file;
pub mod grid;
pub mod hashed;
pub mod lists;
pub mod points;
pub mod walk;
pub mod whole;
pub mod words;

/// The content limit, on either side of zero.
pub const LIMIT: i64 = 1 << 47;

/// Whether all values are within the content limit: one pass over the table.
pub fn all_within(table: &[i64]) -> bool {
    // one comparison for each value and an early end: without it the compiler takes two values at a time, which is slower on plain x86-64
    table.iter().all(|&v| v.wrapping_add(LIMIT) as u64 <= 2 * LIMIT as u64)
}

/// The same, all values gathered first: faster, where the compiler takes two at a time. The upper end is looked at one by one.
pub fn all_within_at_once(table: &[i64]) -> bool {
    table.iter().fold(0, |all, &v| all | v.wrapping_add(LIMIT) as u64) >> 48 == 0 || all_within(table)
}

/// The bits of the unit of coordinates and weights, and the unit.
pub const BITS: u32 = 20;
pub const UNIT: u64 = 1 << BITS;

/// The rate range.
pub fn is_rate(v: i64) -> bool {
    i32::try_from(v).is_ok()
}

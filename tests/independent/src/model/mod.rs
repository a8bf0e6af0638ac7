//! Documents 01 and 02 written once more, by other means than the library's: a point is its coordinates, a table is a map from
//! coordinates to wide integers, sums run over all points, and what a paper defines by a condition is solved and then put to
//! the condition.
//!
//! Nothing here is fast, and nothing here is taken from the library or its papers' algorithms.

pub mod account;
pub mod bordered;
pub mod component;
pub mod estimates;
pub mod files;
pub mod grid;
pub mod lists;
pub mod margin;
pub mod natural;
pub mod orders;
pub mod points;
pub mod rates;
pub mod runs;
pub mod turns;

/// A refusal: its number and place.
pub type Refused = (u32, u64);

pub const LIMIT: i128 = 1 << 47;

pub fn within(v: i128) -> bool {
    (-LIMIT..=LIMIT).contains(&v)
}

pub fn is_rate(v: i128) -> bool {
    (-2_147_483_648..=2_147_483_647).contains(&v)
}

/// The most points of a component grid, and since change request h of a table of either sort.
pub const MOST_POINTS: u128 = 32_768;

/// Refusal 19, of a table or a component grid with so many points.
pub fn not_too_large(points: u128) -> Result<(), Refused> {
    if points > MOST_POINTS {
        return Err((19, 0));
    }
    Ok(())
}

/// Refusals 1 and 2.
fn numbers(axes: u32, level: u32) -> Result<(), Refused> {
    if !(1..=8).contains(&axes) {
        return Err((1, 0));
    }
    if level > 8 {
        return Err((2, 0));
    }
    Ok(())
}

/// What a shape is refused with: 1, 2, 19.
pub fn shape(axes: u32, level: u32) -> Result<(), Refused> {
    numbers(axes, level)?;
    not_too_large(grid::count(axes, level))
}

/// What a state is refused with: 1, 2, 14, 19.
pub fn state(axes: u32, level: u32, set: u8) -> Result<(), Refused> {
    numbers(axes, level)?;
    bits(axes, set)?;
    not_too_large(grid::count(axes, level))
}

/// Refusal 14: a bit above axis d. A bit is looked at as a digit of the number, axis by axis.
pub fn bits(axes: u32, bits: u8) -> Result<(), Refused> {
    for axis in axes + 1..=8 {
        if is_forward(bits, axis) {
            return Err((14, 0));
        }
    }
    Ok(())
}

/// Whether the bit of an axis, 1 to 8, is set.
pub fn is_forward(bits: u8, axis: u32) -> bool {
    (u32::from(bits) / 2u32.pow(axis - 1)) % 2 == 1
}

/// Refusal 3.
pub fn places(axes: u32, level: u32, places: usize) -> Result<(), Refused> {
    if places as u128 != grid::count(axes, level) {
        return Err((3, 0));
    }
    Ok(())
}

/// Refusal 5.
pub fn axis(axes: u32, axis: u32) -> Result<(), Refused> {
    if axis < 1 || axis > axes {
        return Err((5, u64::from(axis)));
    }
    Ok(())
}

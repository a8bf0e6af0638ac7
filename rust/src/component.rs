//! Component grids.

use crate::{boundary, Refusal};

/// The rates of a component grid become its coefficients. docs/MANUAL.md, section 18.
///
/// A component grid is full, refined differently on each axis, and has a zero border. `levels` has the top level of each axis,
/// axis 1 first; the grid has all points whose level on each axis is within that axis's top level m, 2^(m+1) − 1 of them on an
/// axis. `table` has one place for each point, by coordinate, axis 1 running fastest. The unit and the rule are those of a
/// [`crate::Shape`] of as many axes with a zero border: each rate times 2^d, then forward on every axis.
///
/// Refused with 1 (the list is not 1 to 8 long), 2 (a top level above 8), 19 (more than 32,768 points), 3 (the table has not
/// exactly as many places as the grid has points), 4 (the smallest position with no rate). The table is then as it was.
///
/// ```
/// use numolefays::{component_coefficients, Refusal};
///
/// // three points on axis 1, at 1/4, 1/2 and 3/4, and one on axis 2, at 1/2
/// let mut table = [3, 4, 5];
/// component_coefficients(&[1, 0], &mut table)?; // in units of 1/4 from here on
/// assert_eq!(table, [4, 16, 12]);
///
/// // three points on each
/// let mut table = [0, 2, 0, 3, 4, 5, 0, 6, 0];
/// component_coefficients(&[1, 1], &mut table)?;
/// assert_eq!(table, [-6, 0, -10, 4, 16, 12, -14, 16, -18]);
/// assert_eq!(component_coefficients(&[1, 2], &mut table), Err(Refusal::TableLength));
/// # Ok::<(), Refusal>(())
/// ```
pub fn component_coefficients(levels: &[u32], table: &mut [i64]) -> Result<(), Refusal> {
    let mut place = 0;
    let number = boundary::component_coefficients(levels, table, &mut place);
    Refusal::checked(number, place)
}

//! House files: tables with a zero border. What writes one takes the number of axes and the top level alone.

use crate::{boundary, Refusal, Shape};

/// Reads a house file: its N rates become the first N places of the table, in point order, and the others stay.
/// docs/MANUAL.md, section 12. The shape answered has a zero border.
///
/// Refused, number by number, with 11 or 12; with 1, 2, 19 and 3 (fewer than N places) once both numbers of the shape are read;
/// with 13 last. The table is then as it was.
pub fn read_house_file(bytes: &[u8], table: &mut [i64]) -> Result<Shape, Refusal> {
    let (mut axes, mut level, mut place) = (0, 0, 0);
    let number = boundary::read_house_file(bytes, table, &mut axes, &mut level, &mut place);
    Refusal::checked(number, place).map(|()| Shape::new(axes, level))
}

/// The shape of a house file, from its first two numbers alone: [`Shape::points`] of it is how long a table to lend to
/// [`read_house_file`]. Section 16. Whether so many rates come after them is for the reader to say.
///
/// Refused with 11 or 12 for either number, then 1, 2, 19.
pub fn house_file_shape(bytes: &[u8]) -> Result<Shape, Refusal> {
    let (mut axes, mut level, mut points, mut place) = (0, 0, 0, 0);
    let number = boundary::house_file_shape(bytes, &mut axes, &mut level, &mut points, &mut place);
    Refusal::checked(number, place).map(|()| Shape::new(axes, level))
}

/// Writes the house file of a zero-border shape, given by its axes and top level, and its N rates into the first bytes of `out`
/// and answers its length; the other bytes stay. Each number is in its fewest groups, so equal tables are equal files.
/// Section 16. There is no house file of a table with border values: such a table has more places, and is refused with 3.
///
/// Refused with 1, 2, 19, 3 (not exactly N rates), 4, and last with 3 where `out` is shorter than the file; `out` is then as it
/// was.
pub fn write_house_file(axes: u32, level: u32, rates: &[i64], out: &mut [u8]) -> Result<usize, Refusal> {
    let (mut length, mut place) = (0, 0);
    let number = boundary::write_house_file(axes, level, rates, out, &mut length, &mut place);
    Refusal::checked(number, place).map(|()| length as usize)
}

/// The same into a new vector. Refused with 1, 2, 19, 3 (not exactly N rates), 4.
///
/// ```
/// use numolefays::{house_file, house_file_shape, read_house_file, Shape};
///
/// let rates = [4, 3, 5, 2, 300];
/// let file = house_file(2, 1, &rates)?;
/// assert_eq!(file, [2, 1, 8, 6, 10, 4, 0xd8, 0x04]);
///
/// let mut table = vec![0; house_file_shape(&file)?.points()? as usize];
/// assert_eq!(read_house_file(&file, &mut table)?, Shape::new(2, 1));
/// assert_eq!(table, rates);
/// # Ok::<(), numolefays::Refusal>(())
/// ```
pub fn house_file(axes: u32, level: u32, rates: &[i64]) -> Result<Vec<u8>, Refusal> {
    // d and n take a byte each, a rate at most five
    let mut out = vec![0; 2 + 5 * rates.len()];
    let length = write_house_file(axes, level, rates, &mut out)?;
    out.truncate(length);
    Ok(out)
}

/// Reads a house file of at most `most_points` points and writes it again, into the first bytes of `out`: the one form of
/// all files of its meaning. Answers its length, which is never above the file's; the other bytes of `out` stay. Section 16.
///
/// Refused as by [`read_house_file`] with a table of `most_points` places, and last with 3 where `out` is shorter than the
/// form; `out` is then as it was.
pub fn rewrite_house_file(bytes: &[u8], most_points: usize, out: &mut [u8]) -> Result<usize, Refusal> {
    let (mut length, mut place) = (0, 0);
    let number = boundary::rewrite_house_file(bytes, most_points, out, &mut length, &mut place);
    Refusal::checked(number, place).map(|()| length as usize)
}

/// The same into a new vector. Refused as by [`read_house_file`] with a table of `most_points` places.
///
/// ```
/// use numolefays::{rewritten_house_file, Refusal};
///
/// let form = [1, 0, 8]; // one axis, top level 0, rate 4
/// assert_eq!(rewritten_house_file(&[0x81, 0x00, 0x80, 0x80, 0x00, 0x88, 0x00], 1)?, form);
/// assert_eq!(rewritten_house_file(&form, 1)?, form);
/// assert_eq!(rewritten_house_file(&form[..2], 1), Err(Refusal::FileEnds));
/// # Ok::<(), Refusal>(())
/// ```
pub fn rewritten_house_file(bytes: &[u8], most_points: usize) -> Result<Vec<u8>, Refusal> {
    // the form is never longer than the file
    let mut out = vec![0; bytes.len()];
    let length = rewrite_house_file(bytes, most_points, &mut out)?;
    out.truncate(length);
    Ok(out)
}

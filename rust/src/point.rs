//! Points of a table, and the two sides of a point.

/// A point of a table: a mark, a level and an odd index on each axis. Inside an axis the mark is [`INSIDE`] and the coordinate
/// index / 2^(level + 1); on its border the mark is [`LOWER_BORDER`] or [`UPPER_BORDER`], the level 0 and the index 1.
/// docs/MANUAL.md, section 2.
///
/// It holds eight of each whatever the number of axes; the places past the last axis are zero.
#[derive(Clone, Copy, Debug, PartialEq, Eq, Hash)]
pub struct Point {
    /// How many axes the point's shape has.
    pub axes: u32,
    /// The marks, axis 1 first; all are [`INSIDE`] where the shape has a zero border.
    pub all_marks: [u32; 8],
    /// The levels, axis 1 first.
    pub all_levels: [u32; 8],
    /// The indices, axis 1 first.
    pub all_indices: [u32; 8],
}

/// The mark of a point inside an axis.
pub const INSIDE: u32 = 0;
/// The mark of a point on the lower border of an axis, at 0.
pub const LOWER_BORDER: u32 = 1;
/// The mark of a point on the upper border of an axis, at 1.
pub const UPPER_BORDER: u32 = 2;

impl Point {
    /// What the boundary fills in.
    pub(crate) fn blank(axes: u32) -> Point {
        Point { axes, all_marks: [0; 8], all_levels: [0; 8], all_indices: [0; 8] }
    }

    /// The marks of the axes that there are.
    pub fn marks(&self) -> &[u32] {
        &self.all_marks[..self.axes.min(8) as usize]
    }

    /// The levels of the axes that there are.
    pub fn levels(&self) -> &[u32] {
        &self.all_levels[..self.axes.min(8) as usize]
    }

    /// The indices of the axes that there are.
    pub fn indices(&self) -> &[u32] {
        &self.all_indices[..self.axes.min(8) as usize]
    }
}

/// A side of a point on an axis, for its parents (docs/MANUAL.md, section 6).
#[derive(Clone, Copy, Debug, PartialEq, Eq, Hash)]
pub enum Side {
    /// Toward 0.
    Left,
    /// Toward 1.
    Right,
}

impl Side {
    /// As the boundary takes it: 0 is left, 1 is right.
    pub fn number(self) -> u32 {
        match self {
            Side::Left => 0,
            Side::Right => 1,
        }
    }
}

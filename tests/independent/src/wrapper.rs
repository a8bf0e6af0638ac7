//! The calls of the safe wrapper that take or answer a point, in one place: on tables without border values, where all marks
//! are 0.

use crate::model::points::Lists;
use numolefays::{Point, Refusal, Shape, Side};

fn lists(axes: u32, point: Point) -> Lists {
    assert_eq!(point.axes, axes, "the wrapper's point has the axes of its shape");
    assert_eq!(point.all_marks, [0; 8], "a point of a table without border values");
    (point.all_levels, point.all_indices)
}

/// As many marks as there are levels.
fn unmarked(levels: &[u32]) -> Vec<u32> {
    vec![0; levels.len()]
}

pub fn number_of(axes: u32, level: u32, levels: &[u32], indices: &[u32]) -> Result<u64, Refusal> {
    Shape::new(axes, level).number_of(&unmarked(levels), levels, indices)
}

pub fn point(axes: u32, level: u32, number: u64) -> Result<Lists, Refusal> {
    Shape::new(axes, level).point(number).map(|point| lists(axes, point))
}

pub fn successor(axes: u32, level: u32, levels: &[u32], indices: &[u32]) -> Result<Option<Lists>, Refusal> {
    let next = Shape::new(axes, level).successor(&unmarked(levels), levels, indices);
    next.map(|next| next.map(|point| lists(axes, point)))
}

pub fn parent(
    axes: u32,
    level: u32,
    levels: &[u32],
    indices: &[u32],
    axis: u32,
    right: bool,
) -> Result<Option<Lists>, Refusal> {
    let side = if right { Side::Right } else { Side::Left };
    let parent = Shape::new(axes, level).parent(&unmarked(levels), levels, indices, axis, side);
    parent.map(|parent| parent.map(|point| lists(axes, point)))
}

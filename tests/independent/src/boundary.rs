//! The boundary as the checks call it, in one place: on shapes of either sort in [`bordered`], and beside it the same calls
//! without border values, with the flag 0 and all marks 0, for the checks of such tables. House files, component grids and
//! accounts have neither flag nor marks.

#![allow(clippy::too_many_arguments)]

use crate::model::bordered::{Eights, Lists, Shape};

pub use numolefays::boundary::{
    account_usage, close_table, component_coefficients, empty_account, house_file_shape, open_table, read_house_file,
    rewrite_house_file, table_under, write_house_file,
};

fn shape(axes: u32, level: u32) -> Shape {
    Shape::new(axes, level, 0)
}

fn lists(levels: &[u32], indices: &[u32]) -> Lists {
    Lists { marks: vec![0; levels.len()], levels: levels.to_vec(), indices: indices.to_vec() }
}

/// A call that answers a point, whose marks are then all 0.
fn point_out(levels: &mut [u32; 8], indices: &mut [u32; 8], call: impl FnOnce(&mut Eights) -> u32) -> u32 {
    let mut out = Eights { marks: [0; 8], levels: *levels, indices: *indices };
    let number = call(&mut out);
    assert_eq!(out.marks, [0; 8], "a point of a table without border values");
    (*levels, *indices) = (out.levels, out.indices);
    number
}

pub fn count(axes: u32, level: u32, points: &mut u64, place: &mut u64) -> u32 {
    bordered::count(shape(axes, level), points, place)
}

pub fn number_of_point(
    axes: u32,
    level: u32,
    levels: &[u32],
    indices: &[u32],
    number: &mut u64,
    place: &mut u64,
) -> u32 {
    bordered::number_of_point(shape(axes, level), &lists(levels, indices), number, place)
}

pub fn point_of_number(
    axes: u32,
    level: u32,
    number: u64,
    levels: &mut [u32; 8],
    indices: &mut [u32; 8],
    place: &mut u64,
) -> u32 {
    point_out(levels, indices, |out| bordered::point_of_number(shape(axes, level), number, out, place))
}

pub fn successor(
    axes: u32,
    level: u32,
    levels: &[u32],
    indices: &[u32],
    next_levels: &mut [u32; 8],
    next_indices: &mut [u32; 8],
    end: &mut u32,
    place: &mut u64,
) -> u32 {
    let of = lists(levels, indices);
    point_out(next_levels, next_indices, |out| bordered::successor(shape(axes, level), &of, out, end, place))
}

pub fn parent(
    axes: u32,
    level: u32,
    levels: &[u32],
    indices: &[u32],
    axis: u32,
    side: u32,
    parent_levels: &mut [u32; 8],
    parent_indices: &mut [u32; 8],
    border: &mut u32,
    place: &mut u64,
) -> u32 {
    let of = lists(levels, indices);
    point_out(parent_levels, parent_indices, |out| {
        bordered::parent(shape(axes, level), &of, axis, side, out, border, place)
    })
}

pub fn load(axes: u32, level: u32, table: &mut [i64], forward: &mut u8, place: &mut u64) -> u32 {
    bordered::load(shape(axes, level), table, forward, place)
}

pub fn adopt(axes: u32, level: u32, table: &[i64], forward: &mut u8, place: &mut u64) -> u32 {
    bordered::adopt(shape(axes, level), table, forward, place)
}

pub fn forward(axes: u32, level: u32, forward: &mut u8, table: &mut [i64], axis: u32, place: &mut u64) -> u32 {
    bordered::forward(shape(axes, level), forward, table, axis, place)
}

pub fn back(axes: u32, level: u32, forward: &mut u8, table: &mut [i64], axis: u32, place: &mut u64) -> u32 {
    bordered::back(shape(axes, level), forward, table, axis, place)
}

pub fn unload(axes: u32, level: u32, forward: u8, table: &mut [i64], place: &mut u64) -> u32 {
    bordered::unload(shape(axes, level), forward, table, place)
}

pub fn rates_to_coefficients(axes: u32, level: u32, table: &mut [i64], place: &mut u64) -> u32 {
    bordered::rates_to_coefficients(shape(axes, level), table, place)
}

pub fn coefficients_to_rates(axes: u32, level: u32, table: &mut [i64], place: &mut u64) -> u32 {
    bordered::coefficients_to_rates(shape(axes, level), table, place)
}

pub fn run(
    axes: u32,
    level: u32,
    forward: &mut u8,
    table: &mut [i64],
    directions: &[u8],
    turned: &[u32],
    numbers: &mut [u32],
    places: &mut [u64],
    place: &mut u64,
) -> u32 {
    bordered::run(shape(axes, level), forward, table, directions, turned, numbers, places, place)
}

pub fn estimate(
    axes: u32,
    level: u32,
    forward: u8,
    table: &[i64],
    coordinates: &[u32],
    estimate: &mut i64,
    place: &mut u64,
) -> u32 {
    bordered::estimate(shape(axes, level), forward, table, coordinates, estimate, place)
}

pub fn estimate_with_margin(
    axes: u32,
    level: u32,
    forward: u8,
    table: &[i64],
    coordinates: &[u32],
    estimate: &mut i64,
    absolute_sum: &mut u64,
    margin: &mut u64,
    place: &mut u64,
) -> u32 {
    let shape = shape(axes, level);
    bordered::estimate_with_margin(shape, forward, table, coordinates, estimate, absolute_sum, margin, place)
}

/// The calls with a shape and a point as the separate code has them. Each function passes its arguments on and nothing else.
pub mod bordered {
    use crate::model::bordered::{Eights, Lists, Shape};
    use numolefays::boundary;

    pub fn count(shape: Shape, points: &mut u64, place: &mut u64) -> u32 {
        boundary::count(shape.axes, shape.level, shape.border, points, place)
    }

    pub fn number_of_point(shape: Shape, of: &Lists, number: &mut u64, place: &mut u64) -> u32 {
        let Shape { axes, level, border } = shape;
        boundary::number_of_point(axes, level, border, &of.marks, &of.levels, &of.indices, number, place)
    }

    pub fn point_of_number(shape: Shape, number: u64, out: &mut Eights, place: &mut u64) -> u32 {
        let Shape { axes, level, border } = shape;
        let Eights { marks, levels, indices } = out;
        boundary::point_of_number(axes, level, border, number, marks, levels, indices, place)
    }

    pub fn successor(shape: Shape, of: &Lists, out: &mut Eights, end: &mut u32, place: &mut u64) -> u32 {
        let Shape { axes, level, border } = shape;
        let Eights { marks, levels, indices } = out;
        boundary::successor(axes, level, border, &of.marks, &of.levels, &of.indices, marks, levels, indices, end, place)
    }

    pub fn parent(
        shape: Shape,
        of: &Lists,
        axis: u32,
        side: u32,
        out: &mut Eights,
        none: &mut u32,
        place: &mut u64,
    ) -> u32 {
        let Shape { axes, level, border } = shape;
        let Eights { marks, levels, indices } = out;
        boundary::parent(
            axes,
            level,
            border,
            &of.marks,
            &of.levels,
            &of.indices,
            axis,
            side,
            marks,
            levels,
            indices,
            none,
            place,
        )
    }

    pub fn load(shape: Shape, table: &mut [i64], forward: &mut u8, place: &mut u64) -> u32 {
        boundary::load(shape.axes, shape.level, shape.border, table, forward, place)
    }

    pub fn adopt(shape: Shape, table: &[i64], forward: &mut u8, place: &mut u64) -> u32 {
        boundary::adopt(shape.axes, shape.level, shape.border, table, forward, place)
    }

    pub fn forward(shape: Shape, forward: &mut u8, table: &mut [i64], axis: u32, place: &mut u64) -> u32 {
        boundary::forward(shape.axes, shape.level, shape.border, forward, table, axis, place)
    }

    pub fn back(shape: Shape, forward: &mut u8, table: &mut [i64], axis: u32, place: &mut u64) -> u32 {
        boundary::back(shape.axes, shape.level, shape.border, forward, table, axis, place)
    }

    pub fn unload(shape: Shape, forward: u8, table: &mut [i64], place: &mut u64) -> u32 {
        boundary::unload(shape.axes, shape.level, shape.border, forward, table, place)
    }

    pub fn rates_to_coefficients(shape: Shape, table: &mut [i64], place: &mut u64) -> u32 {
        boundary::rates_to_coefficients(shape.axes, shape.level, shape.border, table, place)
    }

    pub fn coefficients_to_rates(shape: Shape, table: &mut [i64], place: &mut u64) -> u32 {
        boundary::coefficients_to_rates(shape.axes, shape.level, shape.border, table, place)
    }

    pub fn run(
        shape: Shape,
        forward: &mut u8,
        table: &mut [i64],
        directions: &[u8],
        turned: &[u32],
        numbers: &mut [u32],
        places: &mut [u64],
        place: &mut u64,
    ) -> u32 {
        let Shape { axes, level, border } = shape;
        boundary::run(axes, level, border, forward, table, directions, turned, numbers, places, place)
    }

    pub fn estimate(
        shape: Shape,
        forward: u8,
        table: &[i64],
        coordinates: &[u32],
        estimate: &mut i64,
        place: &mut u64,
    ) -> u32 {
        boundary::estimate(shape.axes, shape.level, shape.border, forward, table, coordinates, estimate, place)
    }

    pub fn estimate_with_margin(
        shape: Shape,
        forward: u8,
        table: &[i64],
        coordinates: &[u32],
        estimate: &mut i64,
        absolute_sum: &mut u64,
        margin: &mut u64,
        place: &mut u64,
    ) -> u32 {
        boundary::estimate_with_margin(
            shape.axes,
            shape.level,
            shape.border,
            forward,
            table,
            coordinates,
            estimate,
            absolute_sum,
            margin,
            place,
        )
    }
}

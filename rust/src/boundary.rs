//! The C interface, declared once. All `unsafe` of this crate is here. What each call does: docs/MANUAL.md, by section.
//!
//! Each function passes its arguments on and nothing else. Each answers 0 where the call succeeded, else the refusal's
//! number; `place` gets the refusal's place, 0 where the call succeeded. Other outputs are written only where the call
//! succeeded; after a refusal they and every buffer hold what they held. `border` says whether the shape has values on the
//! border: 0 is no, every other number yes. A point goes in as marks, levels and indices, and comes out so, 0 in the places
//! past the last axis. Most callers want [`crate::Shape`], [`crate::State`] and [`crate::Account`]
//! instead.
//!
//! Why the `unsafe` blocks are sound: the library needs pointers to as many places as it is told, aligned, not null, and
//! none that it writes overlapping another; Rust's slices and `&mut` references are that, also where a slice is empty. It
//! keeps no pointer after a call, and its functions are proved to touch nothing else.

#![allow(unsafe_code)]
#![allow(clippy::too_many_arguments)]

mod raw {
    extern "C" {
        pub fn numolefays_count(axes: u32, level: u32, border: u8, points: *mut u64, place: *mut u64) -> u32;
        pub fn numolefays_number_of_point(
            axes: u32,
            level: u32,
            border: u8,
            marks: *const u32,
            marks_len: usize,
            levels: *const u32,
            levels_len: usize,
            indices: *const u32,
            indices_len: usize,
            number: *mut u64,
            place: *mut u64,
        ) -> u32;
        pub fn numolefays_point_of_number(
            axes: u32,
            level: u32,
            border: u8,
            number: u64,
            marks: *mut [u32; 8],
            levels: *mut [u32; 8],
            indices: *mut [u32; 8],
            place: *mut u64,
        ) -> u32;
        pub fn numolefays_successor(
            axes: u32,
            level: u32,
            border: u8,
            marks: *const u32,
            marks_len: usize,
            levels: *const u32,
            levels_len: usize,
            indices: *const u32,
            indices_len: usize,
            next_marks: *mut [u32; 8],
            next_levels: *mut [u32; 8],
            next_indices: *mut [u32; 8],
            end: *mut u32,
            place: *mut u64,
        ) -> u32;
        pub fn numolefays_parent(
            axes: u32,
            level: u32,
            border: u8,
            marks: *const u32,
            marks_len: usize,
            levels: *const u32,
            levels_len: usize,
            indices: *const u32,
            indices_len: usize,
            axis: u32,
            side: u32,
            parent_marks: *mut [u32; 8],
            parent_levels: *mut [u32; 8],
            parent_indices: *mut [u32; 8],
            none: *mut u32,
            place: *mut u64,
        ) -> u32;
        pub fn numolefays_load(
            axes: u32,
            level: u32,
            border: u8,
            table: *mut i64,
            len: usize,
            forward: *mut u8,
            place: *mut u64,
        ) -> u32;
        pub fn numolefays_adopt(
            axes: u32,
            level: u32,
            border: u8,
            table: *const i64,
            len: usize,
            forward: *mut u8,
            place: *mut u64,
        ) -> u32;
        pub fn numolefays_forward(
            axes: u32,
            level: u32,
            border: u8,
            forward: *mut u8,
            table: *mut i64,
            len: usize,
            axis: u32,
            place: *mut u64,
        ) -> u32;
        pub fn numolefays_back(
            axes: u32,
            level: u32,
            border: u8,
            forward: *mut u8,
            table: *mut i64,
            len: usize,
            axis: u32,
            place: *mut u64,
        ) -> u32;
        pub fn numolefays_unload(
            axes: u32,
            level: u32,
            border: u8,
            forward: u8,
            table: *mut i64,
            len: usize,
            place: *mut u64,
        ) -> u32;
        pub fn numolefays_rates_to_coefficients(
            axes: u32,
            level: u32,
            border: u8,
            table: *mut i64,
            len: usize,
            place: *mut u64,
        ) -> u32;
        pub fn numolefays_coefficients_to_rates(
            axes: u32,
            level: u32,
            border: u8,
            table: *mut i64,
            len: usize,
            place: *mut u64,
        ) -> u32;
        pub fn numolefays_run(
            axes: u32,
            level: u32,
            border: u8,
            forward: *mut u8,
            table: *mut i64,
            len: usize,
            directions: *const u8,
            directions_len: usize,
            turned: *const u32,
            turned_len: usize,
            numbers: *mut u32,
            numbers_len: usize,
            places: *mut u64,
            places_len: usize,
            place: *mut u64,
        ) -> u32;
        pub fn numolefays_estimate(
            axes: u32,
            level: u32,
            border: u8,
            forward: u8,
            table: *const i64,
            len: usize,
            coordinates: *const u32,
            coordinates_len: usize,
            estimate: *mut i64,
            place: *mut u64,
        ) -> u32;
        pub fn numolefays_estimate_with_margin(
            axes: u32,
            level: u32,
            border: u8,
            forward: u8,
            table: *const i64,
            len: usize,
            coordinates: *const u32,
            coordinates_len: usize,
            estimate: *mut i64,
            absolute_sum: *mut u64,
            margin: *mut u64,
            place: *mut u64,
        ) -> u32;
        pub fn numolefays_component_coefficients(
            levels: *const u32,
            levels_len: usize,
            table: *mut i64,
            len: usize,
            place: *mut u64,
        ) -> u32;
        pub fn numolefays_empty_account(account: *mut [u8; 32], place: *mut u64) -> u32;
        pub fn numolefays_open_table(
            account: *mut [u8; 32],
            office: u32,
            tag: u32,
            axes: u32,
            level: u32,
            place: *mut u64,
        ) -> u32;
        pub fn numolefays_close_table(account: *mut [u8; 32], office: u32, tag: u32, place: *mut u64) -> u32;
        pub fn numolefays_account_usage(
            account: *const [u8; 32],
            by_office: *mut [u64; 4],
            in_all: *mut u64,
            common_used: *mut u64,
            common_free: *mut u64,
            place: *mut u64,
        ) -> u32;
        pub fn numolefays_table_under(
            account: *const [u8; 32],
            office: u32,
            tag: u32,
            axes: *mut u32,
            level: *mut u32,
            none: *mut u32,
            place: *mut u64,
        ) -> u32;
        pub fn numolefays_read_house_file(
            bytes: *const u8,
            bytes_len: usize,
            table: *mut i64,
            len: usize,
            axes: *mut u32,
            level: *mut u32,
            place: *mut u64,
        ) -> u32;
        pub fn numolefays_house_file_shape(
            bytes: *const u8,
            bytes_len: usize,
            axes: *mut u32,
            level: *mut u32,
            points: *mut u64,
            place: *mut u64,
        ) -> u32;
        pub fn numolefays_write_house_file(
            axes: u32,
            level: u32,
            rates: *const i64,
            rates_len: usize,
            out: *mut u8,
            out_len: usize,
            length: *mut u64,
            place: *mut u64,
        ) -> u32;
        pub fn numolefays_rewrite_house_file(
            bytes: *const u8,
            bytes_len: usize,
            most_points: usize,
            out: *mut u8,
            out_len: usize,
            length: *mut u64,
            place: *mut u64,
        ) -> u32;
    }
}

/// How many points the shape has. Section 3. Refused with 1, 2, 19.
pub fn count(axes: u32, level: u32, border: u8, points: &mut u64, place: &mut u64) -> u32 {
    unsafe { raw::numolefays_count(axes, level, border, points, place) }
}

/// The number of a point. Section 4. Refused with 1, 2, 19, 7, 9.
pub fn number_of_point(
    axes: u32,
    level: u32,
    border: u8,
    marks: &[u32],
    levels: &[u32],
    indices: &[u32],
    number: &mut u64,
    place: &mut u64,
) -> u32 {
    unsafe {
        raw::numolefays_number_of_point(
            axes,
            level,
            border,
            marks.as_ptr(),
            marks.len(),
            levels.as_ptr(),
            levels.len(),
            indices.as_ptr(),
            indices.len(),
            number,
            place,
        )
    }
}

/// The point of a number. Section 4. Refused with 1, 2, 19, 6.
pub fn point_of_number(
    axes: u32,
    level: u32,
    border: u8,
    number: u64,
    marks: &mut [u32; 8],
    levels: &mut [u32; 8],
    indices: &mut [u32; 8],
    place: &mut u64,
) -> u32 {
    unsafe { raw::numolefays_point_of_number(axes, level, border, number, marks, levels, indices, place) }
}

/// The point numbered one higher; `end` is 1 after the last, and the arrays then hold what they held. Section 5.
/// Refused with 1, 2, 19, 7, 9.
pub fn successor(
    axes: u32,
    level: u32,
    border: u8,
    marks: &[u32],
    levels: &[u32],
    indices: &[u32],
    next_marks: &mut [u32; 8],
    next_levels: &mut [u32; 8],
    next_indices: &mut [u32; 8],
    end: &mut u32,
    place: &mut u64,
) -> u32 {
    unsafe {
        raw::numolefays_successor(
            axes,
            level,
            border,
            marks.as_ptr(),
            marks.len(),
            levels.as_ptr(),
            levels.len(),
            indices.as_ptr(),
            indices.len(),
            next_marks,
            next_levels,
            next_indices,
            end,
            place,
        )
    }
}

/// The parent on an axis: side 0 is left, every other number right; `none` is 1 where there is no such point, and the arrays
/// then hold what they held. Section 6. Refused with 1, 2, 19, 5, 7, 9.
pub fn parent(
    axes: u32,
    level: u32,
    border: u8,
    marks: &[u32],
    levels: &[u32],
    indices: &[u32],
    axis: u32,
    side: u32,
    parent_marks: &mut [u32; 8],
    parent_levels: &mut [u32; 8],
    parent_indices: &mut [u32; 8],
    none: &mut u32,
    place: &mut u64,
) -> u32 {
    unsafe {
        raw::numolefays_parent(
            axes,
            level,
            border,
            marks.as_ptr(),
            marks.len(),
            levels.as_ptr(),
            levels.len(),
            indices.as_ptr(),
            indices.len(),
            axis,
            side,
            parent_marks,
            parent_levels,
            parent_indices,
            none,
            place,
        )
    }
}

/// Rates to a loaded table. Section 9. Refused with 1, 2, 19, 3, 4.
pub fn load(axes: u32, level: u32, border: u8, table: &mut [i64], forward: &mut u8, place: &mut u64) -> u32 {
    unsafe { raw::numolefays_load(axes, level, border, table.as_mut_ptr(), table.len(), forward, place) }
}

/// Coefficients as they are. Section 9. Refused with 1, 2, 19, 3, 10.
pub fn adopt(axes: u32, level: u32, border: u8, table: &[i64], forward: &mut u8, place: &mut u64) -> u32 {
    unsafe { raw::numolefays_adopt(axes, level, border, table.as_ptr(), table.len(), forward, place) }
}

/// Forward on one axis. Section 8. Refused with 1, 2, 14, 19, 3, 5, 15, 10.
pub fn forward(
    axes: u32,
    level: u32,
    border: u8,
    forward: &mut u8,
    table: &mut [i64],
    axis: u32,
    place: &mut u64,
) -> u32 {
    unsafe { raw::numolefays_forward(axes, level, border, forward, table.as_mut_ptr(), table.len(), axis, place) }
}

/// Back on one axis. Section 8. Refused with 1, 2, 14, 19, 3, 5, 16, 10.
pub fn back(axes: u32, level: u32, border: u8, forward: &mut u8, table: &mut [i64], axis: u32, place: &mut u64) -> u32 {
    unsafe { raw::numolefays_back(axes, level, border, forward, table.as_mut_ptr(), table.len(), axis, place) }
}

/// A loaded table to rates. Section 9. Refused with 1, 2, 14, 19, 3, 18, 10.
pub fn unload(axes: u32, level: u32, border: u8, forward: u8, table: &mut [i64], place: &mut u64) -> u32 {
    unsafe { raw::numolefays_unload(axes, level, border, forward, table.as_mut_ptr(), table.len(), place) }
}

/// Rates to coefficients, whole. Section 9. Refused with 1, 2, 19, 3, 4.
pub fn rates_to_coefficients(axes: u32, level: u32, border: u8, table: &mut [i64], place: &mut u64) -> u32 {
    unsafe { raw::numolefays_rates_to_coefficients(axes, level, border, table.as_mut_ptr(), table.len(), place) }
}

/// Coefficients to rates, whole. Section 9. Refused with 1, 2, 19, 3, 10.
pub fn coefficients_to_rates(axes: u32, level: u32, border: u8, table: &mut [i64], place: &mut u64) -> u32 {
    unsafe { raw::numolefays_coefficients_to_rates(axes, level, border, table.as_mut_ptr(), table.len(), place) }
}

/// A list of turns: direction 0 is forward, any other is back; `numbers` and `places` get each turn's refusal, 0 and 0 where
/// it was carried out. Section 10. Refused with 1, 2, 14, 19, 3, and with 7 where the four lists are not of one length.
pub fn run(
    axes: u32,
    level: u32,
    border: u8,
    forward: &mut u8,
    table: &mut [i64],
    directions: &[u8],
    turned: &[u32],
    numbers: &mut [u32],
    places: &mut [u64],
    place: &mut u64,
) -> u32 {
    unsafe {
        raw::numolefays_run(
            axes,
            level,
            border,
            forward,
            table.as_mut_ptr(),
            table.len(),
            directions.as_ptr(),
            directions.len(),
            turned.as_ptr(),
            turned.len(),
            numbers.as_mut_ptr(),
            numbers.len(),
            places.as_mut_ptr(),
            places.len(),
            place,
        )
    }
}

/// The surface at these coordinates. Section 11. Refused with 1, 2, 14, 19, 3, 17, 7, 8, 10.
pub fn estimate(
    axes: u32,
    level: u32,
    border: u8,
    forward: u8,
    table: &[i64],
    coordinates: &[u32],
    estimate: &mut i64,
    place: &mut u64,
) -> u32 {
    unsafe {
        raw::numolefays_estimate(
            axes,
            level,
            border,
            forward,
            table.as_ptr(),
            table.len(),
            coordinates.as_ptr(),
            coordinates.len(),
            estimate,
            place,
        )
    }
}

/// The same estimate, with S and the margin, rounded up to a whole number. Section 11.
/// Refused with 1, 2, 14, 19, 3, 17, 7, 8, 10.
pub fn estimate_with_margin(
    axes: u32,
    level: u32,
    border: u8,
    forward: u8,
    table: &[i64],
    coordinates: &[u32],
    estimate: &mut i64,
    absolute_sum: &mut u64,
    margin: &mut u64,
    place: &mut u64,
) -> u32 {
    unsafe {
        raw::numolefays_estimate_with_margin(
            axes,
            level,
            border,
            forward,
            table.as_ptr(),
            table.len(),
            coordinates.as_ptr(),
            coordinates.len(),
            estimate,
            absolute_sum,
            margin,
            place,
        )
    }
}

/// Rates to coefficients on a component grid with these top levels, laid out by coordinate, axis 1 running fastest.
/// Section 18. Refused with 1, 2, 19, 3, 4.
pub fn component_coefficients(levels: &[u32], table: &mut [i64], place: &mut u64) -> u32 {
    unsafe {
        raw::numolefays_component_coefficients(levels.as_ptr(), levels.len(), table.as_mut_ptr(), table.len(), place)
    }
}

/// An account in which nothing is open. Section 20. Never refused.
pub fn empty_account(account: &mut [u8; 32], place: &mut u64) -> u32 {
    unsafe { raw::numolefays_empty_account(account, place) }
}

/// An office opens a table under a tag. Section 20. Refused with 20 for the account, 1, 2, 19, 22, 21, and with 20 where the
/// common points would pass 49,152.
pub fn open_table(account: &mut [u8; 32], office: u32, tag: u32, axes: u32, level: u32, place: &mut u64) -> u32 {
    unsafe { raw::numolefays_open_table(account, office, tag, axes, level, place) }
}

/// An office closes the table under a tag. Section 20. Refused with 20 for the account, 22, 21.
pub fn close_table(account: &mut [u8; 32], office: u32, tag: u32, place: &mut u64) -> u32 {
    unsafe { raw::numolefays_close_table(account, office, tag, place) }
}

/// The points open, by office and in all, and the common points in use and free. Section 20. Refused with 20.
pub fn account_usage(
    account: &[u8; 32],
    by_office: &mut [u64; 4],
    in_all: &mut u64,
    common_used: &mut u64,
    common_free: &mut u64,
    place: &mut u64,
) -> u32 {
    unsafe { raw::numolefays_account_usage(account, by_office, in_all, common_used, common_free, place) }
}

/// The axes and the top level of the table under a tag; `none` is 1 where nothing is open, else 0. Section 20. Refused with 20
/// for the account, 22.
pub fn table_under(
    account: &[u8; 32],
    office: u32,
    tag: u32,
    axes: &mut u32,
    level: &mut u32,
    none: &mut u32,
    place: &mut u64,
) -> u32 {
    unsafe { raw::numolefays_table_under(account, office, tag, axes, level, none, place) }
}

/// A house file's rates into the first places of the table. Section 12. Refused with 11 or 12 for d and for n, 1, 2, 19, 3,
/// 11 or 12 for each rate, 13.
pub fn read_house_file(bytes: &[u8], table: &mut [i64], axes: &mut u32, level: &mut u32, place: &mut u64) -> u32 {
    unsafe {
        raw::numolefays_read_house_file(
            bytes.as_ptr(),
            bytes.len(),
            table.as_mut_ptr(),
            table.len(),
            axes,
            level,
            place,
        )
    }
}

/// The shape of a house file and its number of points, from the first two numbers alone. Section 16. Refused with 11 or 12
/// for d and for n, 1, 2, 19.
pub fn house_file_shape(bytes: &[u8], axes: &mut u32, level: &mut u32, points: &mut u64, place: &mut u64) -> u32 {
    unsafe { raw::numolefays_house_file_shape(bytes.as_ptr(), bytes.len(), axes, level, points, place) }
}

/// The house file of a shape and its rates into the first bytes of `out`; `length` is how many they are. Section 16. Refused
/// with 1, 2, 19, 3, 4, and with 3 where `out` is shorter than the file.
pub fn write_house_file(
    axes: u32,
    level: u32,
    rates: &[i64],
    out: &mut [u8],
    length: &mut u64,
    place: &mut u64,
) -> u32 {
    unsafe {
        raw::numolefays_write_house_file(
            axes,
            level,
            rates.as_ptr(),
            rates.len(),
            out.as_mut_ptr(),
            out.len(),
            length,
            place,
        )
    }
}

/// The one form of a house file of at most `most_points` points into the first bytes of `out`; `length` is how many they are.
/// Section 16. Refused with 11 or 12 for d and for n, 1, 2, 19, 3, 11 or 12 for each rate, 13, and with 3 where `out` is shorter
/// than the form.
pub fn rewrite_house_file(bytes: &[u8], most_points: usize, out: &mut [u8], length: &mut u64, place: &mut u64) -> u32 {
    unsafe {
        raw::numolefays_rewrite_house_file(
            bytes.as_ptr(),
            bytes.len(),
            most_points,
            out.as_mut_ptr(),
            out.len(),
            length,
            place,
        )
    }
}

//! Count, number of a point, point of a number, successor, parent.

use super::{answer, refusal};
use crate::boundary;
use crate::draw::Draw;
use crate::inputs;
use crate::model::grid::{count, grid};
use crate::model::points as model;
use crate::report::Report;
use crate::wrapper;
use numolefays::Shape;

pub fn count_of(draw: &mut Draw, report: &mut Report, axes: u32, level: u32) {
    const CALL: &str = "count";
    let want = model::points(axes, level);
    let (number, place) = answer(&want);
    report.case(CALL, number);
    let say = || format!("axes {axes} level {level}");
    let junk = draw.bits();
    let (mut points, mut at) = (junk, draw.bits());
    let got = boundary::count(axes, level, &mut points, &mut at);
    report.same(CALL, "answer and place", &(number, place), &(got, at), &say);
    report.same(CALL, "points", &want.unwrap_or(junk), &points, &say);
    report.same(CALL, "wrapper", &want.map_err(refusal), &Shape::new(axes, level).points(), &say);
}

pub fn number_of(draw: &mut Draw, report: &mut Report, axes: u32, level: u32, levels: &[u32], indices: &[u32]) {
    const CALL: &str = "number";
    let want = model::number_of(axes, level, levels, indices);
    let (number, place) = answer(&want);
    report.case(CALL, number);
    let say = || format!("axes {axes} level {level} levels {levels:?} indices {indices:?}");
    let junk = draw.bits();
    let (mut found, mut at) = (junk, draw.bits());
    let got = boundary::number_of_point(axes, level, levels, indices, &mut found, &mut at);
    report.same(CALL, "answer and place", &(number, place), &(got, at), &say);
    report.same(CALL, "number", &want.unwrap_or(junk), &found, &say);
    report.same(CALL, "wrapper", &want.map_err(refusal), &wrapper::number_of(axes, level, levels, indices), &say);
}

pub fn point_of(draw: &mut Draw, report: &mut Report, axes: u32, level: u32, number: u64) {
    const CALL: &str = "point";
    let want = model::point_of(axes, level, number);
    let (refused, place) = answer(&want);
    report.case(CALL, refused);
    let say = || format!("axes {axes} level {level} number {number}");
    let junk: [[u32; 8]; 2] = [[draw.bits() as u32; 8], [draw.bits() as u32; 8]];
    let ([mut levels, mut indices], mut at) = (junk, draw.bits());
    let got = boundary::point_of_number(axes, level, number, &mut levels, &mut indices, &mut at);
    report.same(CALL, "answer and place", &(refused, place), &(got, at), &say);
    report.same(CALL, "levels and indices", &want.unwrap_or((junk[0], junk[1])), &(levels, indices), &say);
    report.same(CALL, "wrapper", &want.map_err(refusal), &wrapper::point(axes, level, number), &say);
}

pub fn successor(draw: &mut Draw, report: &mut Report, axes: u32, level: u32, levels: &[u32], indices: &[u32]) {
    const CALL: &str = "successor";
    let want = model::successor(axes, level, levels, indices);
    let (number, place) = answer(&want);
    report.case(CALL, number);
    let say = || format!("axes {axes} level {level} levels {levels:?} indices {indices:?}");
    let junk: [[u32; 8]; 2] = [[draw.bits() as u32; 8], [draw.bits() as u32; 8]];
    let ([mut next_levels, mut next_indices], junk_end) = (junk, draw.bits() as u32);
    let (mut end, mut at) = (junk_end, draw.bits());
    let got = boundary::successor(axes, level, levels, indices, &mut next_levels, &mut next_indices, &mut end, &mut at);
    report.same(CALL, "answer and place", &(number, place), &(got, at), &say);
    let want_end = match want {
        Ok(Some(_)) => 0,
        Ok(None) => 1,
        Err(_) => junk_end,
    };
    report.same(CALL, "end", &want_end, &end, &say);
    let want_next = want.ok().flatten().unwrap_or((junk[0], junk[1]));
    report.same(CALL, "levels and indices", &want_next, &(next_levels, next_indices), &say);
    report.same(CALL, "wrapper", &want.map_err(refusal), &wrapper::successor(axes, level, levels, indices), &say);
}

#[allow(clippy::too_many_arguments)]
pub fn parent(
    draw: &mut Draw,
    report: &mut Report,
    axes: u32,
    level: u32,
    levels: &[u32],
    indices: &[u32],
    axis: u32,
    side: u32,
) {
    const CALL: &str = "parent";
    let want = model::parent(axes, level, levels, indices, axis, side != 0);
    let (number, place) = answer(&want);
    report.case(CALL, number);
    let say = || format!("axes {axes} level {level} levels {levels:?} indices {indices:?} axis {axis} side {side}");
    let junk: [[u32; 8]; 2] = [[draw.bits() as u32; 8], [draw.bits() as u32; 8]];
    let ([mut l, mut i], junk_border) = (junk, draw.bits() as u32);
    let (mut border, mut at) = (junk_border, draw.bits());
    let got = boundary::parent(axes, level, levels, indices, axis, side, &mut l, &mut i, &mut border, &mut at);
    report.same(CALL, "answer and place", &(number, place), &(got, at), &say);
    let want_border = match want {
        Ok(Some(_)) => 0,
        Ok(None) => 1,
        Err(_) => junk_border,
    };
    report.same(CALL, "border", &want_border, &border, &say);
    report.same(CALL, "levels and indices", &want.ok().flatten().unwrap_or((junk[0], junk[1])), &(l, i), &say);
    let wrapped = wrapper::parent(axes, level, levels, indices, axis, side != 0);
    report.same(CALL, "wrapper", &want.map_err(refusal), &wrapped, &say);
}

/// One random case of each.
pub fn random(draw: &mut Draw, report: &mut Report, most: u64) {
    let (axes, level) = inputs::shape(draw, most);
    count_of(draw, report, axes, level);
    let (levels, indices) = lists(draw, axes, level);
    number_of(draw, report, axes, level, &levels, &indices);
    let (levels, indices) = lists(draw, axes, level);
    successor(draw, report, axes, level, &levels, &indices);
    let (levels, indices) = lists(draw, axes, level);
    let (axis, side) = (inputs::axis(draw, axes), draw.of(&[0, 0, 1, 1, 2, 1 << 31, u32::MAX]));
    parent(draw, report, axes, level, &levels, &indices, axis, side);
    let n = if inputs::is_shape(axes, level) { count(axes, level) as u64 } else { 5 };
    let inside = draw.below(n);
    let beyond =
        [n, n + 1, (1 << 32) + inside, (1 << 32) + 34, (1 << 63) + inside, 1 << 63, u64::from(u32::MAX), u64::MAX];
    let number = match draw.below(8) {
        0 => draw.of(&beyond),
        1 => n - 1,
        _ => inside,
    };
    point_of(draw, report, axes, level, number);
}

/// Levels and indices: a point of the shape, then in every second case something wrong with it.
fn lists(draw: &mut Draw, axes: u32, level: u32) -> (Vec<u32>, Vec<u32>) {
    let (mut levels, mut indices) = if inputs::is_shape(axes, level) {
        let grid = grid(axes, level);
        let p = if draw.one_in(12) { grid.lists.len() - 1 } else { draw.index(grid.lists.len()) };
        let (l, i) = grid.lists[p];
        let keep = axes as usize;
        (l[..keep].iter().map(|&v| u32::from(v)).collect(), i[..keep].iter().map(|&v| u32::from(v)).collect())
    } else {
        (vec![0; axes.min(10) as usize], vec![1; axes.min(10) as usize])
    };
    if levels.is_empty() {
        return (levels, indices);
    }
    let t = draw.index(levels.len());
    let l = levels[t];
    let width = 1u32 << (l + 1);
    let even = [0, 2, width, width - 2, indices[t] + 1, 1 << 31];
    let large = [width + 1, width | (1 << 16) | 1, (1 << 31) + 1, u32::MAX];
    let above = [l + 1, 8, 9, level.saturating_add(1), 200, 255, 256, 256 + l, 65_536 + l, 1 << 31, u32::MAX];
    let shifted = [31, 32, 33, 63, 64];
    match draw.below(14) {
        0 => indices[t] = if draw.one_in(2) { draw.of(&even) } else { draw.of(&large) },
        1 => levels[t] = if draw.one_in(3) { draw.of(&shifted) } else { draw.of(&above) },
        2 => {
            // a sum that wraps around 32 bits
            let u = draw.index(levels.len());
            levels[t] = draw.of(&[u32::MAX, 1 << 31, u32::MAX - 3]);
            if u != t {
                levels[u] = draw.of(&[1, 2, 1 << 31, 4]);
            }
        }
        3 => {
            // the top level passed by one, each level small
            levels[t] += 1;
            indices[t] = 2 * indices[t] - 1;
        }
        4 => levels.truncate(draw.index(levels.len())),
        5 => indices.truncate(draw.index(indices.len())),
        6 => {
            let longer = 1 + draw.index(9);
            match draw.below(3) {
                0 => levels.extend(vec![0; longer]),
                1 => indices.extend(vec![1; longer]),
                _ => {
                    levels.extend(vec![0; longer]);
                    indices.extend(vec![1; longer]);
                }
            }
        }
        7 => {
            // of the wrong length, and naming nothing
            levels[t] = u32::MAX;
            indices.push(1);
        }
        _ => (),
    }
    (levels, indices)
}

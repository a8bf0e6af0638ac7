//! What calls on shapes of either sort are handed: good inputs, and every kind of bad one.

use crate::draw::Draw;
use crate::inputs::{self, LIMIT};
use crate::model::bordered::calls::Call;
use crate::model::bordered::grid::grid;
use crate::model::bordered::readings::RIGHT;
use crate::model::bordered::turns::{forward_of, loaded, narrow};
use crate::model::bordered::{Lists, Shape};

/// A flag that says yes: every number but 0.
pub fn flag(draw: &mut Draw) -> u8 {
    draw.of(&[1, 1, 1, 1, 2, 3, 4, 16, 127, 128, 254, 255])
}

/// A shape that is one, with at most so many points; of three, two with border values.
pub fn good_shape(draw: &mut Draw, most: u64) -> Shape {
    if draw.one_in(3) {
        let (axes, level) = inputs::good_shape(draw, most);
        return Shape::new(axes, level, 0);
    }
    loop {
        let shape = Shape::new(1 + draw.below(4) as u32, draw.below(9) as u32, flag(draw));
        if shape.count() as u64 <= most {
            return shape;
        }
    }
}

/// A shape of more than 32,768 points; of three, two with border values.
fn too_large(draw: &mut Draw) -> Shape {
    if draw.one_in(3) {
        let (axes, level) = inputs::too_large(draw);
        return Shape::new(axes, level, 0);
    }
    let (axes, level) = draw.of(&[(3, 8), (4, 6), (4, 7), (4, 8)]);
    Shape::new(axes, level, flag(draw))
}

/// A shape that is mostly one, and now and then too large.
pub fn shape(draw: &mut Draw, most: u64) -> Shape {
    let good = good_shape(draw, most);
    let Shape { axes, level, border } = good;
    let many = [0, 5, 6, 7, 8, 9, 255, 256 + axes, 65_536 + axes, (1 << 31) + axes, u32::MAX];
    let high = [9, 10, 31, 32, 63, 255, 256 + level, 65_536 + level, (1 << 31) + level, u32::MAX];
    match draw.below(20) {
        0 | 1 => Shape::new(draw.of(&many), level, border),
        2 => Shape::new(axes, draw.of(&high), border),
        3 => Shape::new(draw.of(&many), draw.of(&high), flag(draw)),
        4 => too_large(draw),
        _ => good,
    }
}

/// How many places a table of this shape is handed in with: mostly N, and a few where the shape is refused.
pub fn places(draw: &mut Draw, shape: Shape) -> usize {
    if shape.check().is_err() {
        return draw.index(40);
    }
    let n = shape.count();
    if !draw.one_in(10) {
        return n;
    }
    // of the same axes and top level without border values, or with them
    let other = Shape { border: if shape.flagged() { 0 } else { flag(draw) }, ..shape };
    let of_other = if other.check().is_ok() { other.count() } else { n + 2 };
    draw.of(&[0, 1, n - 1, n + 1, n / 2, 2 * n, n + 8, of_other])
}

/// Contents for any shape and length.
pub fn contents(draw: &mut Draw, shape: Shape, bits: u8) -> Vec<i64> {
    let places = places(draw, shape);
    if shape.check().is_err() || places != shape.count() {
        let tame = draw.one_in(2);
        return (0..places).map(|_| if tame { draw.between(-9, 9) * 256 } else { inputs::odd_value(draw) }).collect();
    }
    match draw.below(12) {
        // from accepted rates, or from rates of which some may be none
        0..=3 => {
            let rates = inputs::rates(draw, places);
            table_of_set(shape, &rates, bits)
        }
        4 => {
            let rates = inputs::any_rates(draw, places);
            table_of_set(shape, &rates.iter().map(|r| r.clamp(&-LIMIT, &LIMIT) / 16).collect::<Vec<i64>>(), bits)
        }
        // then damaged in a place or two, often on the border
        5 | 6 => {
            let rates = inputs::rates(draw, places);
            let mut table = table_of_set(shape, &rates, bits);
            for _ in 0..1 + draw.below(2) {
                let p = any_place(draw, places);
                let by = draw.of(&[1, -1, 2, -2, 4, 16, 256, -512, 1 << 20, LIMIT, -LIMIT]);
                table[p] = if draw.one_in(4) { inputs::odd_value(draw) } else { table[p].wrapping_add(by) };
            }
            table
        }
        // multiples of a power of two, which some turns take and some do not
        7 => {
            let unit = 1 << draw.below(6);
            (0..places).map(|_| unit * draw.between(-5, 5)).collect()
        }
        // zeros and one value or a few
        8 => {
            let mut table = vec![0; places];
            for _ in 0..1 + draw.below(3) {
                let p = any_place(draw, places);
                table[p] = draw.of(&[1, 3, -5, 1 << 31, LIMIT >> 9, -LIMIT >> 12, LIMIT, -LIMIT, LIMIT + 1]);
            }
            table
        }
        // about the ends of the limit
        9 | 10 => {
            let ends = draw.of(&[[LIMIT, -LIMIT], [LIMIT, LIMIT], [-LIMIT, -LIMIT], [LIMIT, 0]]);
            let mut table: Vec<i64> = (0..places)
                .map(|_| {
                    let end = draw.of(&ends);
                    end - end.signum() * (draw.between(0, 2) << shape.axes)
                })
                .collect();
            if draw.one_in(3) {
                let p = any_place(draw, places);
                table[p] = draw.of(&[LIMIT + 1, -LIMIT - 1, i64::MIN, i64::MAX]);
            }
            table
        }
        // the ends of the type
        _ => (0..places).map(|_| draw.of(&[i64::MIN, i64::MAX, 0])).collect(),
    }
}

/// A place, in every second case one of the last, where the border is.
fn any_place(draw: &mut Draw, places: usize) -> usize {
    if draw.one_in(2) {
        places - 1 - draw.index(places.min(9))
    } else {
        draw.index(places)
    }
}

/// Each rate times 2^d, then forward on the axes of the set as far as the contents allow it.
fn table_of_set(shape: Shape, rates: &[i64], bits: u8) -> Vec<i64> {
    let grid = grid(shape, &RIGHT);
    let mut table = loaded(shape, &grid, rates, &RIGHT);
    for t in (0..shape.axes as usize).filter(|&t| bits >> t & 1 == 1) {
        table = forward_of(&grid, &table, t).unwrap_or(table);
    }
    narrow(&table)
}

/// The lists of a point of the shape.
pub fn point(draw: &mut Draw, shape: Shape) -> Lists {
    let grid = grid(shape, &RIGHT);
    let p = if draw.one_in(12) { grid.order.len() - 1 } else { draw.index(grid.order.len()) };
    grid.lists(p).lists(shape.axes)
}

/// The lists of a point of the shape, then in every second case something wrong with them.
pub fn lists(draw: &mut Draw, shape: Shape) -> Lists {
    let mut lists = if shape.check().is_ok() {
        point(draw, shape)
    } else {
        let many = shape.axes.min(10) as usize;
        Lists { marks: vec![0; many], levels: vec![0; many], indices: vec![1; many] }
    };
    let many = lists.levels.len();
    if many == 0 {
        return lists;
    }
    let t = draw.index(many);
    let l = lists.levels[t].min(8);
    match draw.below(20) {
        // a mark that is none, or one without the flag
        0 => lists.marks[t] = draw.of(&[3, 4, 255, 256, 257, 258, 1 << 16, (1 << 31) + 1, u32::MAX]),
        // an inner axis marked, a border axis unmarked or exchanged
        1 | 2 => lists.marks[t] = draw.of(&[0, 1, 2]),
        // a border axis with a level or an index
        3 => {
            lists.marks[t] = draw.of(&[1, 2]);
            lists.levels[t] = draw.of(&[0, 1, 2, 8, 256, u32::MAX]);
        }
        4 => {
            lists.marks[t] = draw.of(&[1, 2]);
            lists.indices[t] = draw.of(&[0, 1, 2, 3, 257, 65_537, u32::MAX]);
        }
        5 => {
            let width = 1u32 << (l + 1);
            lists.indices[t] = draw.of(&[0, 2, width, width - 2, width + 1, (1 << 31) + 1, u32::MAX]);
        }
        6 => lists.levels[t] = draw.of(&[l + 1, 8, 9, 31, 32, 64, 255, 256 + l, 65_536 + l, 1 << 31, u32::MAX]),
        7 => {
            // a sum that wraps around 32 bits
            let u = draw.index(many);
            lists.levels[t] = draw.of(&[u32::MAX, 1 << 31, u32::MAX - 3]);
            if u != t {
                lists.levels[u] = draw.of(&[1, 2, 1 << 31, 4]);
            }
        }
        8 => {
            // the top level passed by one, each level small
            lists.levels[t] += 1;
            lists.indices[t] = 2 * lists.indices[t] - 1;
        }
        9 => one(&mut lists, draw).truncate(draw.index(many)),
        10 => {
            let longer = 1 + draw.index(9);
            one(&mut lists, draw).extend(vec![1; longer]);
        }
        11 => {
            let longer = 1 + draw.index(9);
            lists.marks.extend(vec![0; longer]);
            lists.levels.extend(vec![0; longer]);
            lists.indices.extend(vec![1; longer]);
        }
        12 => {
            // of the wrong length, and naming nothing
            lists.marks[t] = u32::MAX;
            one(&mut lists, draw).push(1);
        }
        _ => (),
    }
    lists
}

fn one<'a>(lists: &'a mut Lists, draw: &mut Draw) -> &'a mut Vec<u32> {
    match draw.below(3) {
        0 => &mut lists.marks,
        1 => &mut lists.levels,
        _ => &mut lists.indices,
    }
}

/// Coordinates, in every second case one of them at a border.
pub fn coordinates(draw: &mut Draw, shape: Shape) -> Vec<u32> {
    let mut list = inputs::coordinates(draw, shape.axes);
    if !list.is_empty() && draw.one_in(2) {
        let t = draw.index(list.len());
        list[t] = draw.of(&[0, 1, inputs::END - 1, inputs::END]);
    }
    list
}

/// The same table and coordinates to both calls for an estimate.
pub fn estimates(bits: u8, table: &[i64], coordinates: &[u32]) -> [Call; 2] {
    let (table, coordinates) = (table.to_vec(), coordinates.to_vec());
    [
        Call::Estimate { bits, table: table.clone(), coordinates: coordinates.clone() },
        Call::Margin { bits, table, coordinates },
    ]
}

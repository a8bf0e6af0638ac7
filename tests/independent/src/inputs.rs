//! What the calls are handed: good inputs, and every kind of bad one.

use crate::draw::Draw;
use crate::model::estimates::{OLD_UNIT, UNIT};
use crate::model::grid::{count, grid};
use crate::model::turns::{forward_of, turn_table};
use crate::model::{self, MOST_POINTS};

pub const LIMIT: i64 = 1 << 47;

/// The last coordinate, and the last before change request e.
pub const END: u32 = UNIT as u32;
pub const OLD_END: u32 = OLD_UNIT as u32;

/// A shape that is one, with at most so many points.
pub fn good_shape(draw: &mut Draw, most: u64) -> (u32, u32) {
    loop {
        let (axes, level) = (1 + draw.below(8) as u32, draw.below(9) as u32);
        if count(axes, level) <= u128::from(most) {
            return (axes, level);
        }
    }
}

/// A shape of more than 32,768 points.
pub fn too_large(draw: &mut Draw) -> (u32, u32) {
    loop {
        let (axes, level) = (1 + draw.below(8) as u32, draw.below(9) as u32);
        if count(axes, level) > MOST_POINTS {
            return (axes, level);
        }
    }
}

/// A shape that is mostly one, and now and then too large.
pub fn shape(draw: &mut Draw, most: u64) -> (u32, u32) {
    let (axes, level) = good_shape(draw, most);
    let bad_axes = [0, 9, 10, 16, 255, 256, 256 + axes, 65_536 + axes, 1 << 31, (1 << 31) + axes, u32::MAX];
    let bad_level = [9, 10, 16, 31, 32, 63, 64, 255, 256 + level, 65_536 + level, 1 << 31, (1 << 31) + level, u32::MAX];
    match draw.below(20) {
        0 => (draw.of(&bad_axes), level),
        1 => (axes, draw.of(&bad_level)),
        2 if draw.one_in(3) => (draw.of(&bad_axes), draw.of(&bad_level)),
        3 => too_large(draw),
        _ => (axes, level),
    }
}

/// Whether a shape is none of refusals 1, 2 and 19.
pub fn is_shape(axes: u32, level: u32) -> bool {
    model::shape(axes, level).is_ok()
}

/// How many places a table of this shape is handed in with: mostly N, and a few where the shape is refused.
pub fn places(draw: &mut Draw, axes: u32, level: u32) -> usize {
    if !is_shape(axes, level) {
        return draw.index(40);
    }
    let n = count(axes, level) as usize;
    if !draw.one_in(10) {
        return n;
    }
    let other = |a: u32, l: u32| if is_shape(a, l) { count(a, l) as usize } else { 0 };
    let near = [0, 1, n - 1, n + 1, n / 2, 2 * n, n + 8];
    let of_others = [other(axes + 1, level), other(axes - 1, level), other(axes, level + 1)];
    if draw.one_in(3) {
        draw.of(&of_others)
    } else {
        draw.of(&near)
    }
}

/// Bits of a state: mostly none above axis d.
pub fn bits(draw: &mut Draw, axes: u32) -> u8 {
    let any = draw.bits() as u8;
    if draw.one_in(12) || !(1..=8).contains(&axes) {
        return any;
    }
    any & all_bits(axes)
}

pub fn all_bits(axes: u32) -> u8 {
    ((1u32 << axes.min(8)) - 1) as u8
}

/// An axis: mostly one of 1 to d.
pub fn axis(draw: &mut Draw, axes: u32) -> u32 {
    let good = 1 + draw.below(u64::from(axes.clamp(1, 8))) as u32;
    let bad = [0, axes.wrapping_add(1), 8, 9, 32, 33, 255, 256, 1 << 31, u32::MAX];
    let wrapped = [256 + good, 65_536 + good, (1 << 31) + good];
    match draw.below(30) {
        0 | 1 => draw.of(&bad),
        2 => draw.of(&wrapped),
        _ => good,
    }
}

/// Accepted rates: small ones, any, or the ends of the range.
pub fn rates(draw: &mut Draw, places: usize) -> Vec<i64> {
    let (low, high) = (i64::from(i32::MIN), i64::from(i32::MAX));
    match draw.below(4) {
        0 => (0..places).map(|_| draw.between(-9, 9)).collect(),
        1 => (0..places).map(|_| draw.between(low, high)).collect(),
        2 => (0..places).map(|_| draw.of(&[low, high])).collect(),
        _ => (0..places).map(|_| draw.of(&[low, low + 1, -1, 0, 0, 0, 1, high - 1, high])).collect(),
    }
}

/// The rate that is filed as this number: the rates in the order 0, −1, 1, −2, 2.
pub fn rate_filed_as(value: u64) -> i64 {
    let half = (value / 2) as i64;
    if value % 2 == 1 {
        -half - 1
    } else {
        half
    }
}

/// Accepted rates of every size of a filed number: beside the borders of its groups, or of any number of bits.
pub fn filed_rates(draw: &mut Draw, places: usize) -> Vec<i64> {
    let border = |draw: &mut Draw| {
        let at = draw.of(&[0, 1 << 7, 1 << 14, 1 << 21, 1 << 28, 1 << 32]);
        (at + draw.between(-3, 2)).clamp(0, (1 << 32) - 1) as u64
    };
    match draw.below(4) {
        0 => rates(draw, places),
        1 => (0..places).map(|_| rate_filed_as(border(draw))).collect(),
        2 => vec![rate_filed_as(border(draw)); places],
        _ => (0..places)
            .map(|_| {
                let bits = draw.below(33);
                rate_filed_as(draw.below(1 << bits))
            })
            .collect(),
    }
}

/// Rates, mostly accepted.
pub fn any_rates(draw: &mut Draw, places: usize) -> Vec<i64> {
    let table = rates(draw, places);
    some_out_of_range(draw, table)
}

/// The same, now and then with a place or a few that hold no rate.
pub fn some_out_of_range(draw: &mut Draw, mut table: Vec<i64>) -> Vec<i64> {
    let places = table.len();
    if places > 0 && draw.one_in(4) {
        let (low, high) = (i64::from(i32::MIN), i64::from(i32::MAX));
        for _ in 0..1 + draw.below(3) {
            let p = if draw.one_in(4) { places - 1 } else { draw.index(places) };
            table[p] =
                draw.of(&[high + 1, low - 1, 1 << 32, -1 << 32, (1 << 32) + 5, 1 << 62, i64::MIN, i64::MAX, high << 8]);
        }
    }
    table
}

/// A value that a table may hold though it should not, or only just should.
pub fn odd_value(draw: &mut Draw) -> i64 {
    let near = draw.between(-3, 3);
    match draw.below(8) {
        0 => LIMIT + near,
        1 => -LIMIT + near,
        2 => i64::MAX - draw.between(0, 3),
        3 => i64::MIN + draw.between(0, 3),
        4 => draw.bits() as i64,
        5 => (1 << draw.below(63)) + near,
        6 => -(1 << draw.below(63)) + near,
        _ => draw.between(-99, 99),
    }
}

/// Contents of a table of a good shape with N places, on their way to or from coefficients, the axes of `bits` forward: from
/// accepted rates, nearly so, or something else.
pub fn contents(draw: &mut Draw, axes: u32, level: u32, bits: u8) -> Vec<i64> {
    let places = count(axes, level) as usize;
    match draw.below(15) {
        // from accepted rates
        0..=3 => {
            let rates = rates(draw, places);
            table_of_set(axes, level, &rates, bits)
        }
        // from rates of which some are none
        4 => {
            let mut rates = rates(draw, places);
            let p = draw.index(places);
            rates[p] = draw.of(&[1 << 31, -(1 << 31) - 1, 1 << 33, (1 << 38) + 7]);
            table_of_set(axes, level, &rates, bits)
        }
        // from accepted rates, then damaged in a place or two
        5 | 6 => {
            let rates = rates(draw, places);
            let mut table = table_of_set(axes, level, &rates, bits);
            for _ in 0..1 + draw.below(2) {
                let p = draw.index(places);
                let by = draw.of(&[1, -1, 2, -2, 4, 64, 256, -512, 1 << 20, LIMIT, -LIMIT]);
                table[p] = if draw.one_in(4) { odd_value(draw) } else { table[p].wrapping_add(by) };
            }
            table
        }
        // multiples of a power of two, which some turns take and some do not
        7 => {
            let unit = 1 << draw.below(11);
            (0..places).map(|_| unit * draw.between(-5, 5)).collect()
        }
        // zeros and one value or a few
        8 => {
            let mut table = vec![0; places];
            for _ in 0..1 + draw.below(3) {
                let p = draw.index(places);
                table[p] = draw.of(&[1, 3, -5, 1 << 31, LIMIT >> 9, -LIMIT >> 12]) << draw.below(10);
            }
            table
        }
        // the ends of the content limit
        9 => (0..places).map(|_| draw.of(&[LIMIT, -LIMIT, 0])).collect(),
        10 => {
            let mut table = vec![0; places];
            for _ in 0..1 + draw.index(places) {
                let p = draw.index(places);
                table[p] = draw.of(&[LIMIT, -LIMIT, LIMIT / 2, -LIMIT / 2, LIMIT - 1, 1 - LIMIT]);
            }
            table
        }
        // within two units of the ends of the limit, or of one of them, in some with one value past it
        11 | 12 => {
            let ends = draw.of(&[[LIMIT, -LIMIT], [LIMIT, LIMIT], [-LIMIT, -LIMIT]]);
            let mut table: Vec<i64> = (0..places)
                .map(|_| {
                    let end = draw.of(&ends);
                    end - end.signum() * (draw.between(0, 2) << axes)
                })
                .collect();
            if draw.one_in(3) {
                let p = draw.index(places);
                table[p] = draw.of(&[LIMIT + 1, -LIMIT - 1, i64::MIN, i64::MAX]);
            }
            table
        }
        // the ends of the type
        13 => (0..places).map(|_| draw.of(&[i64::MIN, i64::MAX])).collect(),
        // anything
        _ => {
            let mut table: Vec<i64> = (0..places).map(|_| draw.between(-99, 99)).collect();
            for _ in 0..draw.below(3) {
                let p = draw.index(places);
                table[p] = odd_value(draw);
            }
            table
        }
    }
}

/// Contents for any shape and length.
pub fn any_contents(draw: &mut Draw, axes: u32, level: u32, bits: u8) -> Vec<i64> {
    let places = places(draw, axes, level);
    if is_shape(axes, level) && places as u128 == count(axes, level) {
        return contents(draw, axes, level, bits);
    }
    let tame = draw.one_in(2);
    (0..places).map(|_| if tame { draw.between(-9, 9) * 256 } else { odd_value(draw) }).collect()
}

/// Each rate times 2^d, then forward on the axes of the set as far as the contents allow it.
fn table_of_set(axes: u32, level: u32, rates: &[i64], bits: u8) -> Vec<i64> {
    let grid = grid(axes, level);
    let mut table: Vec<i64> = rates.iter().map(|&r| r << axes).collect();
    for t in (0..axes as usize).filter(|&t| bits >> t & 1 == 1) {
        if let Some(after) = turn_table(&grid, false, &table, t) {
            table = after;
        }
    }
    table
}

/// The coefficients of these rates as a map would give them, for tests of the model itself.
pub fn coefficients_by_maps(axes: u32, level: u32, rates: &[i64]) -> Option<Vec<i64>> {
    let grid = grid(axes, level);
    let loaded: Vec<i64> = rates.iter().map(|&r| r << axes).collect();
    let mut values = grid.values(&loaded);
    for t in (0..axes as usize).rev() {
        values = forward_of(&values, t)?;
    }
    Some(grid.table(&values))
}

/// A coordinate: the ends, points of the grid and what is beside them, anything between, old ones times 16, and numbers
/// about the old end.
pub fn coordinate(draw: &mut Draw) -> u32 {
    let level = draw.below(9) as u32;
    let on_grid = (draw.below(1 << (level + 1)) as u32 + 1) * (END / 2u32.pow(level + 1));
    match draw.below(11) {
        0 => draw.of(&[0, 1, 2, END - 1, END, END / 2 - 1, END / 2, END / 2 + 1, END / 3, END - END / 3]),
        1 | 2 => on_grid,
        3 => on_grid - 1,
        4 => (on_grid + 1).min(END),
        5 => 16 * old_coordinate(draw),
        6 => draw.of(&[OLD_END - 1, OLD_END, OLD_END + 1, OLD_END + 2, 16, 15, END - 16, END - 15]),
        _ => draw.below(u64::from(END) + 1) as u32,
    }
}

/// A coordinate as it was before change request e.
pub fn old_coordinate(draw: &mut Draw) -> u32 {
    draw.below(u64::from(OLD_END) + 1) as u32
}

/// A list of coordinates: mostly as long as there are axes, mostly none past the end; in some all are old ones times 16.
pub fn coordinates(draw: &mut Draw, axes: u32) -> Vec<u32> {
    let one = if draw.one_in(6) { |draw: &mut Draw| 16 * old_coordinate(draw) } else { coordinate };
    let mut list: Vec<u32> = (0..list_length(draw, axes)).map(|_| one(draw)).collect();
    if !list.is_empty() && draw.one_in(12) {
        for _ in 0..1 + draw.below(2) {
            let t = draw.index(list.len());
            list[t] = draw.of(&[END + 1, END + 2, 2 * END, 1 << 31, u32::MAX, END + END / 2]);
        }
    }
    list
}

pub fn list_length(draw: &mut Draw, axes: u32) -> usize {
    let good = axes.min(9) as usize;
    if draw.one_in(10) {
        draw.of(&[0, 1, 7, 8, 9, 16, good.saturating_sub(1), good + 1])
    } else {
        good
    }
}

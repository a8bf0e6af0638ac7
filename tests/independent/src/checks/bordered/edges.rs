//! Each call on shapes with border values at the edges of its types: every refusal with any of the later ones matching too,
//! every place of a fault, and what is just accepted and just not.

use super::inputs::estimates;
use super::{walks, Desk};
use crate::inputs::{self, END, LIMIT};
use crate::model::bordered::calls::Call;
use crate::model::bordered::grid::grid;
use crate::model::bordered::readings::RIGHT;
use crate::model::bordered::turns::{loaded, narrow, table_of_set};
use crate::model::bordered::{Lists, Shape};

const TOP: u32 = u32::MAX;
const LEAST: i64 = -2_147_483_648;
const MOST: i64 = 2_147_483_647;
const FLAGS: [u8; 6] = [0, 1, 2, 127, 128, 255];

pub fn all(desk: &mut Desk) {
    counts(desk);
    names(desk);
    lengths(desk);
    numbers(desk);
    together(desk);
    rates(desk);
    limits(desk);
    turns(desk);
    ends(desk);
}

/// Every flag with every number of axes and top level about the ends, and numbers that are small in fewer bits.
fn counts(desk: &mut Desk) {
    let many: Vec<u32> = (0..=10).chain([255, 256, 257, 260, 65_537, 1 << 31, (1 << 31) + 1, TOP - 1, TOP]).collect();
    for border in FLAGS {
        for &axes in &many {
            for &level in &many {
                let shape = Shape::new(axes, level, border);
                desk.call(shape, &Call::Count);
                desk.call(shape, &Call::Load(vec![]));
            }
        }
    }
}

/// All lists of small numbers on one and on two axes, with and without the flag; on four, one axis after the other.
fn names(desk: &mut Desk) {
    // the successor of some, and the parent on one axis and side after the other
    let mut ask = |shape: Shape, marks: &[u32], levels: &[u32], indices: &[u32], k: u32| {
        let of = Lists { marks: marks.to_vec(), levels: levels.to_vec(), indices: indices.to_vec() };
        desk.call(shape, &Call::Number(of.clone()));
        if k % 3 == 0 {
            desk.call(shape, &Call::Successor(of.clone()));
        }
        desk.call(shape, &Call::Parent { of, axis: k % (shape.axes + 2), side: k / 5 % 2 });
    };
    let mut k = 0;
    for border in [0, 1, 255] {
        for mark in [0, 1, 2, 3, 4, 255, 256, 257, 258, 1 << 16, (1 << 16) + 1, 1 << 31, (1 << 31) + 1, TOP] {
            for level in (0..=10).chain([31, 32, 255, 256, 1 << 31, TOP]) {
                for index in (0..=20).chain([255, 257, 511, 512, 513, 65_537, (1 << 31) + 1, TOP]) {
                    k += 1;
                    ask(Shape::new(1, 3, border), &[mark], &[level], &[index], k);
                    if level > 3 {
                        ask(Shape::new(1, 8, border), &[mark], &[level], &[index], k);
                    }
                }
            }
        }
        let (marks, levels, indices) = ([0, 1, 2, 3, TOP], [0, 1, 2, TOP], [0, 1, 3, 5]);
        for m in pairs(&marks) {
            for l in pairs(&levels) {
                for i in pairs(&indices) {
                    k += 1;
                    ask(Shape::new(2, 2, border), &m, &l, &i, k);
                }
            }
        }
        for t in 0..4 {
            for m in marks {
                for l in [0, 1, 2, 3, 8, 9, TOP] {
                    for i in [0, 1, 2, 3, 7, 9, TOP] {
                        k += 1;
                        for others in [0, 1, 2] {
                            let (mut marks, mut levels, mut indices) = ([others; 4], [0; 4], [1; 4]);
                            (marks[t], levels[t], indices[t]) = (m, l, i);
                            ask(Shape::new(4, 2, border), &marks, &levels, &indices, k);
                        }
                    }
                }
            }
        }
    }
}

fn pairs(list: &[u32]) -> Vec<[u32; 2]> {
    list.iter().flat_map(|&a| list.iter().map(move |&b| [a, b])).collect()
}

/// Every length of each list about the number of axes; where the length is right, lists that name a point and lists that name
/// none.
fn lengths(desk: &mut Desk) {
    for axes in 1..=4usize {
        for border in [0, 1] {
            for a in 0..=axes + 2 {
                for b in 0..=axes + 2 {
                    for c in 0..=axes + 2 {
                        for mark in [0, 1, 3] {
                            let of = Lists { marks: vec![mark; a], levels: vec![0; b], indices: vec![1; c] };
                            let shape = Shape::new(axes as u32, 2, border);
                            desk.call(shape, &Call::Number(of.clone()));
                            desk.call(shape, &Call::Successor(of.clone()));
                            for axis in [0, 1, axes as u32, axes as u32 + 1] {
                                desk.call(shape, &Call::Parent { of: of.clone(), axis, side: 1 });
                            }
                        }
                    }
                }
            }
        }
    }
}

/// Point numbers about N, about what is N without the flag, and those that are small in fewer bits.
fn numbers(desk: &mut Desk) {
    for (axes, level) in walks::shapes(25_000) {
        for border in [1, 0] {
            let shape = Shape::new(axes, level, border);
            let (n, other) = (shape.count() as u64, Shape::new(axes, level, 1 - border).count() as u64);
            for number in [0, n / 2, n - 1, n, n + 1, other - 1, other, other + 1, 1 << 32, (1 << 32) + 1, u64::MAX] {
                desk.call(shape, &Call::Point(number));
            }
        }
    }
}

/// Of each call every set of its refusals, all matching at once.
fn together(desk: &mut Desk) {
    for which in 0..1u32 << 9 {
        let is = |k: u32| which >> k & 1 == 1;
        for axes in 1..=4 {
            let border = desk.draw.of(&[1, 1, 255, 128]);
            let good = Shape::new(axes, 1, border);
            let (n, all) = (good.count(), good.all_bits());
            // 1, 2, 14, 3
            let mut shape = good;
            if is(0) {
                shape.axes = desk.draw.of(&[0, 5, 6, 7, 8, 9, 256 + axes, TOP]);
            }
            if is(1) {
                shape.level = desk.draw.of(&[9, 10, 255, 257, TOP]);
            }
            let stray = if is(2) { 1 << (axes + desk.draw.below(u64::from(8 - axes)) as u32) } else { 0 };
            let length = if is(3) { desk.draw.of(&[0, n - 1, n + 1, n / 2]) } else { n };
            let contents = if is(8) { LIMIT + 1 } else { 0 };
            let table = vec![contents; length];

            let point_lists = |mark: u32, off: [bool; 3]| {
                let of = |value: u32, off: bool| vec![value; if off { axes as usize + 1 } else { axes as usize }];
                Lists { marks: of(mark, off[0]), levels: of(0, off[1]), indices: of(1, off[2]) }
            };
            let axis = if is(4) { desk.draw.of(&[0, axes + 1, 8, 256 + 1, TOP]) } else { axes };
            let of = point_lists(if is(8) { 3 } else { 1 }, [is(5), is(6), is(7)]);
            if !is(2) && !is(3) {
                desk.call(shape, &Call::Parent { of: of.clone(), axis, side: 0 });
                desk.call(shape, &Call::Number(of.clone()));
                desk.call(shape, &Call::Successor(of));
                desk.call(shape, &Call::Point(if is(4) { n as u64 } else { 0 }));
            }
            for back in [false, true] {
                let held = if back != is(5) { all } else { 0 };
                let bits = stray | held;
                desk.call(shape, &Call::Turn { back, bits, table: table.clone(), axis });
            }
            // 18 and 17 at each axis
            for t in 0..=axes {
                let some = if t == axes { 0 } else { all & !((1 << t) - 1) };
                desk.call(shape, &Call::Unload { bits: stray | some, table: table.clone() });
                let mut coordinates = vec![END / 2; if is(5) { axes as usize + 1 } else { axes as usize }];
                if is(6) {
                    let first = desk.draw.index(coordinates.len());
                    coordinates[first..].fill(END + 1);
                }
                for call in estimates(stray | (all & !some), &table, &coordinates) {
                    desk.call(shape, &call);
                }
            }
            if !is(2) {
                let rates = vec![if is(8) { MOST + 1 } else { 1 }; length];
                for make in [Call::Load, Call::ToCoefficients] {
                    desk.call(shape, &make(rates.clone()));
                }
                for make in [Call::Adopt, Call::ToRates] {
                    desk.call(shape, &make(table.clone()));
                }
            }
            let directions = vec![0; if is(4) { 3 } else { 2 }];
            let turned = vec![1; if is(5) { 0 } else { 2 }];
            let (numbers, places) = (vec![77; if is(6) { 1 } else { 2 }], vec![77; if is(7) { 3 } else { 2 }]);
            let call = Call::Run { bits: stray, table, directions, axes: turned, numbers, places };
            desk.call(shape, &call);
        }
    }
}

/// Every place of every small shape that holds no rate, alone and with later ones; and the ends of the rates.
fn rates(desk: &mut Desk) {
    let none = [MOST + 1, LEAST - 1, 1 << 32, -(1 << 32), i64::MAX, i64::MIN, 1 << 47, -(1 << 47)];
    for (axes, level) in walks::shapes(130) {
        let shape = Shape::new(axes, level, super::inputs::flag(&mut desk.draw));
        let n = shape.count();
        for ends in [[MOST, LEAST], [MOST, MOST], [LEAST, LEAST]] {
            let rates: Vec<i64> = (0..n).map(|_| desk.draw.of(&ends)).collect();
            for make in [Call::Load, Call::ToCoefficients] {
                desk.call(shape, &make(rates.clone()));
            }
            for p in 0..n {
                let mut rates = rates.clone();
                rates[p] = desk.draw.of(&none);
                let later = p + desk.draw.index(n - p);
                rates[later] = desk.draw.of(&none);
                for make in [Call::Load, Call::ToCoefficients] {
                    desk.call(shape, &make(rates.clone()));
                }
            }
        }
    }
}

/// Every place of every small shape at the content limit and past it, of each call that asks for it; and at and past the ends
/// of what 2^d times a rate can be.
fn limits(desk: &mut Desk) {
    for (axes, level) in walks::shapes(130) {
        let shape = Shape::new(axes, level, super::inputs::flag(&mut desk.draw));
        let (n, all, unit) = (shape.count(), shape.all_bits(), 1i64 << axes);
        for p in 0..n {
            for value in [LIMIT, LIMIT + 1, -LIMIT, -LIMIT - 1, i64::MAX, i64::MIN] {
                let mut table = vec![0; n];
                table[p] = value;
                desk.call(shape, &Call::Adopt(table.clone()));
                let coordinates: Vec<u32> = (0..axes).map(|_| inputs::coordinate(&mut desk.draw)).collect();
                for call in estimates(all, &table, &coordinates) {
                    desk.call(shape, &call);
                }
                for axis in 1..=axes {
                    desk.call(shape, &Call::Turn { back: false, bits: 0, table: table.clone(), axis });
                    desk.call(shape, &Call::Turn { back: true, bits: all, table: table.clone(), axis });
                }
            }
            let ends = [unit * MOST, unit * MOST + unit, unit * LEAST, unit * LEAST - unit, unit * MOST + unit / 2];
            for value in ends.into_iter().chain([1, unit / 2, unit, i64::MAX, i64::MIN, unit << 32]) {
                let mut table = vec![0; n];
                table[p] = value;
                desk.call(shape, &Call::Unload { bits: 0, table: table.clone() });
                desk.call(shape, &Call::ToRates(table));
            }
        }
    }
}

/// Turns with a fault at one place, every place of every small shape: a value that is odd, and one that takes a value after the
/// turn, or before it, to the limit or past it.
fn turns(desk: &mut Desk) {
    for (axes, level) in walks::shapes(130) {
        let shape = Shape::new(axes, level, super::inputs::flag(&mut desk.draw));
        let (grid, all) = (grid(shape, &RIGHT), shape.all_bits());
        let rates: Vec<i64> = (0..shape.count()).map(|_| desk.draw.between(-99, 99)).collect();
        let up = narrow(&loaded(shape, &grid, &rates, &RIGHT));
        let down = narrow(&table_of_set(shape, &grid, &rates, 1..=axes, &RIGHT).expect("coefficients"));
        for axis in 1..=axes {
            for p in 0..shape.count() {
                for by in [1, -1, 2, LIMIT, -LIMIT, LIMIT / 2, 1 - LIMIT] {
                    for (back, bits, table) in [(false, 0, &up), (true, all, &down)] {
                        let mut table = table.clone();
                        table[p] += by;
                        desk.call(shape, &Call::Turn { back, bits, table, axis });
                    }
                }
            }
            // the border at the limit and a point beside it that the turn takes to the limit or past it
            for (p, &beside) in grid.near()[axis as usize - 1].iter().enumerate() {
                for q in beside.into_iter().flatten() {
                    for past in [0, 1] {
                        for end in [LIMIT, -LIMIT] {
                            let mut table = vec![0; shape.count()];
                            (table[q as usize], table[p]) = (end, -end / 2 - end.signum() * past);
                            let forward = Call::Turn { back: false, bits: 0, table: table.clone(), axis };
                            desk.call(shape, &forward);
                            table[p] = end / 2 + end.signum() * past;
                            desk.call(shape, &Call::Turn { back: true, bits: all, table, axis });
                        }
                    }
                }
            }
        }
    }
}

/// Each axis in turn at the borders, beside them and past the end, the others anywhere; those after it past the end as well.
fn ends(desk: &mut Desk) {
    let some = [0, 1, 2, 65_535, 65_536, 65_537, END / 2, END - 1, END, END + 1, END + 2, 1 << 31, TOP - 1, TOP];
    for axes in 1..=4 {
        for level in [0, 2] {
            let shape = Shape::new(axes, level, super::inputs::flag(&mut desk.draw));
            let table: Vec<i64> = (0..shape.count()).map(|_| desk.draw.between(-LIMIT, LIMIT)).collect();
            for t in 0..axes as usize {
                for x in some {
                    let mut coordinates: Vec<u32> = (0..axes).map(|_| inputs::coordinate(&mut desk.draw)).collect();
                    coordinates[t] = x;
                    for call in estimates(shape.all_bits(), &table, &coordinates) {
                        desk.call(shape, &call);
                    }
                    coordinates[t + 1..].fill(TOP);
                    for call in estimates(shape.all_bits(), &table, &coordinates) {
                        desk.call(shape, &call);
                    }
                }
            }
        }
        // every corner, edge and middle of the finest lattice of a small shape
        let shape = Shape::new(axes, 1, 1);
        let table: Vec<i64> = (0..shape.count()).map(|_| desk.draw.between(-LIMIT, LIMIT)).collect();
        for spot in 0..5u32.pow(axes) {
            let coordinates: Vec<u32> = (0..axes).map(|t| spot / 5u32.pow(t) % 5 * (END / 4)).collect();
            for call in estimates(shape.all_bits(), &table, &coordinates) {
                desk.call(shape, &call);
            }
        }
    }
}

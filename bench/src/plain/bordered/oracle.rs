//! The plain code against tables made by searching coordinates: every point of small shapes, and random tables.

use super::super::points::Point;
use super::super::{LIMIT, UNIT};
use super::{count, estimates, points, turns::Faces};
use crate::input;
use std::collections::HashMap;

/// Coordinates in 512ths.
type At = Vec<u32>;

struct Grid {
    axes: usize,
    level: u32,
    order: Vec<(At, Point)>,
    number: HashMap<At, usize>,
}

/// Mark, level and index of a coordinate.
fn named(c: u32) -> (u32, u32, u32) {
    match c {
        0 => (1, 0, 1),
        512 => (2, 0, 1),
        _ => (0, 8 - c.trailing_zeros(), c >> c.trailing_zeros()),
    }
}

impl Grid {
    fn new(axes: usize, level: u32) -> Grid {
        let step = 512 >> (level + 1);
        let mut all: Vec<At> = vec![vec![]];
        for _ in 0..axes {
            all = all.iter().flat_map(|at| (0..=512).step_by(step).map(|c| [&at[..], &[c]].concat())).collect();
        }
        let mut order: Vec<(At, Point)> = all.into_iter().map(|at| (at.clone(), point(&at))).collect();
        order.retain(|(_, p)| p.levels.iter().sum::<u32>() <= level);
        order.sort_by_key(|(_, p)| {
            let reversed = |list: [u32; 8]| list.into_iter().rev().collect::<Vec<u32>>();
            let (mut place, mut width) = (0, 1);
            for (l, i) in p.levels.iter().zip(p.indices).take(axes) {
                place += (i - 1) / 2 * width;
                width <<= l;
            }
            let borders = p.marks.iter().filter(|&&m| m > 0).count();
            (borders, reversed(p.marks), p.levels.iter().sum::<u32>(), reversed(p.levels), place)
        });
        let number = order.iter().enumerate().map(|(k, (at, _))| (at.clone(), k)).collect();
        Grid { axes, level, order, number }
    }

    /// The numbers of the two points beside a point on an axis, or none on its border.
    fn beside(&self, at: &At, t: usize) -> Option<[usize; 2]> {
        let step = match at[t] {
            0 | 512 => return None,
            c => 1 << c.trailing_zeros(),
        };
        Some([at[t] - step, at[t] + step].map(|c| {
            let mut beside = at.clone();
            beside[t] = c;
            self.number[&beside]
        }))
    }

    fn sums(&self, table: &[i64], t: usize) -> Vec<i64> {
        self.order
            .iter()
            .map(|(at, _)| self.beside(at, t).map_or(0, |ends| ends.map(|p| table[p]).iter().sum()))
            .collect()
    }

    fn forward(&self, table: &[i64], t: usize) -> Option<Vec<i64>> {
        let sums = self.sums(table, t);
        let after: Vec<i64> = table.iter().zip(&sums).map(|(v, s)| v - s.div_euclid(2)).collect();
        let fine = sums.iter().all(|s| s % 2 == 0) && table.iter().chain(&after).all(|v| (-LIMIT..=LIMIT).contains(v));
        fine.then_some(after)
    }

    /// By levels on the axis, the parents' first, then turned forward again.
    fn back(&self, table: &[i64], t: usize) -> Option<Vec<i64>> {
        let mut before = table.to_vec();
        for level in 0..=self.level {
            for (p, (at, point)) in self.order.iter().enumerate() {
                if point.marks[t] == 0 && point.levels[t] == level {
                    before[p] += self.beside(at, t).unwrap().map(|q| before[q]).iter().sum::<i64>().div_euclid(2);
                }
            }
        }
        (self.forward(&before, t)? == table).then_some(before)
    }

    fn estimate(&self, table: &[i64], x: &[u32]) -> (i64, u64, u64) {
        let (mut total, mut reached) = (0i128, 0);
        for ((at, p), &v) in self.order.iter().zip(table) {
            let (mut joint, mut above) = (UNIT, true);
            for t in 0..self.axes {
                let x = u64::from(x[t]);
                let weight = match at[t] {
                    0 => UNIT - x,
                    512 => x,
                    _ => UNIT.saturating_sub((x << (p.levels[t] + 1)).abs_diff(u64::from(p.indices[t]) * UNIT)),
                };
                joint = joint * weight / UNIT;
                above &= weight > 0;
            }
            total += i128::from(v) * i128::from(joint);
            reached += if above { v.unsigned_abs() } else { 0 };
        }
        let unit = i128::from(UNIT);
        let estimate = total.signum() * ((2 * total.abs() + unit) / (2 * unit));
        let margin =
            (u128::from(reached) * (self.axes as u128 - 1) * 2 + u128::from(UNIT)).div_ceil(2 * u128::from(UNIT));
        (estimate as i64, reached, margin as u64)
    }
}

fn point(at: &At) -> Point {
    let mut point = Point { marks: [0; 8], levels: [0; 8], indices: [0; 8] };
    for (t, &c) in at.iter().enumerate() {
        (point.marks[t], point.levels[t], point.indices[t]) = named(c);
    }
    point
}

fn grids() -> Vec<Grid> {
    let most = [0, 8, 4, 3, 2];
    (1..=4).flat_map(|axes| (0..=most[axes]).map(move |level| Grid::new(axes, level))).collect()
}

#[test]
fn every_point() {
    for grid in grids() {
        let (d, axes, level) = (grid.axes, grid.axes as u32, grid.level);
        assert_eq!(count(d, level) as usize, grid.order.len());
        assert_eq!(points::point_of(axes, level, grid.order.len() as u64), Err(6));
        for (number, (at, p)) in grid.order.iter().enumerate() {
            let (m, l, i) = (&p.marks[..d], &p.levels[..d], &p.indices[..d]);
            assert_eq!(points::number_of(axes, level, m, l, i), Ok(number as u64), "{d} {level} {p:?}");
            assert_eq!(points::point_of(axes, level, number as u64), Ok(*p));
            assert_eq!(points::successor(axes, level, m, l, i), Ok(grid.order.get(number + 1).map(|o| o.1)));
            for t in 0..d {
                for right in [false, true] {
                    let want = grid.beside(at, t).map(|ends| grid.order[ends[usize::from(right)]].1);
                    assert_eq!(points::parent(axes, level, m, l, i, t as u32 + 1, right), Ok(want));
                }
            }
        }
    }
}

#[test]
fn lists_that_are_refused() {
    let number = points::number_of;
    assert_eq!(number(0, 1, &[], &[], &[]), Err(1));
    assert_eq!(number(5, 9, &[0; 5], &[0; 5], &[1; 5]), Err(1));
    assert_eq!(number(4, 9, &[3; 4], &[0; 4], &[1; 4]), Err(2));
    assert_eq!(number(2, 1, &[0], &[0; 2], &[1; 2]), Err(7));
    assert_eq!(number(2, 1, &[0; 2], &[0; 3], &[1; 2]), Err(7));
    for (m, l, i) in
        [(3, 0, 1), (u32::MAX, 0, 1), (1, 1, 1), (2, 0, 3), (0, 2, 1), (0, u32::MAX, 1), (0, 1, 5), (0, 0, 2)]
    {
        assert_eq!(number(2, 1, &[0, m], &[0, l], &[1, i]), Err(9));
        assert_eq!(points::parent(2, 1, &[m, 0], &[l, 0], &[i, 1], 2, true), Err(9));
        assert_eq!(points::successor(2, 1, &[m, 0], &[l, 0], &[i, 1]), Err(9));
    }
    assert_eq!(points::parent(2, 1, &[3], &[0], &[1], 3, true), Err(5));
    assert_eq!(points::point_of(4, 9, 0), Err(2));
}

/// Tables whose turns are accepted, and tables whose turns are not: odd sums and values at the content limit.
#[test]
fn turns() {
    for grid in grids() {
        let d = grid.axes;
        let faces = Faces::new(d, grid.level);
        let rates = input::rates(grid.order.len());
        let mut table: Vec<i64> = rates.iter().map(|r| r << d).collect();
        let (mut whole, mut refused, mut accepted) = (rates.clone(), 0, 0);
        assert_eq!(faces.rates_to_coefficients(&mut whole), Ok(()));
        for t in 0..d {
            let after = grid.forward(&table, t).expect("a loaded table");
            let former = table.clone();
            assert!(faces.forward(&mut table, t) && table == after, "forward");
            assert!(faces.back(&mut table, t) && table == former, "back");
            table = after;
        }
        assert!(whole == table, "whole");
        assert!(faces.coefficients_to_rates(&mut whole) && whole == rates, "whole back");
        for (k, &choice) in input::numbers(60, 1 << 20).iter().enumerate() {
            let scale = [1, 2, 1 << 12, LIMIT >> 31, LIMIT >> 29][k % 5];
            let mut table: Vec<i64> = rates.iter().map(|r| (r * scale).clamp(-LIMIT - 1, LIMIT + 1)).collect();
            let place = choice as usize % table.len();
            table[place] += choice as i64 % 3;
            for t in 0..d {
                let mut mine = table.clone();
                let want = grid.forward(&table, t);
                assert_eq!(faces.forward(&mut mine, t), want.is_some(), "forward");
                assert!(&mine == want.as_ref().unwrap_or(&table), "after a forward turn");
                let mut mine = table.clone();
                let want = grid.back(&table, t);
                accepted += usize::from(want.is_some());
                refused += usize::from(want.is_none());
                assert_eq!(faces.back(&mut mine, t), want.is_some(), "back");
                assert!(&mine == want.as_ref().unwrap_or(&table), "after a back turn");
            }
            let mut mine = table.clone();
            let want = (0..d)
                .try_fold(table.clone(), |b, t| grid.back(&b, t))
                .filter(|b| b.iter().all(|v| v % (1 << d) == 0 && i32::try_from(v >> d).is_ok()));
            assert_eq!(faces.coefficients_to_rates(&mut mine), want.is_some());
            assert!(mine == want.map_or(table, |b| b.iter().map(|v| v >> d).collect::<Vec<i64>>()), "whole back");
        }
        assert!(refused > 0 && accepted > 0, "both kinds are met");
    }
}

#[test]
fn estimates() {
    for grid in grids() {
        let d = grid.axes;
        let table = input::rates(grid.order.len());
        let ends = [0, 1, UNIT as u32 / 2, UNIT as u32 - 1, UNIT as u32];
        let mut places = input::coordinates(20, d);
        places.extend(ends.iter().map(|&x| vec![x; d]));
        places.extend(grid.order.iter().step_by(7).map(|(at, _)| at.iter().map(|&c| c << 11).collect()));
        for x in &places {
            let want = grid.estimate(&table, x);
            assert_eq!(estimates::with_margin(d, grid.level, &table, x), want);
            assert_eq!(estimates::estimate(d, grid.level, &table, x), want.0);
        }
    }
}

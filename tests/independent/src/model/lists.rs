//! A turn list by list: one level list after the other, all points of a list together.
//!
//! A parent stands in a list of smaller sum. From the highest sum down, the points of a list find their parents as they
//! were before the turn; from the lowest sum up, they find them as they are after it.

use super::grid::{At, Values};

/// A level list.
#[derive(Debug)]
pub struct List {
    /// The level on each axis, axis 1 first; 0 past the last axis.
    pub levels: [u16; 8],
    /// Its points: on each axis every odd index of the level there.
    pub points: Vec<At>,
}

/// Lists one after the other.
pub type Walk<'a> = Vec<&'a List>;

/// How the work on one list is read.
#[derive(Clone, Copy)]
pub struct Reading {
    /// All sums of a list are read before any of its values is changed.
    pub together: bool,
    /// The two neighbours of an odd index i, as numbers over 2^(l+1).
    pub neighbours: fn(i: u16) -> [u16; 2],
}

pub const RIGHT: Reading = Reading { together: true, neighbours: |i| [i - 1, i + 1] };

/// The level lists of a shape, by their sums from 0 to n.
pub fn lists(axes: u32, level: u32) -> Vec<List> {
    let mut all = Vec::new();
    for sum in 0..=level {
        all.extend(of_sum(axes as usize, sum as u16).into_iter().map(|levels| List::new(axes as usize, levels)));
    }
    all
}

/// Every list of so many levels with this sum: each level of the last axis, with every list of the others that has the
/// rest.
fn of_sum(axes: usize, sum: u16) -> Vec<[u16; 8]> {
    if axes == 0 {
        return if sum == 0 { vec![[0; 8]] } else { vec![] };
    }
    let mut all = Vec::new();
    for level in 0..=sum {
        for mut levels in of_sum(axes - 1, sum - level) {
            levels[axes - 1] = level;
            all.push(levels);
        }
    }
    all
}

impl List {
    fn new(axes: usize, levels: [u16; 8]) -> List {
        let mut points: Vec<At> = vec![[0; 8]];
        for t in 0..axes {
            let under = 2u16.pow(u32::from(levels[t]) + 1);
            let mut longer = Vec::new();
            for at in points {
                for i in (1..under).filter(|i| i % 2 == 1) {
                    let mut at = at;
                    at[t] = i * (512 / under);
                    longer.push(at);
                }
            }
            points = longer;
        }
        List { levels, points }
    }

    pub fn sum(&self) -> u16 {
        self.levels.iter().sum()
    }
}

/// The walk of a turn: forward from the highest sum down, back from the lowest sum up.
pub fn walk(lists: &[List], back: bool) -> Walk<'_> {
    let mut walk: Walk = lists.iter().collect();
    walk.sort_by_key(|list| if back { i32::from(list.sum()) } else { -i32::from(list.sum()) });
    walk
}

/// What a walk makes of a table on axis t, from 0.
pub fn turn(values: &Values, back: bool, t: usize, walk: &[&List], reading: &Reading) -> Values {
    let mut values = values.clone();
    for list in walk {
        step(&mut values, back, t, list, reading);
    }
    values
}

/// The step at all points of a list.
pub fn step(values: &mut Values, back: bool, t: usize, list: &List, reading: &Reading) {
    if reading.together {
        let moved: Vec<(At, i128)> =
            list.points.iter().map(|at| (*at, moved(values, back, t, list, at, reading))).collect();
        values.extend(moved);
    } else {
        for at in &list.points {
            let value = moved(values, back, t, list, at, reading);
            values.insert(*at, value);
        }
    }
}

/// The value of a point minus half the sum of its neighbours' values, or back plus it, all as they are now; a border
/// counts as 0. In an accepted turn the sum is even; where a wrong reading finds an odd one, the half is rounded down.
fn moved(values: &Values, back: bool, t: usize, list: &List, at: &At, reading: &Reading) -> i128 {
    let under = 2u16.pow(u32::from(list.levels[t]) + 1);
    let unit = 512 / under;
    let mut sum: i128 = 0;
    for over in (reading.neighbours)(at[t] / unit) {
        if over != 0 && over != under {
            let mut beside = *at;
            beside[t] = over * unit;
            sum += values[&beside];
        }
    }
    let half = sum.div_euclid(2);
    if back {
        values[at] + half
    } else {
        values[at] - half
    }
}

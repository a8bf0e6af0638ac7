//! The order of work on a component grid, as a list of single steps: a step is an axis and a point, and takes half the sum of
//! the parents' values, as they are then, from the point's.
//!
//! An interval with axes s+1 to t still to do is split at the middle of the axis with most points, smallest axis on a tie.
//! The middle is done for the axes of these before that one, then the halves for all of these, then the middle for the
//! rest. All axes are looked at for the one with most points, those done and those to come too, so the cut is held within
//! s and t.

use super::component::{At, Fraction, Grid};

/// A step: an axis, from 1, and the place of a point.
pub type Step = (usize, usize);

/// How an order is read.
#[derive(Clone, Copy)]
pub struct Reading {
    /// Whether an interval is taken for a single point, from how many points each axis has left, with axes s+1 to t to do.
    pub single: fn(left: &[usize], s: usize, t: usize) -> bool,
    /// The axis to split, from the same.
    pub axis: fn(left: &[usize], s: usize, t: usize) -> usize,
    /// Up to which axis the middle is done before the halves, and after which one it goes on behind them, the split being
    /// along axis r.
    pub cut: fn(s: usize, r: usize, t: usize) -> [usize; 2],
    /// The right half before the left.
    pub right_first: bool,
}

pub const RIGHT: Reading = Reading {
    single: |left, _, _| left.iter().all(|&points| points == 1),
    axis: |left, _, _| most(left, 1..=left.len()),
    cut: |s, r, t| [(r - 1).max(s).min(t); 2],
    right_first: false,
};

/// The axis with most points among these, the smallest on a tie.
pub fn most(left: &[usize], axes: impl DoubleEndedIterator<Item = usize>) -> usize {
    axes.rev().max_by_key(|&axis| left[axis - 1]).expect("an axis")
}

/// The steps of a whole grid, in order.
pub fn steps(grid: &Grid, reading: &Reading) -> Vec<Step> {
    let mut all = Vec::new();
    let interval: Vec<&[Fraction]> = grid.lines.iter().map(|line| &line[..]).collect();
    work(grid, reading, &interval, 0, grid.axes, &mut all);
    all
}

/// Axes s+1 to t in an interval, which has these coordinates on each axis.
fn work(grid: &Grid, reading: &Reading, interval: &[&[Fraction]], s: usize, t: usize, all: &mut Vec<Step>) {
    if s >= t {
        return;
    }
    let left: Vec<usize> = interval.iter().map(|line| line.len()).collect();
    if (reading.single)(&left, s, t) {
        let mut at: At = grid.points[0];
        at.iter_mut().zip(interval).for_each(|(x, line)| *x = line[0]);
        all.extend((s + 1..=t).map(|axis| (axis, grid.place[&at])));
        return;
    }
    let r = (reading.axis)(&left, s, t);
    let line = interval[r - 1];
    let with = |coordinates| {
        let mut part = interval.to_vec();
        part[r - 1] = coordinates;
        part
    };
    let half = line.len() / 2;
    let middle = with(&line[half..=half]);
    let mut halves = [with(&line[..half]), with(&line[half + 1..])];
    if reading.right_first {
        halves.reverse();
    }
    let [before, after] = (reading.cut)(s, r, t);
    work(grid, reading, &middle, s, before, all);
    for half in &halves {
        work(grid, reading, half, s, t, all);
    }
    work(grid, reading, &middle, after, t, all);
}

/// What these steps make of a loaded table, one after the other in place.
pub fn run(grid: &Grid, rates: &[i64], steps: &[Step]) -> Vec<i64> {
    let mut values = grid.loaded(rates);
    for &(axis, p) in steps {
        values[p] -= grid.beside(&values, axis - 1, p).div_euclid(2);
    }
    values.into_iter().map(|v| v as i64).collect()
}

/// Whether every step stands once, and finds its point and its parents with exactly the axes before its own done: then it
/// takes from the value of the sweep before what the sweep of its axis takes.
pub fn sound(grid: &Grid, steps: &[Step]) -> bool {
    let mut done = vec![0; grid.points.len()];
    for &(axis, p) in steps {
        let beside = grid.parents[axis - 1][p].iter().flatten();
        if beside.chain([&p]).any(|&q| done[q] != axis - 1) {
            return false;
        }
        done[p] = axis;
    }
    done.iter().all(|&axes| axes == grid.axes)
}

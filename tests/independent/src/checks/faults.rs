//! Turns with a fault at one place, and turns that reach the ends of the content limit there and pass.
//!
//! A table before a forward turn and the one after it are made together; the first is turned forward and the second
//! back. Where a sum is odd, its half is rounded one way or the other, and the second table is what a turn that rounds
//! so would leave.
//!
//! An odd sum never stands alone. On a line along the axis, from border to border, each point of a smaller level is a
//! parent of two points of each larger level, and the borders count as 0: so the sums of one level add up to twice the
//! values of the smaller levels, and the odd ones among them are even in number. The fewest are two: the points on
//! either side of a parent, where they are parents of none.

use super::{short, turns};
use crate::draw::Draw;
use crate::inputs::{self, LIMIT};
use crate::model::grid::{count, grid, Grid};
use crate::model::turns::turn;
use crate::report::Report;
use std::sync::Arc;

const CALL: &str = "separate code with itself";

/// One axis of a shape.
struct Line {
    grid: Arc<Grid>,
    axes: u32,
    level: u32,
    /// From 0.
    t: usize,
    /// The places beside each point, without the borders.
    beside: Vec<Vec<usize>>,
}

/// On every small shape and every axis, at every place.
pub fn all(draw: &mut Draw, report: &mut Report, large: bool) {
    odd_sums_alone(report);
    let most = if large { 130 } else { 30 };
    for axes in 1..=8 {
        for level in (0..=8).filter(|&level| count(axes, level) <= most) {
            for t in 0..axes as usize {
                let line = Line::new(axes, level, t);
                for p in 0..line.beside.len() {
                    if line.level_of(p) == 0 {
                        line.at_rest(draw, report, p);
                    } else {
                        line.past_the_limit(draw, report, p);
                        line.odd(draw, report, p);
                    }
                }
            }
        }
    }
}

/// Every choice of odd and even values on a line of up to 15 points: how many odd sums a level has, and the fewest
/// there are where there are some.
fn odd_sums_alone(report: &mut Report) {
    for level in 0..=3 {
        let line = Line::new(1, level, 0);
        let n = line.beside.len();
        let (mut levels_with_odd_number, mut fewest) = (0, None);
        for choice in 0..1u32 << n {
            let odd: Vec<bool> = (0..n).map(|p| choice >> p & 1 == 1).collect();
            let odd_sum = |p: &usize| line.beside[*p].iter().filter(|&&q| odd[q]).count() % 2 == 1;
            let at: Vec<usize> = (0..n).filter(odd_sum).collect();
            let of_level = |l| at.iter().filter(|&&p| line.level_of(p) == l).count();
            levels_with_odd_number += (0..=level as u16).filter(|&l| of_level(l) % 2 == 1).count();
            if !at.is_empty() {
                fewest = Some(fewest.map_or(at.len(), |f: usize| f.min(at.len())));
            }
        }
        let say = || format!("axes 1 level {level}");
        report.same(CALL, "odd sums on a line: levels with an odd number", &0, &levels_with_odd_number, &say);
        report.same(CALL, "odd sums on a line: fewest", &(level > 0).then_some(2), &fewest, &say);
    }
}

impl Line {
    fn new(axes: u32, level: u32, t: usize) -> Line {
        let grid = grid(axes, level);
        let mut beside = Vec::new();
        for (at, (levels, _)) in grid.order.iter().zip(&grid.lists) {
            let step = 512 / 2u16.pow(u32::from(levels[t]) + 1);
            let coordinates = [at[t] - step, at[t] + step].into_iter().filter(|&c| c != 0 && c != 512);
            let place = |c| {
                let mut at = *at;
                at[t] = c;
                grid.number[&at]
            };
            beside.push(coordinates.map(place).collect());
        }
        Line { grid, axes, level, t, beside }
    }

    /// The level of a point on the axis.
    fn level_of(&self, p: usize) -> u16 {
        self.grid.lists[p].0[self.t]
    }

    /// The parent that is one level above, and the other one if it is not the border.
    fn parents(&self, p: usize) -> (usize, Option<usize>) {
        let is_near = |q: &&usize| self.level_of(**q) + 1 == self.level_of(p);
        let near = *self.beside[p].iter().find(is_near).expect("a parent one level above");
        (near, self.beside[p].iter().copied().find(|&q| q != near))
    }

    /// By how much a value is past the limit where no sum may be odd: by one, or by two if the point is a parent.
    fn past(&self, p: usize) -> i64 {
        let sum: u16 = self.grid.lists[p].0.iter().sum();
        if u32::from(sum) < self.level {
            2
        } else {
            1
        }
    }

    /// Even values up to a quarter of the limit.
    fn even(&self, draw: &mut Draw) -> Vec<i64> {
        let most = draw.of(&[0, 1, 9, 1 << 31, LIMIT / 8]);
        self.beside.iter().map(|_| 2 * draw.between(-most, most)).collect()
    }

    /// The same, but for a point with this value and this sum of its parents' values.
    fn with(&self, draw: &mut Draw, p: usize, value: i64, sum: i64) -> Vec<i64> {
        let mut table = self.even(draw);
        let (near, far) = self.parents(p);
        table[near] = sum - far.map_or(0, |q| table[q]);
        table[p] = value;
        table
    }

    /// A point of level 0 on the axis at the limit, and alone past it.
    fn at_rest(&self, draw: &mut Draw, report: &mut Report, p: usize) {
        let sign = draw.of(&[1, -1]);
        for (value, faults) in [(LIMIT, &[][..]), (LIMIT + self.past(p), &[p])] {
            let mut table = self.even(draw);
            table[p] = sign * value;
            self.both_turns(draw, report, &table, faults);
        }
    }

    /// At the limit before and after the turn, or before, or after; then alone past it after the turn, by one and by
    /// more, and before.
    fn past_the_limit(&self, draw: &mut Draw, report: &mut Report, p: usize) {
        let by = self.past(p);
        let more = draw.of(&[4, 1 << 31, LIMIT / 4, LIMIT / 2]);
        for sign in [1, -1] {
            for (value, sum) in [(LIMIT, 0), (LIMIT, 2), (LIMIT - by, -2 * by)] {
                let table = self.with(draw, p, sign * value, sign * sum);
                self.both_turns(draw, report, &table, &[]);
            }
            for (value, sum) in [(LIMIT, -2), (LIMIT, -more), (LIMIT + by, 2 * by)] {
                let table = self.with(draw, p, sign * value, sign * sum);
                self.both_turns(draw, report, &table, &[p]);
            }
        }
    }

    /// One parent odd, the near or the other, and so the sum; or both odd, and the sum even. With it, the sums of all
    /// points are odd that have one of the odd values beside them and not the other.
    fn odd(&self, draw: &mut Draw, report: &mut Report, p: usize) {
        let (near, far) = self.parents(p);
        let mut odd = vec![vec![near]];
        if let Some(far) = far {
            odd.extend([vec![far], vec![near, far]]);
        }
        for (odd, by) in odd.iter().flat_map(|odd| [(odd, 1), (odd, -1)]) {
            let mut table = self.even(draw);
            odd.iter().for_each(|&q| table[q] += by);
            let odd_sum = |q: &usize| self.beside[*q].iter().filter(|q| odd.contains(q)).count() == 1;
            let faults: Vec<usize> = (0..table.len()).filter(odd_sum).collect();
            if odd.len() == 1 {
                report.same(CALL, "odd sum: at the point", &true, &faults.contains(&p), &|| format!("{p} {faults:?}"));
            }
            self.both_turns(draw, report, &table, &faults);
        }
    }

    /// Forward on this table, and back on the one after it: accepted if there is no fault.
    fn both_turns(&self, draw: &mut Draw, report: &mut Report, before: &[i64], faults: &[usize]) {
        let (axes, level, axis) = (self.axes, self.level, self.t as u32 + 1);
        let up = draw.one_in(2);
        let half = |sum: i64| if up { sum - sum.div_euclid(2) } else { sum.div_euclid(2) };
        let within = |v: i64| (-LIMIT..=LIMIT).contains(&v);
        let (mut after, mut found) = (vec![], vec![]);
        for (p, &v) in before.iter().enumerate() {
            let sum: i64 = self.beside[p].iter().map(|&q| before[q]).sum();
            after.push(v - half(sum));
            if sum % 2 != 0 || !within(v) || !within(after[p]) {
                found.push(p);
            }
        }
        let say = || format!("axes {axes} level {level} axis {axis} before {} after {}", short(before), short(&after));
        report.same(CALL, "faults of a turn", faults, &found[..], &say);
        let bit = 1 << self.t;
        let others = draw.bits() as u8 & inputs::all_bits(axes) & !bit;
        for (back, table, left) in [(false, before, &after[..]), (true, &after[..], before)] {
            let (bits, set) = if back { (others | bit, others) } else { (others, others | bit) };
            let want = if faults.is_empty() { Ok((left.to_vec(), set)) } else { Err((10, 0)) };
            report.same(CALL, "turn with faults", &want, &turn(back, axes, level, bits, table, axis), &say);
            turns::against(draw, report, back, axes, level, bits, table, axis, &want);
        }
    }
}

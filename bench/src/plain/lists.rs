//! Turns level list by level list, with document 01's tests: the best plain code that was found. The first numbers of the lists below
//! the present one are kept and step on with it; inside a list, points with the same index on the axis are worked together, as
//! their parents lie together too; oddness is gathered, and looked at once for a turn, as are the limits.

use super::grid::{self, Levels};
use super::{all_within_at_once, is_rate};

/// A shape, and where each level sum starts.
pub struct Lists {
    axes: usize,
    level: usize,
    starts: [usize; 10],
}

/// One level list as a turn on one axis meets it.
struct List {
    start: usize,
    size: usize,
    /// Bits of a position that lie below the axis's own, and bits of the axis.
    low: u32,
    own: u32,
}

pub(super) fn forward(v: i64, sum: i64) -> i64 {
    v - (sum >> 1)
}

pub(super) fn back(v: i64, sum: i64) -> i64 {
    v + (sum >> 1)
}

fn by_border(here: &mut [i64], near: &[i64], step: impl Fn(i64, i64) -> i64) -> i64 {
    here.iter_mut().zip(near).fold(0, |odd, (v, &a)| {
        *v = step(*v, a);
        odd | a
    })
}

pub(super) fn between(here: &mut [i64], near: &[i64], far: &[i64], step: impl Fn(i64, i64) -> i64) -> i64 {
    here.iter_mut().zip(near).zip(far).fold(0, |odd, ((v, &a), &b)| {
        *v = step(*v, a + b);
        odd | (a + b)
    })
}

/// Where the points of block `k` with numerator 4j have their parent.
pub(super) fn by_far(low: u32, own: u32, below: &[usize; 9], k: usize, j: usize) -> usize {
    let twos = j.trailing_zeros();
    let level = own - 2 - twos;
    below[twos as usize + 2] + (((k << level) + (j >> (twos + 1))) << low)
}

impl List {
    fn far(&self, below: &[usize; 9], k: usize, j: usize) -> usize {
        by_far(self.low, self.own, below, k, j)
    }

    /// A step at each point; whether a sum was odd, in the lowest bit.
    fn steps(&self, table: &mut [i64], below: &[usize; 9], step: impl Fn(i64, i64) -> i64 + Copy) -> i64 {
        let width = 1 << self.low;
        let pairs = 1 << (self.own - 1);
        let (before, rest) = table.split_at_mut(self.start);
        let here = rest[..self.size].chunks_exact_mut(2 * pairs * width);
        let near = before[below[1]..].chunks_exact(pairs * width);
        let mut odd = 0;
        if width == 1 {
            for (k, (here, near)) in here.zip(near).enumerate() {
                let mut a = 0;
                for (j, (two, &d)) in here.chunks_exact_mut(2).zip(near).enumerate() {
                    two[0] = step(two[0], a + d);
                    odd |= a + d;
                    a = if j + 1 == pairs { 0 } else { before[self.far(below, k, j + 1)] };
                    two[1] = step(two[1], d + a);
                    odd |= d + a;
                }
            }
            return odd;
        }
        for (k, (here, near)) in here.zip(near).enumerate() {
            let last = pairs * 2 * width - width;
            odd |= by_border(&mut here[..width], &near[..width], step);
            let inner = here[width..last].chunks_exact_mut(2 * width);
            for (j, (two, d)) in inner.zip(near.windows(2 * width).step_by(width)).enumerate() {
                let far = self.far(below, k, j + 1);
                let far = &before[far..far + width];
                let (left, right) = two.split_at_mut(width);
                odd |= between(left, &d[..width], far, step);
                odd |= between(right, far, &d[width..], step);
            }
            odd |= by_border(&mut here[last..], &near[(pairs - 1) * width..], step);
        }
        odd
    }
}

impl Lists {
    pub fn new(axes: usize, level: u32) -> Lists {
        let mut starts = [0; 10];
        for s in 0..=level + 1 {
            starts[s as usize] = grid::before_sum(axes, s) as usize;
        }
        Lists { axes, level: level as usize, starts }
    }

    fn list(&self, levels: &Levels, start: usize, size: usize, t: usize) -> List {
        List { start, size, low: levels[..t].iter().sum(), own: levels[t] }
    }

    /// From the last list down: each value less half its parents' sum.
    fn lower(&self, table: &mut [i64], t: usize) -> i64 {
        let mut odd = 0;
        for sum in (1..=self.level).rev() {
            let mut levels = [0; 8];
            levels[self.axes - 1] = sum as u32;
            let size = 1 << sum;
            let mut below = [0; 9];
            (1..=sum).for_each(|j| below[j] = self.starts[sum - j + 1]);
            let mut start = self.starts[sum + 1];
            loop {
                start -= size;
                let list = self.list(&levels, start, size, t);
                (1..=list.own as usize).for_each(|j| below[j] -= size >> j);
                if list.own > 0 {
                    odd |= list.steps(table, &below, forward);
                }
                let Some(k) = (1..self.axes).find(|&k| levels[k] > 0) else { break };
                let first = levels[0];
                levels[0] = 0;
                levels[k] -= 1;
                levels[k - 1] = first + 1;
            }
        }
        odd
    }

    /// From the first list up: each value and half its parents' sum.
    fn raise(&self, table: &mut [i64], t: usize) -> i64 {
        let mut odd = 0;
        for sum in 1..=self.level {
            let mut levels = grid::first(sum as u32);
            let size = 1 << sum;
            let mut below = [0; 9];
            (1..=sum).for_each(|j| below[j] = self.starts[sum - j]);
            let mut start = self.starts[sum];
            loop {
                let list = self.list(&levels, start, size, t);
                if list.own > 0 {
                    odd |= list.steps(table, &below, back);
                }
                (1..=list.own as usize).for_each(|j| below[j] += size >> j);
                start += size;
                if !grid::next(self.axes, &mut levels) {
                    break;
                }
            }
        }
        odd
    }

    /// Forward on axis t, from 0; refused with 10, the table as it was, where the answer is false.
    pub fn forward(&self, table: &mut [i64], t: usize) -> bool {
        if !all_within_at_once(table) {
            return false;
        }
        if self.lower(table, t) & 1 == 0 && all_within_at_once(table) {
            return true;
        }
        self.raise(table, t);
        false
    }

    /// Back on axis t, from 0; refused with 10, the table as it was, where the answer is false.
    pub fn back(&self, table: &mut [i64], t: usize) -> bool {
        all_within_at_once(table) && self.back_within(table, t)
    }

    /// The same where the values are known to be within the limit.
    fn back_within(&self, table: &mut [i64], t: usize) -> bool {
        if self.raise(table, t) & 1 == 0 && all_within_at_once(table) {
            return true;
        }
        self.lower(table, t);
        false
    }

    /// The turns of a loaded table cannot be refused, so they are not tested. Refused with 4 and the smallest such point number.
    pub fn rates_to_coefficients(&self, table: &mut [i64]) -> Result<(), u64> {
        if table.iter().fold(false, |bad, &v| bad | !is_rate(v)) {
            return Err(table.iter().position(|&v| !is_rate(v)).expect("a place") as u64);
        }
        table.iter_mut().for_each(|v| *v <<= self.axes);
        for t in 0..self.axes {
            self.lower(table, t);
        }
        Ok(())
    }

    /// Refused with 10, the table as it was, where the answer is false.
    pub fn coefficients_to_rates(&self, table: &mut [i64]) -> bool {
        if !all_within_at_once(table) {
            return false;
        }
        for t in (0..self.axes).rev() {
            if !self.back_within(table, t) {
                (t + 1..self.axes).for_each(|u| {
                    self.lower(table, u);
                });
                return false;
            }
        }
        if super::whole::unload(self.axes, table) {
            return true;
        }
        (0..self.axes).for_each(|u| {
            self.lower(table, u);
        });
        false
    }
}

//! Turns by level vector, with document 01's tests: all points of a level vector that have the same index on the axis have
//! their parents in the same two level vectors, at the same distance, so that a parent costs no search.

use super::grid::{self, Levels};
use super::{all_within, LIMIT};

/// The level vectors of a shape, once for all turns.
pub struct Walk {
    axes: usize,
    vectors: Vec<Levels>,
}

/// Where the points with one index on the axis have a parent: its level vector's first number, its index's place, its level.
#[derive(Clone, Copy)]
struct Parent {
    start: usize,
    place: usize,
    level: u32,
}

/// One level vector as a turn on one axis sees it.
struct Block {
    start: usize,
    /// Bits of a position that lie below the axis's own, bits of the axis, bits above.
    low: u32,
    own: u32,
    high: u32,
    /// The first number of the level vector with the axis's level lowered to each.
    lowered: [usize; 8],
}

impl Block {
    fn of(axes: usize, levels: &Levels, t: usize) -> Block {
        let low = levels[..t].iter().sum();
        let own = levels[t];
        let high = levels[t + 1..axes].iter().sum();
        let mut lowered = [0; 8];
        let mut other = *levels;
        for (m, start) in lowered.iter_mut().enumerate().take(own as usize) {
            other[t] = m as u32;
            *start = grid::start(axes, &other) as usize;
        }
        Block { start: grid::start(axes, levels) as usize, low, own, high, lowered }
    }

    /// The parent at numerator k of 2^own, none at the border.
    fn parent(&self, k: usize) -> Option<Parent> {
        if k == 0 || k == 1 << self.own {
            return None;
        }
        let twos = k.trailing_zeros();
        let level = self.own - 1 - twos;
        Some(Parent { start: self.lowered[level as usize], place: k >> (twos + 1), level })
    }

    /// Each value of the block becomes what `step` makes of it and of the sum of its parents' values; whether every sum was
    /// even and every value that was made is within the limit.
    fn steps(&self, table: &mut [i64], step: impl Fn(i64, i64) -> i64) -> bool {
        let run = 1usize << self.low;
        let mut bad = false;
        let (before, here) = table.split_at_mut(self.start);
        for h in 0..1usize << self.high {
            for k in 0..1usize << self.own {
                let first = (h << self.own | k) << self.low;
                let mine = &mut here[first..first + run];
                let parents = |p: Parent| {
                    let first = p.start + ((h << p.level | p.place) << self.low);
                    &before[first..first + run]
                };
                match (self.parent(k), self.parent(k + 1)) {
                    (Some(a), Some(b)) => {
                        for ((v, &x), &y) in mine.iter_mut().zip(parents(a)).zip(parents(b)) {
                            bad |= take(v, x + y, &step);
                        }
                    }
                    (Some(a), None) | (None, Some(a)) => {
                        for (v, &x) in mine.iter_mut().zip(parents(a)) {
                            bad |= take(v, x, &step);
                        }
                    }
                    (None, None) => (),
                }
            }
        }
        !bad
    }
}

#[inline(always)]
fn take(v: &mut i64, sum: i64, step: &impl Fn(i64, i64) -> i64) -> bool {
    *v = step(*v, sum >> 1);
    (sum & 1 != 0) | !(-LIMIT..=LIMIT).contains(v)
}

fn less(v: i64, half: i64) -> i64 {
    v - half
}

fn plus(v: i64, half: i64) -> i64 {
    v + half
}

impl Walk {
    pub fn new(axes: usize, level: u32) -> Walk {
        Walk { axes, vectors: grid::vectors(axes, level) }
    }

    fn blocks(&self, t: usize) -> impl DoubleEndedIterator<Item = Block> + '_ {
        self.vectors.iter().filter(move |l| l[t] > 0).map(move |l| Block::of(self.axes, l, t))
    }

    /// Forward on axis t, from 0; refused with 10, the table as it was, where the answer is false.
    pub fn forward(&self, table: &mut [i64], t: usize) -> bool {
        if !all_within(table) {
            return false;
        }
        let mut done = 0;
        for block in self.blocks(t).rev() {
            done += 1;
            if !block.steps(table, less) {
                let all = self.blocks(t).rev().take(done).collect::<Vec<_>>();
                for block in all.iter().rev() {
                    block.steps(table, plus);
                }
                return false;
            }
        }
        true
    }

    /// Back on axis t, from 0; refused with 10, the table as it was, where the answer is false.
    pub fn back(&self, table: &mut [i64], t: usize) -> bool {
        if !all_within(table) {
            return false;
        }
        let mut done = 0;
        for block in self.blocks(t) {
            done += 1;
            if !block.steps(table, plus) {
                let all = self.blocks(t).take(done).collect::<Vec<_>>();
                for block in all.iter().rev() {
                    block.steps(table, less);
                }
                return false;
            }
        }
        true
    }

    /// Forward where nothing has to be tested, as on a loaded table.
    pub fn forward_untested(&self, table: &mut [i64], t: usize) {
        for block in self.blocks(t).rev() {
            block.steps(table, less);
        }
    }
}

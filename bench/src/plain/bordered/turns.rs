//! Turns list by list, face by face, as [`super::super::lists`] does it on a table with a zero border. Beside a face lie two
//! others, its rims, that have one border axis more, and so come later in the table; the level lists there that those of the
//! face meet are stepped with them.

use super::super::lists::{back, between, by_far, forward};
use super::super::{all_within_at_once, is_rate, whole};
use super::{start, Face, AXES, BEFORE, FACE_OF, ORDER, POWERS};

/// A shape.
pub struct Faces {
    axes: usize,
    level: u32,
}

/// A face as a turn on one of its inner axes meets it: over the inner axes alone.
struct Facet {
    inner: usize,
    level: usize,
    /// Where the axis stands among the inner ones.
    axis: usize,
    start: usize,
    rims: [usize; 2],
}

/// One level list of it: where it and its two rims start, bits of a position below the axis's own, and bits of the axis.
struct List {
    start: usize,
    size: usize,
    rims: [usize; 2],
    low: u32,
    own: u32,
}

impl List {
    fn of(facet: &Facet, levels: &[u32; AXES], start: usize, size: usize, across: usize) -> List {
        let low = levels[..facet.axis].iter().sum();
        List { start, size, rims: facet.rims.map(|rim| rim + across), low, own: levels[facet.axis] }
    }

    /// A step at each point; whether a sum was odd, in the lowest bit.
    fn steps(&self, table: &mut [i64], below: &[usize; 9], step: impl Fn(i64, i64) -> i64 + Copy) -> i64 {
        let (before, rest) = table.split_at_mut(self.start);
        let (here, after) = rest.split_at_mut(self.size);
        let end = self.start + self.size;
        let [lower, upper] = self.rims.map(|rim| &after[rim - end..][..self.size >> self.own]);
        if self.own == 0 {
            return between(here, lower, upper, step);
        }
        let width = 1 << self.low;
        let pairs = 1 << (self.own - 1);
        let far = |k, j| by_far(self.low, self.own, below, k, j);
        let blocks = here.chunks_exact_mut(2 * pairs * width).zip(before[below[1]..].chunks_exact(pairs * width));
        let mut odd = 0;
        if width == 1 {
            for (k, ((here, near), (&first, &last))) in blocks.zip(lower.iter().zip(upper)).enumerate() {
                let mut a = first;
                for (j, (two, &d)) in here.chunks_exact_mut(2).zip(near).enumerate() {
                    two[0] = step(two[0], a + d);
                    odd |= a + d;
                    a = if j + 1 == pairs { last } else { before[far(k, j + 1)] };
                    two[1] = step(two[1], d + a);
                    odd |= d + a;
                }
            }
            return odd;
        }
        let rims = lower.chunks_exact(width).zip(upper.chunks_exact(width));
        for (k, ((here, near), (lower, upper))) in blocks.zip(rims).enumerate() {
            let last = pairs * 2 * width - width;
            odd |= between(&mut here[..width], lower, &near[..width], step);
            let inner = here[width..last].chunks_exact_mut(2 * width);
            for (j, (two, d)) in inner.zip(near.windows(2 * width).step_by(width)).enumerate() {
                let far = far(k, j + 1);
                let far = &before[far..far + width];
                let (left, right) = two.split_at_mut(width);
                odd |= between(left, &d[..width], far, step);
                odd |= between(right, far, &d[width..], step);
            }
            odd |= between(&mut here[last..], &near[(pairs - 1) * width..], upper, step);
        }
        odd
    }
}

impl Facet {
    /// From the last list down: each value less half its parents' sum.
    fn lower(&self, table: &mut [i64]) -> i64 {
        let (starts, across) = (&BEFORE[self.inner], &BEFORE[self.inner - 1]);
        let mut odd = 0;
        for sum in (0..=self.level).rev() {
            let mut levels = [0; AXES];
            levels[self.inner - 1] = sum as u32;
            let size = 1 << sum;
            // the ends of the lists below and of those across, by how much lower the axis is and by its level
            let mut below = [0; 9];
            (1..=sum).for_each(|j| below[j] = self.start + starts[sum - j + 1] as usize);
            let mut beyond = [0; 9];
            (0..=sum).for_each(|own| beyond[own] = across[sum - own + 1] as usize);
            let mut first = self.start + starts[sum + 1] as usize;
            loop {
                first -= size;
                let own = levels[self.axis & 3] as usize;
                (1..=own).for_each(|j| below[j] -= size >> j);
                beyond[own] -= size >> own;
                odd |= List::of(self, &levels, first, size, beyond[own]).steps(table, &below, forward);
                let Some(k) = (1..self.inner).find(|&k| levels[k] > 0) else { break };
                let l = levels[0];
                levels[0] = 0;
                levels[k] -= 1;
                levels[k - 1] = l + 1;
            }
        }
        odd
    }

    /// From the first list up: each value and half its parents' sum.
    fn raise(&self, table: &mut [i64]) -> i64 {
        let (starts, across) = (&BEFORE[self.inner], &BEFORE[self.inner - 1]);
        let mut odd = 0;
        for sum in 0..=self.level {
            let mut levels = [0; AXES];
            levels[0] = sum as u32;
            let size = 1 << sum;
            let mut below = [0; 9];
            (1..=sum).for_each(|j| below[j] = self.start + starts[sum - j] as usize);
            let mut beyond = [0; 9];
            (0..=sum).for_each(|own| beyond[own] = across[sum - own] as usize);
            let mut first = self.start + starts[sum] as usize;
            loop {
                let own = levels[self.axis & 3] as usize;
                odd |= List::of(self, &levels, first, size, beyond[own]).steps(table, &below, back);
                (1..=own).for_each(|j| below[j] += size >> j);
                beyond[own] += size >> own;
                first += size;
                let Some(k) = (0..self.inner - 1).find(|&k| levels[k] > 0) else { break };
                let l = levels[k];
                levels[k] = 0;
                levels[0] = l - 1;
                levels[k + 1] += 1;
            }
        }
        odd
    }
}

impl Faces {
    pub fn new(axes: usize, level: u32) -> Faces {
        Faces { axes, level }
    }

    /// The faces that move in a turn on axis t.
    fn facets(&self, t: usize) -> impl Iterator<Item = Facet> + '_ {
        let first = |face: &Face| start(self.axes, self.level, face) as usize;
        ORDER[self.axes][..POWERS[self.axes]].iter().filter(move |face| face.marks[t] == 0).map(move |face| Facet {
            inner: face.count,
            level: self.level as usize,
            axis: face.marks[..t].iter().filter(|&&m| m == 0).count(),
            start: first(face),
            rims: [1, 2].map(|mark| {
                let rim = face.code + mark * POWERS[t];
                first(&ORDER[self.axes][usize::from(FACE_OF[self.axes][rim])])
            }),
        })
    }

    // no face reads what another moves: the rims stay
    fn lower(&self, table: &mut [i64], t: usize) -> i64 {
        self.facets(t).fold(0, |odd, facet| odd | facet.lower(table))
    }

    fn raise(&self, table: &mut [i64], t: usize) -> i64 {
        self.facets(t).fold(0, |odd, facet| odd | facet.raise(table))
    }

    /// Forward on axis t, from 0; refused with 10, the table as it was, where the answer is false.
    pub fn forward(&self, table: &mut [i64], t: usize) -> bool {
        if !all_within_at_once(table) {
            return false;
        }
        if self.lower(table, t) & 1 == 0 && all_within_at_once(table) {
            return true;
        }
        self.raise(table, t);
        false
    }

    /// Back on axis t, from 0; refused with 10, the table as it was, where the answer is false.
    pub fn back(&self, table: &mut [i64], t: usize) -> bool {
        all_within_at_once(table) && self.back_within(table, t)
    }

    /// The same where the values are known to be within the limit.
    fn back_within(&self, table: &mut [i64], t: usize) -> bool {
        if self.raise(table, t) & 1 == 0 && all_within_at_once(table) {
            return true;
        }
        self.lower(table, t);
        false
    }

    /// The turns of a loaded table cannot be refused, so they are not tested. Refused with 4 and the smallest such point number.
    pub fn rates_to_coefficients(&self, table: &mut [i64]) -> Result<(), u64> {
        if table.iter().fold(false, |bad, &v| bad | !is_rate(v)) {
            return Err(table.iter().position(|&v| !is_rate(v)).expect("a place") as u64);
        }
        table.iter_mut().for_each(|v| *v <<= self.axes);
        for t in 0..self.axes {
            self.lower(table, t);
        }
        Ok(())
    }

    /// Refused with 10, the table as it was, where the answer is false.
    pub fn coefficients_to_rates(&self, table: &mut [i64]) -> bool {
        if !all_within_at_once(table) {
            return false;
        }
        for t in (0..self.axes).rev() {
            if !self.back_within(table, t) {
                (t + 1..self.axes).for_each(|u| {
                    self.lower(table, u);
                });
                return false;
            }
        }
        if whole::unload(self.axes, table) {
            return true;
        }
        (0..self.axes).for_each(|u| {
            self.lower(table, u);
        });
        false
    }
}

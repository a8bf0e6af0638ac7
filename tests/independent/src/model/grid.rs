//! The points of a shape, as coordinates in 512ths, in the order of their numbers.

use std::collections::HashMap;
use std::hash::{BuildHasherDefault, Hasher};
use std::sync::{Arc, Mutex, OnceLock};

/// A point's coordinates in 512ths, axis 1 first; 0 past the last axis.
pub type At = [u16; 8];

/// A table as a map.
pub type Values = HashMap<At, i128, BuildHasherDefault<Mix>>;

/// A quick hash of eight 16-bit numbers.
#[derive(Default)]
pub struct Mix(u64);

impl Hasher for Mix {
    fn finish(&self) -> u64 {
        self.0 ^ (self.0 >> 31)
    }
    fn write(&mut self, bytes: &[u8]) {
        for chunk in bytes.chunks(8) {
            let mut word = [0; 8];
            word[..chunk.len()].copy_from_slice(chunk);
            self.write_u64(u64::from_le_bytes(word));
        }
    }
    fn write_u64(&mut self, word: u64) {
        self.0 = (self.0 ^ word).wrapping_mul(0x9e37_79b9_7f4a_7c15).rotate_left(29);
    }
    fn write_usize(&mut self, _: usize) {}
}

/// A coordinate in lowest terms, i / 2^(l+1): level and index.
pub fn level_and_index(coordinate: u16) -> (u32, u32) {
    let (mut numerator, mut denominator) = (u32::from(coordinate), 512);
    while numerator % 2 == 0 {
        numerator /= 2;
        denominator /= 2;
    }
    let mut level = 0;
    while 2u32.pow(level + 1) < denominator {
        level += 1;
    }
    (level, numerator)
}

/// a over b, by its product.
fn choose(a: u128, b: u128) -> u128 {
    let mut c = 1;
    for k in 0..b {
        c = c * (a - k) / (k + 1);
    }
    c
}

/// N of a shape that is none of refusals 1 and 2.
pub fn count(axes: u32, level: u32) -> u128 {
    (0..=u128::from(level)).map(|j| 2u128.pow(j as u32) * choose(u128::from(axes) - 1 + j, j)).sum()
}

pub struct Grid {
    /// The points in the order of their numbers.
    pub order: Vec<At>,
    /// Levels and indices of each, on the axes that there are; 0 past them.
    pub lists: Vec<([u16; 8], [u16; 8])>,
    pub number: HashMap<At, usize, BuildHasherDefault<Mix>>,
}

/// The points of a shape, made once.
pub fn grid(axes: u32, level: u32) -> Arc<Grid> {
    type Known = Mutex<HashMap<(u32, u32), Arc<Grid>>>;
    static KNOWN: OnceLock<Known> = OnceLock::new();
    let mut known = KNOWN.get_or_init(Default::default).lock().unwrap();
    known.entry((axes, level)).or_insert_with(|| Arc::new(Grid::new(axes as usize, level))).clone()
}

impl Grid {
    fn new(axes: usize, level: u32) -> Grid {
        let terms: Vec<(u32, u32)> = (0..512).map(|c| if c == 0 { (0, 0) } else { level_and_index(c) }).collect();
        let mut order = Vec::new();
        extend(axes, 0, level, &terms, [0; 8], &mut order);
        order.sort_by_cached_key(|at| sort_key(axes, at, &terms));
        let lists = order
            .iter()
            .map(|at| {
                let (mut levels, mut indices) = ([0; 8], [0; 8]);
                for t in 0..axes {
                    let (l, i) = terms[at[t] as usize];
                    levels[t] = l as u16;
                    indices[t] = i as u16;
                }
                (levels, indices)
            })
            .collect();
        let number = order.iter().enumerate().map(|(p, &at)| (at, p)).collect();
        assert_eq!(order.len() as u128, count(axes as u32, level), "the formula of N and the points that were found");
        Grid { order, lists, number }
    }

    pub fn values(&self, table: &[i64]) -> Values {
        self.order.iter().copied().zip(table.iter().map(|&v| i128::from(v))).collect()
    }

    /// The values in point order, for a buffer.
    pub fn table(&self, values: &Values) -> Vec<i64> {
        self.order.iter().map(|at| i64::try_from(values[at]).expect("contents fit a buffer")).collect()
    }
}

/// All points that begin with `at` on the axes before t, the levels of the others summing to at most `left`.
fn extend(axes: usize, t: usize, left: u32, terms: &[(u32, u32)], at: At, found: &mut Vec<At>) {
    if t == axes {
        found.push(at);
        return;
    }
    for c in 1..512 {
        let level = terms[c].0;
        if level <= left {
            let mut longer = at;
            longer[t] = c as u16;
            extend(axes, t + 1, left - level, terms, longer, found);
        }
    }
}

/// Level sum, levels from the last axis down, position within the level list.
fn sort_key(axes: usize, at: &At, terms: &[(u32, u32)]) -> (u32, [u32; 8], u64) {
    let mut levels_from_last = [0; 8];
    let (mut sum, mut position, mut width) = (0, 0, 1);
    for t in 0..axes {
        let (l, i) = terms[at[t] as usize];
        levels_from_last[axes - 1 - t] = l;
        sum += l;
        position += u64::from((i - 1) / 2) * width;
        width *= 2u64.pow(l);
    }
    (sum, levels_from_last, position)
}

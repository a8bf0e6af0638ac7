//! A grid as SG++ holds one: a hash map from the level and index on each axis to the value; turns go down the tree of each
//! line of points, with one search for each point.

use super::algorithm7::{hat_of, nearest};
use super::grid::{vectors, Levels};
use super::points::point;
use super::{BITS, UNIT};
use std::collections::HashMap;
use std::hash::{BuildHasherDefault, Hash, Hasher};

#[derive(Clone, Copy, PartialEq, Eq)]
pub struct Key {
    levels: [u8; 8],
    indices: [u16; 8],
}

impl Hash for Key {
    fn hash<H: Hasher>(&self, state: &mut H) {
        let mut h: u64 = 0xfdca;
        for t in 0..8 {
            h = h.wrapping_mul(65_599).wrapping_add((1u64 << self.levels[t]) + u64::from(self.indices[t]));
        }
        state.write_u64(h);
    }
}

/// The sum above, mixed so that the map's upper bits differ too.
#[derive(Default)]
pub struct Mixed(u64);

impl Hasher for Mixed {
    fn finish(&self) -> u64 {
        self.0
    }
    fn write(&mut self, _: &[u8]) {
        unreachable!("keys write one number")
    }
    fn write_u64(&mut self, h: u64) {
        self.0 = (h ^ (h >> 29)).wrapping_mul(0x9e37_79b9_7f4a_7c15);
    }
}

pub struct Hashed {
    axes: usize,
    level: u32,
    keys: Vec<Key>,
    map: HashMap<Key, i64, BuildHasherDefault<Mixed>>,
    vectors: Vec<Levels>,
}

impl Hashed {
    pub fn new(axes: usize, level: u32, table: &[i64]) -> Hashed {
        let key = |p: usize| {
            let (l, i) = point(axes, p as u64);
            Key { levels: l.map(|v| v as u8), indices: i.map(|v| v as u16) }
        };
        let keys: Vec<Key> = (0..table.len()).map(key).collect();
        let map = keys.iter().copied().zip(table.iter().copied()).collect();
        Hashed { axes, level, keys, map, vectors: vectors(axes, level) }
    }

    /// Back to an array, in point order.
    pub fn table(&self) -> Vec<i64> {
        self.keys.iter().map(|k| self.map[k]).collect()
    }

    pub fn set(&mut self, table: &[i64]) {
        for (k, &v) in self.keys.iter().zip(table) {
            *self.map.get_mut(k).unwrap() = v;
        }
    }

    /// Each value changed by itself.
    pub fn each(&mut self, change: impl Fn(i64) -> i64) {
        self.map.values_mut().for_each(|v| *v = change(*v));
    }

    /// Forward on axis t, from 0.
    pub fn forward(&mut self, t: usize) {
        self.lines(t, |map, key, left| down(map, key, t, left, 0, 0, true));
    }

    /// Back on axis t, from 0.
    pub fn back(&mut self, t: usize) {
        self.lines(t, |map, key, left| down(map, key, t, left, 0, 0, false));
    }

    /// Each line of points along axis t, from its point of level 0; and how many levels lie below that.
    fn lines(&mut self, t: usize, turn: impl Fn(&mut HashMap<Key, i64, BuildHasherDefault<Mixed>>, Key, u32)) {
        for key in &self.keys {
            if key.levels[t] == 0 {
                let sum: u32 = key.levels.iter().map(|&l| u32::from(l)).sum();
                turn(&mut self.map, *key, self.level - sum);
            }
        }
    }

    pub fn estimate(&self, coordinates: &[u32]) -> i64 {
        let mut total: i128 = 0;
        for levels in &self.vectors {
            let mut joint = UNIT;
            let mut key = Key { levels: levels.map(|l| l as u8), indices: [0; 8] };
            for t in 0..self.axes {
                let (place, weight) = hat_of(coordinates[t], levels[t]);
                joint = (joint * weight) >> BITS;
                key.indices[t] = (2 * place + 1) as u16;
            }
            total += i128::from(self.map[&key]) * i128::from(joint);
        }
        nearest(total)
    }
}

/// A point and all below it on its line, between the values at the two ends of its hat.
fn down(
    map: &mut HashMap<Key, i64, BuildHasherDefault<Mixed>>,
    key: Key,
    t: usize,
    below: u32,
    left: i64,
    right: i64,
    forward: bool,
) {
    let value = map.get_mut(&key).unwrap();
    let half = (left + right) / 2;
    // the nodal value: what stands there before a forward turn and after a back turn
    let nodal = if forward { *value } else { *value + half };
    *value = if forward { *value - half } else { nodal };
    if below > 0 {
        let mut child = key;
        child.levels[t] += 1;
        child.indices[t] = 2 * key.indices[t] - 1;
        down(map, child, t, below - 1, left, nodal, forward);
        child.indices[t] += 2;
        down(map, child, t, below - 1, nodal, right, forward);
    }
}

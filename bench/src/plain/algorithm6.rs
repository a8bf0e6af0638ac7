//! Algorithm 6 of document 001, literally: each number to its point, the point to its parents, the parents to their
//! numbers; no tests.

use super::grid::Levels;
use super::points::{number, point};

/// The value of the parent on one side (−1 or +1) of axis t, 0 at the border.
fn parent(axes: usize, table: &[i64], levels: &Levels, indices: &Levels, t: usize, up: bool) -> i64 {
    let numerator = if up { indices[t] + 1 } else { indices[t] - 1 };
    if numerator == 0 || numerator == 1 << (levels[t] + 1) {
        return 0;
    }
    let (mut l, mut i) = (*levels, *indices);
    let twos = numerator.trailing_zeros();
    l[t] -= twos;
    i[t] = numerator >> twos;
    table[number(axes, &l, &i) as usize]
}

/// Forward on axis t, from 0.
pub fn forward(axes: usize, table: &mut [i64], t: usize) {
    for j in (0..table.len()).rev() {
        let (levels, indices) = point(axes, j as u64);
        let left = parent(axes, table, &levels, &indices, t, false);
        let right = parent(axes, table, &levels, &indices, t, true);
        table[j] -= (left + right) / 2;
    }
}

/// Back on axis t, from 0: the same upward.
pub fn back(axes: usize, table: &mut [i64], t: usize) {
    for j in 0..table.len() {
        let (levels, indices) = point(axes, j as u64);
        let left = parent(axes, table, &levels, &indices, t, false);
        let right = parent(axes, table, &levels, &indices, t, true);
        table[j] += (left + right) / 2;
    }
}

//! Estimates: one point for each level vector of each face, the weights of each axis tabulated once.

use super::super::algorithm7::{hat, margined, nearest};
use super::super::{BITS, UNIT};
use super::points::next;
use super::{AXES, ORDER, POWERS};

/// Place and weight by mark, axis and level; on the border there is only level 0.
type Hats = [[[(u64, u64); 9]; AXES]; 3];

fn tabulated(coordinates: &[u32], level: u32) -> Hats {
    let mut hats = [[[(0, 0); 9]; AXES]; 3];
    for (t, &x) in coordinates.iter().enumerate() {
        let x = u64::from(x);
        for l in 0..=level {
            hats[0][t][l as usize] = hat(x, l);
        }
        hats[1][t][0] = (0, UNIT - x);
        hats[2][t][0] = (0, x);
    }
    hats
}

/// The sum over the faces and their level vectors; and where it is asked for, the sum of the absolute coefficients of points
/// with a weight above zero on each axis.
fn summed<const REACHED: bool>(axes: usize, level: u32, table: &[i64], coordinates: &[u32]) -> (i64, u64) {
    // the loop over the axes is unrolled
    match axes {
        1 => summed_over::<REACHED, 1>(level, table, coordinates),
        2 => summed_over::<REACHED, 2>(level, table, coordinates),
        3 => summed_over::<REACHED, 3>(level, table, coordinates),
        _ => summed_over::<REACHED, AXES>(level, table, coordinates),
    }
}

fn summed_over<const REACHED: bool, const D: usize>(level: u32, table: &[i64], coordinates: &[u32]) -> (i64, u64) {
    let hats = tabulated(coordinates, level);
    let mut total: i128 = 0;
    let mut reached: u64 = 0;
    let mut start = 0;
    for face in &ORDER[D][..POWERS[D]] {
        let rows: [&[(u64, u64); 9]; D] = std::array::from_fn(|t| &hats[face.marks[t] as usize][t]);
        let inner = &face.inner[..face.count];
        // without inner axes there is one point, of level sum 0
        for sum in 0..=if inner.is_empty() { 0 } else { level } {
            let mut levels = [0; 8];
            if let Some(&first) = inner.first() {
                levels[usize::from(first)] = sum;
            }
            loop {
                let (mut joint, mut position, mut shift, mut above) = (UNIT, 0, 0, REACHED);
                for (row, &l) in rows.iter().zip(&levels) {
                    let (place, weight) = row[l.min(8) as usize];
                    joint = (joint * weight) >> BITS;
                    position += place << shift;
                    shift += l;
                    above &= weight > 0;
                }
                let value = table[start + position as usize];
                total += i128::from(value) * i128::from(joint);
                if above {
                    reached += value.unsigned_abs();
                }
                start += 1 << sum;
                if !next(inner, &mut levels) {
                    break;
                }
            }
        }
    }
    (nearest(total), reached)
}

/// Each axis's weights once.
pub fn estimate(axes: usize, level: u32, table: &[i64], coordinates: &[u32]) -> i64 {
    summed::<false>(axes, level, table, coordinates).0
}

/// The estimate, S and the margin.
pub fn with_margin(axes: usize, level: u32, table: &[i64], coordinates: &[u32]) -> (i64, u64, u64) {
    margined(axes, summed::<true>(axes, level, table, coordinates))
}

/// How many terms the sum has.
pub fn terms(axes: usize, level: u32) -> usize {
    let vectors = |k: usize| super::super::grid::BINOMIAL[k + level as usize][k] as usize;
    ORDER[axes][..POWERS[axes]].iter().map(|face| vectors(face.count)).sum()
}

//! Number of a point, point of a number, successor, parent.

use super::super::grid::{Levels, BINOMIAL};
use super::super::points::{array, Point};
use super::{check_shape, count, points_on, start, BEFORE, FACE_OF, LAYERS, ORDER, POWERS};

/// Refusal 7 or 9 of a point that was handed in as three lists.
fn check(d: usize, level: u32, marks: &[u32], levels: &[u32], indices: &[u32]) -> Option<u32> {
    if marks.len() != d || levels.len() != d || indices.len() != d {
        return Some(7);
    }
    let mut left = level;
    for ((&m, &l), &i) in marks.iter().zip(levels).zip(indices) {
        // on level 0 there is index 1 alone
        if l > left || i % 2 == 0 || i >= 1 << (l + 1) || m > 2 || (m != 0) & (l != 0) {
            return Some(9);
        }
        left -= l;
    }
    None
}

/// The number of a point: its place inside its face is found while it is tested.
pub fn number_of(axes: u32, level: u32, marks: &[u32], levels: &[u32], indices: &[u32]) -> Result<u64, u32> {
    if let Some(refused) = check_shape(axes, level) {
        return Err(refused);
    }
    let d = axes as usize;
    if marks.len() != d || levels.len() != d || indices.len() != d {
        return Err(7);
    }
    let (mut code, mut k, mut sum, mut vector, mut position) = (0, 0, 0, 0, 0);
    for (t, ((&m, &l), &i)) in marks.iter().zip(levels).zip(indices).enumerate() {
        if m == 0 {
            if l > level - sum || i % 2 == 0 || i >= 1 << (l + 1) {
                return Err(9);
            }
            position += (i >> 1) << sum;
            // document 001, equation 4, an axis at a time
            let choose = |sum: u32| BINOMIAL[(k + sum as usize) & 15][k & 3] as u32;
            vector += choose(sum + l) - choose(sum);
            sum += l;
            k += 1;
        } else if m > 2 || l != 0 || i != 1 {
            return Err(9);
        }
        code += m as usize * POWERS[t & 3];
    }
    let face = &ORDER[d][usize::from(FACE_OF[d][code])];
    let inside = BEFORE[k][sum as usize] + (vector << sum) + position;
    Ok(u64::from(start(d, level, face) + inside))
}

/// The point of a number.
pub fn point_of(axes: u32, level: u32, number: u64) -> Result<Point, u32> {
    if let Some(refused) = check_shape(axes, level) {
        return Err(refused);
    }
    let d = axes as usize;
    if number >= u64::from(count(d, level)) {
        return Err(6);
    }
    let number = number as u32;
    let layers = &LAYERS[d][level as usize];
    let borders = (1..d).filter(|&b| number >= layers[b]).count() + usize::from(number >= layers[d]);
    let points = points_on(d - borders, level);
    let within = number - layers[borders];
    let rank = within / points;
    // the faces before those with so many border axes
    let first: usize = (0..borders).map(|b| (BINOMIAL[d][b] as usize) << b).sum();
    let face = &ORDER[d][first + rank as usize];
    let inside = within - rank * points;

    let mut point = Point { marks: face.marks, levels: [0; 8], indices: [0; 8] };
    let k = face.count;
    let mut sum = 0;
    while BEFORE[k][sum + 1] <= inside {
        sum += 1;
    }
    let position = inside - BEFORE[k][sum];
    // from the last inner axis down, the largest level that fits
    let (mut left, mut vector) = (sum, position >> sum);
    for j in (0..k).rev() {
        let mut l = 0;
        while j > 0 && BINOMIAL[j - 1 + left - l][j - 1] as u32 <= vector {
            vector -= BINOMIAL[j - 1 + left - l][j - 1] as u32;
            l += 1;
        }
        if j == 0 {
            l = left;
        }
        left -= l;
        point.levels[usize::from(face.inner[j])] = l as u32;
    }
    let mut rest = position & ((1 << sum) - 1);
    for (i, &l) in point.indices[..d].iter_mut().zip(&point.levels) {
        *i = 2 * (rest & ((1 << l) - 1)) + 1;
        rest >>= l;
    }
    Ok(point)
}

/// The next level vector of the same sum over these axes, or none after the last.
pub fn next(inner: &[u8], levels: &mut Levels) -> bool {
    let Some(j) = inner.iter().position(|&t| levels[usize::from(t & 7)] > 0) else { return false };
    let Some(&after) = inner.get(j + 1) else { return false };
    let (here, first) = (usize::from(inner[j] & 7), usize::from(inner[0] & 7));
    let l = levels[here];
    levels[here] = 0;
    levels[first] = l - 1;
    levels[usize::from(after & 7)] += 1;
    true
}

/// The point numbered one higher, or none after the last.
pub fn successor(axes: u32, level: u32, marks: &[u32], levels: &[u32], indices: &[u32]) -> Result<Option<Point>, u32> {
    if let Some(refused) = check_shape(axes, level) {
        return Err(refused);
    }
    let d = axes as usize;
    if let Some(refused) = check(d, level, marks, levels, indices) {
        return Err(refused);
    }
    let mut point = Point { marks: array(marks), levels: array(levels), indices: array(indices) };
    for t in 0..d {
        // the one index of a border axis is its last
        if point.indices[t] + 2 < 1 << (point.levels[t] + 1) {
            point.indices[t] += 2;
            return Ok(Some(point));
        }
        point.indices[t] = 1;
    }
    let code = marks.iter().zip(POWERS).map(|(&m, power)| m as usize * power).sum::<usize>();
    let sum = levels.iter().sum::<u32>();
    let f = usize::from(FACE_OF[d][code]);
    let face = &ORDER[d][f];
    let inner = &face.inner[..face.count];
    if next(inner, &mut point.levels) {
        return Ok(Some(point));
    }
    point.levels = [0; 8];
    if sum < level && !inner.is_empty() {
        point.levels[usize::from(inner[0])] = sum + 1;
    } else if f + 1 < POWERS[d] {
        point.marks = ORDER[d][f + 1].marks;
    } else {
        return Ok(None);
    }
    Ok(Some(point))
}

/// The point beside a point on an axis, or none where the point is on the border of that axis.
pub fn parent(
    axes: u32,
    level: u32,
    marks: &[u32],
    levels: &[u32],
    indices: &[u32],
    axis: u32,
    right: bool,
) -> Result<Option<Point>, u32> {
    if let Some(refused) = check_shape(axes, level) {
        return Err(refused);
    }
    if axis == 0 || axis > axes {
        return Err(5);
    }
    if let Some(refused) = check(axes as usize, level, marks, levels, indices) {
        return Err(refused);
    }
    let t = axis as usize - 1;
    if marks[t] != 0 {
        return Ok(None);
    }
    let mut point = Point { marks: array(marks), levels: array(levels), indices: array(indices) };
    let numerator = if right { indices[t] + 1 } else { indices[t] - 1 };
    if numerator == 0 || numerator == 1 << (levels[t] + 1) {
        (point.marks[t], point.levels[t], point.indices[t]) = (1 + u32::from(right), 0, 1);
    } else {
        let twos = numerator.trailing_zeros();
        (point.levels[t], point.indices[t]) = (levels[t] - twos, numerator >> twos);
    }
    Ok(Some(point))
}

//! Rates to coefficients on a component grid, by sweeps over whole axes and in document 02's order, with all tests of the
//! call. The rates are tested before anything is written, and what follows cannot fail.

use super::is_rate;

/// The most points that a component grid may have.
const MOST: usize = 32_768;

/// The number and the place of a refusal.
pub type Refused = (u32, u64);

/// Refusals 1, 2, 19, 3 and 4; else how many points each axis has.
fn check(levels: &[u32], table: &[i64]) -> Result<[usize; 8], Refused> {
    if levels.is_empty() || levels.len() > 8 {
        return Err((1, 0));
    }
    if levels.iter().any(|&top| top > 8) {
        return Err((2, 0));
    }
    let (mut widths, mut points) = ([1; 8], 1);
    for (width, &top) in widths.iter_mut().zip(levels) {
        *width = (2 << top) - 1;
        points *= *width;
        if points > MOST {
            return Err((19, 0));
        }
    }
    if table.len() != points {
        return Err((3, 0));
    }
    // each is from 0 to 2^32 − 1 after this addition
    if table.iter().fold(0, |all, &r| all | r.wrapping_add(1 << 31) as u64) >> 32 != 0 {
        if let Some(p) = table.iter().position(|&r| !is_rate(r)) {
            return Err((4, p as u64));
        }
    }
    Ok(widths)
}

/// Point by point in the order that document 02 asks for: an interval is split at the middle of its axis with most points,
/// the middle done for the axes before that one, then the halves, then the middle for the others.
pub fn by_halves(levels: &[u32], table: &mut [i64]) -> Result<(), Refused> {
    let widths = check(levels, table)?;
    table.iter_mut().for_each(|v| *v <<= levels.len());
    let mut lines = [Line { left: 0, reach: 0, first: true, last: true }; 8];
    let (mut middle, mut stride) = (0, 1);
    for (line, &width) in lines.iter_mut().zip(&widths[..levels.len()]) {
        (line.left, line.reach) = (width, width.div_ceil(2) * stride);
        middle += line.reach - stride;
        stride *= width;
    }
    halves(table, &mut lines[..levels.len()], middle, 0, levels.len());
    Ok(())
}

/// An interval on one axis: how many points are left, how many places it is from the middle to either end, and whether these
/// are the borders.
#[derive(Clone, Copy)]
struct Line {
    left: usize,
    reach: usize,
    first: bool,
    last: bool,
}

/// Axes s to t − 1, from 0, in the interval about the point at this place.
fn halves(table: &mut [i64], lines: &mut [Line], middle: usize, s: usize, t: usize) {
    let mut r = 0;
    for axis in 1..lines.len() {
        if lines[axis].left > lines[r].left {
            r = axis;
        }
    }
    let whole = lines[r];
    if whole.left == 1 {
        let mut value = table[middle];
        for line in &lines[s..t] {
            let left = if line.first { 0 } else { table[middle - line.reach] };
            let right = if line.last { 0 } else { table[middle + line.reach] };
            value -= (left + right) >> 1;
        }
        table[middle] = value;
        return;
    }
    let cut = r.clamp(s, t);
    let (left, reach) = (whole.left / 2, whole.reach / 2);
    if s < cut {
        lines[r].left = 1;
        halves(table, lines, middle, s, cut);
    }
    lines[r] = Line { left, reach, last: false, ..whole };
    halves(table, lines, middle - reach, s, t);
    lines[r] = Line { left, reach, first: false, ..whole };
    halves(table, lines, middle + reach, s, t);
    lines[r] = Line { left: 1, ..whole };
    if cut < t {
        halves(table, lines, middle, cut, t);
    }
    lines[r] = whole;
}

/// Line by line along each axis, the points of the highest level first.
pub fn by_lines(levels: &[u32], table: &mut [i64]) -> Result<(), Refused> {
    let widths = check(levels, table)?;
    table.iter_mut().for_each(|v| *v <<= levels.len());
    let mut stride = 1;
    for &width in &widths[..levels.len()] {
        for block in table.chunks_exact_mut(stride * width) {
            (0..stride).for_each(|first| line(&mut block[first..], stride, width));
        }
        stride *= width;
    }
    Ok(())
}

/// One line: the points at these coordinates, counted from 1, are so many places apart.
fn line(block: &mut [i64], stride: usize, width: usize) {
    let place = |coordinate: usize| (coordinate - 1) * stride;
    let mut reach = 1;
    while reach < width {
        let mut c = reach;
        while c <= width {
            let left = if c == reach { 0 } else { block[place(c - reach)] };
            let right = if c + reach > width { 0 } else { block[place(c + reach)] };
            block[place(c)] -= (left + right) >> 1;
            c += 2 * reach;
        }
        reach *= 2;
    }
}

/// Axis 1 line by line. On the others the points of one coordinate are runs, as long as the axes before have points, and
/// so are their parents.
pub fn by_runs(levels: &[u32], table: &mut [i64]) -> Result<(), Refused> {
    let widths = check(levels, table)?;
    table.iter_mut().for_each(|v| *v <<= levels.len());
    table.chunks_exact_mut(widths[0]).for_each(|row| line(row, 1, widths[0]));
    let mut stride = widths[0];
    for &width in &widths[1..levels.len()] {
        table.chunks_exact_mut(stride * width).for_each(|block| runs(block, stride, width));
        stride *= width;
    }
    Ok(())
}

fn runs(block: &mut [i64], stride: usize, width: usize) {
    let mut reach = 1;
    while reach < width {
        let mut c = reach;
        while c <= width {
            let (before, rest) = block.split_at_mut((c - 1) * stride);
            let (mine, after) = rest.split_at_mut(stride);
            let far = reach * stride;
            let left = before.len().checked_sub(far).map(|from| &before[from..][..stride]);
            let right = after.get(far - stride..far);
            match (left, right) {
                (Some(left), Some(right)) => {
                    for ((v, a), b) in mine.iter_mut().zip(left).zip(right) {
                        *v -= (a + b) >> 1;
                    }
                }
                (Some(one), None) | (None, Some(one)) => {
                    for (v, a) in mine.iter_mut().zip(one) {
                        *v -= a >> 1;
                    }
                }
                (None, None) => (),
            }
            c += 2 * reach;
        }
        reach *= 2;
    }
}

/// The fastest of the forms that were tried. A sweep takes twice a value less its parents, so that no half is taken and no
/// pass is needed for the unit; on axis 1 three levels are done at once, on the others two, and of two neighbouring axes of
/// top level 1 both; the first axes are done part by part, as far as a part fits the first cache.
pub fn at_once(levels: &[u32], table: &mut [i64]) -> Result<(), Refused> {
    const PART: usize = 2_048;
    let widths = check(levels, table)?;
    let widths = &widths[..levels.len()];
    let (mut first, mut part) = (1, widths[0]);
    while first < widths.len() && part * widths[first] <= PART {
        part *= widths[first];
        first += 1;
    }
    table.chunks_exact_mut(part).for_each(|part| sweeps(part, 1, &widths[..first]));
    sweeps(table, part, &widths[first..]);
    Ok(())
}

fn sweeps(table: &mut [i64], mut stride: usize, mut widths: &[usize]) {
    while let [width, later @ ..] = widths {
        let width = *width;
        (stride, widths) = match (widths, stride) {
            // the same code for each, with a stride that the compiler knows
            ([3, 3, later @ ..], _) => {
                match stride {
                    1 => table.chunks_exact_mut(9).for_each(|tile| nine_runs(tile, 1)),
                    9 => table.chunks_exact_mut(81).for_each(|tile| nine_runs(tile, 9)),
                    _ => table.chunks_exact_mut(9 * stride).for_each(|tile| nine_runs(tile, stride)),
                }
                (9 * stride, later)
            }
            (_, 1) => {
                table.chunks_exact_mut(width).for_each(row);
                (width, later)
            }
            (_, 3) => {
                table.chunks_exact_mut(3 * width).for_each(|block| three_runs(block, 3, width));
                (3 * width, later)
            }
            _ => {
                table.chunks_exact_mut(stride * width).for_each(|block| three_runs(block, stride, width));
                (stride * width, later)
            }
        };
    }
}

/// Both of two neighbouring axes of three points each: nine runs.
#[inline(always)]
fn nine_runs(tile: &mut [i64], stride: usize) {
    let (low, rest) = tile.split_at_mut(3 * stride);
    let (middle, high) = rest.split_at_mut(3 * stride);
    let (a0, rest) = low.split_at_mut(stride);
    let (a1, a2) = rest.split_at_mut(stride);
    let (b0, rest) = middle.split_at_mut(stride);
    let (b1, b2) = rest.split_at_mut(stride);
    let (c0, rest) = high.split_at_mut(stride);
    let (c1, c2) = rest.split_at_mut(stride);
    for k in 0..stride {
        let three = |l: i64, m: i64, r: i64| [2 * l - m, 2 * m, 2 * r - m];
        let low = three(a0[k], a1[k], a2[k]);
        let middle = three(b0[k], b1[k], b2[k]);
        let high = three(c0[k], c1[k], c2[k]);
        [a0[k], b0[k], c0[k]] = three(low[0], middle[0], high[0]);
        [a1[k], b1[k], c1[k]] = three(low[1], middle[1], high[1]);
        [a2[k], b2[k], c2[k]] = three(low[2], middle[2], high[2]);
    }
}

/// One line of axis 1: the seven points between two multiples of eight at once, then three between two coarser ones.
fn row(row: &mut [i64]) {
    let (width, mut apart) = (row.len(), 1);
    if width >= 7 {
        let mut left = 0;
        let mut eights = row.chunks_exact_mut(8);
        for eight in &mut eights {
            if let [seven @ .., right] = eight {
                between(left, seven, *right);
                left = *right;
            }
        }
        between(left, eights.into_remainder(), 0);
        apart = 8;
    }
    while 4 * apart <= width + 1 {
        let (mut left, mut at) = (0, apart - 1);
        while at < width {
            let right = if at + 3 * apart < width { row[at + 3 * apart] } else { 0 };
            let (a, b, c) = (row[at], row[at + apart], row[at + 2 * apart]);
            row[at] = 2 * a - left - b;
            row[at + apart] = 2 * b - left - right;
            row[at + 2 * apart] = 2 * c - b - right;
            left = right;
            at += 4 * apart;
        }
        apart *= 4;
    }
    if apart <= width {
        row[apart - 1] *= 2;
    }
}

#[inline(always)]
fn between(left: i64, seven: &mut [i64], right: i64) {
    if let [a, b, c, d, e, f, g] = seven {
        let (second, fourth, sixth) = (*b, *d, *f);
        *a = 2 * *a - left - second;
        *b = 2 * second - left - fourth;
        *c = 2 * *c - second - fourth;
        *d = 2 * fourth - left - right;
        *e = 2 * *e - fourth - sixth;
        *f = 2 * sixth - fourth - right;
        *g = 2 * *g - sixth - right;
    }
}

/// One axis: the three runs between two coarser ones at once.
#[inline(always)]
fn three_runs(block: &mut [i64], stride: usize, width: usize) {
    let mut apart = 1;
    while 4 * apart <= width + 1 {
        let step = apart * stride;
        let mut at = step - stride;
        while at < block.len() {
            let (before, rest) = block.split_at_mut(at);
            let (a, rest) = rest.split_at_mut(step);
            let (b, c) = rest.split_at_mut(step);
            let (a, b) = (&mut a[..stride], &mut b[..stride]);
            let (c, after) = c.split_at_mut(stride);
            let left = at.checked_sub(step).map(|from| &before[from..][..stride]);
            let right = after.get(step - stride..step);
            match (left, right) {
                (Some(left), Some(right)) => three::<true, true>(left, a, b, c, right),
                (Some(left), None) => three::<true, false>(left, a, b, c, left),
                (None, Some(right)) => three::<false, true>(right, a, b, c, right),
                (None, None) => {
                    for ((a, b), c) in a.iter_mut().zip(b).zip(c) {
                        *a = 2 * *a - *b;
                        *c = 2 * *c - *b;
                        *b *= 2;
                    }
                }
            }
            at += 4 * step;
        }
        apart *= 4;
    }
    if apart <= width {
        block[(apart - 1) * stride..][..stride].iter_mut().for_each(|v| *v *= 2);
    }
}

/// Three runs, with a coarser one on this side or the border.
#[inline(always)]
fn three<const LEFT: bool, const RIGHT: bool>(
    left: &[i64],
    a: &mut [i64],
    b: &mut [i64],
    c: &mut [i64],
    right: &[i64],
) {
    for ((((&l, a), b), c), &r) in left.iter().zip(a).zip(b).zip(c).zip(right) {
        let (l, m, r) = (if LEFT { l } else { 0 }, *b, if RIGHT { r } else { 0 });
        *a = 2 * *a - l - m;
        *b = 2 * m - l - r;
        *c = 2 * *c - m - r;
    }
}

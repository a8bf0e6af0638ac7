//! Shapes, level vectors and their numbers, by document 001 with document 01's order inside a level vector.

pub type Levels = [u32; 8];

/// `BINOMIAL[a][b]` is a over b.
pub const BINOMIAL: [[u64; 17]; 17] = binomials();

const fn binomials() -> [[u64; 17]; 17] {
    let mut rows = [[0; 17]; 17];
    let mut a = 0;
    while a < 17 {
        rows[a][0] = 1;
        let mut b = 1;
        while b <= a {
            rows[a][b] = rows[a - 1][b - 1] + if b < a { rows[a - 1][b] } else { 0 };
            b += 1;
        }
        a += 1;
    }
    rows
}

/// How many points have a level sum below `sum`.
pub fn before_sum(axes: usize, sum: u32) -> u64 {
    (0..sum as usize).map(|j| BINOMIAL[axes - 1 + j][j] << j).sum()
}

/// How many points the shape has.
pub fn count(axes: usize, level: u32) -> u64 {
    before_sum(axes, level + 1)
}

/// Which level vector this is among those of its sum (document 001, equation 4).
pub fn subspace_index(axes: usize, levels: &Levels) -> u64 {
    let mut sum = levels[0] as usize;
    let mut index = 0;
    for t in 1..axes {
        index -= BINOMIAL[t + sum][t] as i64;
        sum += levels[t] as usize;
        index += BINOMIAL[t + sum][t] as i64;
    }
    index as u64
}

/// The number of the first point of a level vector.
pub fn start(axes: usize, levels: &Levels) -> u64 {
    let sum = levels[..axes].iter().sum::<u32>();
    before_sum(axes, sum) + (subspace_index(axes, levels) << sum)
}

/// The first level vector of a sum.
pub fn first(sum: u32) -> Levels {
    [sum, 0, 0, 0, 0, 0, 0, 0]
}

/// The next level vector of the same sum (document 001, algorithm 4), or none after the last.
pub fn next(axes: usize, levels: &mut Levels) -> bool {
    let mut t = 0;
    while t + 1 < axes && levels[t] == 0 {
        t += 1;
    }
    if t + 1 >= axes {
        return false;
    }
    let m = levels[t];
    levels[t] = 0;
    levels[0] = m - 1;
    levels[t + 1] += 1;
    true
}

/// All level vectors of a shape, in order.
pub fn vectors(axes: usize, level: u32) -> Vec<Levels> {
    let mut all = Vec::new();
    for sum in 0..=level {
        let mut levels = first(sum);
        all.push(levels);
        while next(axes, &mut levels) {
            all.push(levels);
        }
    }
    all
}

/// The most points of a table.
pub const MOST_POINTS: u64 = 32_768;

/// `TOPS[d]`: the largest top level of d axes with so many points.
const TOPS: [u32; 9] = tops();

const fn tops() -> [u32; 9] {
    let mut all = [0; 9];
    let mut axes = 1;
    while axes <= 8 {
        let (mut points, mut level) = (1, 0);
        while level < 8 {
            level += 1;
            points += BINOMIAL[axes - 1 + level][level] << level;
            if points <= MOST_POINTS {
                all[axes] = level as u32;
            }
        }
        axes += 1;
    }
    all
}

/// Refusal 1, 2 or 19, else nothing.
pub const fn check_shape(axes: u32, level: u32) -> Option<u32> {
    if axes == 0 || axes > 8 {
        Some(1)
    } else if level > 8 {
        Some(2)
    } else if level > TOPS[axes as usize] {
        Some(19)
    } else {
        None
    }
}

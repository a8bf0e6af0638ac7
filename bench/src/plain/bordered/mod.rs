//! Tables with values on the border, in plain Rust: document 02, g. A table is a row of faces, each a sparse table over the axes
//! that its marks leave inside; all that a shape needs to know of its faces stands in constant tables.

pub mod estimates;
pub mod points;
pub mod turns;

#[cfg(test)]
mod oracle;

use super::grid::{BINOMIAL, MOST_POINTS};

/// The most axes, and the most faces.
pub const AXES: usize = 4;
pub const FACES: usize = 81;

/// Powers of three: a face's code is the sum of its marks times these, so that codes compare as marks do from the last axis.
pub const POWERS: [usize; AXES + 1] = [1, 3, 9, 27, 81];

/// The marks of a face and the axes inside.
#[derive(Clone, Copy)]
pub struct Face {
    pub marks: [u32; 8],
    pub inner: [u8; AXES],
    /// How many axes are inside.
    pub count: usize,
    /// Its code, and which it is among the faces with as many border axes.
    pub code: usize,
    pub rank: u32,
}

const NO_FACE: Face = Face { marks: [0; 8], inner: [0; AXES], count: 0, code: 0, rank: 0 };

/// The faces of d axes in their order.
pub static ORDER: [[Face; FACES]; AXES + 1] = ordered();

/// Which face a code names, of d axes.
pub static FACE_OF: [[u8; FACES]; AXES + 1] = found();

const fn ordered() -> [[Face; FACES]; AXES + 1] {
    let mut all = [[NO_FACE; FACES]; AXES + 1];
    let mut axes = 1;
    while axes <= AXES {
        let (mut at, mut borders) = (0, 0);
        while borders <= axes {
            let (mut code, mut rank) = (0, 0);
            while code < POWERS[axes] {
                let mut face = Face { code, rank, ..NO_FACE };
                let mut t = 0;
                while t < axes {
                    face.marks[t] = (code / POWERS[t] % 3) as u32;
                    if face.marks[t] == 0 {
                        face.inner[face.count] = t as u8;
                        face.count += 1;
                    }
                    t += 1;
                }
                if face.count + borders == axes {
                    all[axes][at] = face;
                    at += 1;
                    rank += 1;
                }
                code += 1;
            }
            borders += 1;
        }
        axes += 1;
    }
    all
}

const fn found() -> [[u8; FACES]; AXES + 1] {
    let all = ordered();
    let mut of = [[0; FACES]; AXES + 1];
    let mut axes = 1;
    while axes <= AXES {
        let mut f = 0;
        while f < POWERS[axes] {
            of[axes][all[axes][f].code] = f as u8;
            f += 1;
        }
        axes += 1;
    }
    of
}

/// `BEFORE[k][s]`: how many points with k inner axes have a level sum below s; without axes there is one, of sum 0.
pub const BEFORE: [[u32; 10]; AXES + 1] = before();

const fn before() -> [[u32; 10]; AXES + 1] {
    let mut rows = [[0; 10]; AXES + 1];
    let mut k = 0;
    while k <= AXES {
        let mut s = 0;
        while s < 9 {
            let vectors = if k > 0 { BINOMIAL[k - 1 + s][s] } else { (s == 0) as u64 };
            rows[k][s + 1] = rows[k][s] + ((vectors as u32) << s);
            s += 1;
        }
        k += 1;
    }
    rows
}

/// How many points a face with k inner axes has.
pub fn points_on(inner: usize, level: u32) -> u32 {
    BEFORE[inner][level as usize + 1]
}

/// `LAYERS[d][n][b]`: how many points have fewer than b border axes.
pub const LAYERS: [[[u32; AXES + 2]; 9]; AXES + 1] = layers();

const fn layers() -> [[[u32; AXES + 2]; 9]; AXES + 1] {
    let mut rows = [[[0; AXES + 2]; 9]; AXES + 1];
    let mut d = 1;
    while d <= AXES {
        let mut n = 0;
        while n < 9 {
            let mut b = 0;
            while b <= d {
                rows[d][n][b + 1] = rows[d][n][b] + ((BINOMIAL[d][b] as u32) << b) * BEFORE[d - b][n + 1];
                b += 1;
            }
            n += 1;
        }
        d += 1;
    }
    rows
}

/// How many points the shape has.
pub fn count(axes: usize, level: u32) -> u32 {
    LAYERS[axes][level as usize][axes + 1]
}

/// The number of a face's first point.
pub fn start(axes: usize, level: u32, face: &Face) -> u32 {
    LAYERS[axes][level as usize][axes - face.count] + face.rank * points_on(face.count, level)
}

/// Refusal 1, 2 or 19, else nothing.
pub fn check_shape(axes: u32, level: u32) -> Option<u32> {
    if axes == 0 || axes > AXES as u32 {
        Some(1)
    } else if level > 8 {
        Some(2)
    } else if u64::from(count(axes as usize, level)) > MOST_POINTS {
        Some(19)
    } else {
        None
    }
}

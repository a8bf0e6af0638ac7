//! Change request g by the same means: tables with border values and those without, by one rule. A point is its coordinates,
//! on each axis one inside the grid, or with the flag also 0 or 1. Points are found by searching coordinates and numbered by
//! sorting; their neighbours are what stands at the coordinates beside. What a face is, only the order of the points asks.

pub mod calls;
pub mod estimates;
pub mod grid;
pub mod readings;
pub mod turns;

use super::{not_too_large, Refused};

/// A shape of either sort: the flag is any number, and every one but 0 says yes.
#[derive(Clone, Copy, Debug, PartialEq, Eq)]
pub struct Shape {
    pub axes: u32,
    pub level: u32,
    pub border: u8,
}

impl Shape {
    pub fn new(axes: u32, level: u32, border: u8) -> Shape {
        Shape { axes, level, border }
    }

    pub fn flagged(self) -> bool {
        self.border != 0
    }

    /// What a shape is refused with: 1, 2, 19.
    pub fn check(self) -> Result<(), Refused> {
        readings::RIGHT.check(self)?;
        not_too_large(self.count() as u128)
    }

    /// N of a shape that is none of refusals 1 and 2.
    pub fn count(self) -> usize {
        calls::count(self, &readings::RIGHT) as usize
    }

    pub fn all_bits(self) -> u8 {
        (1..=self.axes.min(8)).map(|t| 2u8.pow(t - 1)).sum()
    }
}

/// The marks, levels and indices that name a point, as a call is handed them.
#[derive(Clone, Debug, PartialEq, Eq)]
pub struct Lists {
    pub marks: Vec<u32>,
    pub levels: Vec<u32>,
    pub indices: Vec<u32>,
}

/// The same as a call answers them, 0 past the last axis.
#[derive(Clone, Copy, Debug, PartialEq, Eq)]
pub struct Eights {
    pub marks: [u32; 8],
    pub levels: [u32; 8],
    pub indices: [u32; 8],
}

impl Eights {
    pub fn lists(&self, axes: u32) -> Lists {
        let of = |all: &[u32; 8]| all[..axes as usize].to_vec();
        Lists { marks: of(&self.marks), levels: of(&self.levels), indices: of(&self.indices) }
    }
}

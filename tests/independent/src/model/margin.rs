//! How far an estimate can be off: change request f. The exact value of the surface is a fraction of two whole numbers,
//! and every digit of both is kept.

use super::estimates::{estimate, AxisWeights, UNIT};
use super::grid::grid;
use super::natural::Natural;
use super::Refused;

/// An estimate, S and the margin.
#[derive(Clone, Copy, Debug, PartialEq, Eq)]
pub struct Estimated {
    pub estimate: i64,
    pub absolute_sum: u64,
    pub margin: u64,
}

pub fn estimate_with_margin(
    axes: u32,
    level: u32,
    bits: u8,
    table: &[i64],
    coordinates: &[u32],
) -> Result<Estimated, Refused> {
    let estimate = estimate(axes, level, bits, table, coordinates)?;
    Ok(Reached::new(axes, level, table, coordinates).with_margin(estimate))
}

/// The points that are reached, each with its coefficient and its weights: those whose weight is above zero on each
/// axis.
pub struct Reached {
    axes: u32,
    points: Vec<(i64, [u32; 8])>,
}

impl Reached {
    pub fn new(axes: u32, level: u32, table: &[i64], coordinates: &[u32]) -> Reached {
        let weights = AxisWeights::new(UNIT, level, coordinates);
        let of_all_axes = |at| {
            let mut all = [0; 8];
            for t in 0..axes as usize {
                match weights.of(at, t) {
                    0 => return None,
                    weight => all[t] = weight as u32,
                }
            }
            Some(all)
        };
        let all = grid(axes, level);
        let points = all.order.iter().zip(table).filter_map(|(at, &c)| of_all_axes(at).map(|weights| (c, weights)));
        Reached { axes, points: points.collect() }
    }

    /// These points, of a shape with so many axes.
    pub fn of_points(axes: u32, points: Vec<(i64, [u32; 8])>) -> Reached {
        Reached { axes, points }
    }

    /// S.
    pub fn sum(&self) -> u64 {
        self.points.iter().map(|(c, _)| c.unsigned_abs()).sum()
    }

    pub fn with_margin(&self, estimate: i64) -> Estimated {
        let absolute_sum = self.sum();
        Estimated { estimate, absolute_sum, margin: margin(self.axes, absolute_sum) }
    }

    pub fn exact(&self) -> Exact {
        let (mut added, mut taken) = (Natural::ZERO, Natural::ZERO);
        for (c, weights) in &self.points {
            let weights = &weights[..self.axes as usize];
            let term = weights.iter().fold(Natural::new(c.unsigned_abs()), |term, &w| term.times(w.into()));
            if *c < 0 {
                taken = taken.plus(term);
            } else {
                added = added.plus(term);
            }
        }
        Exact { added, taken, under: power_of_unit(self.axes) }
    }

    /// What is over the line of the exact value on at most three axes: of at most 165 points, each at most 2^47 × 2^60.
    pub fn over_in_128_bits(&self) -> i128 {
        let of_axes =
            |weights: &[u32; 8]| weights[..self.axes as usize].iter().map(|&w| i128::from(w)).product::<i128>();
        self.points.iter().map(|(c, weights)| i128::from(*c) * of_axes(weights)).sum()
    }
}

/// The least whole number that is not below 1/2 + (d − 1) × S / 1,048,576.
fn margin(axes: u32, absolute_sum: u64) -> u64 {
    // in 2,097,152nds
    let bound = UNIT + 2 * i128::from(axes - 1) * i128::from(absolute_sum);
    let about = bound / (2 * UNIT);
    let least = (about - 1..=about + 1).find(|whole| whole * 2 * UNIT >= bound).expect("three numbers");
    u64::try_from(least).expect("a margin fits 64 bits")
}

/// The exact value of the surface: the sum over all points of coefficient × weights, over 1,048,576^d. Over the line is
/// what the coefficients above zero add, less what those below zero take.
pub struct Exact {
    added: Natural,
    taken: Natural,
    under: Natural,
}

impl Exact {
    /// How far the value is from this whole number, times what is under the line.
    fn off(&self, whole: i64) -> Natural {
        self.times_off(1, whole)
    }

    /// How far `by` × value is from this whole number, times what is under the line.
    fn times_off(&self, by: u64, whole: i64) -> Natural {
        let (added, taken) = (self.added.times(by), self.taken.times(by));
        let size = self.under.times(whole.unsigned_abs());
        if whole < 0 {
            added.plus(size).apart(taken)
        } else {
            added.apart(taken.plus(size))
        }
    }

    /// Whether the value is this fraction.
    pub fn is(&self, over: i64, under: u64) -> bool {
        self.times_off(under, over) == Natural::ZERO
    }

    /// Whether this number is over the line.
    pub fn is_over(&self, number: i128) -> bool {
        let (high, low) = ((number.unsigned_abs() >> 64) as u64, number.unsigned_abs() as u64);
        let size = Natural::new(high).times(1 << 32).times(1 << 32).plus(Natural::new(low));
        if number < 0 {
            self.added.plus(size) == self.taken
        } else {
            self.added == self.taken.plus(size)
        }
    }

    /// Whether the value is no more than the margin from the estimate.
    pub fn within_margin(&self, answer: &Estimated) -> bool {
        self.off(answer.estimate) <= self.under.times(answer.margin)
    }

    /// Whether it is no more than 1/2 + (d − 1) × S / 1,048,576 from it.
    pub fn within_bound(&self, axes: u32, answer: &Estimated) -> bool {
        self.off(answer.estimate).times(2) <= self.twice_bound(axes, answer.absolute_sum)
    }

    /// Whether it is more than so many 1,048,576ths of that from it.
    pub fn beyond_share(&self, share: u64, axes: u32, answer: &Estimated) -> bool {
        self.off(answer.estimate).times(2 * UNIT as u64) > self.twice_bound(axes, answer.absolute_sum).times(share)
    }

    /// 2 × (1/2 + (d − 1) × S / 1,048,576), times what is under the line: that of one axis less, where S is.
    fn twice_bound(&self, axes: u32, absolute_sum: u64) -> Natural {
        self.under.plus(power_of_unit(axes - 1).times(2 * u64::from(axes - 1)).times(absolute_sum))
    }
}

fn power_of_unit(axes: u32) -> Natural {
    (0..axes).fold(Natural::new(1), |power, _| power.times(UNIT as u64))
}

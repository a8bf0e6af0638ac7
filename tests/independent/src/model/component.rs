//! Component grids. A point is its coordinates, as fractions; the layout is the points sorted by them, the last axis first;
//! a parent is looked for among the coordinates of the axis; a sweep reads a table and makes another.

use super::rates::all_rates;
use super::{not_too_large, within, Refused};
use std::cmp::Ordering;
use std::collections::HashMap;

/// A coordinate in lowest terms.
#[derive(Clone, Copy, Debug, PartialEq, Eq, Hash)]
pub struct Fraction {
    pub over: u16,
    pub under: u16,
}

impl Fraction {
    fn reduced(over: u16, under: u16) -> Fraction {
        let (mut a, mut b) = (over, under);
        while b != 0 {
            (a, b) = (b, a % b);
        }
        Fraction { over: over / a, under: under / a }
    }

    fn inside(self) -> bool {
        0 < self.over && self.over < self.under
    }

    /// The level and the index: this is i / 2^(l+1).
    pub fn level_and_index(self) -> (u32, u32) {
        let level = (0..16).find(|&l| 2u32.pow(l + 1) == u32::from(self.under)).expect("a power of two");
        (level, u32::from(self.over))
    }
}

impl Ord for Fraction {
    fn cmp(&self, other: &Fraction) -> Ordering {
        let product = |a: u16, b: u16| u32::from(a) * u32::from(b);
        product(self.over, other.under).cmp(&product(other.over, self.under))
    }
}

impl PartialOrd for Fraction {
    fn partial_cmp(&self, other: &Fraction) -> Option<Ordering> {
        Some(self.cmp(other))
    }
}

/// A point's coordinates, axis 1 first; 0 past the last axis.
pub type At = [Fraction; 8];

const NOWHERE: Fraction = Fraction { over: 0, under: 1 };

/// The parents of a coordinate, left and right; none where the neighbour is the border.
type Parents<T> = [Option<T>; 2];

pub struct Grid {
    pub axes: usize,
    /// The coordinates of each axis, rising.
    pub lines: Vec<Vec<Fraction>>,
    /// The points in the order of the layout.
    pub points: Vec<At>,
    pub place: HashMap<At, usize>,
    /// For each axis, the places of each point's parents.
    pub parents: Vec<Vec<Parents<usize>>>,
}

/// Refusals 1 and 2.
fn lists(levels: &[u32]) -> Result<(), Refused> {
    if levels.is_empty() || levels.len() > 8 {
        return Err((1, 0));
    }
    if levels.iter().any(|&top| top > 8) {
        return Err((2, 0));
    }
    Ok(())
}

/// How many points the grid has: on an axis 2^l for each level within its top.
pub fn count(levels: &[u32]) -> u128 {
    levels.iter().map(|&top| (0..=top).map(|l| 2u128.pow(l)).sum::<u128>()).product()
}

/// A call: the table afterwards.
pub fn coefficients(levels: &[u32], table: &[i64]) -> Result<Vec<i64>, Refused> {
    lists(levels)?;
    not_too_large(count(levels))?;
    if table.len() as u128 != count(levels) {
        return Err((3, 0));
    }
    all_rates(table)?;
    Ok(Grid::new(levels).coefficients(table))
}

/// i / 2^(l+1) for each level within the top and each odd index, rising.
fn line(top: u32) -> Vec<Fraction> {
    let mut all = Vec::new();
    for level in 0..=top {
        let under = 2u16.pow(level + 1);
        all.extend((1..under).filter(|i| i % 2 == 1).map(|over| Fraction { over, under }));
    }
    all.sort();
    all
}

/// The nearest coordinates of a lower level on either side, which are at (i − 1) / 2^(l+1) and (i + 1) / 2^(l+1).
fn parents(line: &[Fraction], x: Fraction) -> Parents<Fraction> {
    let coarser = || line.iter().copied().filter(|c| c.under < x.under);
    let found = [coarser().filter(|c| *c < x).max(), coarser().filter(|c| *c > x).min()];
    let named = [x.over - 1, x.over + 1].map(|over| Some(Fraction::reduced(over, x.under)).filter(|c| c.inside()));
    assert_eq!(found, named, "the parents of {x:?}");
    found
}

impl Grid {
    /// The grid of a list that is none of refusals 1, 2 and 19.
    pub fn new(levels: &[u32]) -> Grid {
        let axes = levels.len();
        let lines: Vec<Vec<Fraction>> = levels.iter().map(|&top| line(top)).collect();
        let mut points = vec![[NOWHERE; 8]];
        for (t, line) in lines.iter().enumerate() {
            let longer = |at: &At| {
                let at = *at;
                line.iter().map(move |&c| {
                    let mut longer = at;
                    longer[t] = c;
                    longer
                })
            };
            points = points.iter().flat_map(longer).collect();
        }
        assert_eq!(points.len() as u128, count(levels), "the formula and the points that were found");
        // the first axis runs fastest: it is compared last
        points.sort_by(|a, b| a.iter().rev().cmp(b.iter().rev()));
        let place: HashMap<At, usize> = points.iter().enumerate().map(|(p, &at)| (at, p)).collect();
        let on_axis = |t: usize| {
            let known: HashMap<Fraction, Parents<Fraction>> =
                lines[t].iter().map(|&x| (x, parents(&lines[t], x))).collect();
            let of_point = |at: &At| {
                known[&at[t]].map(|parent| {
                    parent.map(|c| {
                        let mut beside = *at;
                        beside[t] = c;
                        place[&beside]
                    })
                })
            };
            points.iter().map(of_point).collect()
        };
        let parents = (0..axes).map(on_axis).collect();
        Grid { axes, lines, points, place, parents }
    }

    /// Each rate times 2 to the number of axes.
    pub fn loaded(&self, rates: &[i64]) -> Vec<i128> {
        rates.iter().map(|&r| i128::from(r) * 2i128.pow(self.axes as u32)).collect()
    }

    /// The sum of the parents' values on axis t, from 0.
    pub fn beside(&self, values: &[i128], t: usize, p: usize) -> i128 {
        self.parents[t][p].iter().flatten().map(|&q| values[q]).sum()
    }

    /// Every value minus half the sum of its parents' values, all read before any is changed.
    fn swept(&self, values: &[i128], t: usize) -> Vec<i128> {
        let each = |(p, v): (usize, &i128)| {
            let sum = self.beside(values, t, p);
            assert!(sum % 2 == 0 && within(*v) && within(v - sum / 2), "an accepted turn");
            v - sum / 2
        };
        values.iter().enumerate().map(each).collect()
    }

    /// The coefficients of accepted rates: whole axes, smallest first.
    pub fn coefficients(&self, rates: &[i64]) -> Vec<i64> {
        let swept = (0..self.axes).fold(self.loaded(rates), |values, t| self.swept(&values, t));
        swept.into_iter().map(|v| v as i64).collect()
    }

    /// The same without sweeps: the sum over the points that stand at or beside a point on each axis, of weight 2 at it and −1
    /// beside it.
    pub fn by_stencil(&self, rates: &[i64]) -> Vec<i64> {
        (0..rates.len()).map(|p| self.stencil(rates, self.axes, p) as i64).collect()
    }

    fn stencil(&self, rates: &[i64], axes: usize, p: usize) -> i128 {
        if axes == 0 {
            return i128::from(rates[p]);
        }
        let t = axes - 1;
        let beside: i128 = self.parents[t][p].iter().flatten().map(|&q| self.stencil(rates, t, q)).sum();
        2 * self.stencil(rates, t, p) - beside
    }

    /// The surface of these coefficients at every point, where it is whole: the sum over all points of coefficient times the
    /// hat of each axis, 1 − |x × 2^(l+1) − i| or 0 where that is negative. All hats at x = a / b are multiples of 1 / b.
    pub fn surface(&self, coefficients: &[i64]) -> Vec<Option<i128>> {
        let hat = |x: Fraction, c: Fraction| {
            let [a, b, over, under] = [x.over, x.under, c.over, c.under].map(i128::from);
            (b - (a * under - over * b).abs()).max(0)
        };
        let at = |x: &At| {
            let mut sum = 0;
            for (c, &coefficient) in self.points.iter().zip(coefficients) {
                let mut term = i128::from(coefficient);
                for t in 0..self.axes {
                    term *= hat(x[t], c[t]);
                    if term == 0 {
                        break;
                    }
                }
                sum += term;
            }
            let unit: i128 = x[..self.axes].iter().map(|x| i128::from(x.under)).product();
            (sum % unit == 0).then_some(sum / unit)
        };
        self.points.iter().map(at).collect()
    }
}

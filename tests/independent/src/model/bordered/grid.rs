//! The points of a shape of either sort, as coordinates in 512ths, in the order of their numbers.

use super::readings::{Beside, Order, Reading};
use super::{Eights, Shape};
use crate::model::grid::{level_and_index, At, Mix};
use std::collections::HashMap;
use std::hash::BuildHasherDefault;
use std::sync::{Arc, Mutex, OnceLock};

/// Where the two borders are.
pub const LOWER: u16 = 0;
pub const UPPER: u16 = 512;
const MIDDLE: u16 = 256;

pub fn on_border(coordinate: u16) -> bool {
    coordinate == LOWER || coordinate == UPPER
}

pub fn mark(coordinate: u16) -> u32 {
    match coordinate {
        LOWER => 1,
        UPPER => 2,
        _ => 0,
    }
}

/// Level and index of an inner coordinate, each found once.
pub fn term(coordinate: u16) -> (u32, u32) {
    static KNOWN: OnceLock<Vec<(u32, u32)>> = OnceLock::new();
    let inner = || (LOWER + 1..UPPER).map(level_and_index).collect();
    KNOWN.get_or_init(inner)[usize::from(coordinate) - 1]
}

pub struct Grid {
    axes: usize,
    /// The points in the order of their numbers.
    pub order: Arc<Vec<At>>,
    pub number: Arc<HashMap<At, usize, BuildHasherDefault<Mix>>>,
    /// The numbers of what stands beside each point, to the left and to the right, for each axis.
    near: OnceLock<Vec<Vec<[Option<u32>; 2]>>>,
    beside: Beside,
}

type Key = (Shape, Order, Beside);

impl std::hash::Hash for Shape {
    fn hash<H: std::hash::Hasher>(&self, state: &mut H) {
        (self.axes, self.level, self.border).hash(state);
    }
}

/// The points of a shape that is not refused, made once for each reading.
pub fn grid(shape: Shape, reading: &Reading) -> Arc<Grid> {
    static KNOWN: OnceLock<Mutex<HashMap<Key, Arc<Grid>>>> = OnceLock::new();
    let known = || KNOWN.get_or_init(Default::default).lock().unwrap();
    let key = (Shape { border: u8::from(shape.flagged()), ..shape }, reading.order, reading.beside);
    let found = known().get(&key).cloned();
    found.unwrap_or_else(|| {
        let made = if reading.beside == Beside::Right {
            Grid::new(key.0, reading.order)
        } else {
            // what stands beside a point is another question than which points there are
            let Grid { axes, order, number, .. } = &*grid(key.0, &Reading { beside: Beside::Right, ..*reading });
            Grid {
                beside: reading.beside,
                near: OnceLock::new(),
                axes: *axes,
                order: order.clone(),
                number: number.clone(),
            }
        };
        known().entry(key).or_insert_with(|| Arc::new(made)).clone()
    })
}

impl Grid {
    fn new(shape: Shape, by: Order) -> Grid {
        let axes = shape.axes as usize;
        let mut order = Vec::new();
        search(shape, [0; 8], 0, shape.level, &mut order);
        if by == Order::SmallerFaces {
            order.retain(|at| {
                let borders = at[..axes].iter().filter(|&&c| on_border(c)).count() as u32;
                levels(at, axes).iter().sum::<u32>() + borders <= shape.level || borders == 0
            });
        }
        order.sort_by_cached_key(|at| sort_key(at, axes, by));
        let number = order.iter().enumerate().map(|(p, &at)| (at, p)).collect();
        Grid { axes, order: Arc::new(order), number: Arc::new(number), near: OnceLock::new(), beside: Beside::Right }
    }

    pub fn near(&self) -> &[Vec<[Option<u32>; 2]>] {
        self.near.get_or_init(|| {
            let of_point = |at: &At, t| [false, true].map(|right| self.beside(at, t, right));
            (0..self.axes).map(|t| self.order.iter().map(|at| of_point(at, t)).collect()).collect()
        })
    }

    /// The number of the point at (i − 1) / 2^(l+1), or at (i + 1) / 2^(l+1), on axis t, from 0: none for a border point of
    /// the axis, and none where there is no such point.
    fn beside(&self, at: &At, t: usize, right: bool) -> Option<u32> {
        let mut next = *at;
        next[t] = if on_border(at[t]) {
            match self.beside {
                Beside::BordersAtBorder => [LOWER, UPPER][usize::from(right)],
                Beside::MiddleAtBorder if right => MIDDLE,
                _ => return None,
            }
        } else {
            let step = 512 / 2u16.pow(term(at[t]).0 + 1);
            if right {
                at[t] + step
            } else {
                at[t] - step
            }
        };
        if on_border(next[t]) {
            let others = (0..self.axes).filter(|&s| s != t);
            match self.beside {
                Beside::NothingAtMiddle if at[t] == MIDDLE => return None,
                Beside::Exchanged => next[t] = UPPER - next[t],
                Beside::LowerTwice => next[t] = LOWER,
                Beside::NoBorders => return None,
                Beside::NoBordersOfFaces if others.clone().any(|s| on_border(at[s])) => return None,
                Beside::OtherMarksDropped => others.filter(|&s| on_border(at[s])).for_each(|s| next[s] = MIDDLE),
                Beside::OtherLevelsDropped => others.filter(|&s| !on_border(at[s])).for_each(|s| next[s] = MIDDLE),
                _ => (),
            }
        }
        self.number.get(&next).map(|&p| p as u32)
    }

    /// Marks, levels and indices of a point.
    pub fn lists(&self, p: usize) -> Eights {
        lists(&self.order[p], self.axes)
    }
}

fn lists(at: &At, axes: usize) -> Eights {
    let mut found = Eights { marks: [0; 8], levels: [0; 8], indices: [0; 8] };
    for t in 0..axes {
        found.marks[t] = mark(at[t]);
        (found.levels[t], found.indices[t]) = if on_border(at[t]) { (0, 1) } else { term(at[t]) };
    }
    found
}

/// All points that begin with `at` on the axes before t, the levels of the others summing to at most `left`.
fn search(shape: Shape, at: At, t: usize, left: u32, found: &mut Vec<At>) {
    if t == shape.axes as usize {
        found.push(at);
        return;
    }
    // coordinates between these have a larger level
    for c in (LOWER..=UPPER).step_by(512 >> (left + 1)) {
        let mut longer = at;
        longer[t] = c;
        if on_border(c) {
            if shape.flagged() {
                search(shape, longer, t + 1, left, found);
            }
        } else if let Some(left) = left.checked_sub(term(c).0) {
            search(shape, longer, t + 1, left, found);
        }
    }
}

/// The levels of a point's inner axes, from the first.
fn levels(at: &At, axes: usize) -> Vec<u32> {
    inner(at, axes).into_iter().map(|(l, _)| l).collect()
}

/// Level and index of a point on each of its inner axes, from the first.
fn inner(at: &At, axes: usize) -> Vec<(u32, u32)> {
    at[..axes].iter().filter(|&&c| !on_border(c)).map(|&c| term(c)).collect()
}

/// What points are sorted by.
fn sort_key(at: &At, axes: usize, order: Order) -> Vec<u32> {
    let mut marks: Vec<u32> = at[..axes].iter().map(|&c| mark(c)).collect();
    let borders = marks.iter().filter(|&&m| m != 0).count() as u32;
    let mut of_axes = inner(at, axes);
    match order {
        Order::MarksFromFirst => (),
        Order::UpperFirst => marks = marks.iter().rev().map(|&m| (3 - m) % 3).collect(),
        Order::MarksBackward => marks = marks.iter().rev().map(|&m| 2 - m).collect(),
        Order::InnerBackward => {
            marks.reverse();
            of_axes.reverse();
        }
        _ => marks.reverse(),
    }
    let mut within = document_01(&of_axes);
    let mut key = match order {
        Order::MarksAlone => vec![],
        Order::MoreBordersFirst => vec![axes as u32 - borders],
        Order::LevelsFirst => {
            // the levels of all axes, so that the lists of different faces can be compared
            let of_all: Vec<(u32, u32)> =
                at[..axes].iter().map(|&c| if on_border(c) { (0, 1) } else { term(c) }).collect();
            within = document_01(&of_all);
            let position = within.pop();
            within.extend(marks);
            within.extend(position);
            return within;
        }
        _ => vec![borders],
    };
    key.extend(marks);
    key.extend(within);
    key
}

/// Document 01's order over these axes: level sum, levels from the last down to the first, position within the level list.
fn document_01(of_axes: &[(u32, u32)]) -> Vec<u32> {
    let mut key = vec![of_axes.iter().map(|(l, _)| l).sum()];
    key.extend(of_axes.iter().rev().map(|(l, _)| *l));
    let (mut position, mut width) = (0, 1);
    for (l, i) in of_axes {
        position += (i - 1) / 2 * width;
        width *= 2u32.pow(*l);
    }
    key.push(position);
    key
}

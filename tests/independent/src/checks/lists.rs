//! A turn list by list, in the separate code: each list gets what the whole turn leaves it and nothing else
//! changes, each list is met once, and what wrong readings do.
//!
//! Some wrong readings change no number. The parents of a point are in other lists, so a list may be done point by
//! point, with its own values as they come. Only lists that differ on the axis alone must keep their order: those of
//! one sum may stand in any order, and lists may go by their level on the axis in place of their sum, though the sums
//! then rise and fall. A list of level 0 on the axis has borders for parents, so to pass it over or to meet it twice
//! changes no number either.

use super::short;
use crate::draw::Draw;
use crate::inputs;
use crate::model::grid::{count, grid, At, Grid};
use crate::model::lists::{lists, step, turn, walk, List, Reading, Walk, RIGHT};
use crate::model::turns::turn_table;
use crate::report::Report;
use std::collections::{BTreeSet, HashMap};

const CALL: &str = "separate code with itself";

/// Shapes that are walked without wrong readings.
const LARGER: [(u32, u32); 7] = [(1, 8), (2, 7), (3, 5), (4, 4), (5, 3), (6, 3), (8, 3)];

/// A wrong reading, and whether it changes the order of lists and numbers.
struct Wrong {
    name: &'static str,
    /// The walks that it may come to, from the right one, on axis t, from 0.
    walks: for<'a> fn(right: &[&'a List], t: usize) -> Vec<Walk<'a>>,
    reading: Reading,
    order: bool,
    numbers: bool,
}

const WRONG: [Wrong; 12] = [
    Wrong {
        name: "the sums the other way: rising forward, falling back",
        walks: |right, _| vec![right.iter().rev().copied().collect()],
        reading: RIGHT,
        order: true,
        numbers: true,
    },
    Wrong {
        name: "a list met twice, at once",
        walks: |right, t| with_each(right, |list| list.levels[t] > 0, |walk, k| [&walk[..=k], &walk[k..]].concat()),
        reading: RIGHT,
        order: true,
        numbers: true,
    },
    Wrong {
        name: "a list met again at the end",
        walks: |right, t| with_each(right, |list| list.levels[t] > 0, |walk, k| [walk, &walk[k..=k]].concat()),
        reading: RIGHT,
        order: true,
        numbers: true,
    },
    Wrong {
        name: "a list passed over",
        walks: |right, t| with_each(right, |list| list.levels[t] > 0, |walk, k| [&walk[..k], &walk[k + 1..]].concat()),
        reading: RIGHT,
        order: true,
        numbers: true,
    },
    Wrong {
        name: "a list left for the end",
        walks: |right, t| {
            let such = |list: &List| list.levels[t] > 0;
            with_each(right, such, |walk, k| [&walk[..k], &walk[k + 1..], &walk[k..=k]].concat())
        },
        reading: RIGHT,
        order: true,
        numbers: true,
    },
    Wrong {
        name: "a list of level 0 on the axis met twice, at once",
        walks: |right, t| with_each(right, |list| list.levels[t] == 0, |walk, k| [&walk[..=k], &walk[k..]].concat()),
        reading: RIGHT,
        order: true,
        numbers: false,
    },
    Wrong {
        name: "a list of level 0 on the axis passed over",
        walks: |right, t| with_each(right, |list| list.levels[t] == 0, |walk, k| [&walk[..k], &walk[k + 1..]].concat()),
        reading: RIGHT,
        order: true,
        numbers: false,
    },
    Wrong {
        name: "the lists of one sum in the other order",
        walks: |right, _| {
            let sums = right.chunk_by(|a, b| a.sum() == b.sum());
            vec![sums.flat_map(|lists| lists.iter().rev().copied()).collect()]
        },
        reading: RIGHT,
        order: true,
        numbers: false,
    },
    Wrong {
        name: "by the level on the axis in place of the sum",
        walks: |right, t| {
            let mut walk = right.to_vec();
            let falling = right[0].sum() > 0;
            walk.sort_by_key(|list| i32::from(list.levels[t]) * if falling { -1 } else { 1 });
            vec![walk]
        },
        reading: RIGHT,
        order: true,
        numbers: false,
    },
    Wrong {
        name: "a list point by point, with its own values as they come",
        walks: |right, _| vec![right.to_vec()],
        reading: Reading { together: false, ..RIGHT },
        order: false,
        numbers: false,
    },
    // the indices 4j + 1 and 4j + 3 are a pair: they share the parent between them, and each has another one outside
    Wrong {
        name: "the left parent of the second of a pair in place of its right one",
        walks: |right, _| vec![right.to_vec()],
        reading: Reading { neighbours: |i| if i % 4 == 3 { [i - 1; 2] } else { [i - 1, i + 1] }, ..RIGHT },
        order: false,
        numbers: true,
    },
    Wrong {
        name: "the outer parent of the first of a pair for the second too",
        walks: |right, _| vec![right.to_vec()],
        reading: Reading { neighbours: |i| if i % 4 == 3 { [i - 3, i - 1] } else { [i - 1, i + 1] }, ..RIGHT },
        order: false,
        numbers: true,
    },
];

/// The walk changed at the place of one such list, for each of them.
fn with_each<'a>(
    right: &[&'a List],
    such: impl Fn(&List) -> bool,
    changed: impl Fn(&[&'a List], usize) -> Walk<'a>,
) -> Vec<Walk<'a>> {
    (0..right.len()).filter(|&k| such(right[k])).map(|k| changed(right, k)).collect()
}

/// How many walks of a wrong reading there were, and how many have another order and leave other numbers.
#[derive(Clone, Copy, Default)]
pub struct Shown {
    walks: u64,
    order: u64,
    numbers: u64,
}

/// By wrong reading, of forward turns and of turns back.
pub type All = Vec<[Shown; 2]>;

/// On every small shape, or with `large` on more and larger ones: on every axis, some accepted turns forward and back.
pub fn all(draw: &mut Draw, report: &mut Report, large: bool) -> All {
    let mut shown = vec![[Shown::default(); 2]; WRONG.len()];
    let most = if large { 210 } else { 50 };
    for axes in 1..=8 {
        for level in (0..=8).filter(|&level| count(axes, level) <= most) {
            of_shape(draw, report, axes, level, 8, Some(&mut shown));
        }
    }
    if large {
        for (axes, level) in LARGER {
            of_shape(draw, report, axes, level, 2, None);
        }
    }
    shown
}

fn of_shape(draw: &mut Draw, report: &mut Report, axes: u32, level: u32, tables: usize, mut shown: Option<&mut All>) {
    let (grid, lists) = (grid(axes, level), lists(axes, level));
    for back in [false, true] {
        let walk = walk(&lists, back);
        met_once(report, &grid, axes, level, back, &walk);
        for t in 0..axes as usize {
            for _ in 0..tables {
                let (table, whole) = accepted(draw, &grid, axes, level, back, t);
                let say = || format!("axes {axes} level {level} back {back} axis {} table {}", t + 1, short(&table));
                list_by_list(report, &grid, back, t, &walk, &table, &whole, &say);
                if let Some(shown) = &mut shown {
                    wrong_readings(report, &grid, back, t, &walk, &table, &whole, &say, shown);
                }
            }
        }
    }
}

/// The walk has the level lists of all points, each once, with sums that never rise, or back never fall; and its lists
/// have all points, each once.
fn met_once(report: &mut Report, grid: &Grid, axes: u32, level: u32, back: bool, walk: &[&List]) {
    let say = || format!("axes {axes} level {level} back {back}");
    let met: BTreeSet<[u16; 8]> = walk.iter().map(|list| list.levels).collect();
    let there: BTreeSet<[u16; 8]> = grid.lists.iter().map(|(levels, _)| *levels).collect();
    report.same(CALL, "list by list: the lists", &there, &met, &say);
    report.same(CALL, "list by list: each list once", &there.len(), &walk.len(), &say);
    let mut points: Vec<At> = walk.iter().flat_map(|list| list.points.iter().copied()).collect();
    let mut all = grid.order.clone();
    points.sort();
    all.sort();
    report.same(CALL, "list by list: each point once", &all, &points, &say);
    let levels_of = |at: &At| grid.lists[grid.number[at]].0;
    let own = walk.iter().all(|list| list.points.iter().all(|at| levels_of(at) == list.levels));
    report.same(CALL, "list by list: points of the list", &true, &own, &say);
    let sums: Vec<u16> = walk.iter().map(|list| list.sum()).collect();
    let steady = if back { sums.is_sorted() } else { sums.iter().rev().is_sorted() };
    report.same(CALL, "list by list: sums", &true, &steady, &say);
    let ends = if back { (0, level as u16) } else { (level as u16, 0) };
    report.same(CALL, "list by list: first and last sum", &ends, &(sums[0], sums[sums.len() - 1]), &say);
}

/// A table that this turn accepts, of any kind, and what the whole turn leaves of it.
fn accepted(draw: &mut Draw, grid: &Grid, axes: u32, level: u32, back: bool, t: usize) -> (Vec<i64>, Vec<i64>) {
    loop {
        let others = draw.bits() as u8 & inputs::all_bits(axes) & !(1 << t);
        let table = inputs::contents(draw, axes, level, others | u8::from(back) << t);
        if let Some(whole) = turn_table(grid, back, &table, t) {
            return (table, whole);
        }
    }
}

/// After each list its points hold what the whole turn leaves them, and every other place is what it was.
#[allow(clippy::too_many_arguments)]
fn list_by_list(
    report: &mut Report,
    grid: &Grid,
    back: bool,
    t: usize,
    walk: &[&List],
    table: &[i64],
    whole: &[i64],
    say: &dyn Fn() -> String,
) {
    let (mut values, mut want) = (grid.values(table), table.to_vec());
    for list in walk {
        step(&mut values, back, t, list, &RIGHT);
        for at in &list.points {
            want[grid.number[at]] = whole[grid.number[at]];
        }
        report.same(CALL, "list by list: after a list", &want, &grid.table(&values), say);
    }
    report.same(CALL, "list by list: at the end", whole, &grid.table(&values)[..], say);
}

#[allow(clippy::too_many_arguments)]
fn wrong_readings(
    report: &mut Report,
    grid: &Grid,
    back: bool,
    t: usize,
    right: &[&List],
    table: &[i64],
    whole: &[i64],
    say: &dyn Fn() -> String,
    shown: &mut All,
) {
    let (values, after) = (grid.values(table), grid.values(whole));
    let levels = |walk: &[&List]| -> Vec<[u16; 8]> { walk.iter().map(|list| list.levels).collect() };
    for (wrong, shown) in WRONG.iter().zip(shown) {
        for other in (wrong.walks)(right, t) {
            let numbers = turn(&values, back, t, &other, &wrong.reading) != after;
            let shown = &mut shown[usize::from(back)];
            shown.walks += 1;
            shown.order += u64::from(levels(&other) != levels(right));
            shown.numbers += u64::from(numbers);
            // other numbers come from lists that do not find what they need, or from other parents: from nothing else
            let same_parents = wrong.order || !wrong.numbers;
            if !wrong.numbers || same_parents && sound(&other, back, t, right) {
                report.same(CALL, wrong.name, &false, &numbers, say);
            }
        }
    }
}

/// Whether every list with a level above 0 on the axis stands once, and finds its parents as they were before the
/// turn, or back as they are after it. Points of level 0 on the axis do not change.
fn sound(walk: &[&List], back: bool, t: usize, right: &[&List]) -> bool {
    let mut places: HashMap<[u16; 8], Vec<usize>> = HashMap::new();
    walk.iter().enumerate().for_each(|(k, list)| places.entry(list.levels).or_default().push(k));
    let place = |levels: &[u16; 8]| match places.get(levels).map_or(&[][..], |all| all) {
        [k] => Some(*k),
        _ => None,
    };
    right.iter().filter(|list| list.levels[t] > 0).all(|list| {
        let mut above = list.levels;
        above[t] -= 1;
        match place(&list.levels) {
            None => false,
            Some(_) if above[t] == 0 => true,
            Some(k) => place(&above).is_some_and(|up| if back { up < k } else { k < up }),
        }
    })
}

/// What each wrong reading did; false where one is not shown, or changes numbers or the order though it should not.
pub fn print(shown: &All) -> bool {
    let mut all = true;
    println!(
        "{:14}{:>9}{:>11}{:>11}{:>11}  wrong reading of a turn list by list",
        "shown by walks", "forward", "numbers", "back", "numbers"
    );
    for (wrong, shown) in WRONG.iter().zip(shown) {
        let [forward, back] = shown;
        let counts = [forward.walks, forward.numbers, back.walks, back.numbers];
        println!("{:14}{:9}{:11}{:11}{:11}  {}", "", counts[0], counts[1], counts[2], counts[3], wrong.name);
        for shown in shown {
            if shown.walks == 0 || wrong.order != (shown.order > 0) || wrong.numbers != (shown.numbers > 0) {
                all = false;
                println!(
                    "turn: this reading should change {}",
                    match (wrong.order, wrong.numbers) {
                        (true, true) => "the order and numbers",
                        (true, false) => "the order alone",
                        (false, true) => "numbers alone",
                        (false, false) => "nothing",
                    }
                );
            }
        }
    }
    all
}

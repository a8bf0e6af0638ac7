//! The order of work on a component grid, in the separate code: it leaves what the sweeps leave, and what wrong readings of
//! it do.
//!
//! Any axis with more than one point may be split, so a wrong choice of it changes the order and no number. The numbers
//! depend on what the middle is done for, before and after the halves, and on no point being left out. Algorithm 2 of document
//! 003, taken as it is printed, does not hold the cut within the axes that are still to do, and so does steps twice; its
//! definition 1 asks for borders that are done for the axis that is split too, which spoils grids with a top of 2 or more.

use super::components::small_lists;
use super::short;
use crate::draw::Draw;
use crate::model::component::Grid;
use crate::model::orders::{most, run, sound, steps, Reading, RIGHT};
use crate::report::Report;

const CALL: &str = "separate code with itself";

/// A wrong reading, and whether it changes numbers or the order alone.
struct Wrong {
    name: &'static str,
    reading: Reading,
    numbers: bool,
}

const WRONG: [Wrong; 9] = [
    Wrong {
        name: "the cut not held within the axes to do, as algorithm 2 is printed",
        reading: Reading { cut: |_, r, _| [r - 1; 2], ..RIGHT },
        numbers: true,
    },
    Wrong {
        name: "the middle done for the axis that is split too, before the halves",
        reading: Reading { cut: |s, r, t| [r.max(s).min(t); 2], ..RIGHT },
        numbers: true,
    },
    Wrong {
        name: "the middle done for all axes before the halves",
        reading: Reading { cut: |_, _, t| [t; 2], ..RIGHT },
        numbers: true,
    },
    Wrong {
        name: "the middle done for all axes after the halves",
        reading: Reading { cut: |s, _, _| [s; 2], ..RIGHT },
        numbers: true,
    },
    Wrong {
        name: "the axis sought only among those to do, and one point on each of them taken for one point",
        reading: Reading {
            single: |left, s, t| left[s..t].iter().all(|&points| points == 1),
            axis: |left, s, t| most(left, s + 1..=t),
            ..RIGHT
        },
        numbers: true,
    },
    Wrong {
        name: "the axis sought among those to do first, and among all where each of them has one point",
        reading: Reading {
            axis: |left, s, t| {
                let to_do = most(left, s + 1..=t);
                if left[to_do - 1] > 1 {
                    to_do
                } else {
                    most(left, 1..=left.len())
                }
            },
            ..RIGHT
        },
        numbers: false,
    },
    Wrong {
        name: "the largest axis on a tie",
        reading: Reading { axis: |left, _, _| most(left, (1..=left.len()).rev()), ..RIGHT },
        numbers: false,
    },
    Wrong {
        name: "the first axis that has points left",
        reading: Reading {
            axis: |left, _, _| (1..=left.len()).find(|&axis| left[axis - 1] > 1).expect("more than one point"),
            ..RIGHT
        },
        numbers: false,
    },
    Wrong { name: "the right half before the left", reading: Reading { right_first: true, ..RIGHT }, numbers: false },
];

/// On how many grids a wrong reading gives another order, and other numbers.
#[derive(Clone, Copy, Default)]
pub struct Shown {
    order: u64,
    numbers: u64,
}

/// On every small grid and a few larger ones: the right order leaves what the sweeps leave, each of its steps stands once and
/// finds what it needs; then the wrong ones, where there are at most 250 points.
pub fn orders(draw: &mut Draw, report: &mut Report) -> Vec<Shown> {
    let mut shown = vec![Shown::default(); WRONG.len()];
    let larger =
        [vec![8], vec![6, 7], vec![8, 5], vec![4, 4, 4], vec![1, 2, 1, 8], vec![2; 5], vec![1, 1, 2, 1, 1, 2, 1]];
    for levels in small_lists().into_iter().chain(larger) {
        let grid = Grid::new(&levels);
        let rates: Vec<i64> = (0..grid.points.len()).map(|_| draw.between(-(1 << 31), (1 << 31) - 1)).collect();
        let say = || format!("levels {levels:?} rates {}", short(&rates));
        let (right, coefficients) = (steps(&grid, &RIGHT), grid.coefficients(&rates));
        report.same(CALL, "order: numbers", &coefficients, &run(&grid, &rates, &right), &say);
        report.same(CALL, "order: every step once, after those it needs", &true, &sound(&grid, &right), &say);
        let (mut sorted, mut all) = (right.clone(), Vec::new());
        sorted.sort();
        (1..=grid.axes).for_each(|axis| all.extend((0..rates.len()).map(|p| (axis, p))));
        report.same(CALL, "order: steps", &all, &sorted, &say);
        if rates.len() <= 250 {
            for (wrong, shown) in WRONG.iter().zip(&mut shown) {
                let other = steps(&grid, &wrong.reading);
                let numbers = run(&grid, &rates, &other) != coefficients;
                shown.order += u64::from(other != right);
                shown.numbers += u64::from(numbers);
                // other numbers come from steps that do not find what they need, and from nothing else
                if sound(&grid, &other) {
                    report.same(CALL, wrong.name, &false, &numbers, &say);
                }
            }
        }
    }
    shown
}

/// What each wrong reading did; false where one is not shown, or changes numbers though it should not.
pub fn print(shown: &[Shown]) -> bool {
    let mut all = true;
    println!("{:14}{:>9}{:>11}  wrong reading of the order on a component grid", "shown by grids", "order", "numbers");
    for (wrong, shown) in WRONG.iter().zip(shown) {
        println!("{:14}{:9}{:11}  {}", "", shown.order, shown.numbers, wrong.name);
        if shown.order == 0 || wrong.numbers != (shown.numbers > 0) {
            all = false;
            println!(
                "component: this reading should change {}",
                if wrong.numbers { "numbers" } else { "the order alone" }
            );
        }
    }
    all
}

//! Estimates, alone and with their margin, in nanoseconds each.

use crate::input;
use crate::plain::hashed::Hashed;
use crate::plain::{algorithm7, all_within_at_once};
use crate::table::{head, row};
use crate::timing::{contest, nanoseconds, Contestant};
use numolefays::{Shape, State};
use std::hint::black_box;

const COLUMNS: [&str; 5] =
    ["library", "hash map, no test", "algorithm 7 and the test", "weights tabulated, and the test", "the test alone"];

const MARGIN_COLUMNS: [&str; 4] =
    ["library", "library, the estimate alone", "algorithm 7 and the test", "weights tabulated, and the test"];

/// How many estimates make a round: fewer for larger tables.
fn lists(points: usize) -> usize {
    (4_000_000 / points).min(400)
}

pub fn print(shapes: &[(u32, u32)], seconds: f64) {
    head("Estimates: ns each (how many times as long the library takes). The test is the pass that compares all N values with the content limit", &COLUMNS);
    for &shape in shapes {
        let (times, count) = measure(shape, seconds);
        row(shape, "estimate", &times, count as f64);
    }
    head("Estimates with their margin: ns each (how many times as long the library takes)", &MARGIN_COLUMNS);
    for &shape in shapes {
        let (times, count) = measure_margin(shape, seconds);
        row(shape, "estimate with margin", &times, count as f64);
    }
}

/// A table of coefficients, its state, and coordinates to read it at.
fn prepared((axes, level): (u32, u32)) -> (State, Vec<i64>, Vec<Vec<u32>>) {
    let shape = Shape::new(axes, level);
    let mut table = input::rates(shape.points().expect("a shape") as usize);
    shape.rates_to_coefficients(&mut table).expect("rates");
    let state = shape.adopt(&table).expect("coefficients");
    let lists = input::coordinates(lists(table.len()), axes as usize);
    (state, table, lists)
}

fn measure_margin((axes, level): (u32, u32), seconds: f64) -> (Vec<f64>, usize) {
    let d = axes as usize;
    let (state, table, lists) = prepared((axes, level));
    for list in &lists {
        let found = state.estimate_with_margin(&table, list).expect("an estimate");
        let want = (found.estimate, found.absolute_sum, found.margin);
        assert_eq!(want, algorithm7::with_margin(d, level, &table, list), "algorithm 7");
        assert_eq!(want, algorithm7::with_margin_tabulated(d, level, &table, list), "tabulated");
    }
    let each = |one: &dyn Fn(&[u32]) -> (i64, u64, u64)| -> f64 {
        nanoseconds(|| {
            for list in &lists {
                black_box(one(black_box(list)));
            }
        })
    };
    let mut all: [Contestant; 4] = [
        Box::new(|| {
            each(&|x| {
                let found = state.estimate_with_margin(&table, x).expect("an estimate");
                (found.estimate, found.absolute_sum, found.margin)
            })
        }),
        Box::new(|| each(&|x| (state.estimate(&table, x).expect("an estimate"), 0, 0))),
        Box::new(|| {
            each(&|x| {
                assert!(all_within_at_once(black_box(&table)));
                algorithm7::with_margin(d, level, &table, x)
            })
        }),
        Box::new(|| {
            each(&|x| {
                assert!(all_within_at_once(black_box(&table)));
                algorithm7::with_margin_tabulated(d, level, &table, x)
            })
        }),
    ];
    (contest(&mut all, seconds, 15), lists.len())
}

fn measure((axes, level): (u32, u32), seconds: f64) -> (Vec<f64>, usize) {
    let d = axes as usize;
    let (state, table, lists) = prepared((axes, level));
    let map = Hashed::new(d, level, &table);
    for list in &lists {
        let want = state.estimate(&table, list).expect("an estimate");
        assert_eq!(want, map.estimate(list), "hash map");
        assert_eq!(want, algorithm7::estimate(d, level, &table, list), "algorithm 7");
        assert_eq!(want, algorithm7::estimate_tabulated(d, level, &table, list), "tabulated");
    }
    let each = |one: &dyn Fn(&[u32]) -> i64| -> f64 {
        nanoseconds(|| {
            for list in &lists {
                black_box(one(black_box(list)));
            }
        })
    };
    let mut all: [Contestant; 5] = [
        Box::new(|| each(&|x| state.estimate(&table, x).expect("an estimate"))),
        Box::new(|| each(&|x| map.estimate(x))),
        Box::new(|| {
            each(&|x| {
                assert!(all_within_at_once(black_box(&table)));
                algorithm7::estimate(d, level, &table, x)
            })
        }),
        Box::new(|| {
            each(&|x| {
                assert!(all_within_at_once(black_box(&table)));
                algorithm7::estimate_tabulated(d, level, &table, x)
            })
        }),
        Box::new(|| each(&|_| i64::from(all_within_at_once(black_box(&table))))),
    ];
    (contest(&mut all, seconds, 15), lists.len())
}

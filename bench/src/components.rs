//! Rates to coefficients on component grids, in nanoseconds for each point and axis.

use crate::input;
use crate::plain::component::{at_once, by_halves, by_lines, by_runs, Refused};
use crate::table::{first_and_head, first_and_row};
use crate::timing::{contest, Contestant};
use crate::turns::{in_buffer, passes};
use numolefays::component_coefficients;
use std::hint::black_box;

const COLUMNS: [&str; 6] =
    ["library", "the same order", "line by line", "in runs", "in runs, levels and axes at once", "one pass"];

/// The top levels of each grid: three that the library is held to, and the three where it was found slowest.
const GRIDS: [&[u32]; 6] = [&[1; 8], &[6, 7], &[4, 4, 4], &[2; 5], &[8, 5], &[8, 1, 1, 1]];

type Plain = fn(&[u32], &mut [i64]) -> Result<(), Refused>;

const PLAIN: [Plain; 4] = [by_halves, by_lines, by_runs, at_once];

pub fn print(seconds: f64) {
    small_grids();
    let what =
        "Component grids, rates to coefficients: ns for each point and axis (how many times as long the library takes)";
    first_and_head("top levels", "points", what, &COLUMNS);
    for levels in GRIDS {
        let rates = input::rates(points(levels));
        same_answers(levels, &rates);
        let times = measure(levels, &rates, seconds);
        first_and_row(&format!("{levels:?}"), &rates.len().to_string(), &times, (rates.len() * levels.len()) as f64);
    }
}

/// How many points the grid has, no more than may be.
fn points(levels: &[u32]) -> usize {
    levels.iter().fold(1, |points, &top| (points * ((2 << top) - 1)).min(32_768))
}

/// All contestants give the same answers: on the rates, with some of them out of range, and with a place too few.
fn same_answers(levels: &[u32], rates: &[i64]) {
    let mut bad = rates.to_vec();
    bad[rates.len() - 1] = i64::MIN;
    bad[rates.len() / 2] = 1 << 31;
    for table in [rates, &bad, &rates[1..]] {
        let mut mine = table.to_vec();
        let answer = component_coefficients(levels, &mut mine).map_err(|r| (r.number(), r.place()));
        for plain in PLAIN {
            let mut other = table.to_vec();
            assert_eq!(answer, plain(levels, &mut other), "the same answers, tops {levels:?}");
            assert!(mine == other, "the same tables, tops {levels:?}");
        }
    }
}

/// Every list of up to four tops from 0 to 4, and some that are refused or have one long axis.
fn small_grids() {
    let mut lists: Vec<Vec<u32>> = vec![vec![]];
    for length in 0..4 {
        let shorter: Vec<Vec<u32>> = lists.iter().filter(|l| l.len() == length).cloned().collect();
        lists.extend(shorter.iter().flat_map(|l| (0..=4).map(|top| [&l[..], &[top]].concat())));
    }
    lists.extend([vec![0; 9], vec![9], vec![1, 9], vec![7, 7], vec![8; 8], vec![8], vec![5, 0, 8], vec![0, 6, 1, 3]]);
    for levels in &lists {
        same_answers(levels, &input::rates(points(levels)));
    }
}

fn measure(levels: &[u32], rates: &[i64], seconds: f64) -> Vec<f64> {
    let library = in_buffer(rates, |t| component_coefficients(black_box(levels), t).expect("rates"));
    let plain = PLAIN.map(|plain| in_buffer(rates, move |t| plain(black_box(levels), t).expect("rates")));
    let floor = in_buffer(rates, |t| passes(levels.len(), t));
    let mut all: Vec<Contestant> = [library].into_iter().chain(plain).chain([floor]).collect();
    contest(&mut all, seconds, 1_000)
}

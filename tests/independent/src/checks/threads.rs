//! Several tables at once, by several threads: each call on its own table is as if it were alone.

use super::{components, estimates, files, margins, rates, runs, turns, writes};
use crate::boundary;
use crate::draw::Draw;
use crate::inputs;
use crate::model::{
    estimates as model_estimates, files as model_files, margin as model_margin, rates as model_rates,
    turns as model_turns,
};
use crate::report::Report;
use numolefays::{Estimated, Shape, State};
use std::thread;

const THREADS: u64 = 4;

/// Every thread makes random calls on tables of its own.
pub fn own_tables(seed: u64, cases: u64) -> Report {
    let mut report = Report::default();
    let parts: Vec<Report> = thread::scope(|scope| {
        let work = |k: u64| {
            move || {
                let mut draw = Draw::new(seed ^ (0x7468_7265_6164 + k));
                let mut grids = Draw::new(seed ^ (0x67_7269_6473 + k));
                let mut report = Report::default();
                for _ in 0..cases {
                    turns::random(&mut draw, &mut report, 1_200);
                    rates::random(&mut draw, &mut report, 1_200);
                    estimates::random(&mut draw, &mut report, 1_200);
                    runs::random(&mut draw, &mut report, 300);
                    writes::random(&mut draw, &mut report, 1_200);
                    components::random(&mut grids, &mut report, 300);
                }
                report
            }
        };
        let handles: Vec<_> = (0..THREADS).map(|k| scope.spawn(work(k))).collect();
        handles.into_iter().map(|h| h.join().expect("a thread that ended")).collect()
    });
    parts.into_iter().for_each(|part| report.merge(part));
    report
}

/// Tables side by side in one allocation, each turned by its own thread; and one table of coefficients read by all.
pub fn neighbouring_tables(seed: u64, rounds: u64, report: &mut Report) {
    let mut draw = Draw::new(seed ^ 0x6265_7369_6465);
    for round in 0..rounds {
        let (axes, level) = [(3, 3), (8, 2), (5, 4), (1, 8), (2, 6)][(round % 5) as usize];
        let shape = Shape::new(axes, level);
        let n = shape.points().unwrap_or(1) as usize;
        let rates: Vec<i64> = (0..THREADS).flat_map(|_| inputs::rates(&mut draw, n)).collect();
        let mut tables = rates.clone();
        let shared = model_rates::coefficients(axes, level, &rates[..n]);
        let at: Vec<Vec<u32>> =
            (0..THREADS).map(|_| (0..axes).map(|_| inputs::coordinate(&mut draw)).collect()).collect();
        let answers: Vec<_> = thread::scope(|scope| {
            let work = |table, coordinates| {
                let shared = &shared;
                move || turn_and_read(shape, table, shared, coordinates)
            };
            let handles: Vec<_> = tables.chunks_mut(n).zip(&at).map(|(t, c)| scope.spawn(work(t, c))).collect();
            handles.into_iter().map(|h| h.join().expect("a thread that ended")).collect()
        });
        for (k, answer) in answers.into_iter().enumerate() {
            let mine = &rates[k * n..(k + 1) * n];
            let say = || format!("round {round} thread {k} axes {axes} level {level} rates {}", super::short(mine));
            let want = model_rates::load(axes, level, mine).unwrap().0;
            let (want, bits) = model_turns::turn(false, axes, level, 0, &want, axes).unwrap();
            let all = inputs::all_bits(axes);
            let estimate = model_estimates::estimate(axes, level, all, &shared, &at[k]).unwrap();
            let with_margin = model_margin::estimate_with_margin(axes, level, all, &shared, &at[k]).unwrap();
            let turns = 2 * u64::from(axes);
            report.made("load", 1);
            report.made("forward", turns + 1);
            report.made("back", turns);
            report.made("estimate", turns);
            report.made("margin", turns);
            let read = Some((bits, estimate, margins::wrapped(with_margin)));
            report.same("estimate", "in threads, with its margin, and the bits", &read, &answer, &say);
            report.same("forward", "table, in threads", &want[..], &tables[k * n..(k + 1) * n], &say);
        }
    }
}

/// There and back on all axes twice, then forward on the last one; and an estimate from the shared table, alone and
/// with its margin.
fn turn_and_read(shape: Shape, table: &mut [i64], shared: &[i64], coordinates: &[u32]) -> Option<(u8, i64, Estimated)> {
    let mut state = shape.load(table).ok()?;
    let all = State::saved(shape, inputs::all_bits(shape.axes));
    let (mut estimate, mut with_margin) = (0, Estimated { estimate: 0, absolute_sum: 0, margin: 0 });
    for _ in 0..2 {
        for axis in 1..=shape.axes {
            state.forward(table, axis).ok()?;
            estimate = all.estimate(shared, coordinates).ok()?;
            with_margin = all.estimate_with_margin(shared, coordinates).ok()?;
        }
        for axis in 1..=shape.axes {
            state.back(table, axis).ok()?;
        }
    }
    state.forward(table, shape.axes).ok()?;
    Some((state.bits, estimate, with_margin))
}

/// Output buffers side by side in one allocation, each written by its own thread; and one file rewritten by all.
pub fn neighbouring_files(seed: u64, rounds: u64, report: &mut Report) {
    let mut draw = Draw::new(seed ^ 0x66_696c_6573);
    for round in 0..rounds {
        let (axes, level) = [(3, 3), (8, 2), (5, 4), (1, 8), (2, 6)][(round % 5) as usize];
        let n = crate::model::grid::count(axes, level) as usize;
        let tables: Vec<Vec<i64>> = (0..THREADS).map(|_| inputs::filed_rates(&mut draw, n)).collect();
        let shared = files::file(&mut draw, axes, level, &tables[0], 3);
        let room = 5 * (n + 2);
        let mut outs = draw.bytes(2 * THREADS as usize * room);
        let mut want = outs.clone();
        let answers: Vec<_> = thread::scope(|scope| {
            let work = |out, rates| {
                let shared = &shared;
                move || write_and_rewrite(axes, level, rates, shared, out)
            };
            let handles: Vec<_> =
                outs.chunks_mut(2 * room).zip(&tables).map(|(o, t)| scope.spawn(work(o, t))).collect();
            handles.into_iter().map(|h| h.join().expect("a thread that ended")).collect()
        });
        let form = model_files::file_of(axes, level, &tables[0]);
        for (k, answer) in answers.into_iter().enumerate() {
            let written = model_files::file_of(axes, level, &tables[k]);
            want[2 * k * room..][..written.len()].copy_from_slice(&written);
            want[(2 * k + 1) * room..][..form.len()].copy_from_slice(&form);
            let say =
                || format!("round {round} thread {k} axes {axes} level {level} rates {}", super::short(&tables[k]));
            report.made("write", 1);
            report.made("rewrite", 1);
            report.same("write", "in threads", &[(0, written.len() as u64), (0, form.len() as u64)], &answer, &say);
        }
        let say = || format!("round {round} axes {axes} level {level}");
        report.same("write", "output buffers, in threads", &want, &outs, &say);
    }
}

/// The table written into the first half of the buffer, the shared file rewritten into the second.
fn write_and_rewrite(axes: u32, level: u32, rates: &[i64], shared: &[u8], out: &mut [u8]) -> [(u32, u64); 2] {
    let (first, second) = out.split_at_mut(out.len() / 2);
    let ([mut a, mut b], mut place) = ([0, 0], 0);
    let wrote = boundary::write_house_file(axes, level, rates, first, &mut a, &mut place);
    let rewrote = boundary::rewrite_house_file(shared, rates.len(), second, &mut b, &mut place);
    [(wrote, a), (rewrote, b)]
}

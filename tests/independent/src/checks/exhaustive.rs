//! Small ranges gone through entirely.

use super::{estimates, points, rates, turns};
use crate::draw::Draw;
use crate::inputs::{self, END};
use crate::model::grid::count;
use crate::model::turns::turn;
use crate::report::Report;
use std::thread;

/// Every set of bits in every number of axes, with every axis up to 10, on a small table: forward, back, unload, estimate.
pub fn states(draw: &mut Draw, report: &mut Report) {
    for axes in 1..=8 {
        let level = if axes <= 3 { 1 } else { 0 };
        let places = count(axes, level) as usize;
        for bits in 0..=255 {
            let table: Vec<i64> = (0..places).map(|_| draw.between(-9, 9) << axes).collect();
            for axis in 0..=10 {
                turns::turn(draw, report, false, axes, level, bits, &table, axis);
                turns::turn(draw, report, true, axes, level, bits, &table, axis);
            }
            rates::unload(draw, report, axes, level, bits, &table);
            let coordinates: Vec<u32> = (0..axes).map(|_| inputs::coordinate(draw)).collect();
            estimates::estimate(draw, report, axes, level, bits, &table, &coordinates);
        }
    }
}

/// Every length of both lists of a point, of a list of coordinates, and of a table near N.
pub fn lengths(draw: &mut Draw, report: &mut Report) {
    for axes in 1..=8 {
        for levels in 0..=18 {
            for indices in 0..=18 {
                let (l, i) = (vec![0; levels], vec![1; indices]);
                points::number_of(draw, report, axes, 2, &l, &i);
                points::successor(draw, report, axes, 2, &l, &i);
            }
        }
        let n = count(axes, 1) as usize;
        let all = inputs::all_bits(axes);
        for length in 0..=18 {
            estimates::estimate(draw, report, axes, 1, all, &vec![256; n], &vec![END / 2; length]);
        }
        for places in 0..=2 * n + 2 {
            let table = vec![256; places];
            rates::load(draw, report, axes, 1, &table);
            rates::adopt(draw, report, axes, 1, &table);
            rates::unload(draw, report, axes, 1, 0, &table);
            rates::rates_to_coefficients(draw, report, axes, 1, &table);
            rates::coefficients_to_rates(draw, report, axes, 1, &table);
            turns::turn(draw, report, false, axes, 1, 0, &table, axes);
            turns::turn(draw, report, true, axes, 1, all, &table, axes);
            estimates::estimate(draw, report, axes, 1, all, &table, &vec![320_000; axes as usize]);
        }
    }
}

/// Every coordinate of a line, or every 17th where not all are wanted, and some past its end; in four threads.
pub fn line(draw: &mut Draw, report: &mut Report, all: bool) {
    let rising: Vec<i64> = (0..count(1, 2) as i64).map(|p| 2 * p * p - 11 * p - 3).collect();
    let step = if all { 1 } else { 17 };
    let spots: Vec<u32> = (0..=END + 24).step_by(step).chain([END, 2 * END, 1 << 31, u32::MAX]).collect();
    let read = |part: &[u32], mut draw: Draw| {
        let mut report = Report::default();
        for &x in part {
            estimates::estimate(&mut draw, &mut report, 1, 2, 1, &rising, &[x]);
        }
        report
    };
    let parts: Vec<Report> = thread::scope(|scope| {
        let start = |part| {
            let own = Draw::new(draw.bits());
            let read = &read;
            scope.spawn(move || read(part, own))
        };
        let handles: Vec<_> = spots.chunks(spots.len().div_ceil(4)).map(start).collect();
        handles.into_iter().map(|h| h.join().expect("a thread that ended")).collect()
    });
    parts.into_iter().for_each(|part| report.merge(part));
}

/// Every table of three values from a few, on one axis: both whole calls and both turns.
pub fn small_tables(draw: &mut Draw, report: &mut Report) {
    let top = inputs::LIMIT;
    let values = [
        -top - 1,
        -top,
        1 - top,
        -4,
        -3,
        -2,
        -1,
        0,
        1,
        2,
        3,
        4,
        top - 1,
        top,
        top + 1,
        i64::MIN,
        i64::MAX,
        1 << 31,
        1 << 32,
    ];
    for a in values {
        for b in values {
            for c in values {
                let table = [a, b, c];
                turns::turn(draw, report, false, 1, 1, 0, &table, 1);
                turns::turn(draw, report, true, 1, 1, 1, &table, 1);
                rates::coefficients_to_rates(draw, report, 1, 1, &table);
                rates::rates_to_coefficients(draw, report, 1, 1, &table);
                rates::unload(draw, report, 1, 1, 0, &table);
                rates::adopt(draw, report, 1, 1, &table);
            }
        }
    }
}

/// The worked tables of document 01, turned axis by axis in every order of the axes, and back in every order.
pub fn worked_orders(draw: &mut Draw, report: &mut Report) {
    let tables: [(u32, u32, &[i64]); 4] =
        [(1, 0, &[-2]), (1, 1, &[6, 10, 14]), (2, 1, &[16, 12, 20, 8, 24]), (2, 2, &[4; 17])];
    for (axes, level, loaded) in tables {
        let orders: &[&[u32]] = if axes == 1 { &[&[1]] } else { &[&[1, 2], &[2, 1]] };
        for there in orders {
            for home in orders {
                let (mut table, mut bits) = (loaded.to_vec(), 0);
                for (back, order) in [(false, there), (true, home)] {
                    for &axis in *order {
                        turns::turn(draw, report, back, axes, level, bits, &table, axis);
                        (table, bits) = turn(back, axes, level, bits, &table, axis).expect("a loaded table");
                    }
                }
                report.same("back", "there and back", loaded, &table[..], &|| format!("{there:?} {home:?}"));
            }
        }
    }
}

//! Forward and back turns and both whole calls, in nanoseconds for each point and axis.

use crate::input;
use crate::plain::hashed::Hashed;
use crate::plain::lists::Lists;
use crate::plain::walk::Walk;
use crate::plain::{algorithm6, whole};
use crate::table::{head, row};
use crate::timing::{contest, nanoseconds, Contestant};
use numolefays::{Shape, State};
use std::cell::RefCell;
use std::hint::black_box;

pub const COLUMNS: [&str; 6] =
    ["library", "hash map", "algorithm 6", "walk by level vector", "list by list", "one pass"];

struct Tables {
    axes: usize,
    level: u32,
    rates: Vec<i64>,
    loaded: Vec<i64>,
    coefficients: Vec<i64>,
}

pub fn print(shapes: &[(u32, u32)], seconds: f64) {
    head("Turns and whole calls: ns for each point and axis (how many times as long the library takes)", &COLUMNS);
    for &shape in shapes {
        let tables = prepare(shape);
        let unit = (tables.rates.len() * tables.axes) as f64;
        row(shape, "forward", &forward(&tables, seconds), unit);
        row(shape, "back", &back(&tables, seconds), unit);
        row(shape, "rates to coefficients", &there(&tables, seconds), unit);
        row(shape, "coefficients to rates", &home(&tables, seconds), unit);
    }
}

fn library_forward(t: &Tables, table: &mut [i64]) {
    let mut state = State::saved(Shape::new(t.axes as u32, t.level), 0);
    for axis in 1..=t.axes as u32 {
        state.forward(table, axis).expect("an accepted turn");
    }
}

fn library_back(t: &Tables, table: &mut [i64]) {
    let mut state = State::saved(Shape::new(t.axes as u32, t.level), ((1u32 << t.axes) - 1) as u8);
    for axis in 1..=t.axes as u32 {
        state.back(table, axis).expect("an accepted turn");
    }
}

/// The tables, and the test that every contestant gives the same answers.
fn prepare((axes, level): (u32, u32)) -> Tables {
    let d = axes as usize;
    let shape = Shape::new(axes, level);
    let rates = input::rates(shape.points().expect("a shape") as usize);
    let loaded: Vec<i64> = rates.iter().map(|r| r << d).collect();
    let mut t = Tables { axes: d, level, rates, loaded, coefficients: vec![] };

    let mut table = t.loaded.clone();
    library_forward(&t, &mut table);
    t.coefficients = table.clone();
    library_back(&t, &mut table);
    assert!(table == t.loaded, "library: back");
    let mut table = t.rates.clone();
    shape.rates_to_coefficients(&mut table).expect("rates");
    assert!(table == t.coefficients, "library: rates to coefficients");
    shape.coefficients_to_rates(&mut table).expect("coefficients");
    assert!(table == t.rates, "library: coefficients to rates");

    let walk = Walk::new(d, level);
    let mut table = t.loaded.clone();
    assert!((0..d).all(|a| walk.forward(&mut table, a)) && table == t.coefficients, "walk: forward");
    assert!((0..d).all(|a| walk.back(&mut table, a)) && table == t.loaded, "walk: back");
    let mut table = t.rates.clone();
    assert!(whole::rates_to_coefficients(&walk, d, &mut table).is_ok() && table == t.coefficients, "walk: whole");
    assert!(whole::coefficients_to_rates(&walk, d, &mut table) && table == t.rates, "walk: whole back");

    let lists = Lists::new(d, level);
    let mut table = t.loaded.clone();
    assert!((0..d).all(|a| lists.forward(&mut table, a)) && table == t.coefficients, "lists: forward");
    assert!((0..d).all(|a| lists.back(&mut table, a)) && table == t.loaded, "lists: back");
    let mut table = t.rates.clone();
    assert!(lists.rates_to_coefficients(&mut table).is_ok() && table == t.coefficients, "lists: whole");
    assert!(lists.coefficients_to_rates(&mut table) && table == t.rates, "lists: whole back");

    let mut table = t.loaded.clone();
    (0..d).for_each(|a| algorithm6::forward(d, &mut table, a));
    assert!(table == t.coefficients, "algorithm 6: forward");
    (0..d).for_each(|a| algorithm6::back(d, &mut table, a));
    assert!(table == t.loaded, "algorithm 6: back");

    let mut map = Hashed::new(d, level, &t.loaded);
    (0..d).for_each(|a| map.forward(a));
    assert!(map.table() == t.coefficients, "hash map: forward");
    (0..d).for_each(|a| map.back(a));
    assert!(map.table() == t.loaded, "hash map: back");
    t
}

/// A round in a buffer that is filled anew each time, the filling left out.
pub fn in_buffer<'a>(start: &'a [i64], work: impl Fn(&mut [i64]) + 'a) -> Contestant<'a> {
    let mut table = start.to_vec();
    Box::new(move || {
        table.copy_from_slice(start);
        let took = nanoseconds(|| work(&mut table));
        black_box(&table);
        took
    })
}

fn in_map<'a>(map: &'a RefCell<Hashed>, start: &'a [i64], work: impl Fn(&mut Hashed) + 'a) -> Contestant<'a> {
    Box::new(move || {
        let mut map = map.borrow_mut();
        map.set(start);
        nanoseconds(|| work(&mut map))
    })
}

/// The floor: as many passes over the array as there are axes, each value read and written.
pub fn passes(axes: usize, table: &mut [i64]) {
    for t in 0..axes as i64 {
        black_box(&mut *table).iter_mut().for_each(|v| *v = v.wrapping_sub(t + 1));
    }
}

fn forward(t: &Tables, seconds: f64) -> Vec<f64> {
    let d = t.axes;
    let map = RefCell::new(Hashed::new(d, t.level, &t.loaded));
    let mut all: [Contestant; 6] = [
        in_buffer(&t.loaded, |b| library_forward(t, b)),
        in_map(&map, &t.loaded, |m| (0..d).for_each(|a| m.forward(a))),
        in_buffer(&t.loaded, |b| (0..d).for_each(|a| algorithm6::forward(d, b, a))),
        in_buffer(&t.loaded, |b| assert!((0..d).all(|a| Walk::new(d, t.level).forward(b, a)))),
        in_buffer(&t.loaded, |b| assert!((0..d).all(|a| Lists::new(d, t.level).forward(b, a)))),
        in_buffer(&t.loaded, |b| passes(d, b)),
    ];
    contest(&mut all, seconds, 15)
}

fn back(t: &Tables, seconds: f64) -> Vec<f64> {
    let d = t.axes;
    let map = RefCell::new(Hashed::new(d, t.level, &t.coefficients));
    let mut all: [Contestant; 6] = [
        in_buffer(&t.coefficients, |b| library_back(t, b)),
        in_map(&map, &t.coefficients, |m| (0..d).for_each(|a| m.back(a))),
        in_buffer(&t.coefficients, |b| (0..d).for_each(|a| algorithm6::back(d, b, a))),
        in_buffer(&t.coefficients, |b| assert!((0..d).all(|a| Walk::new(d, t.level).back(b, a)))),
        in_buffer(&t.coefficients, |b| assert!((0..d).all(|a| Lists::new(d, t.level).back(b, a)))),
        in_buffer(&t.coefficients, |b| passes(d, b)),
    ];
    contest(&mut all, seconds, 15)
}

fn there(t: &Tables, seconds: f64) -> Vec<f64> {
    let d = t.axes;
    let shape = Shape::new(d as u32, t.level);
    let map = RefCell::new(Hashed::new(d, t.level, &t.rates));
    let mut all: [Contestant; 6] = [
        in_buffer(&t.rates, |b| shape.rates_to_coefficients(b).expect("rates")),
        in_map(&map, &t.rates, |m| {
            m.each(|v| v << d);
            (0..d).for_each(|a| m.forward(a));
        }),
        in_buffer(&t.rates, |b| {
            b.iter_mut().for_each(|v| *v <<= d);
            (0..d).for_each(|a| algorithm6::forward(d, b, a));
        }),
        in_buffer(&t.rates, |b| {
            assert!(whole::rates_to_coefficients(&Walk::new(d, t.level), d, b).is_ok());
        }),
        in_buffer(&t.rates, |b| assert!(Lists::new(d, t.level).rates_to_coefficients(b).is_ok())),
        in_buffer(&t.rates, |b| passes(d, b)),
    ];
    contest(&mut all, seconds, 15)
}

fn home(t: &Tables, seconds: f64) -> Vec<f64> {
    let d = t.axes;
    let shape = Shape::new(d as u32, t.level);
    let map = RefCell::new(Hashed::new(d, t.level, &t.coefficients));
    let mut all: [Contestant; 6] = [
        in_buffer(&t.coefficients, |b| shape.coefficients_to_rates(b).expect("coefficients")),
        in_map(&map, &t.coefficients, |m| {
            (0..d).for_each(|a| m.back(a));
            m.each(|v| v >> d);
        }),
        in_buffer(&t.coefficients, |b| {
            (0..d).for_each(|a| algorithm6::back(d, b, a));
            b.iter_mut().for_each(|v| *v >>= d);
        }),
        in_buffer(&t.coefficients, |b| {
            assert!(whole::coefficients_to_rates(&Walk::new(d, t.level), d, b));
        }),
        in_buffer(&t.coefficients, |b| assert!(Lists::new(d, t.level).coefficients_to_rates(b))),
        in_buffer(&t.coefficients, |b| passes(d, b)),
    ];
    contest(&mut all, seconds, 15)
}

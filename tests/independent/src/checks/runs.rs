//! Runs of turns, against turns one by one, and against demand 3's model.

use super::{answer, refusal, short};
use crate::boundary;
use crate::draw::Draw;
use crate::inputs;
use crate::lent::{self, Lent};
use crate::model::runs as model;
use crate::report::Report;
use numolefays::{Shape, State, Turn};

const CALL: &str = "run";

pub struct Lists {
    pub directions: Vec<u8>,
    pub axes: Vec<u32>,
    pub numbers: Vec<u32>,
    pub places: Vec<u64>,
}

pub fn run(draw: &mut Draw, report: &mut Report, axes: u32, level: u32, bits: u8, table: &[i64], lists: &Lists) {
    let want =
        model::run(axes, level, bits, table, &lists.directions, &lists.axes, lists.numbers.len(), lists.places.len());
    report.case(CALL, answer(&want).0);
    let say = || {
        format!(
            "axes {axes} level {level} bits {bits:#x} directions {:?} turned {:?} lengths {} {} table {}",
            lists.directions,
            lists.axes,
            lists.numbers.len(),
            lists.places.len(),
            short(table)
        )
    };
    let want_table = want.as_ref().map_or(table, |w| &w.table);
    let want_bits = want.as_ref().map_or(bits, |w| w.bits);
    let want_numbers = want.as_ref().map_or(&lists.numbers, |w| &w.numbers);
    let want_places = want.as_ref().map_or(&lists.places, |w| &w.places);

    let (mut forward, mut at) = (bits, draw.bits());
    let mut lent = lent::table(table, draw);
    let mut numbers = Lent::new(&lists.numbers, draw, |b| b as u32);
    let mut places = Lent::new(&lists.places, draw, |b| b);
    let got = boundary::run(
        axes,
        level,
        &mut forward,
        lent.slice(),
        &lists.directions,
        &lists.axes,
        numbers.slice(),
        places.slice(),
        &mut at,
    );
    report.same(CALL, "answer and place", &answer(&want), &(got, at), &say);
    report.same(CALL, "bits", &want_bits, &forward, &say);
    report.same(CALL, "table", want_table, lent.contents(), &say);
    report.same(CALL, "numbers", &want_numbers[..], numbers.contents(), &say);
    report.same(CALL, "places", &want_places[..], places.contents(), &say);
    let guarded = lent.guarded() && numbers.guarded() && places.guarded();
    report.same(CALL, "outside the buffers", &true, &guarded, &say);

    // the wrapper makes its lists of one length
    if answer(&want).0 != 7 {
        let turns: Vec<Turn> = lists
            .directions
            .iter()
            .zip(&lists.axes)
            .map(|(&d, &axis)| if d == 0 { Turn::Forward(axis) } else { Turn::Back(axis) })
            .collect();
        let mut again = table.to_vec();
        let mut state = State::saved(Shape::new(axes, level), bits);
        let got = state.run(&mut again, &turns);
        let answers = want.as_ref().map_err(|&why| refusal(why)).map(|want| {
            let each = want.numbers.iter().zip(&want.places);
            each.map(|(&n, &p)| if n == 0 { Ok(()) } else { Err(refusal((n, p))) }).collect::<Vec<_>>()
        });
        report.same(CALL, "wrapper", &answers, &got, &say);
        report.same(CALL, "wrapper's state", &want_bits, &state.bits, &say);
        report.same(CALL, "wrapper's table", want_table, &again[..], &say);
    }
}

/// Demand 3: a load, then a run, then nothing but what the model of sets says; the list handed in whole and in two parts. With no axis forward at the
/// end, unload gives the rates.
pub fn demand3(
    draw: &mut Draw,
    report: &mut Report,
    axes: u32,
    level: u32,
    rates: &[i64],
    directions: &[u8],
    turned: &[u32],
) {
    let want = model::demand3(axes, level, rates, directions, turned);
    let say =
        || format!("axes {axes} level {level} directions {directions:?} turned {turned:?} rates {}", short(rates));
    let cut = draw.index(directions.len() + 1);
    for cut in [0, cut] {
        let mut table = rates.to_vec();
        report.made("load", 1);
        let Ok(mut state) = Shape::new(axes, level).load(&mut table) else {
            report.same(CALL, "load", &true, &false, &say);
            return;
        };
        let (mut numbers, mut places) = (vec![7; directions.len()], vec![7; directions.len()]);
        for part in [0..cut, cut..directions.len()] {
            let done = state.run_lists(
                &mut table,
                &directions[part.clone()],
                &turned[part.clone()],
                &mut numbers[part.clone()],
                &mut places[part],
            );
            report.made(CALL, 1);
            report.same(CALL, "run", &Ok(()), &done, &say);
        }
        report.same(CALL, "numbers", &want.numbers, &numbers, &say);
        report.same(CALL, "places", &want.places, &places, &say);
        report.same(CALL, "bits", &want.bits, &state.bits, &say);
        report.same(CALL, "table", &want.table, &table, &say);
        if want.bits == 0 {
            report.made("unload", 1);
            report.same("unload", "after a run", &Ok(()), &state.unload(&mut table), &say);
            report.same("unload", "table after a run", rates, &table[..], &say);
        }
    }
}

/// A load and 200 turns, then every axis back.
pub fn long(draw: &mut Draw, report: &mut Report, axes: u32, level: u32) {
    let rates = inputs::rates(draw, crate::model::grid::count(axes, level) as usize);
    let (mut directions, mut turned) = some_turns(draw, axes, 200);
    directions.extend([255; 25]);
    turned.extend(1..=25);
    demand3(draw, report, axes, level, &rates, &directions, &turned);
}

fn turns(draw: &mut Draw, axes: u32) -> (Vec<u8>, Vec<u32>) {
    let count = draw.index(13);
    some_turns(draw, axes, count)
}

fn some_turns(draw: &mut Draw, axes: u32, count: usize) -> (Vec<u8>, Vec<u32>) {
    (0..count)
        .map(|_| {
            let direction = if draw.one_in(2) { 0 } else { draw.of(&[1, 1, 1, 2, 128, 255]) };
            (direction, inputs::axis(draw, axes))
        })
        .unzip()
}

/// One random case of each.
pub fn random(draw: &mut Draw, report: &mut Report, most: u64) {
    let (axes, level) = inputs::shape(draw, most);
    let bits = inputs::bits(draw, axes);
    let table = inputs::any_contents(draw, axes, level, bits);
    let (directions, turned) = turns(draw, axes);
    let numbers = directions.iter().map(|_| draw.bits() as u32).collect();
    let places = directions.iter().map(|_| draw.bits()).collect();
    let mut lists = Lists { directions, axes: turned, numbers, places };
    if draw.one_in(10) {
        let longer = 1 + draw.index(3);
        match draw.below(8) {
            0 => lists.directions.extend(vec![0; longer]),
            1 => lists.axes.extend(vec![1; longer]),
            2 => lists.numbers.extend(vec![9; longer]),
            3 => lists.places.extend(vec![9; longer]),
            4 => lists.directions.truncate(draw.index(lists.directions.len() + 1)),
            5 => lists.axes.truncate(draw.index(lists.axes.len() + 1)),
            6 => lists.numbers.truncate(draw.index(lists.numbers.len() + 1)),
            _ => lists.places.truncate(draw.index(lists.places.len() + 1)),
        }
    }
    run(draw, report, axes, level, bits, &table, &lists);

    let (axes, level) = inputs::good_shape(draw, most);
    let places = crate::model::grid::count(axes, level) as usize;
    let rates = inputs::rates(draw, places);
    let (directions, turned) = turns(draw, axes);
    demand3(draw, report, axes, level, &rates, &directions, &turned);
}

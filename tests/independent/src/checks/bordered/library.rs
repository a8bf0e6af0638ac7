//! One call through the boundary: answer, place, every output, every buffer, what lies beside each, and what it may only
//! read.

use super::said;
use crate::boundary::bordered as boundary;
use crate::checks::{answer, refusal};
use crate::draw::Draw;
use crate::lent::{self, Lent};
use crate::model::bordered::calls::{Answer, Call, Written};
use crate::model::bordered::{Eights, Shape};
use crate::report::Report;
use numolefays::{Point, Refusal, Side, State, Turn};

/// What the caller holds: outputs with anything in them, and buffers.
struct Held {
    answer: u32,
    place: u64,
    numbers: Vec<i64>,
    point: Eights,
    table: Vec<i64>,
    bits: u8,
    answers: (Vec<u32>, Vec<u64>),
    guarded: bool,
}

/// A point as it lies in memory, with other numbers before and after it.
#[repr(C)]
struct Beside {
    before: [u64; 2],
    point: Eights,
    after: [u64; 2],
}

pub fn compare(draw: &mut Draw, report: &mut Report, shape: Shape, call: &Call, want: &Answer) {
    let kind = call.kind(shape);
    let say = || said(shape, call);
    let junk = Held::new(draw, call);
    let junk_table = junk.table.clone();
    let handed = call.clone();
    let got = made(draw, shape, &handed, &junk);
    report.same(kind, "answer and place", &answer(want), &(got.answer, got.place), &say);
    // an output that is not written holds what it held
    let written = want.clone().unwrap_or_default();
    let numbers = junk.numbers.iter().enumerate().map(|(k, &held)| written.numbers.get(k).copied().unwrap_or(held));
    report.same(kind, "numbers", &numbers.collect(), &got.numbers, &say);
    let Written { point, table, bits, answers, .. } = written;
    report.same(kind, "point", &point.unwrap_or(junk.point), &got.point, &say);
    report.same(kind, "table", &table.unwrap_or(junk.table), &got.table, &say);
    report.same(kind, "bits", &bits.unwrap_or(junk.bits), &got.bits, &say);
    report.same(kind, "answers of the run", &answers.unwrap_or(junk.answers), &got.answers, &say);
    report.same(kind, "outside the buffers", &true, &got.guarded, &say);
    report.same(kind, "what is only read", call, &handed, &say);

    if let Some((got, left)) = by_wrapper(shape, call) {
        report.same(kind, "wrapper", &want.clone().map_err(refusal), &got, &say);
        if want.is_err() {
            report.same(kind, "wrapper's table", &junk_table, &left, &say);
        }
    }
}

/// The same call through the safe wrapper, and the table that it leaves; none of lists of different lengths, which the
/// wrapper cannot hand in.
fn by_wrapper(shape: Shape, call: &Call) -> Option<(Result<Written, Refusal>, Vec<i64>)> {
    let of = numolefays::Shape { axes: shape.axes, level: shape.level, border: shape.flagged() };
    let one = |n: i64| Written { numbers: vec![n], ..Written::default() };
    let eights = |p: Point| Eights { marks: p.all_marks, levels: p.all_levels, indices: p.all_indices };
    let or_none = |found: Option<Point>| Written {
        numbers: vec![i64::from(found.is_none())],
        point: found.map(eights),
        ..Written::default()
    };
    let mut table = match call {
        Call::Load(t) | Call::ToCoefficients(t) | Call::ToRates(t) => t.clone(),
        Call::Turn { table, .. } | Call::Unload { table, .. } | Call::Run { table, .. } => table.clone(),
        _ => vec![],
    };
    let t = &mut table;
    let written = match call {
        Call::Count => of.points().map(|n| one(n as i64)),
        Call::Number(at) => of.number_of(&at.marks, &at.levels, &at.indices).map(|n| one(n as i64)),
        Call::Point(n) => of.point(*n).map(|p| Written { point: Some(eights(p)), ..Written::default() }),
        Call::Successor(at) => of.successor(&at.marks, &at.levels, &at.indices).map(or_none),
        Call::Parent { of: at, axis, side } => {
            let side = if *side == 0 { Side::Left } else { Side::Right };
            of.parent(&at.marks, &at.levels, &at.indices, *axis, side).map(or_none)
        }
        Call::Load(_) => of.load(t).map(|state| with_bits(state, t)),
        Call::Adopt(table) => of.adopt(table).map(|state| Written { table: None, ..with_bits(state, &[]) }),
        Call::Turn { back, bits, axis, .. } => {
            let mut state = State::saved(of, *bits);
            let done = if *back { state.back(t, *axis) } else { state.forward(t, *axis) };
            done.map(|()| with_bits(state, t))
        }
        Call::Unload { bits, .. } => State::saved(of, *bits).unload(t).map(|()| left(t)),
        Call::ToCoefficients(_) => of.rates_to_coefficients(t).map(|()| left(t)),
        Call::ToRates(_) => of.coefficients_to_rates(t).map(|()| left(t)),
        Call::Run { bits, directions, axes, numbers, places, .. } => {
            let count = directions.len();
            if [axes.len(), numbers.len(), places.len()] != [count; 3] {
                return None;
            }
            let turn = |(&d, &axis): (&u8, &u32)| if d == 0 { Turn::Forward(axis) } else { Turn::Back(axis) };
            let turns: Vec<Turn> = directions.iter().zip(axes).map(turn).collect();
            let mut state = State::saved(of, *bits);
            state.run(t, &turns).map(|answers| {
                let answer = |a: Result<(), Refusal>| a.map_or_else(|why| (why.number(), why.place()), |()| (0, 0));
                let answers = answers.into_iter().map(answer).unzip();
                Written { answers: Some(answers), ..with_bits(state, t) }
            })
        }
        Call::Estimate { bits, table, coordinates } => State::saved(of, *bits).estimate(table, coordinates).map(one),
        Call::Margin { bits, table, coordinates } => {
            State::saved(of, *bits).estimate_with_margin(table, coordinates).map(|found| Written {
                numbers: vec![found.estimate, found.absolute_sum as i64, found.margin as i64],
                ..Written::default()
            })
        }
    };
    Some((written, table))
}

fn left(table: &[i64]) -> Written {
    Written { table: Some(table.to_vec()), ..Written::default() }
}

fn with_bits(state: State, table: &[i64]) -> Written {
    Written { bits: Some(state.bits), ..left(table) }
}

impl Held {
    fn new(draw: &mut Draw, call: &Call) -> Held {
        let mut eight = || [(); 8].map(|()| draw.bits() as u32);
        let point = Eights { marks: eight(), levels: eight(), indices: eight() };
        let (table, bits, answers) = match call {
            Call::Turn { table, bits, .. } => (table.clone(), *bits, (vec![], vec![])),
            Call::Run { table, bits, numbers, places, .. } => (table.clone(), *bits, (numbers.clone(), places.clone())),
            Call::Load(table) | Call::ToCoefficients(table) | Call::ToRates(table) | Call::Unload { table, .. } => {
                (table.clone(), draw.bits() as u8, (vec![], vec![]))
            }
            _ => (vec![], draw.bits() as u8, (vec![], vec![])),
        };
        let numbers = match call {
            Call::Count | Call::Number(_) | Call::Estimate { .. } => vec![draw.bits() as i64],
            Call::Margin { .. } => (0..3).map(|_| draw.bits() as i64).collect(),
            // of 32 bits
            Call::Successor(_) | Call::Parent { .. } => vec![(draw.bits() >> 32) as i64],
            _ => vec![],
        };
        Held { answer: 0, place: draw.bits(), numbers, point, table, bits, answers, guarded: true }
    }
}

fn made(draw: &mut Draw, shape: Shape, call: &Call, junk: &Held) -> Held {
    let mut place = junk.place;
    let mut numbers = junk.numbers.clone();
    let mut bits = junk.bits;
    let mut table = lent::table(&junk.table, draw);
    let mut run_numbers = Lent::new(&junk.answers.0, draw, |b| b as u32);
    let mut run_places = Lent::new(&junk.answers.1, draw, |b| b);
    // outputs that are no whole numbers of 64 bits with sign
    let unsigned: Vec<u64> = numbers.iter().map(|&n| n as u64).collect();
    let mut out = Lent::new(&unsigned, draw, |b| b);
    let kept = [draw.bits(), draw.bits()];
    let mut beside = Beside { before: kept, point: junk.point, after: kept };
    let point = &mut beside.point;
    let place_of = &mut place;
    let answer = match call {
        Call::Count => boundary::count(shape, &mut out.slice()[0], place_of),
        Call::Number(lists) => boundary::number_of_point(shape, lists, &mut out.slice()[0], place_of),
        Call::Point(number) => boundary::point_of_number(shape, *number, point, place_of),
        Call::Successor(lists) => {
            let mut end = unsigned[0] as u32;
            let answer = boundary::successor(shape, lists, point, &mut end, place_of);
            out.slice()[0] = u64::from(end);
            answer
        }
        Call::Parent { of, axis, side } => {
            let mut border = unsigned[0] as u32;
            let answer = boundary::parent(shape, of, *axis, *side, point, &mut border, place_of);
            out.slice()[0] = u64::from(border);
            answer
        }
        Call::Load(_) => boundary::load(shape, table.slice(), &mut bits, place_of),
        Call::Adopt(handed) => boundary::adopt(shape, handed, &mut bits, place_of),
        Call::Turn { back: false, axis, .. } => boundary::forward(shape, &mut bits, table.slice(), *axis, place_of),
        Call::Turn { back: true, axis, .. } => boundary::back(shape, &mut bits, table.slice(), *axis, place_of),
        Call::Unload { bits, .. } => boundary::unload(shape, *bits, table.slice(), place_of),
        Call::ToCoefficients(_) => boundary::rates_to_coefficients(shape, table.slice(), place_of),
        Call::ToRates(_) => boundary::coefficients_to_rates(shape, table.slice(), place_of),
        Call::Run { directions, axes, .. } => boundary::run(
            shape,
            &mut bits,
            table.slice(),
            directions,
            axes,
            run_numbers.slice(),
            run_places.slice(),
            place_of,
        ),
        Call::Estimate { bits, table, coordinates } => {
            let mut estimate = numbers[0];
            let answer = boundary::estimate(shape, *bits, table, coordinates, &mut estimate, place_of);
            out.slice()[0] = estimate as u64;
            answer
        }
        Call::Margin { bits, table, coordinates } => {
            let mut estimate = numbers[0];
            let [first, absolute_sum, margin] = out.slice() else { unreachable!("three numbers") };
            let answer = boundary::estimate_with_margin(
                shape,
                *bits,
                table,
                coordinates,
                &mut estimate,
                absolute_sum,
                margin,
                place_of,
            );
            *first = estimate as u64;
            answer
        }
    };
    numbers = out.contents().iter().map(|&n| n as i64).collect();
    Held {
        answer,
        place,
        numbers,
        point: beside.point,
        table: table.contents().to_vec(),
        bits,
        answers: (run_numbers.contents().to_vec(), run_places.contents().to_vec()),
        guarded: table.guarded()
            && run_numbers.guarded()
            && run_places.guarded()
            && out.guarded()
            && [beside.before, beside.after] == [kept; 2],
    }
}

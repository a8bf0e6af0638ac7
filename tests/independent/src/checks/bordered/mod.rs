//! Tables with border values, change request g, and the largest tables, change request h: calls on shapes of either sort, each
//! looked at by the separate code alone and compared with the library.

pub mod edges;
pub mod inputs;
pub mod itself;
pub mod journeys;
pub mod library;
pub mod limit;
pub mod random;
pub mod walks;
pub mod worked;

use super::answer;
use crate::draw::Draw;
use crate::model::bordered::calls::{Answer, Call};
use crate::model::bordered::readings::{Reading, RIGHT, WRONG};
use crate::model::bordered::Shape;
use crate::report::Report;

/// Where calls are made: what they are drawn from, and what is written down of them.
pub struct Desk<'a> {
    pub draw: Draw,
    pub report: &'a mut Report,
}

/// Shapes of more points show no wrong reading that others do not, but of the limit.
const SMALL: usize = 1_200;

/// By every reading of the limit, tables of fewer points are within it.
const NEAR_THE_LIMIT: usize = 31_745;

impl Desk<'_> {
    /// One call.
    pub fn call(&mut self, shape: Shape, call: &Call) {
        let _ = self.answered(shape, call);
    }

    /// The same; answers what it has to answer.
    pub fn answered(&mut self, shape: Shape, call: &Call) -> Answer {
        let want = call.answer(shape);
        self.report.case(call.kind(shape), answer(&want).0);
        wrong_readings(self.report, shape, call, &want);
        itself::looked_at(self.report, shape, call, &want);
        library::compare(&mut self.draw, self.report, shape, call, &want);
        want
    }

    /// One call of a walk over the points of a shape, which no reading but the right one looks at.
    pub fn walked(&mut self, shape: Shape, call: &Call) {
        let want = call.answer(shape);
        self.report.walked(call.kind(shape));
        library::compare(&mut self.draw, self.report, shape, call, &want);
    }
}

/// The wrong readings that answer otherwise.
fn wrong_readings(report: &mut Report, shape: Shape, call: &Call, want: &Answer) {
    let small = shape.check().is_err() || shape.count() <= SMALL;
    let large = RIGHT.check(shape).is_ok() && shape.count() >= NEAR_THE_LIMIT;
    let looked_at = |reading: &&Reading| if reading.limit == RIGHT.limit { small } else { large };
    for reading in WRONG.iter().filter(looked_at) {
        if call.differs(shape, want, reading) {
            report.shown(reading.name);
        }
    }
}

/// A call as it is printed.
pub fn said(shape: Shape, call: &Call) -> String {
    crate::report::cut(format!("{shape:?} {call:?}"))
}

/// What there is of all this, in the order in which it is run.
pub fn all(seed: u64, rounds: u64, with_large: bool, report: &mut Report, step: &dyn Fn(&str)) {
    let mut desk = Desk { draw: Draw::new(seed ^ 0x626f_7264_6572_6564), report };
    worked::worked(&mut desk);
    itself::itself(&mut desk);
    step("border values: worked tables, and the separate code with itself");
    edges::all(&mut desk);
    step("border values: each call at its edges");
    limit::all(&mut desk, with_large);
    step("both sorts: tables that are too large, and the largest that pass");
    walks::all(&mut desk, with_large);
    let walked = if with_large { "that passes" } else { "with up to 7,000 points" };
    step(&format!("border values: every point of every shape {walked}"));
    journeys::all(&mut desk, with_large);
    step("border values: loads, turns in any order with stops between, estimates and back, of every shape of the same");
    for round in 0..rounds / 4 {
        random::round(&mut desk, round);
    }
    let threads: Vec<Report> = random::in_threads(seed, rounds / 80);
    threads.into_iter().for_each(|of_thread| desk.report.merge(of_thread));
    step("border values: random inputs, and in four threads");
}

/// What each call can answer on shapes with border values.
pub const ANSWERS: [(&str, &[u32]); 15] = [
    ("bordered count", &[0, 1, 2, 19]),
    ("bordered number", &[0, 1, 2, 19, 7, 9]),
    ("bordered successor", &[0, 1, 2, 19, 7, 9]),
    ("bordered point", &[0, 1, 2, 19, 6]),
    ("bordered parent", &[0, 1, 2, 19, 5, 7, 9]),
    ("bordered load", &[0, 1, 2, 19, 3, 4]),
    ("bordered adopt", &[0, 1, 2, 19, 3, 10]),
    ("bordered forward", &[0, 1, 2, 14, 19, 3, 5, 15, 10]),
    ("bordered back", &[0, 1, 2, 14, 19, 3, 5, 16, 10]),
    ("bordered unload", &[0, 1, 2, 14, 19, 3, 18, 10]),
    ("bordered whole forward", &[0, 1, 2, 19, 3, 4]),
    ("bordered whole back", &[0, 1, 2, 19, 3, 10]),
    ("bordered run", &[0, 1, 2, 14, 19, 3, 7]),
    ("bordered estimate", &[0, 1, 2, 14, 19, 3, 17, 7, 8, 10]),
    ("bordered margin", &[0, 1, 2, 14, 19, 3, 17, 7, 8, 10]),
];

/// The names of the wrong readings.
pub fn readings() -> impl Iterator<Item = &'static str> {
    WRONG.iter().map(|reading| reading.name)
}

//! Estimates with their margin, and how far the library's estimates are from the exact value of the surface.

use super::estimates::estimate;
use super::{answer, margin_misreadings, refusal, short};
use crate::boundary;
use crate::draw::Draw;
use crate::inputs::{self, END, LIMIT};
use crate::model::grid::count;
use crate::model::margin::{Estimated, Reached};
use crate::model::natural::Natural;
use crate::model::Refused;
use crate::report::Report;
use numolefays::{Shape, State};

const CALL: &str = "margin";

/// The outputs of the call as they lie in memory, with other numbers before, between and after them.
#[derive(Clone, Copy, Debug, PartialEq, Eq)]
#[repr(C)]
struct Outputs {
    before: u64,
    estimate: i64,
    after_estimate: u64,
    absolute_sum: u64,
    after_absolute_sum: u64,
    margin: u64,
    after_margin: u64,
    place: u64,
    after: u64,
}

impl Outputs {
    /// Each number another one.
    fn any(draw: &mut Draw) -> Outputs {
        Outputs {
            before: draw.bits(),
            estimate: draw.bits() as i64,
            after_estimate: draw.bits(),
            absolute_sum: draw.bits(),
            after_absolute_sum: draw.bits(),
            margin: draw.bits(),
            after_margin: draw.bits(),
            place: draw.bits(),
            after: draw.bits(),
        }
    }

    fn answered(&self) -> Estimated {
        Estimated { estimate: self.estimate, absolute_sum: self.absolute_sum, margin: self.margin }
    }
}

/// One call where `estimate` has to answer `want` and the library's answered `plain`, through the boundary and through
/// the wrapper; and the exact value. Returns what the library answers.
#[allow(clippy::too_many_arguments)]
pub fn beside(
    draw: &mut Draw,
    report: &mut Report,
    axes: u32,
    level: u32,
    bits: u8,
    table: &[i64],
    coordinates: &[u32],
    want: &Result<i64, Refused>,
    plain: &Result<i64, Refused>,
) -> Result<Estimated, Refused> {
    let there = want.map(|_| Reached::new(axes, level, table, coordinates));
    let want = there.as_ref().map_err(|&why| why).and_then(|there| want.map(|estimate| there.with_margin(estimate)));
    report.case(CALL, answer(&want).0);
    let say = || format!("axes {axes} level {level} bits {bits:#x} coordinates {coordinates:?} table {}", short(table));

    let junk = Outputs::any(draw);
    let mut out = junk;
    let (handed, handed_at) = (table.to_vec(), coordinates.to_vec());
    let (estimate, absolute_sum, margin) = (&mut out.estimate, &mut out.absolute_sum, &mut out.margin);
    let got = boundary::estimate_with_margin(
        axes,
        level,
        bits,
        &handed,
        &handed_at,
        estimate,
        absolute_sum,
        margin,
        &mut out.place,
    );
    report.same(CALL, "answer and place", &answer(&want), &(got, out.place), &say);
    report.same(CALL, "estimate, S and margin", &want.unwrap_or(junk.answered()), &out.answered(), &say);
    let Outputs { estimate, absolute_sum, margin, place, .. } = out;
    report.same(CALL, "beside the outputs", &Outputs { estimate, absolute_sum, margin, place, ..junk }, &out, &say);
    report.same(CALL, "table", table, &handed[..], &say);
    report.same(CALL, "coordinates", coordinates, &handed_at[..], &say);

    let of_wrapper = want.map_err(refusal).map(wrapped);
    let state = State::saved(Shape::new(axes, level), bits);
    report.same(CALL, "wrapper", &of_wrapper, &state.estimate_with_margin(table, coordinates), &say);

    let found = if got == 0 { Ok(out.answered()) } else { Err((got, out.place)) };
    report.same(CALL, "as the estimate alone", plain, &found.map(|found| found.estimate), &say);
    if let (Ok(there), Ok(want)) = (there, want) {
        margin_misreadings::of_call(report, axes, level, table, coordinates, &want);
        if let Ok(found) = found {
            exactly(report, axes, &there, &found, &say);
        }
    }
    found
}

/// The same as the wrapper says it.
pub fn wrapped(answer: Estimated) -> numolefays::Estimated {
    let Estimated { estimate, absolute_sum, margin } = answer;
    numolefays::Estimated { estimate, absolute_sum, margin }
}

/// The answer against the exact value: within the margin, and within what was rounded up to it.
fn exactly(report: &mut Report, axes: u32, there: &Reached, found: &Estimated, say: &dyn Fn() -> String) {
    let exact = there.exact();
    report.same(CALL, "the exact value within the margin", &true, &exact.within_margin(found), say);
    report.same(CALL, "within the bound", &true, &exact.within_bound(axes, found), say);
    if axes <= 3 {
        let over = there.over_in_128_bits();
        report.same("separate code with itself", "exact value in 128 bits", &true, &exact.is_over(over), say);
    }
}

/// S at and beside each number where the margin goes up by one, and half way between them: the middle point, which is
/// reached, makes up what the others leave.
pub fn chosen_sums(draw: &mut Draw, report: &mut Report) {
    for axes in 1..=8 {
        let lost = i64::from(axes) - 1;
        let half = i64::from(END) / 2;
        let turns = (0..=4 * lost).map(|k| if lost == 0 { 0 } else { half * k / lost });
        let sums: Vec<i64> = turns.flat_map(|s| [s - 1, s, s + 1]).collect();
        for level in 0..=2 {
            let inside: Vec<u32> = (0..axes).map(|_| 1 + draw.below(u64::from(END) - 1) as u32).collect();
            for mut table in tables(draw, axes, level) {
                table[0] = 0;
                let others = Reached::new(axes, level, &table, &inside).sum() as i64;
                for &sum in &sums {
                    let size = (sum - others).rem_euclid(4 * half);
                    for middle in [size, -size] {
                        table[0] = middle;
                        estimate(draw, report, axes, level, inputs::all_bits(axes), &table, &inside);
                    }
                }
            }
        }
    }
}

/// Points that are reached though their joint weight is 0: on two axes small weights, the others at points. Then each
/// axis at and beside points, where the weights of others end, and the rest anywhere.
pub fn small_weights(draw: &mut Draw, report: &mut Report) {
    let pairs = [(1, 1), (1, END - 1), (END - 1, 1), (1, END / 4 - 1), (END / 4 * 3 + 1, 1), (1, END / 4), (700, 300)];
    let beside: Vec<u32> = (1..8).flat_map(|k| [END / 8 * k - 1, END / 8 * k, END / 8 * k + 1]).collect();
    for axes in 1..=8 {
        let last = axes as usize - 1;
        for level in 0..=2 {
            for table in tables(draw, axes, level) {
                let all = inputs::all_bits(axes);
                for (first, second) in (0..last).flat_map(|s| (s + 1..=last).map(move |t| (s, t))) {
                    for (x, y) in pairs {
                        let points = [END / 4, END / 2, END / 2, END / 4 * 3];
                        let mut coordinates: Vec<u32> = (0..axes).map(|_| draw.of(&points)).collect();
                        (coordinates[first], coordinates[second]) = (x, y);
                        estimate(draw, report, axes, level, all, &table, &coordinates);
                    }
                }
                for (axis, &x) in (0..=last).flat_map(|axis| beside.iter().map(move |x| (axis, x))) {
                    let mut coordinates: Vec<u32> = (0..axes).map(|_| inputs::coordinate(draw)).collect();
                    coordinates[axis] = x;
                    estimate(draw, report, axes, level, all, &table, &coordinates);
                }
            }
        }
    }
}

/// Small numbers, any, and the ends of the content limit.
fn tables(draw: &mut Draw, axes: u32, level: u32) -> [Vec<i64>; 3] {
    let places = count(axes, level) as usize;
    [
        (0..places).map(|_| draw.between(-9, 9)).collect(),
        (0..places).map(|_| draw.between(-LIMIT, LIMIT)).collect(),
        (0..places).map(|_| draw.of(&[LIMIT, -LIMIT])).collect(),
    ]
}

/// The separate code's whole numbers, by what divisions of them leave, by each other and in 128 bits.
pub fn arithmetic(draw: &mut Draw, report: &mut Report) {
    const CALL: &str = "separate code with itself";
    for _ in 0..2_000 {
        let mut factors = || -> Vec<u64> { (0..=draw.below(4)).map(|_| draw.bits() >> (1 + draw.below(63))).collect() };
        let (of_a, of_b) = (factors(), factors());
        let say = || format!("products of {of_a:?} and of {of_b:?}");
        let product = |factors: &[u64]| factors.iter().fold(Natural::new(1), |product, &by| product.times(by));
        let (a, b) = (product(&of_a), product(&of_b));
        for by in [3, 1 << 32, (1 << 61) - 1, u64::MAX] {
            let rest = |factors: &[u64]| {
                factors.iter().fold(1, |rest, &by_this| rest * u128::from(by_this) % u128::from(by)) as u64
            };
            let rest_of_sum = (u128::from(rest(&of_a)) + u128::from(rest(&of_b))) % u128::from(by);
            report.same(CALL, "product", &rest(&of_a), &a.rest(by), &say);
            report.same(CALL, "sum", &(rest_of_sum as u64), &a.plus(b).rest(by), &say);
        }
        report.same(CALL, "difference", &a.max(b), &a.min(b).plus(a.apart(b)), &say);
        report.same(CALL, "one more is larger", &true, &(a < a.plus(Natural::new(1))), &say);
        if of_a.len() <= 2 && of_b.len() <= 2 {
            let product = |factors: &[u64]| factors.iter().map(|&by| u128::from(by)).product::<u128>();
            report.same(CALL, "order in 128 bits", &product(&of_a).cmp(&product(&of_b)), &a.cmp(&b), &say);
        }
    }
}

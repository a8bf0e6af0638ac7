//! The worked tables of documents 01 and 02, through the wrapper and in the separate code; halves, files, component
//! grids and margins by hand.

use super::margins::wrapped;
use super::writes::{library_rewrites, library_writes};
use crate::boundary;
use crate::inputs;
use crate::model;
use crate::model::estimates::OLD_UNIT;
use crate::model::margin::{estimate_with_margin, Estimated, Reached};
use crate::report::Report;
use crate::wrapper;
use numolefays::{component_coefficients, read_house_file, Refusal, Shape, State};

pub fn worked(report: &mut Report) {
    let mut paper = |kind: &'static str, want: Vec<i64>, separate: Vec<i64>, library: Vec<i64>| {
        report.made(kind, 1);
        report.same(kind, "separate code", &want, &separate, &|| format!("worked: {want:?}"));
        report.same(kind, "library", &want, &library, &|| format!("worked: {want:?}"));
    };
    for (axes, level, n) in [(1, 0, 1), (2, 2, 17), (3, 2, 31), (1, 8, 511), (2, 3, 49), (8, 4, 6_401), (8, 5, 31_745)]
    {
        let library = Shape::new(axes, level).points().map_or(-1, |n| n as i64);
        paper("count", vec![n], vec![model::grid::count(axes, level) as i64], vec![library]);
    }
    // the formula of N has no limit; the call has
    assert_eq!(model::grid::count(8, 8), 2_228_225, "document 01's N at d=8, n=8");
    let separate = model::points::number_of(2, 3, &[1, 2], &[3, 1]).map_or(-1, |n| n as i64);
    let library = wrapper::number_of(2, 3, &[1, 2], &[3, 1]).map_or(-1, |n| n as i64);
    paper("number", vec![34], vec![separate], vec![library]);

    let tables: [(u32, u32, &[i64], &[i64]); 4] = [
        (1, 1, &[3, 5, 7], &[6, 7, 11]),
        (1, 0, &[-1], &[-2]),
        (2, 1, &[4, 3, 5, 2, 6], &[16, 4, 12, 0, 16]),
        (2, 2, &[1; 17], &[4, 2, 2, 2, 2, 2, 0, 0, 2, 1, 1, 1, 1, 2, 0, 0, 2]),
    ];
    for (axes, level, rates, coefficients) in tables {
        let shape = Shape::new(axes, level);
        let mut there = rates.to_vec();
        let done = shape.rates_to_coefficients(&mut there);
        let separate = model::rates::rates_to_coefficients(axes, level, rates).unwrap_or_default();
        paper("whole forward", coefficients.to_vec(), separate, if done.is_ok() { there.clone() } else { vec![] });
        let done = shape.coefficients_to_rates(&mut there);
        let separate = model::rates::coefficients_to_rates(axes, level, coefficients).unwrap_or_default();
        paper("whole back", rates.to_vec(), separate, if done.is_ok() { there } else { vec![] });
    }

    // document 01's tables as component grids: on one axis laid out by coordinate, on two with points at the corners too
    let grids: [(&[u32], &[i64], &[i64]); 6] = [
        (&[0], &[-1], &[-2]),
        (&[1], &[5, 3, 7], &[7, 6, 11]),
        (&[2], &[1; 7], &[1, 1, 0, 2, 0, 1, 1]),
        (&[1, 1], &[0, 2, 0, 3, 4, 5, 0, 6, 0], &[-6, 0, -10, 4, 16, 12, -14, 16, -18]),
        (&[1, 0], &[3, 4, 5], &[4, 16, 12]),
        (&[0, 1], &[2, 4, 6], &[0, 16, 16]),
    ];
    for (levels, rates, coefficients) in grids {
        let mut there = rates.to_vec();
        let done = component_coefficients(levels, &mut there);
        let separate = model::component::coefficients(levels, rates).unwrap_or_default();
        paper("component", coefficients.to_vec(), separate, if done.is_ok() { there } else { vec![] });
    }

    // document 01's, the fifth as document 02 has it, and document 02's own, all as request e has them; then 1.5, 2.5,
    // 0.5 and a little less
    let readings: [(u32, &[i64], u32, i64); 17] = [
        (1, &[6, 7, 11], 262_144, 10),
        (1, &[6, 7, 11], 131_072, 5),
        (1, &[6, 7, 11], 0, 0),
        (1, &[6, 7, 11], 1, 0),
        (1, &[-6, -7, -11], 1, 0),
        (1, &[6, 7, 11], 1_048_576, 0),
        (1, &[-6, -7, -11], 1_048_576, 0),
        (0, &[1], 262_144, 1),
        (0, &[-1], 262_144, -1),
        (0, &[3], 262_144, 2),
        (0, &[-3], 262_144, -2),
        (0, &[5], 786_432, 3),
        (0, &[-5], 786_432, -3),
        (0, &[262_144], 1, 1),
        (0, &[-262_144], 1_048_575, -1),
        (0, &[262_143], 1_048_575, 0),
        (0, &[-262_143], 1, 0),
    ];
    for (level, table, x, want) in readings {
        let separate = model::estimates::estimate(1, level, 1, table, &[x]).unwrap_or(i64::MIN);
        let library = State::saved(Shape::new(1, level), 1).estimate(table, &[x]).unwrap_or(i64::MIN);
        paper("estimate", vec![want], vec![separate], vec![library]);
    }

    // two and three axes where old coordinates times 16 do not give the old estimate, before e and since. The old weights
    // of the first are 11,800 and 26,000: 7 × 4,681 / 65,536 is a little less than a half, and 7 × 74,902 / 1,048,576 a
    // little more. Those of the other are 10,000, 16,000 and 40,000: 22 × 1,489 / 65,536 and 22 × 23,841 / 1,048,576
    let differing: [(u32, i64, &[u32], i64, i64); 4] = [
        (2, 7, &[5_900, 13_000], 0, 1),
        (2, -7, &[5_900, 13_000], 0, -1),
        (3, 22, &[5_000, 8_000, 20_000], 0, 1),
        (3, -22, &[5_000, 8_000, 20_000], 0, -1),
    ];
    for (axes, coefficient, old_at, old, new) in differing {
        let (all, at) = (inputs::all_bits(axes), old_at.iter().map(|x| 16 * x).collect::<Vec<u32>>());
        let estimate_in = |unit, at| model::estimates::estimate_in(unit, axes, 0, all, &[coefficient], at);
        let before = estimate_in(OLD_UNIT, old_at).unwrap_or(i64::MIN);
        let separate = model::estimates::estimate(axes, 0, all, &[coefficient], &at).unwrap_or(i64::MIN);
        let library = State::saved(Shape::new(axes, 0), all).estimate(&[coefficient], &at).unwrap_or(i64::MIN);
        assert_eq!(before, old, "the separate code in the old unit, at {old_at:?} with coefficient {coefficient}");
        paper("estimate", vec![new], vec![separate], vec![library]);
    }

    // the ends of what passes, as refusal numbers, 0 for none
    let library = |r: Result<u64, Refusal>| r.map_or_else(|r| i64::from(r.number()), |_| 0);
    let separate = |r: Result<u64, model::Refused>| r.map_or_else(|r| i64::from(r.0), |_| 0);
    let mut ends = vec![(8, 0, 0), (9, 0, 1), (1, 9, 2), (0, 9, 1), (9, 8, 1), (8, 9, 2)];
    for (axes, top) in (1..).zip([8, 8, 8, 7, 6, 5, 5, 5]) {
        ends.extend((0..=8).map(|level| (axes, level, if level <= top { 0 } else { 19 })));
    }
    for (axes, level, want) in ends {
        paper(
            "count",
            vec![want],
            vec![separate(model::points::points(axes, level))],
            vec![library(Shape::new(axes, level).points())],
        );
    }
    for (x, want) in [(65_536, 0), (65_537, 0), (1_048_576, 0), (1_048_577, 8), (u32::MAX, 8)] {
        let l = State::saved(Shape::new(1, 0), 1).estimate(&[4], &[x]).map(|_| 0);
        let s = model::estimates::estimate(1, 0, 1, &[4], &[x]).map(|_| 0);
        paper("estimate", vec![want], vec![separate(s)], vec![library(l)]);
    }
    for (coefficient, want) in [(3, vec![-10]), (4, vec![2])] {
        let mut table = [coefficient];
        let l = Shape::new(1, 0).coefficients_to_rates(&mut table);
        let l = l.map_or_else(|r| vec![-i64::from(r.number())], |()| table.to_vec());
        let s = model::rates::coefficients_to_rates(1, 0, &[coefficient]).unwrap_or_else(|r| vec![-i64::from(r.0)]);
        paper("whole back", want, s, l);
    }
    let mut table = [0; 4];
    let shape = read_house_file(&[0x01, 0x01, 0x06, 0x0a, 0x0e], &mut table);
    let read = model::files::read(&[0x01, 0x01, 0x06, 0x0a, 0x0e], 4).map_or(vec![], |f| f.rates);
    paper("read", vec![3, 5, 7], read, if shape == Ok(Shape::new(1, 1)) { table[..3].to_vec() } else { vec![] });

    // files written: the same one, and numbers of up to 5 bytes; rewritten: needless zero groups
    let numbers = |bytes: Vec<u8>| -> Vec<i64> { bytes.into_iter().map(i64::from).collect() };
    let written: [(&[i64], &[u8]); 2] = [
        (&[3, 5, 7], &[0x01, 0x01, 0x06, 0x0a, 0x0e]),
        (&[300, -2_147_483_648, 0], &[0x01, 0x01, 0xd8, 0x04, 0xff, 0xff, 0xff, 0xff, 0x0f, 0x00]),
    ];
    for (rates, file) in written {
        let separate = model::files::write(1, 1, rates, file.len()).unwrap_or_default();
        let library = library_writes(1, 1, rates, file.len()).unwrap_or_default();
        paper("write", numbers(file.to_vec()), numbers(separate), numbers(library));
    }
    let rewritten: [(&[u8], &[u8]); 2] = [
        (&[0x81, 0x80, 0x80, 0x80, 0x00, 0x00, 0x00], &[0x01, 0x00, 0x00]),
        (&[0x01, 0x81, 0x00, 0x86, 0x80, 0x00, 0x0a, 0x0e], &[0x01, 0x01, 0x06, 0x0a, 0x0e]),
    ];
    for (bytes, form) in rewritten {
        let separate = model::files::rewrite(bytes, 3, form.len()).unwrap_or_default();
        let library = library_rewrites(bytes, 3, form.len()).unwrap_or_default();
        paper("rewrite", numbers(form.to_vec()), numbers(separate), numbers(library));
    }
    let separate = model::files::shape_of(&[0x82, 0x00, 0x03])
        .map_or(vec![], |(d, n, points)| vec![i64::from(d), i64::from(n), points as i64]);
    let (mut d, mut n, mut points, mut place) = (0, 0, 0, 0);
    let got = boundary::house_file_shape(&[0x82, 0x00, 0x03], &mut d, &mut n, &mut points, &mut place);
    let library = if got == 0 { vec![i64::from(d), i64::from(n), points as i64] } else { vec![] };
    paper("file shape", vec![2, 3, 49], separate, library);
    margins(report);
}

/// Axes and level, a table and coordinates; the estimate, S and the margin, and the exact value as a fraction.
struct Read<'a>(u32, u32, &'a [i64], &'a [u32], [i64; 3], (i64, u64));

/// Request f by hand, through the wrapper and in the separate code.
fn margins(report: &mut Report) {
    const HALF: u32 = 524_288;
    let worked = [
        // weights of 2 and 2: the joint weight is 0, and the point is reached
        Read(2, 0, &[1 << 47], &[1, 1], [0, 1 << 47, 134_217_729], (512, 1)),
        Read(2, 0, &[-1 << 47], &[1, 1], [0, 1 << 47, 134_217_729], (-512, 1)),
        // on the border no point is, and the half is rounded up
        Read(2, 0, &[1 << 47], &[0, 1], [0, 0, 1], (0, 1)),
        Read(1, 1, &[6, 7, 11], &[1_048_576], [0, 0, 1], (0, 1)),
        // document 01's; at 31/32 it is 6/16 + 11/8
        Read(1, 1, &[6, 7, 11], &[262_144], [10, 13, 1], (10, 1)),
        Read(1, 1, &[6, 7, 11], &[131_072], [5, 13, 1], (5, 1)),
        Read(1, 1, &[6, 7, 11], &[1_015_808], [2, 17, 1], (7, 4)),
        Read(1, 1, &[-6, -7, -11], &[1], [0, 13, 1], (-40, 1_048_576)),
        // at the middle point no other is reached; between points 16/4 + 12/2 + 0/2, and where signs do not cancel in S
        Read(2, 1, &[16, 4, 12, 0, 16], &[HALF, HALF], [16, 16, 1], (16, 1)),
        Read(2, 1, &[16, 4, 12, 0, 16], &[786_432, 262_144], [10, 28, 1], (10, 1)),
        Read(2, 1, &[-8, 0, 16, -4, 0], &[786_432, 262_144], [4, 28, 1], (4, 1)),
        // a half and a half are 1, and a little more is rounded up to 2
        Read(2, 0, &[524_288], &[HALF; 2], [524_288, 524_288, 1], (524_288, 1)),
        Read(2, 0, &[524_289], &[HALF; 2], [524_289, 524_289, 2], (524_289, 1)),
        Read(3, 0, &[-262_144], &[HALF; 3], [-262_144, 262_144, 1], (-262_144, 1)),
        Read(3, 0, &[-262_145], &[HALF; 3], [-262_145, 262_145, 2], (-262_145, 1)),
        // on one axis S may be any
        Read(1, 0, &[1 << 47], &[1], [1 << 28, 1 << 47, 1], (1 << 28, 1)),
    ];
    for read in &worked {
        margin(report, read, 0);
    }
    // on one axis the bound is attained, on either side
    margin(report, &Read(1, 0, &[1], &[262_144], [1, 1, 1], (1, 2)), 1_048_575);
    margin(report, &Read(1, 0, &[-1], &[262_144], [-1, 1, 1], (-1, 2)), 1_048_575);
    // on two axes nearly so: a joint weight of 0 that lost a whole one but for 4 parts; and with small coefficients
    // joint weights of 524,287, which lost all but 8 parts, and 873,813, which lost all but 4, where the last rounding
    // then loses a half but for one part. With the 3 it is more than a half, and the estimate is not the whole number
    // nearest to the exact value
    let lost = 134_217_728;
    margin(report, &Read(2, 0, &[1 << 47], &[1, 262_143], [0, 1 << 47, lost + 1], (lost - 512, 1)), 1_048_571);
    let (over, under) = ((1 << 36) - 1, 1 << 37);
    margin(report, &Read(2, 0, &[1], &[262_145, 524_286], [0, 1, 1], (over, under)), 1_048_573);
    let (over, under) = (5 * (1 << 37) + 524_285, 1 << 38);
    margin(report, &Read(2, 0, &[3], &[441_305, 519_063], [2, 3, 1], (over, under)), 1_048_573);
    margin(report, &Read(2, 0, &[-3], &[441_305, 519_063], [-2, 3, 1], (-over, under)), 1_048_573);
    // on d axes: the first two weights multiply to d − 1 less 4 (d − 1) parts, and that axis and each after it lose
    // nearly one. The exact value is (d − 1) × (2^18 − 1) × (2^19 − 1)^(d − 2) over 2^(19 d − 47)
    for axes in 2..=8 {
        let mut at = vec![524_287; axes as usize];
        (at[0], at[1]) = (axes - 1, 262_143);
        let answer = [0, 1 << 47, i64::from(axes - 1) * lost + 1];
        for coefficient in [1 << 47, -1 << 47] {
            let there = margin_and_share(report, axes, 0, &[coefficient], &at, answer, 1_048_575 - 2 * u64::from(axes));
            let hundredth_less = Estimated {
                estimate: 0,
                absolute_sum: answer[1] as u64 / 100 * 99,
                margin: answer[2] as u64 / 100 * 99,
            };
            let exact = there.exact();
            let within = (exact.within_margin(&hundredth_less), exact.within_bound(axes, &hundredth_less));
            let say = || format!("worked: coordinates {at:?} coefficient {coefficient}");
            report.same("separate code with itself", "within a hundredth less", &(false, false), &within, &say);
            if axes <= 4 {
                let (d, sign) = (i64::from(axes), coefficient.signum());
                let over = sign * (d - 1) * ((1 << 18) - 1) * ((1 << 19) - 1i64).pow(axes - 2);
                let (over, under) = if axes == 2 { (over << 9, 1) } else { (over, 1 << (19 * axes - 47)) };
                exactly(report, &there, (over, under), &at);
            }
        }
    }
}

fn margin(report: &mut Report, read: &Read, share: u64) {
    let Read(axes, level, table, at, answer, exact) = *read;
    let there = margin_and_share(report, axes, level, table, at, answer, share);
    exactly(report, &there, exact, at);
}

/// The answers, and that the estimate is further from the exact value than so many 1,048,576ths of the bound, if not 0.
fn margin_and_share(
    report: &mut Report,
    axes: u32,
    level: u32,
    table: &[i64],
    at: &[u32],
    [estimate, absolute_sum, margin]: [i64; 3],
    share: u64,
) -> Reached {
    let say = || format!("worked: axes {axes} level {level} coordinates {at:?} table {table:?}");
    let want = Estimated { estimate, absolute_sum: absolute_sum as u64, margin: margin as u64 };
    let all = inputs::all_bits(axes);
    let library = State::saved(Shape::new(axes, level), all).estimate_with_margin(table, at);
    report.made("margin", 1);
    report.same("margin", "separate code", &Ok(want), &estimate_with_margin(axes, level, all, table, at), &say);
    report.same("margin", "library", &Ok(wrapped(want)), &library, &say);
    let there = Reached::new(axes, level, table, at);
    let far = share == 0 || there.exact().beyond_share(share, axes, &want);
    report.same("separate code with itself", "how near the bound is reached", &true, &far, &say);
    there
}

fn exactly(report: &mut Report, there: &Reached, (over, under): (i64, u64), at: &[u32]) {
    let say = || format!("worked: exact value {over} / {under} at {at:?}");
    report.same("separate code with itself", "exact value", &true, &there.exact().is(over, under), &say);
}

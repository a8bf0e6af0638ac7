//! House files: good ones, with needless zero groups, and damaged in every way.

use super::{answer, refusal, short};
use crate::boundary;
use crate::draw::Draw;
use crate::inputs;
use crate::lent;
use crate::model::files as model;
use crate::model::grid::count;
use crate::report::Report;
use numolefays::{read_house_file, Shape};

const CALL: &str = "read";

pub fn read(draw: &mut Draw, report: &mut Report, bytes: &[u8], places: usize) {
    let want = model::read(bytes, places);
    report.case(CALL, answer(&want).0);
    let say = || format!("places {places} bytes {}", short(bytes));
    let before: Vec<i64> = (0..places).map(|_| draw.bits() as i64).collect();
    let mut after = before.clone();
    if let Ok(file) = &want {
        after[..file.rates.len()].copy_from_slice(&file.rates);
    }
    let junk = (draw.bits() as u32, draw.bits() as u32);
    let ((mut axes, mut level), mut at) = (junk, draw.bits());
    let mut lent = lent::table(&before, draw);
    let got = boundary::read_house_file(bytes, lent.slice(), &mut axes, &mut level, &mut at);
    report.same(CALL, "answer and place", &answer(&want), &(got, at), &say);
    report.same(CALL, "axes and level", &want.as_ref().map_or(junk, |f| (f.axes, f.level)), &(axes, level), &say);
    report.same(CALL, "table", &after[..], lent.contents(), &say);
    report.same(CALL, "outside the table", &true, &lent.guarded(), &say);
    let mut again = before;
    let got = read_house_file(bytes, &mut again);
    let want = want.map(|f| Shape::new(f.axes, f.level)).map_err(refusal);
    report.same(CALL, "wrapper", &want, &got, &say);
    report.same(CALL, "wrapper's table", &after, &again, &say);
}

/// A file of these rates; `needless` says how often a number gets needless zero groups, one in so many.
pub fn file(draw: &mut Draw, axes: u32, level: u32, rates: &[i64], needless: u64) -> Vec<u8> {
    let mut numbers = vec![u64::from(axes), u64::from(level)];
    numbers.extend(rates.iter().map(|&r| model::filed_rate(r)));
    let mut bytes = Vec::new();
    for n in numbers {
        let more = if draw.one_in(needless) { 1 + draw.index(4) } else { 0 };
        bytes.extend(model::filed(n, more));
    }
    bytes
}

/// One random file.
pub fn random(draw: &mut Draw, report: &mut Report, most: u64) {
    let (bytes, points) = any_file(draw, most);
    let places = match draw.below(8) {
        0 => points.saturating_sub(1),
        1 => draw.index(points + 1),
        2 => points + 1,
        3 => points + draw.index(50),
        _ => points,
    };
    read(draw, report, &bytes, places);
}

/// A file, damaged in every second case or so, and how many rates it had before.
pub fn any_file(draw: &mut Draw, most: u64) -> (Vec<u8>, usize) {
    let (axes, level) = inputs::shape(draw, most);
    let good = inputs::is_shape(axes, level);
    let points = if good { count(axes, level) as usize } else { draw.index(30) };
    let rates = inputs::filed_rates(draw, points);
    let needless = draw.of(&[2, 5, 1000]);
    let mut bytes = file(draw, axes, level, &rates, needless);
    for _ in 0..draw.of(&[0, 0, 1, 1, 2]) {
        damage(draw, &mut bytes);
    }
    if draw.one_in(40) {
        bytes = (0..draw.index(24))
            .map(|_| if draw.one_in(2) { draw.bits() as u8 } else { draw.of(&[0, 1, 2, 8, 9, 127, 128, 255]) })
            .collect();
    }
    (bytes, points)
}

fn damage(draw: &mut Draw, bytes: &mut Vec<u8>) {
    let at = draw.index(bytes.len() + 1);
    // often near the front, where the shape stands
    let at = if draw.one_in(3) { at.min(3) } else { at };
    match draw.below(8) {
        0 => bytes.truncate(at),
        1 => bytes.push(draw.bits() as u8),
        2 => bytes.insert(at, draw.bits() as u8),
        3 if at < bytes.len() => {
            bytes.remove(at);
        }
        4 if at < bytes.len() => bytes[at] ^= 1 << draw.below(8),
        5 => {
            // a number of too many bytes, or just not
            let run: Vec<u8> = (0..3 + draw.below(4)).map(|_| 0x80 | draw.bits() as u8).collect();
            bytes.splice(at..at, run);
        }
        6 => {
            // five bytes whose last is at or past the end
            let last = draw.of(&[0x00, 0x01, 0x0f, 0x10, 0x7f, 0x80, 0x8f]);
            let top = draw.of(&[0xff, 0x80, 0xfe]);
            bytes.splice(at..at, [top, top, top, top, last]);
        }
        _ => {
            let last = bytes.len().saturating_sub(draw.index(6));
            bytes.truncate(last);
        }
    }
}

/// Short files: every one of up to two bytes, and the readings' own.
pub fn short_files(draw: &mut Draw, report: &mut Report) {
    read(draw, report, &[], 3);
    for a in 0..=255 {
        read(draw, report, &[a], 3);
        for b in 0..=255 {
            read(draw, report, &[a, b], 2);
        }
    }
    let known: [(&[u8], u32); 7] = [
        (&[0x09], 11),
        (&[0x09, 0x00], 1),
        (&[0xff, 0xff, 0xff, 0xff, 0x0f, 0x00], 1),
        (&[0x09, 0x80, 0x80, 0x80, 0x80, 0x80], 12),
        (&[0x81, 0x80, 0x80, 0x80, 0x00, 0x00, 0x00], 0),
        (&[0x01, 0x01, 0x06, 0x0a, 0x0e], 0),
        (&[0x01, 0x01, 0x06, 0x0a, 0x0e, 0x00], 13),
    ];
    for (bytes, number) in known {
        read(draw, report, bytes, 3);
        let got = read_house_file(bytes, &mut [0; 3]).map_or_else(|r| r.number(), |_| 0);
        report.same(CALL, "a file of the papers", &number, &got, &|| format!("{bytes:?}"));
    }
}

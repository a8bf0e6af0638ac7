//! House files written, rewritten, and asked for their shape.

use super::files::{any_file, file, read};
use super::{answer, short};
use crate::boundary;
use crate::draw::Draw;
use crate::inputs;
use crate::lent;
use crate::model::files as model;
use crate::model::grid::count;
use crate::model::{Refused, MOST_POINTS};
use crate::report::Report;

const WRITE: &str = "write";
const REWRITE: &str = "rewrite";
const SHAPE: &str = "file shape";

pub fn write(draw: &mut Draw, report: &mut Report, axes: u32, level: u32, rates: &[i64], room: usize) {
    let want = model::write(axes, level, rates, room);
    let say = || format!("axes {axes} level {level} room {room} rates {}", short(rates));
    let mut table = lent::table(rates, draw);
    let handed = table.slice();
    into_buffer(WRITE, draw, report, room, want, &say, |out, length, place| {
        boundary::write_house_file(axes, level, handed, out, length, place)
    });
    report.same(WRITE, "rates", rates, table.contents(), &say);
}

pub fn rewrite(draw: &mut Draw, report: &mut Report, bytes: &[u8], most_points: usize, room: usize) {
    let want = model::rewrite(bytes, most_points, room);
    let say = || format!("most points {most_points} room {room} bytes {}", short(bytes));
    into_buffer(REWRITE, draw, report, room, want, &say, |out, length, place| {
        boundary::rewrite_house_file(bytes, most_points, out, length, place)
    });
}

/// A call that writes a file into a buffer of so many bytes: every byte past the file, and every byte after a refusal, is
/// what it was.
fn into_buffer(
    call: &'static str,
    draw: &mut Draw,
    report: &mut Report,
    room: usize,
    want: Result<Vec<u8>, Refused>,
    say: &dyn Fn() -> String,
    raw: impl FnOnce(&mut [u8], &mut u64, &mut u64) -> u32,
) {
    report.case(call, answer(&want).0);
    let before = draw.bytes(room);
    let mut after = before.clone();
    if let Ok(file) = &want {
        after[..file.len()].copy_from_slice(file);
    }
    let junk = draw.bits();
    let (mut length, mut at) = (junk, draw.bits());
    let mut lent = lent::bytes(&before, draw);
    let got = raw(lent.slice(), &mut length, &mut at);
    report.same(call, "answer and place", &answer(&want), &(got, at), say);
    report.same(call, "length", &want.as_ref().map_or(junk, |file| file.len() as u64), &length, say);
    report.same(call, "output buffer", &after[..], lent.contents(), say);
    report.same(call, "outside the output buffer", &true, &lent.guarded(), say);
}

pub fn file_shape(draw: &mut Draw, report: &mut Report, bytes: &[u8]) {
    let want = model::shape_of(bytes);
    report.case(SHAPE, answer(&want).0);
    let say = || format!("bytes {}", short(bytes));
    let junk = (draw.bits() as u32, draw.bits() as u32, draw.bits());
    let ((mut axes, mut level, mut points), mut at) = (junk, draw.bits());
    let got = boundary::house_file_shape(bytes, &mut axes, &mut level, &mut points, &mut at);
    report.same(SHAPE, "answer and place", &answer(&want), &(got, at), &say);
    report.same(SHAPE, "axes, level and points", &want.unwrap_or(junk), &(axes, level, points), &say);
}

/// Lengths of an output buffer around the length of a file.
pub fn rooms(length: usize) -> [usize; 8] {
    [0, 1, 2, length.saturating_sub(1), length, length + 1, length + 7, 3 * length + 100]
}

/// Numbers of points around that of a file, and some that 32 bits do not hold.
pub fn most_points(points: usize) -> [usize; 8] {
    [0, points.saturating_sub(1), points, points + 1, 1 << 32, (1 << 32) + points - 1, 1 << 63, usize::MAX]
}

/// What was written reads as the same shape and rates. Each of a few files of that meaning is rewritten into those very
/// bytes, none is shorter, and rewriting them once more changes none. The library's answers, compared with each other.
pub fn laws(draw: &mut Draw, report: &mut Report, axes: u32, level: u32, rates: &[i64]) {
    let say = || format!("axes {axes} level {level} rates {}", short(rates));
    report.made(WRITE, 1);
    let Some(written) = library_writes(axes, level, rates, 5 * (rates.len() + 2)) else {
        report.same(WRITE, "a shape and its rates", &true, &false, &say);
        return;
    };

    let mut table = vec![0; rates.len()];
    let (mut d, mut n, mut points, mut place) = (0, 0, 0, 0);
    let got = boundary::read_house_file(&written, &mut table, &mut d, &mut n, &mut place);
    report.made("read", 1);
    report.same(WRITE, "shape read again", &(0, axes, level), &(got, d, n), &say);
    report.same(WRITE, "rates read again", rates, &table[..], &say);
    let got = boundary::house_file_shape(&written, &mut d, &mut n, &mut points, &mut place);
    report.made(SHAPE, 1);
    report.same(SHAPE, "of what was written", &(0, axes, level, rates.len() as u64), &(got, d, n, points), &say);

    for needless in [1, 2, 9, 1000] {
        let other = file(draw, axes, level, rates, needless);
        report.same(REWRITE, "no file is shorter", &true, &(written.len() <= other.len()), &say);
        // the form is never longer than the file, so a buffer as long as the file will do
        let form = library_rewrites(&other, rates.len(), other.len());
        report.same(REWRITE, "files of one meaning", &Some(written.clone()), &form, &say);
        report.made(REWRITE, 1);
    }
    let again = library_rewrites(&written, rates.len(), written.len());
    report.same(REWRITE, "a second time", &Some(written), &again, &say);
    report.made(REWRITE, 1);
}

/// The file that the library writes into a buffer of so many bytes.
pub fn library_writes(axes: u32, level: u32, rates: &[i64], room: usize) -> Option<Vec<u8>> {
    let (mut out, mut length, mut place) = (vec![0xa5; room], 0, 0);
    let got = boundary::write_house_file(axes, level, rates, &mut out, &mut length, &mut place);
    out.truncate(length as usize);
    (got == 0).then_some(out)
}

/// The same, rewritten.
pub fn library_rewrites(bytes: &[u8], most_points: usize, room: usize) -> Option<Vec<u8>> {
    let (mut out, mut length, mut place) = (vec![0xa5; room], 0, 0);
    let got = boundary::rewrite_house_file(bytes, most_points, &mut out, &mut length, &mut place);
    out.truncate(length as usize);
    (got == 0).then_some(out)
}

/// Short files: every one of up to two bytes, and every one of up to two bytes after the shape of one point.
pub fn short_files(draw: &mut Draw, report: &mut Report) {
    file_shape(draw, report, &[]);
    rewrite(draw, report, &[], 3, 3);
    for a in 0..=255 {
        file_shape(draw, report, &[a]);
        rewrite(draw, report, &[a], 3, 3);
        rewrite(draw, report, &[1, 0, a], 1, 3);
        for b in 0..=255 {
            file_shape(draw, report, &[a, b]);
            rewrite(draw, report, &[a, b], 3, 3);
            rewrite(draw, report, &[1, 0, a, b], 1, 4);
        }
    }
}

/// Every shape: files asked for it that end after their first two numbers, or hold no number after them. Where it has at
/// most so many points: a few tables written and rewritten.
pub fn all_shapes(draw: &mut Draw, report: &mut Report, most: usize) {
    for axes in 1..=8 {
        for level in 0..=8 {
            for needless in [1000, 2, 1] {
                let mut bytes = file(draw, axes, level, &[], needless);
                file_shape(draw, report, &bytes);
                bytes.extend([0x80; 6]);
                file_shape(draw, report, &bytes);
            }
            let points = count(axes, level) as usize;
            if points <= most {
                tables(draw, report, axes, level, points);
            }
        }
    }
}

/// A few tables of a shape: lengths of every buffer, numbers of points and files around what is accepted.
fn tables(draw: &mut Draw, report: &mut Report, axes: u32, level: u32, points: usize) {
    let rounds = if points <= 1_500 { 4 } else { 1 };
    for _ in 0..rounds {
        let rates = inputs::filed_rates(draw, points);
        let length = model::file_of(axes, level, &rates).len();
        let bytes = file(draw, axes, level, &rates, 5);
        laws(draw, report, axes, level, &rates);
        file_shape(draw, report, &bytes);
        for room in [0, length - 1, length, length + 9] {
            write(draw, report, axes, level, &rates, room);
            rewrite(draw, report, &bytes, points, room);
        }
        for most_points in [points - 1, points + 1, usize::MAX] {
            rewrite(draw, report, &bytes, most_points, length);
        }
        rewrite(draw, report, &bytes[..bytes.len() - 1], points, length);
        let mut longer = bytes;
        longer.push(0);
        rewrite(draw, report, &longer, points, length);
        let mut longer = rates.clone();
        longer.push(0);
        write(draw, report, axes, level, &longer, length + 9);
        write(draw, report, axes, level, &rates[1..], length + 9);
    }
}

/// One table of a shape: written, and rewritten.
pub fn large_shape(draw: &mut Draw, report: &mut Report, axes: u32, level: u32) {
    let points = count(axes, level) as usize;
    let rates = inputs::filed_rates(draw, points);
    let bytes = file(draw, axes, level, &rates, 5);
    write(draw, report, axes, level, &rates, bytes.len());
    rewrite(draw, report, &bytes, points, bytes.len());
}

/// Every shape of more than 32,768 points: 19 before all that comes after the shape, whatever the lengths of files and
/// buffers. The smallest also with whole files and tables of N rates. And with 31,745 points, which pass, what comes next.
pub fn too_large(draw: &mut Draw, report: &mut Report) {
    let by_hand = |report: &mut Report, axes: u32, level: u32, answer: Option<Refused>| {
        let say = || format!("axes {axes} level {level}");
        report.same("separate code with itself", "a file too large", &Some((19, 0)), &answer, &say);
    };
    for axes in 1..=8 {
        for level in (0..=8).filter(|&level| count(axes, level) > MOST_POINTS) {
            let n = count(axes, level) as usize;
            // the number of points as 16 bits have it, and no more than a few
            let few = (n % 65_536).min(20);
            // nothing, a number cut off, one of six bytes, one too large, and zeros
            let rests: [&[u8]; 6] = [&[], &[0x80], &[0x80; 6], &[0xff, 0xff, 0xff, 0xff, 0x1f], &[0], &[0; 300]];
            for rest in rests {
                let needless = draw.of(&[1000, 2, 1]);
                let bytes = [&file(draw, axes, level, &[], needless)[..], rest].concat();
                file_shape(draw, report, &bytes);
                by_hand(report, axes, level, model::shape_of(&bytes).err());
                for places in [0, 1, few, 300] {
                    read(draw, report, &bytes, places);
                    by_hand(report, axes, level, model::read(&bytes, places).err());
                }
                for most_points in [0, few, MOST_POINTS as usize, n, usize::MAX] {
                    let room = draw.of(&[0, 2, 20]);
                    rewrite(draw, report, &bytes, most_points, room);
                    by_hand(report, axes, level, model::rewrite(&bytes, most_points, room).err());
                }
            }
            for rates in [vec![], vec![0], vec![1 << 31; few], vec![-1; few + 1]] {
                for room in [0, 1, 2, rates.len() + 2, 300] {
                    write(draw, report, axes, level, &rates, room);
                    by_hand(report, axes, level, model::write(axes, level, &rates, room).err());
                }
            }
        }
    }
    for (axes, level) in [(6, 6), (5, 7), (4, 8)] {
        let n = count(axes, level) as usize;
        let mut rates = inputs::filed_rates(draw, n);
        let bytes = file(draw, axes, level, &rates, 1000);
        file_shape(draw, report, &bytes);
        for places in [n - 1, n, n + 1, MOST_POINTS as usize] {
            read(draw, report, &bytes, places);
            rewrite(draw, report, &bytes, places, bytes.len());
        }
        for room in [bytes.len(), bytes.len() - 1, 0] {
            write(draw, report, axes, level, &rates, room);
        }
        rates[n / 2] = 1 << 31;
        write(draw, report, axes, level, &rates, bytes.len());
    }
    let head = file(draw, 8, 5, &[], 2);
    file_shape(draw, report, &head);
    for (places, rest) in
        [(31_744, 0), (31_745, 0), (31_745, 31_744), (31_745, 31_745), (31_744, 31_745), (31_746, 31_746)]
    {
        let bytes = [&head[..], &vec![0; rest]].concat();
        read(draw, report, &bytes, places);
        rewrite(draw, report, &bytes, places, bytes.len());
    }
    for places in [31_744, 31_745, 31_746, MOST_POINTS as usize] {
        write(draw, report, 8, 5, &vec![0; places], 32_000);
    }
}

/// One random case of each.
pub fn random(draw: &mut Draw, report: &mut Report, most: u64) {
    let (axes, level) = inputs::shape(draw, most);
    let places = inputs::places(draw, axes, level);
    let rates = inputs::filed_rates(draw, places);
    let length = if inputs::is_shape(axes, level) { model::file_of(axes, level, &rates).len() } else { draw.index(40) };
    let rates = inputs::some_out_of_range(draw, rates);
    let room = room(draw, length);
    write(draw, report, axes, level, &rates, room);

    let (bytes, points) = any_file(draw, most);
    file_shape(draw, report, &bytes);
    let form = model::rewrite(&bytes, usize::MAX, usize::MAX);
    let most_points = if draw.one_in(4) { draw.of(&most_points(points.max(1))) } else { points };
    let room = self::room(draw, form.as_ref().map_or(bytes.len(), |form| form.len()));
    rewrite(draw, report, &bytes, most_points, room);
    if let Ok(form) = form {
        rewrite(draw, report, &form, most_points, form.len());
    }
}

/// The laws on one random table.
pub fn random_laws(draw: &mut Draw, report: &mut Report, most: u64) {
    let (axes, level) = inputs::good_shape(draw, most);
    let rates = inputs::filed_rates(draw, count(axes, level) as usize);
    laws(draw, report, axes, level, &rates);
}

/// Room for a file of this length: mostly enough.
fn room(draw: &mut Draw, length: usize) -> usize {
    match draw.below(8) {
        0 => draw.index(length + 1),
        1 => length.saturating_sub(1),
        2 => draw.of(&rooms(length)),
        3 => length + draw.index(50),
        _ => length,
    }
}

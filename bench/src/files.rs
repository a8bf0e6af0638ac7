//! House files read, written and rewritten, in bytes for each second.

use crate::input;
use crate::plain::{file, words};
use crate::table::number;
use crate::timing::{contest, nanoseconds, Contestant};
use numolefays::{read_house_file, rewrite_house_file, write_house_file, Refusal, Shape};
use std::fmt::Debug;
use std::hint::black_box;

/// A round takes so many rates and more, in as many different files as it needs: one small file is too short to measure, and
/// the same one again and again is too easy for the processor to foresee.
const RATES: usize = 200_000;
const ROUNDS: u32 = 50;

/// One row's input.
struct Given {
    shape: Shape,
    kind: &'static str,
    files: Vec<File>,
}

struct File {
    rates: Vec<i64>,
    /// The rates filed in the fewest groups, and with needless zero groups.
    form: Vec<u8>,
    loose: Vec<u8>,
}

pub fn print(shapes: &[(u32, u32)], seconds: f64) {
    let all: Vec<Given> = shapes.iter().flat_map(|&(axes, level)| given(Shape::new(axes, level))).collect();
    table("Reading a house file", &all, |f| f.form.len(), |g| reading(g, seconds));
    table("Writing a house file", &all, |f| f.form.len(), |g| writing(g, seconds));
    let loose =
        "Rewriting a house file, a quarter of whose numbers have needless zero groups where five bytes allow it";
    table(loose, &all, |f| f.loose.len(), |g| rewriting(g, seconds));
}

fn table(what: &str, all: &[Given], bytes: fn(&File) -> usize, measure: impl Fn(&Given) -> Vec<f64>) {
    println!("\n### {what}: million bytes for each second\n");
    println!("| (d, n) | rates | bytes | library | number by number | ratio | many bytes at once | ratio |");
    println!("|---|---|---|---|---|---|---|---|");
    for g in all {
        let times = measure(g);
        let bytes: usize = g.files.iter().map(bytes).sum();
        let speed = |ns: f64| number(bytes as f64 / ns * 1e3);
        println!(
            "| ({}, {}) | {} | {} | {} | {} | {}× | {} | {}× |",
            g.shape.axes,
            g.shape.level,
            g.kind,
            bytes / g.files.len(),
            speed(times[0]),
            speed(times[1]),
            number(times[0] / times[1]),
            speed(times[2]),
            number(times[0] / times[2])
        );
    }
}

fn given(shape: Shape) -> [Given; 3] {
    let n = shape.points().expect("a shape") as usize;
    let all = n * RATES.div_ceil(n);
    // a quarter gets 1 to 4 groups more, each as often
    let further: Vec<usize> = input::numbers(all, 16).into_iter().map(|k| k.saturating_sub(11) as usize).collect();
    let kinds = [
        ("any", input::rates(all)),
        ("−32 to 31", input::rates(all).into_iter().map(|r| r >> 26).collect()),
        ("all lengths", all_lengths(all)),
    ];
    kinds.map(|(kind, rates)| {
        let file = |(rates, further): (&[i64], &[usize])| File {
            rates: rates.to_vec(),
            form: filed(shape, rates, &vec![0; n]),
            loose: filed(shape, rates, further),
        };
        Given { shape, kind, files: rates.chunks(n).zip(further.chunks(n)).map(file).collect() }
    })
}

/// Rates whose filed numbers have 1 to 5 bytes, each as often.
fn all_lengths(count: usize) -> Vec<i64> {
    let lengths = input::numbers(count, 5);
    let filed = |(&length, rate): (&u64, i64)| {
        let least = if length == 0 { 0 } else { 1 << (7 * length) };
        let above = 1 << (7 * (length + 1)).min(32);
        least + u64::from(rate as u32) % (above - least)
    };
    let rate = |filed: u64| (filed >> 1) as i64 ^ -((filed & 1) as i64);
    lengths.iter().zip(input::rates(count)).map(filed).map(rate).collect()
}

/// A file with further zero groups in its rates, as many as given, but no more than 5 bytes for a rate.
fn filed(shape: Shape, rates: &[i64], further: &[usize]) -> Vec<u8> {
    let mut bytes = vec![shape.axes as u8, shape.level as u8];
    for (&r, &further) in rates.iter().zip(further) {
        let start = bytes.len();
        let mut left = if r >= 0 { 2 * r as u64 } else { (-2 * r - 1) as u64 };
        while left >= 128 {
            bytes.push(left as u8 | 128);
            left >>= 7;
        }
        bytes.push(left as u8);
        for _ in 0..further.min(start + 5 - bytes.len()) {
            *bytes.last_mut().expect("a byte") |= 128;
            bytes.push(0);
        }
    }
    bytes
}

fn reading(g: &Given, seconds: f64) -> Vec<f64> {
    let n = g.files[0].rates.len();
    for f in &g.files {
        for (bytes, places) in f.files().iter().flat_map(|b| [(b, n + 9), (b, n - 1)]) {
            let (mut mine, mut plain, mut wide) = (vec![-7; places], vec![-7; places], vec![-7; places]);
            let answer = read_house_file(bytes, &mut mine);
            let named = |(axes, level): (u32, u32)| Shape::new(axes, level);
            let shape = same(answer, file::read(bytes, &mut plain).map(named).map_err(at_0));
            same(answer, words::read(bytes, &mut wide).map(named).map_err(at_0));
            assert!(mine == plain && mine == wide, "the same tables");
            assert!(shape.is_none_or(|s| s == g.shape && mine[..n] == f.rates), "the rates");
        }
    }
    let (mut mine, mut plain, mut wide) = (vec![0; n], vec![0; n], vec![0; n]);
    let mut all: [Contestant; 3] = [
        Box::new(|| {
            each(g, |f| {
                let _ = black_box(read_house_file(black_box(&f.form), &mut mine));
            })
        }),
        Box::new(|| {
            each(g, |f| {
                let _ = black_box(file::read(black_box(&f.form), &mut plain));
            })
        }),
        Box::new(|| {
            each(g, |f| {
                let _ = black_box(words::read(black_box(&f.form), &mut wide));
            })
        }),
    ];
    contest(&mut all, seconds, ROUNDS)
}

fn writing(g: &Given, seconds: f64) -> Vec<f64> {
    let Shape { axes, level, .. } = g.shape;
    let n = g.files[0].rates.len();
    let longest = 2 + 5 * n;
    for f in &g.files {
        let mut bad = f.rates.clone();
        bad[n - 1] = i64::MIN;
        bad[n / 2] = 1 << 31;
        for (axes, level) in [(axes, level), (9, level), (axes, 9), (axes, level - 1)] {
            let rooms = [longest, f.form.len(), f.form.len() - 1].map(|room| (&f.rates, room));
            for (rates, room) in rooms.into_iter().chain([(&bad, longest)]) {
                let (mut mine, mut plain, mut wide) = (vec![0xa5; room], vec![0xa5; room], vec![0xa5; room]);
                let answer = write_house_file(axes, level, rates, &mut mine);
                let length = same(answer, file::write(axes, level, rates, &mut plain));
                same(answer, words::write(axes, level, rates, &mut wide));
                assert!(mine == plain && mine == wide, "the same buffers");
                assert!(length.is_none_or(|n| mine[..n] == f.form), "the file");
            }
        }
    }
    // as long as `numolefays::house_file` makes it
    let (mut mine, mut plain, mut wide) = (vec![0; longest], vec![0; longest], vec![0; longest]);
    let mut all: [Contestant; 3] = [
        Box::new(|| {
            each(g, |f| {
                let _ = black_box(write_house_file(axes, level, black_box(&f.rates), &mut mine));
            })
        }),
        Box::new(|| {
            each(g, |f| {
                let _ = black_box(file::write(axes, level, black_box(&f.rates), &mut plain));
            })
        }),
        Box::new(|| {
            each(g, |f| {
                let _ = black_box(words::write(axes, level, black_box(&f.rates), &mut wide));
            })
        }),
    ];
    contest(&mut all, seconds, ROUNDS)
}

fn rewriting(g: &Given, seconds: f64) -> Vec<f64> {
    let n = g.files[0].rates.len();
    for f in &g.files {
        for bytes in &f.files() {
            for (most, room) in [(n, bytes.len() + 9), (n, f.form.len()), (n, f.form.len() - 1), (n - 1, bytes.len())] {
                let (mut mine, mut plain, mut wide) = (vec![0xa5; room], vec![0xa5; room], vec![0xa5; room]);
                let answer = rewrite_house_file(bytes, most, &mut mine);
                let length = same(answer, file::rewrite(bytes, most, &mut plain).map_err(at_0));
                same(answer, words::rewrite(bytes, most, &mut wide).map_err(at_0));
                assert!(mine == plain && mine == wide, "the same buffers");
                assert!(length.is_none_or(|n| mine[..n] == f.form), "the form");
            }
        }
    }
    // each as long as `numolefays::rewritten_house_file` makes it
    let longest = 2 + 5 * n;
    let (mut mine, mut plain, mut wide) = (vec![0; longest], vec![0; longest], vec![0; longest]);
    let mut all: [Contestant; 3] = [
        Box::new(|| {
            each(g, |f| {
                let _ = black_box(rewrite_house_file(black_box(&f.loose), n, &mut mine[..f.loose.len()]));
            })
        }),
        Box::new(|| {
            each(g, |f| {
                let _ = black_box(file::rewrite(black_box(&f.loose), n, &mut plain[..f.loose.len()]));
            })
        }),
        Box::new(|| {
            each(g, |f| {
                let _ = black_box(words::rewrite(black_box(&f.loose), n, &mut wide[..f.loose.len()]));
            })
        }),
    ];
    contest(&mut all, seconds, ROUNDS)
}

impl File {
    /// Both files, and what a reader refuses: files with a byte left, with a head that names no shape, that end in the head,
    /// before and in the rates, and with a rate of six bytes or one too large.
    fn files(&self) -> Vec<Vec<u8>> {
        let form = &self.form;
        let with = |place: usize, bytes: &[u8]| [&form[..place], bytes, &form[place..]].concat();
        let (middle, end) = (form.len() / 2, form.len());
        let mut all = vec![form.clone(), self.loose.clone(), with(end, &[0]), with(0, &[9]), with(1, &[0x89, 0])];
        all.extend([0, 1, 2, middle, end - 1].map(|length| form[..length].to_vec()));
        all.push(with(middle, &[0x80, 0x80, 0x80, 0x80, 0x80, 0]));
        all.push(with(middle, &[0xff, 0xff, 0xff, 0xff, 0x10]));
        all
    }
}

fn at_0(refused: u32) -> (u32, u64) {
    (refused, 0)
}

/// What both answer, nothing where they refuse alike.
fn same<T: PartialEq + Debug>(mine: Result<T, Refusal>, plain: Result<T, (u32, u64)>) -> Option<T> {
    let mine = mine.map_err(|r| (r.number(), r.place()));
    assert_eq!(mine, plain, "the same answers");
    mine.ok()
}

/// One round: a call for each file.
fn each(g: &Given, call: impl FnMut(&File)) -> f64 {
    nanoseconds(|| g.files.iter().for_each(call))
}

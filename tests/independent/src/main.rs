//! Compares the library, through its boundary and its safe wrapper, with separate code on thousands of random inputs.
//!
//! `NUMOLEFAYS_SEED` and `NUMOLEFAYS_COUNT` set the seed and the number of rounds; a round is one random input to every
//! call. `NUMOLEFAYS_LARGE=0` leaves out the large tables, as for a run under valgrind, and keeps turns with a fault
//! and turns list by list to fewer shapes, a line to fewer coordinates, and calls at their edges to fewer accounts. The
//! last line has the counts; the exit code is 1 where anything differs, and where an answer was not met or a wrong reading
//! would not be seen.

mod boundary;
mod checks;
mod draw;
mod inputs;
mod lent;
mod model;
mod report;
mod wrapper;

use checks::{
    account_misreadings, accounts, border, bordered, components, edges, estimates, exhaustive, faults, files, finer,
    lists, margin_misreadings, margins, misreadings, orders, points, rates, rounding, runs, threads, turns, walks,
    worked, writes,
};
use draw::Draw;
use report::Report;
use std::time::Instant;

const SEED: u64 = 20_261_113;
const COUNT: u64 = 10_000;

fn setting(name: &str, usual: u64) -> u64 {
    match std::env::var(name) {
        Ok(text) => text.parse().unwrap_or_else(|_| panic!("{name} is a number")),
        Err(_) => usual,
    }
}

/// What each call can answer on shapes without border values, as refusal numbers, 0 for success: all of it has to have been
/// met.
const ANSWERS: [(&str, &[u32]); 25] = [
    ("count", &[0, 1, 2, 19]),
    ("number", &[0, 1, 2, 19, 7, 9]),
    ("successor", &[0, 1, 2, 19, 7, 9]),
    ("point", &[0, 1, 2, 19, 6]),
    ("parent", &[0, 1, 2, 19, 5, 7, 9]),
    ("load", &[0, 1, 2, 19, 3, 4]),
    ("adopt", &[0, 1, 2, 19, 3, 10]),
    ("forward", &[0, 1, 2, 14, 19, 3, 5, 15, 10]),
    ("back", &[0, 1, 2, 14, 19, 3, 5, 16, 10]),
    ("unload", &[0, 1, 2, 14, 19, 3, 18, 10]),
    ("whole forward", &[0, 1, 2, 19, 3, 4]),
    ("whole back", &[0, 1, 2, 19, 3, 10]),
    ("component", &[0, 1, 2, 19, 3, 4]),
    ("run", &[0, 1, 2, 14, 19, 3, 7]),
    ("estimate", &[0, 1, 2, 14, 19, 3, 17, 7, 8, 10]),
    ("margin", &[0, 1, 2, 14, 19, 3, 17, 7, 8, 10]),
    ("read", &[0, 11, 12, 1, 2, 19, 3, 13]),
    ("write", &[0, 1, 2, 19, 3, 4]),
    ("rewrite", &[0, 11, 12, 1, 2, 19, 3, 13]),
    ("file shape", &[0, 11, 12, 1, 2, 19]),
    ("empty account", &[0]),
    ("open table", &[0, 20, 1, 2, 19, 22, 21]),
    ("close table", &[0, 20, 22, 21]),
    ("usage", &[0, 20]),
    ("table under", &[0, 20, 22]),
];

fn main() {
    let (seed, count) = (setting("NUMOLEFAYS_SEED", SEED), setting("NUMOLEFAYS_COUNT", COUNT));
    println!("seed {seed}, {count} rounds");
    let clock = Instant::now();
    let mut report = Report::default();
    let with_large = setting("NUMOLEFAYS_LARGE", 1) != 0;
    let mut draw = Draw::new(seed);

    worked::worked(&mut report);
    for axes in 0..=10 {
        for level in 0..=10 {
            points::count_of(&mut draw, &mut report, axes, level);
        }
    }
    files::short_files(&mut draw, &mut report);
    writes::short_files(&mut draw, &mut report);
    step(&clock, "worked tables, shapes, short files");

    edges::of_points(&mut draw, &mut report);
    edges::of_turns(&mut draw, &mut report);
    edges::of_tables(&mut draw, &mut report);
    edges::of_runs(&mut draw, &mut report);
    edges::of_estimates(&mut draw, &mut report);
    edges::of_ends(&mut draw, &mut report);
    edges::of_writes(&mut draw, &mut report);
    edges::of_rewrites(&mut draw, &mut report);
    edges::of_file_shapes(&mut draw, &mut report);
    writes::too_large(&mut draw, &mut report);
    step(&clock, "each call at its edges");

    faults::all(&mut Draw::new(seed ^ 0x6661_756c_7473), &mut report, with_large);
    step(&clock, "turns with a fault at one place, at every place of every small shape");
    let listed = lists::all(&mut Draw::new(seed ^ 0x6c_6973_7473), &mut report, with_large);
    step(&clock, "turns list by list, in the separate code");

    rounding::rounding(&mut Draw::new(seed ^ 0x6861_6c76_6573), &mut report);
    step(&clock, "estimates on halves and beside them");
    let mut own = Draw::new(seed ^ 0x6d_6172_6769_6e73);
    margins::chosen_sums(&mut own, &mut report);
    margins::small_weights(&mut own, &mut report);
    margins::arithmetic(&mut own, &mut report);
    step(&clock, "margins where they go up by one, points of small weights, exact whole numbers");

    finer::one_axis(&mut Draw::new(seed ^ 0x66_696e_6572), &mut report);
    border::border(&mut Draw::new(seed ^ 0x626f_7264_6572), &mut report);
    step(&clock, "old coordinates times 16 on one axis, and the border");

    exhaustive::states(&mut draw, &mut report);
    exhaustive::lengths(&mut draw, &mut report);
    exhaustive::line(&mut draw, &mut report, with_large);
    exhaustive::small_tables(&mut draw, &mut report);
    exhaustive::worked_orders(&mut draw, &mut report);
    for (axes, level) in [(1, 8), (2, 4), (3, 3), (4, 2), (5, 1), (8, 0)] {
        estimates::lattice(&mut draw, &mut report, axes, level);
    }
    step(
        &clock,
        "all states, all lengths, all coordinates of a line and of lattices, all small tables, all orders of axes",
    );

    for axes in 1..=8 {
        for level in 0..=8 {
            if model::grid::count(axes, level) <= 7_000 {
                walks::walk(&mut report, axes, level);
            }
        }
    }
    step(&clock, "every point of every shape with up to 7,000 points");

    writes::all_shapes(&mut draw, &mut report, 7_000);
    step(&clock, "files of every shape, written and rewritten with up to 7,000 points");

    shapes(&mut draw, &mut report);
    step(&clock, "lists of turns, damaged coefficients and extreme tables of chosen shapes");

    for round in 0..count {
        one_round(&mut draw, &mut report, round);
    }
    step(&clock, "random inputs");

    let shown = component_grids(&mut Draw::new(seed ^ 0x67_7269_6473), &mut report, count);
    step(&clock, "component grids: refusals, all small ones, those beside sparse tables, random ones, orders of work");

    model_against_itself(&mut draw, &mut report);
    if with_large {
        large(&mut draw, &mut report);
        step(&clock, "large tables");
    }

    report.merge(threads::own_tables(seed, count / 40));
    threads::neighbouring_tables(seed, count / 40, &mut report);
    threads::neighbouring_files(seed, count / 40, &mut report);
    step(&clock, "threads");

    bordered::all(seed, count, with_large, &mut report, &|what| step(&clock, what));

    accounts::all(seed, count, with_large, &mut report);
    step(&clock, "accounts: worked ones, every number and byte, faults at once, all common points in use, histories");

    report.print();
    let mut met = misreadings_shown(&report, "an estimate", misreadings::names())
        & misreadings_shown(&report, "a margin", margin_misreadings::names())
        & orders::print(&shown)
        & lists::print(&listed)
        & misreadings_shown(&report, "the requests for border values and for a limit", bordered::readings())
        & misreadings_shown(&report, "the request for an account", account_misreadings::names());
    if count >= COUNT {
        met &= all_met(&report, &ANSWERS) & all_met(&report, &bordered::ANSWERS);
    }
    println!("{}", report.last_line());
    std::process::exit(if report.differences == 0 && met { 0 } else { 1 });
}

/// Whether each of these calls was answered with each of these numbers.
fn all_met(report: &Report, answers: &[(&str, &[u32])]) -> bool {
    let mut all = true;
    for (call, numbers) in answers {
        let missing = report.never_met(call, numbers);
        if !missing.is_empty() {
            all = false;
            println!("{call}: no input was answered with {missing:?}");
        }
    }
    all
}

fn step(clock: &Instant, what: &str) {
    println!("{:7.1} s  {what}", clock.elapsed().as_secs_f64());
}

/// How many calls show each of these wrong readings; false where none shows one of them.
fn misreadings_shown(report: &Report, of: &str, names: impl Iterator<Item = &'static str>) -> bool {
    let mut all = true;
    println!("{:22}{:>9}  wrong reading of {of}", "shown by", "calls");
    for reading in names {
        let times = report.times_shown(reading);
        println!("{:22}{times:9}  {reading}", "");
        if times == 0 {
            all = false;
            println!("no call shows the wrong reading {reading:?} of {of}");
        }
    }
    all
}

/// Longer trials on chosen shapes.
fn shapes(draw: &mut Draw, report: &mut Report) {
    for (axes, level) in [(1, 0), (1, 4), (2, 3), (3, 3), (4, 2), (5, 2), (8, 1), (8, 2), (8, 3), (8, 4)] {
        let rounds = if axes == 8 && level > 2 { 2 } else { 27 };
        for _ in 0..rounds {
            turns::carried(draw, report, axes, level);
        }
        for _ in 0..rounds.min(8) {
            runs::long(draw, report, axes, level);
            rates::one_off(draw, report, axes, level);
        }
    }
    let read = [
        (1, 0),
        (1, 8),
        (2, 4),
        (2, 8),
        (3, 3),
        (3, 6),
        (4, 3),
        (4, 5),
        (5, 2),
        (5, 4),
        (6, 2),
        (6, 4),
        (7, 2),
        (7, 4),
        (8, 1),
        (8, 3),
        (8, 4),
        (8, 5),
    ];
    for (axes, level) in read {
        estimates::extremes(draw, report, axes, level);
        estimates::through_rates(draw, report, axes, level);
    }
}

/// One random input to every call; now and then a larger table.
fn one_round(draw: &mut Draw, report: &mut Report, round: u64) {
    let most = match round % 100 {
        99 => 7_000,
        9 | 29 | 49 | 69 | 89 => 1_500,
        _ => 300,
    };
    points::random(draw, report, most);
    points::random(draw, report, 7_000);
    turns::random(draw, report, most);
    turns::random(draw, report, 60);
    rates::random(draw, report, most);
    rates::random(draw, report, 60);
    runs::random(draw, report, most.min(1_500));
    estimates::random(draw, report, most);
    files::random(draw, report, most);
    files::random(draw, report, 60);
    writes::random(draw, report, most);
    writes::random(draw, report, 60);
    writes::random_laws(draw, report, 60);
}

/// The two ways of the separate code to the coefficients, and the axes in the other order; its files, written and read.
fn model_against_itself(draw: &mut Draw, report: &mut Report) {
    const CALL: &str = "separate code with itself";
    for _ in 0..60 {
        let (axes, level) = inputs::good_shape(draw, 300);
        let rates = inputs::rates(draw, model::grid::count(axes, level) as usize);
        let say = || format!("axes {axes} level {level} rates {}", checks::short(&rates));
        let turned = model::rates::coefficients_by_turns(axes, level, &rates);
        report.same(
            CALL,
            "axes in the other order",
            &Some(turned.clone()),
            &inputs::coefficients_by_maps(axes, level, &rates),
            &say,
        );
        if 3usize.pow(axes) * rates.len() <= 300_000 {
            report.same(CALL, "stencil", &turned, &model::rates::coefficients_by_stencil(axes, level, &rates), &say);
        }
        let rates = inputs::filed_rates(draw, rates.len());
        let say = || format!("axes {axes} level {level} rates {}", checks::short(&rates));
        let file = model::files::file_of(axes, level, &rates);
        let read = model::files::read(&file, rates.len()).map(|f| (f.axes, f.level, f.rates));
        report.same(CALL, "written and read", &Ok((axes, level, rates.clone())), &read, &say);
        for &r in &rates {
            let number = model::files::filed_rate(r);
            let length = model::files::filed(number, 0).len();
            let fewest = (1..=5).find(|&groups| number < 128u64.pow(groups)).expect("a filed number");
            report.same(CALL, "fewest groups", &(fewest as usize), &length, &|| format!("rate {r}"));
        }
    }
}

/// Component grids, but for the large ones; what the wrong readings of their order did.
fn component_grids(draw: &mut Draw, report: &mut Report, rounds: u64) -> Vec<orders::Shown> {
    components::edges(draw, report);
    components::faults(draw, report);
    components::limits(draw, report);
    components::small_grids(draw, report);
    components::beside_all(report, 7_000);
    for round in 0..rounds {
        let most = match round % 100 {
            99 => 3_000,
            9 | 29 | 49 | 69 | 89 => 300,
            _ => 60,
        };
        components::random(draw, report, most);
    }
    orders::orders(draw, report)
}

/// Tables that are too large to be drawn often.
fn large(draw: &mut Draw, report: &mut Report) {
    for (axes, level) in [(8, 5), (4, 7), (3, 8), (5, 6), (7, 5)] {
        let all = inputs::all_bits(axes);
        let coefficients = inputs::contents(draw, axes, level, all);
        rates::coefficients_to_rates(draw, report, axes, level, &coefficients);
        for _ in 0..5 {
            let coordinates: Vec<u32> = (0..axes).map(|_| inputs::coordinate(draw)).collect();
            estimates::estimate(draw, report, axes, level, all, &coefficients, &coordinates);
        }
        let rates = inputs::rates(draw, coefficients.len());
        rates::rates_to_coefficients(draw, report, axes, level, &rates);
        let axis = 1 + draw.below(u64::from(axes)) as u32;
        let half = all ^ 1 << (axis - 1);
        let table = inputs::contents(draw, axes, level, half);
        turns::turn(draw, report, false, axes, level, half, &table, axis);
        let table = inputs::contents(draw, axes, level, all);
        turns::turn(draw, report, true, axes, level, all, &table, axis);
        for _ in 0..400 {
            points::random(draw, report, model::MOST_POINTS as u64);
        }
    }
    for axes in 1..=8 {
        for level in (0..=8).filter(|&level| inputs::is_shape(axes, level)) {
            if model::grid::count(axes, level) > 7_000 {
                walks::walk(report, axes, level);
                writes::large_shape(draw, report, axes, level);
            }
        }
    }
    largest(draw, report);
    components::large(draw, report);
    for (axes, level) in [(8, 5), (4, 7), (3, 8), (5, 6), (6, 5), (7, 5)] {
        components::beside_sparse(report, axes, level, &components::lists_within(axes as usize, level));
    }
}

/// The largest table, 31,745 points: what is not done with it above.
fn largest(draw: &mut Draw, report: &mut Report) {
    let (axes, level) = (8, 5);
    let n = model::grid::count(axes, level) as usize;
    let rates = inputs::rates(draw, n);
    rates::load(draw, report, axes, level, &rates);
    let loaded: Vec<i64> = rates.iter().map(|&r| r << axes).collect();
    turns::turn(draw, report, false, axes, level, 0, &loaded, 3);
    let turned = model::turns::turn_table(&model::grid::grid(axes, level), false, &loaded, 2).expect("a loaded table");
    turns::turn(draw, report, true, axes, level, 4, &turned, 3);
    for _ in 0..4 {
        let coordinates: Vec<u32> = (0..axes).map(|_| inputs::coordinate(draw)).collect();
        estimates::estimate(draw, report, axes, level, 255, &loaded, &coordinates);
    }
    let file = files::file(draw, axes, level, &rates, 50);
    files::read(draw, report, &file, n + 5);
    files::read(draw, report, &file[..file.len() - 1], n);
    largest_sum(draw, report);
}

/// The largest S: 1,287 points, one for each level list, with 2^47 each; (d − 1) × S has 61 bits.
fn largest_sum(draw: &mut Draw, report: &mut Report) {
    let (axes, level) = (8, 5);
    let n = model::grid::count(axes, level) as usize;
    let ends = [inputs::LIMIT, -inputs::LIMIT];
    let either: Vec<i64> = (0..n).map(|_| draw.of(&ends)).collect();
    for table in [vec![ends[0]; n], either] {
        let thirds: Vec<u32> = (0..axes).map(|_| draw.of(&[inputs::END / 3, inputs::END - inputs::END / 3])).collect();
        let got = estimates::answered(draw, report, axes, level, 255, &table, &thirds).with_margin;
        let want = Ok((1_287 << 47, (7 * 1_287 << 27) + 1));
        let say = || format!("axes {axes} level {level} coordinates {thirds:?}");
        report.same("margin", "the largest S", &want, &got.map(|found| (found.absolute_sum, found.margin)), &say);
    }
}

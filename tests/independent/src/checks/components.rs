//! Rates to coefficients on component grids.

use super::edges::{LEAST, MOST, NO_RATES};
use super::rates::in_place;
use super::short;
use crate::boundary;
use crate::draw::Draw;
use crate::inputs;
use crate::lent::Lent;
use crate::model::component as model;
use crate::model::component::{count, Grid};
use crate::model::grid::{count as sparse_count, grid as sparse_grid};
use crate::model::MOST_POINTS as LIMIT;
use crate::report::Report;
use numolefays::{component_coefficients, Shape};

const CALL: &str = "component";

pub fn component(draw: &mut Draw, report: &mut Report, levels: &[u32], table: &[i64]) {
    let want = model::coefficients(levels, table);
    let say = || format!("levels {} table {}", short(levels), short(table));
    let mut lent = Lent::new(levels, draw, |bits| bits as u32);
    let handed = &*lent.slice();
    in_place(
        CALL,
        draw,
        report,
        table,
        want,
        &say,
        |t, place| boundary::component_coefficients(handed, t, place),
        |t| component_coefficients(handed, t),
    );
    report.same(CALL, "levels", levels, lent.contents(), &say);
    report.same(CALL, "outside the levels", &true, &lent.guarded(), &say);
}

// ---- refusals

/// Each refusal at the edges of its types, with later ones matching too.
pub fn edges(draw: &mut Draw, report: &mut Report) {
    // 1, also where a length of 8 or 16 bits would come out good; 2 and 3 match too, or nothing else does
    for length in [0, 9, 10, 11, 16, 17, 255, 256, 257, 264, 65_536, 65_537, 65_544] {
        for top in [0, 1, 8, 9, u32::MAX] {
            for places in [0, 1, 3, 9] {
                component(draw, report, &vec![top; length], &vec![1; places]);
                component(draw, report, &vec![top; length], &vec![MOST + 1; places]);
            }
        }
    }
    // 2 on every axis, also where a level of 8 or 16 bits would come out good
    let high =
        [9, 10, 15, 16, 17, 31, 32, 33, 63, 64, 255, 256, 257, 264, 65_536, 65_537, 1 << 31, (1 << 31) + 1, u32::MAX];
    for axes in 1..=8 {
        for axis in 0..axes {
            for top in high {
                for others in [0, 1, 8] {
                    let mut levels = vec![others; axes];
                    levels[axis] = top;
                    let only = draw.of(&[1, LEAST - 1, i64::MAX]);
                    component(draw, report, &levels, &[]);
                    component(draw, report, &levels, &[only]);
                    levels[draw.index(axes)] = draw.of(&high);
                    component(draw, report, &levels, &[1, 2, 3]);
                }
            }
        }
    }
    // 3: every length up to twice the number of points, and some that come out right in 8 or 16 bits
    for levels in
        [&[0][..], &[1], &[0, 0], &[1, 0], &[0, 1], &[1, 1], &[2, 1], &[1, 2], &[0; 8], &[1, 0, 0, 0, 0, 0, 0, 1]]
    {
        let n = count(levels) as usize;
        for places in (0..=2 * n + 2).chain([n + 256, n + 65_536]) {
            component(draw, report, levels, &vec![1; places]);
            component(draw, report, levels, &vec![LEAST - 1; places]);
        }
    }
    // 4 at every place, or at both ends and between: alone, with others after it, and next to the ends of the range
    for levels in
        [&[0][..], &[0; 8], &[1], &[1, 1], &[2, 1], &[0, 3], &[1, 1, 1], &[1, 0, 2, 0, 1], &[8], &[1; 8], &[6, 7]]
    {
        let n = count(levels) as usize;
        let some: Vec<usize> = if n <= 27 { (0..n).collect() } else { vec![0, 1, n / 2, n - 2, n - 1] };
        for p in some {
            let values = if n <= 511 { &NO_RATES[..] } else { &NO_RATES[..4] };
            for &value in values {
                let mut table = vec![draw.of(&[0, -1, 64, LEAST, MOST]); n];
                table[p] = value;
                component(draw, report, levels, &table);
                table[p + draw.index(n - p)] = draw.of(&NO_RATES);
                table[n - 1] = draw.of(&NO_RATES);
                component(draw, report, levels, &table);
            }
        }
    }
}

/// Every set of the five faults, some forty times: of 1, 2, 19, 3 and 4 the first wins.
pub fn faults(draw: &mut Draw, report: &mut Report) {
    for set in 0..32u32 {
        let has = |fault: u32| set >> fault & 1 == 1;
        let first =
            [1, 2, 19, 3, 4].into_iter().zip(0..).find(|&(_, fault)| has(fault)).map_or(0, |(number, _)| number);
        for _ in 0..40 {
            let (levels, table) = with_faults(draw, has);
            let number = model::coefficients(&levels, &table).map_or_else(|refused| refused.0, |_| 0);
            let say = || format!("faults {set:#b} levels {} table {}", short(&levels), short(&table));
            report.same("separate code with itself", "the first fault", &first, &number, &say);
            component(draw, report, &levels, &table);
        }
    }
}

/// A list and a table with these faults and no others: 0 the length of the list, 1 a level, 2 too many points, 3 the length
/// of the table, 4 a rate.
fn with_faults(draw: &mut Draw, has: impl Fn(u32) -> bool) -> (Vec<u32>, Vec<i64>) {
    let most = if has(2) { 70_000 } else { 300 };
    let mut levels = loop {
        let length = match (has(0), has(2)) {
            (false, _) => 1 + draw.index(8),
            (true, true) => draw.of(&[9, 10, 12, 17]),
            (true, false) => draw.of(&[0, 9, 10, 12, 17, 257, 65_537]),
        };
        let levels = list(draw, length, most);
        if count(&levels) > LIMIT || !has(2) {
            break levels;
        }
    };
    let n = count(&levels) as usize;
    if has(1) {
        if levels.is_empty() {
            levels = vec![0; 9];
        }
        let axis = draw.index(levels.len());
        levels[axis] = draw.of(&[9, 10, 31, 32, 64, 256, 65_536, 1 << 31, u32::MAX]);
    }
    let wrong = [0, 1, n / 2, n - 1, n + 1, n + 2, 2 * n, n + 256];
    let mut places = n;
    while has(3) && places == n {
        places = draw.of(&wrong);
    }
    let mut table = inputs::rates(draw, places);
    if has(4) && places > 0 {
        for _ in 0..1 + draw.below(3) {
            table[draw.index(places)] = draw.of(&NO_RATES);
        }
    }
    (levels, table)
}

/// A list of this length whose grid has at most so many points: tops raised one after the other, where it can be.
fn list(draw: &mut Draw, length: usize, most: u128) -> Vec<u32> {
    let mut levels = vec![0; length];
    let tries = if length == 0 { 0 } else { draw.below(40) };
    for _ in 0..tries {
        let axis = draw.index(length);
        levels[axis] += 1;
        if levels[axis] > 8 || count(&levels) > most {
            levels[axis] -= 1;
        }
    }
    levels
}

/// Which lists pass: all of 3 and 4 axes, and of 1 to 8 axes all sets of tops in some order, with no table at all. On either
/// side of the limit, with tables too: the most points that pass are 32,385, of tops 6 and 7, the fewest that do not are
/// 32,805, of seven tops of 1 and one of 3.
///
/// Every product of 32 or 64 bits that has wrapped around is above 32,768 as well; of 16 bits, and taken as negative, many are
/// not. Where a wrapped product is small, the table has that many places.
pub fn limits(draw: &mut Draw, report: &mut Report) {
    let all = all_lists();
    let largest = all.iter().map(|l| count(l)).filter(|&n| n <= LIMIT).max().expect("a list that passes");
    let smallest = all.iter().map(|l| count(l)).filter(|&n| n > LIMIT).min().expect("a list that does not");
    let say = || String::from("all lists");
    report.same("separate code with itself", "either side of the limit", &(32_385, 32_805), &(largest, smallest), &say);
    for levels in &all {
        let n = count(levels);
        let levels = shuffled(draw, levels);
        component(draw, report, &levels, &[]);
        let wrapped = (n % 65_536) as usize;
        if n > LIMIT && wrapped <= 600 {
            let table = inputs::rates(draw, wrapped);
            component(draw, report, &levels, &table);
        }
        if (32_000..=35_000).contains(&n) {
            for places in [n, n - 1, n + 1, LIMIT, LIMIT + 1] {
                let table = inputs::rates(draw, places as usize);
                component(draw, report, &levels, &table);
            }
        }
    }
    for a in 0..9 {
        for b in 0..9 {
            for c in 0..9 {
                component(draw, report, &[a, b, c], &[]);
                (0..9).for_each(|d| component(draw, report, &[a, b, c, d], &[]));
            }
        }
    }
}

/// All falling lists of 1 to 8 tops.
fn all_lists() -> Vec<Vec<u32>> {
    let mut all: Vec<Vec<u32>> = (0..9).map(|top| vec![top]).collect();
    let mut from = 0;
    while from < all.len() {
        let shorter = all[from].clone();
        if shorter.len() < 8 {
            all.extend((0..=shorter[shorter.len() - 1]).map(|top| [&shorter[..], &[top]].concat()));
        }
        from += 1;
    }
    all
}

fn shuffled(draw: &mut Draw, levels: &[u32]) -> Vec<u32> {
    let mut levels = levels.to_vec();
    for k in (1..levels.len()).rev() {
        levels.swap(k, draw.index(k + 1));
    }
    levels
}

// ---- grids

/// All lists of up to 3 axes with tops 0 to 3, and of 4 to 8 axes with tops 0 and 1.
pub fn small_lists() -> Vec<Vec<u32>> {
    let of = |axes: usize, tops: u32| {
        (0..tops.pow(axes as u32)).map(move |k| (0..axes).map(|t| k / tops.pow(t as u32) % tops).collect())
    };
    (1..=3).flat_map(|axes| of(axes, 4)).chain((4..=8).flat_map(|axes| of(axes, 2))).collect()
}

/// Each of the small grids: accepted rates of every kind, the ends of the range, and rates of which some are none; the
/// surface of the library's coefficients where there are few points.
pub fn small_grids(draw: &mut Draw, report: &mut Report) {
    for levels in small_lists() {
        let grid = Grid::new(&levels);
        let n = grid.points.len();
        layout(report, &levels, &grid);
        let rates = inputs::rates(draw, n);
        let any: Vec<i64> = (0..n).map(|_| draw.between(LEAST, MOST)).collect();
        let bad = inputs::any_rates(draw, n);
        let [one, other] = extremes(&levels, &grid);
        for table in [&rates, &any, &bad, &one, &other, &vec![LEAST; n]] {
            component(draw, report, &levels, table);
        }
        if n <= 343 {
            through_rates(report, &levels, &grid, &any);
            through_rates(report, &levels, &grid, &one);
        }
        if 3usize.pow(grid.axes as u32) * n <= 60_000 {
            let say = || format!("levels {levels:?} rates {}", short(&any));
            let swept = grid.coefficients(&any);
            report.same("separate code with itself", "grid by stencil", &swept, &grid.by_stencil(&any), &say);
        }
    }
}

/// The points sorted by their coordinates stand where the formula puts them.
fn layout(report: &mut Report, levels: &[u32], grid: &Grid) {
    let places: Vec<usize> = grid.points.iter().map(|at| place(levels, at)).collect();
    let say = || format!("levels {levels:?}");
    report.same("separate code with itself", "layout", &places, &(0..grid.points.len()).collect(), &say);
}

/// The sum over axes of (i × 2^(top − l) − 1) times the points of the axes before.
fn place(levels: &[u32], at: &model::At) -> usize {
    let (mut place, mut width) = (0, 1);
    for (&top, x) in levels.iter().zip(at) {
        let (l, i) = x.level_and_index();
        place += (i as usize * 2usize.pow(top - l) - 1) * width;
        width *= 2usize.pow(top + 1) - 1;
    }
    place
}

/// The two tables of the ends of the range that have the largest coefficients: neighbours on an axis have opposite ends.
fn extremes(levels: &[u32], grid: &Grid) -> [Vec<i64>; 2] {
    let finest = |at: &model::At| levels.iter().zip(at).filter(|(&top, x)| x.level_and_index().0 == top).count();
    let either = |odd: i64| move |at: &model::At| if finest(at) % 2 == odd as usize { MOST } else { LEAST };
    [0, 1].map(|odd| grid.points.iter().map(either(odd)).collect())
}

/// The surface of the library's coefficients passes through every rate, which it has times 2^d.
fn through_rates(report: &mut Report, levels: &[u32], grid: &Grid, rates: &[i64]) {
    let say = || format!("levels {levels:?} rates {}", short(rates));
    let mut table = rates.to_vec();
    report.made(CALL, 1);
    report.same(CALL, "rates to read", &Ok(()), &component_coefficients(levels, &mut table), &say);
    let want: Vec<Option<i128>> = grid.loaded(rates).into_iter().map(Some).collect();
    report.same(CALL, "surface", &want, &grid.surface(&table), &say);
}

// ---- beside the sparse table

/// All lists with tops that sum to at most n, in every shape with at most so many points.
pub fn beside_all(report: &mut Report, most: u128) {
    for axes in 1..=8 {
        for level in 0..=8 {
            if sparse_count(axes, level) <= most {
                beside_sparse(report, axes, level, &lists_within(axes as usize, level));
            }
        }
    }
}

/// The lists of so many tops that sum to at most `left`.
pub fn lists_within(axes: usize, left: u32) -> Vec<Vec<u32>> {
    if axes == 0 {
        return vec![vec![]];
    }
    let with = |top: u32| lists_within(axes - 1, left - top).into_iter().map(move |l| [&[top], &l[..]].concat());
    (0..=left).flat_map(with).collect()
}

/// Rates that are a function of the coordinates: every point of these component grids is one of the sparse table of this
/// shape, and has the same coefficient in both. The library's answers, compared with each other.
pub fn beside_sparse(report: &mut Report, axes: u32, level: u32, lists: &[Vec<u32>]) {
    let d = axes as usize;
    let mut sparse: Vec<i64> = sparse_grid(axes, level).lists.iter().map(|(l, i)| rate_at(&l[..d], &i[..d])).collect();
    let say = || format!("axes {axes} level {level}");
    report.made("whole forward", 1);
    let done = Shape::new(axes, level).rates_to_coefficients(&mut sparse);
    report.same("whole forward", "rates by coordinate", &Ok(()), &done, &say);
    for tops in lists {
        let say = || format!("axes {axes} level {level} tops {tops:?}");
        let points: Vec<(Vec<u32>, Vec<u32>)> =
            Grid::new(tops).points.iter().map(|at| at[..d].iter().map(|x| x.level_and_index()).unzip()).collect();
        let rate = |(levels, indices): &(Vec<u32>, Vec<u32>)| {
            let narrow = |list: &[u32]| list.iter().map(|&v| v as u16).collect::<Vec<u16>>();
            rate_at(&narrow(levels), &narrow(indices))
        };
        let mut table: Vec<i64> = points.iter().map(rate).collect();
        let mut place = 0;
        report.made(CALL, 1);
        let got = boundary::component_coefficients(tops, &mut table, &mut place);
        report.same(CALL, "rates by coordinate", &(0, 0), &(got, place), &say);
        let beside = |(levels, indices): &(Vec<u32>, Vec<u32>)| {
            let (mut number, mut place) = (u64::MAX, 0);
            boundary::number_of_point(axes, level, levels, indices, &mut number, &mut place);
            sparse.get(number as usize).copied()
        };
        let want: Vec<Option<i64>> = points.iter().map(beside).collect();
        points.iter().for_each(|_| report.walked("number"));
        report.same(CALL, "beside the sparse table", &want, &table.into_iter().map(Some).collect(), &say);
    }
}

/// An arbitrary function of the coordinates.
fn rate_at(levels: &[u16], indices: &[u16]) -> i64 {
    let mix = |seed: u64, (&l, &i): (&u16, &u16)| Draw::new(seed ^ u64::from(l) << 16 ^ u64::from(i)).bits();
    i64::from(levels.iter().zip(indices).fold(0, mix) as i32)
}

// ---- random

/// One random list, mostly of a grid of at most so many points, and a table for it.
pub fn random(draw: &mut Draw, report: &mut Report, most: u128) {
    let length = draw.index(8) + 1;
    let mut levels = list(draw, length, most);
    let n = count(&levels) as usize;
    match draw.below(24) {
        0 => levels.truncate(draw.index(levels.len())),
        1 => levels.extend(vec![draw.of(&[0, 1, 8]); 8]),
        2 => levels[draw.index(length)] = draw.of(&[9, 16, 255, 256, 1 << 31, u32::MAX]),
        3 => levels.iter_mut().for_each(|top| *top = 3 + *top / 2),
        4 => levels.extend(vec![0; 8 - length]),
        _ => (),
    }
    let near = [0, 1, n - 1, n + 1, n / 2, 2 * n, n + 8];
    let places = if draw.one_in(10) { draw.of(&near) } else { n };
    let table = inputs::any_rates(draw, places);
    component(draw, report, &levels, &table);
}

/// Grids of 1,025 to 32,768 points, of each number of axes but one, and those with most.
pub fn large(draw: &mut Draw, report: &mut Report) {
    let mut lists = vec![vec![6, 7], vec![7, 6], vec![8, 5], vec![4, 4, 4], vec![1, 2, 1, 8], vec![1; 8]];
    for (least, most, many) in [(1_025, 7_000, 8), (7_001, LIMIT, 3)] {
        for axes in 2..=8 {
            let mut found = 0;
            while found < many {
                let levels = list(draw, axes, most);
                if count(&levels) >= least {
                    lists.push(levels);
                    found += 1;
                }
            }
        }
    }
    for levels in lists {
        let n = count(&levels) as usize;
        let rates = inputs::rates(draw, n);
        component(draw, report, &levels, &rates);
        let bad = inputs::any_rates(draw, n);
        component(draw, report, &levels, &bad);
    }
}

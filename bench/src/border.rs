//! Tables with values on the border: points, turns and estimates; the last two beside tables of like size with a zero border.

use crate::input;
use crate::plain::bordered::{estimates as bordered_estimates, turns::Faces};
use crate::plain::grid::BINOMIAL;
use crate::plain::lists::Lists;
use crate::plain::{algorithm7, all_within_at_once};
use crate::points;
use crate::table::{first_and_head, first_and_row, head};
use crate::timing::{contest, nanoseconds, Contestant};
use crate::turns::{in_buffer, passes};
use numolefays::{Shape, State};
use std::hint::black_box;

/// Each with a table of like size and as many axes with a zero border.
const SHAPES: [(Shape, Shape); 3] = [
    (Shape::with_border(4, 5), Shape::new(4, 7)),
    (Shape::with_border(2, 8), Shape::new(2, 8)),
    (Shape::with_border(3, 6), Shape::new(3, 7)),
];

pub fn print(seconds: f64) {
    head("Points of tables with border values: ns each (how many times as long the library takes)", &points::COLUMNS);
    for (shape, _) in SHAPES {
        points::rows::<points::Border>(shape, seconds);
    }
    let shapes = || SHAPES.into_iter().flat_map(|(border, zero)| [border, zero]);
    first_and_head(
        "(d, n), border, N",
        "what",
        "Turns with border values and without: ns for each point and axis (how many times as long the library takes)",
        &["library", "list by list", "one pass"],
    );
    for shape in shapes() {
        if shape.border {
            turn_rows::<Faces>(shape, seconds);
        } else {
            turn_rows::<Lists>(shape, seconds);
        }
    }
    first_and_head(
        "(d, n), border, terms",
        "what",
        "Estimates with border values and without: ns for each term (how many times as long the library takes)",
        &["library", "weights tabulated, and the test", "the test alone"],
    );
    for shape in shapes() {
        estimate_rows(shape, seconds);
    }
}

fn first(shape: Shape, last: usize) -> String {
    let border = if shape.border { "values" } else { "zero" };
    format!("({}, {}), {border}, {last}", shape.axes, shape.level)
}

/// Plain turns on one sort of shape.
trait Turns {
    fn new(axes: usize, level: u32) -> Self;
    fn forward(&self, table: &mut [i64], t: usize) -> bool;
    fn back(&self, table: &mut [i64], t: usize) -> bool;
    fn there(&self, table: &mut [i64]) -> bool;
    fn home(&self, table: &mut [i64]) -> bool;
}

macro_rules! turns {
    ($sort:ident) => {
        impl Turns for $sort {
            fn new(axes: usize, level: u32) -> Self {
                $sort::new(axes, level)
            }
            fn forward(&self, table: &mut [i64], t: usize) -> bool {
                $sort::forward(self, table, t)
            }
            fn back(&self, table: &mut [i64], t: usize) -> bool {
                $sort::back(self, table, t)
            }
            fn there(&self, table: &mut [i64]) -> bool {
                self.rates_to_coefficients(table).is_ok()
            }
            fn home(&self, table: &mut [i64]) -> bool {
                self.coefficients_to_rates(table)
            }
        }
    };
}

turns!(Faces);
turns!(Lists);

fn all_forward(shape: Shape) -> u8 {
    ((1u32 << shape.axes) - 1) as u8
}

fn library_forward(shape: Shape, table: &mut [i64]) {
    let mut state = State::saved(shape, 0);
    (1..=shape.axes).for_each(|axis| state.forward(table, axis).expect("an accepted turn"));
}

fn library_back(shape: Shape, table: &mut [i64]) {
    let mut state = State::saved(shape, all_forward(shape));
    (1..=shape.axes).for_each(|axis| state.back(table, axis).expect("an accepted turn"));
}

fn turn_rows<P: Turns>(shape: Shape, seconds: f64) {
    let d = shape.axes as usize;
    let rates = input::rates(shape.points().expect("a shape") as usize);
    let loaded: Vec<i64> = rates.iter().map(|r| r << d).collect();
    let mut coefficients = rates.clone();
    shape.rates_to_coefficients(&mut coefficients).expect("rates");

    // each call by itself, on a table that is filled anew for each
    type Call<'a> = Box<dyn Fn(&mut [i64]) + 'a>;
    type Row<'a> = (&'static str, &'a [i64], &'a [i64], Call<'a>, Call<'a>);
    let plain = || P::new(d, shape.level);
    let calls: [Row; 4] = [
        (
            "forward",
            &loaded,
            &coefficients,
            Box::new(|b| library_forward(shape, b)),
            Box::new(|b| assert!((0..d).all(|t| plain().forward(b, t)))),
        ),
        (
            "back",
            &coefficients,
            &loaded,
            Box::new(|b| library_back(shape, b)),
            Box::new(|b| assert!((0..d).all(|t| plain().back(b, t)))),
        ),
        (
            "rates to coefficients",
            &rates,
            &coefficients,
            Box::new(|b| shape.rates_to_coefficients(b).expect("rates")),
            Box::new(|b| assert!(plain().there(b))),
        ),
        (
            "coefficients to rates",
            &coefficients,
            &rates,
            Box::new(|b| shape.coefficients_to_rates(b).expect("coefficients")),
            Box::new(|b| assert!(plain().home(b))),
        ),
    ];
    for (what, start, end, library, plain) in &calls {
        for call in [library, plain] {
            let mut table = start.to_vec();
            call(&mut table);
            assert!(table == *end, "{what}: the same table");
        }
        let mut all: [Contestant; 3] =
            [in_buffer(start, library), in_buffer(start, plain), in_buffer(start, |b| passes(d, b))];
        let unit = (rates.len() * d) as f64;
        first_and_row(&first(shape, rates.len()), what, &contest(&mut all, seconds, 200), unit);
    }
}

/// How many terms an estimate sums.
fn terms(shape: Shape) -> usize {
    let (d, n) = (shape.axes as usize, shape.level as usize);
    if shape.border {
        bordered_estimates::terms(d, shape.level)
    } else {
        BINOMIAL[d + n][d] as usize
    }
}

fn estimate_rows(shape: Shape, seconds: f64) {
    let (d, level) = (shape.axes as usize, shape.level);
    let mut table = input::rates(shape.points().expect("a shape") as usize);
    shape.rates_to_coefficients(&mut table).expect("rates");
    let state = shape.adopt(&table).expect("coefficients");
    let lists = input::coordinates(200, d);

    let alone = |x: &[u32]| {
        if shape.border {
            bordered_estimates::estimate(d, level, &table, x)
        } else {
            algorithm7::estimate_tabulated(d, level, &table, x)
        }
    };
    let with_margin = |x: &[u32]| {
        if shape.border {
            bordered_estimates::with_margin(d, level, &table, x)
        } else {
            algorithm7::with_margin_tabulated(d, level, &table, x)
        }
    };
    for x in &lists {
        let found = state.estimate_with_margin(&table, x).expect("an estimate");
        assert_eq!((found.estimate, found.absolute_sum, found.margin), with_margin(x));
        assert_eq!(state.estimate(&table, x), Ok(alone(x)));
    }
    let each = |one: &dyn Fn(&[u32])| nanoseconds(|| lists.iter().for_each(|x| one(black_box(x))));
    let test = || assert!(all_within_at_once(black_box(&table)));
    let unit = (lists.len() * terms(shape)) as f64;
    let mut all: [Contestant; 3] = [
        Box::new(|| {
            each(&|x| {
                let _ = black_box(state.estimate(&table, x));
            })
        }),
        Box::new(|| {
            each(&|x| {
                test();
                black_box(alone(x));
            })
        }),
        Box::new(|| each(&|_| test())),
    ];
    first_and_row(&first(shape, terms(shape)), "estimate", &contest(&mut all, seconds, 100), unit);
    let mut all: [Contestant; 3] = [
        Box::new(|| {
            each(&|x| {
                let _ = black_box(state.estimate_with_margin(&table, x));
            })
        }),
        Box::new(|| {
            each(&|x| {
                test();
                black_box(with_margin(x));
            })
        }),
        Box::new(|| each(&|_| test())),
    ];
    first_and_row(&first(shape, terms(shape)), "estimate with margin", &contest(&mut all, seconds, 100), unit);
}

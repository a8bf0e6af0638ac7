//! Number of a point, point of a number, successor through a whole table, parent, in nanoseconds each.

use crate::input;
use crate::plain::bordered::points as bordered_points;
use crate::plain::points::{self, Point};
use crate::table::{first_and_row, head};
use crate::timing::{contest, nanoseconds, Contestant};
use numolefays::{Shape, Side};
use std::hint::black_box;

pub const COLUMNS: [&str; 2] = ["library", "plain Rust, same tests"];
const SAMPLE: usize = 20_000;

/// Marks, levels and indices.
type Lists<'a> = [&'a [u32]; 3];

/// The plain calls on one sort of shape.
pub trait Plain {
    fn number_of(shape: Shape, lists: Lists) -> Result<u64, u32>;
    fn point_of(shape: Shape, number: u64) -> Result<Point, u32>;
    fn successor(shape: Shape, lists: Lists) -> Result<Option<Point>, u32>;
    fn parent(shape: Shape, lists: Lists, axis: u32, right: bool) -> Result<Option<Point>, u32>;
}

macro_rules! plain {
    ($sort:ident, $calls:ident) => {
        pub struct $sort;

        impl Plain for $sort {
            fn number_of(shape: Shape, [m, l, i]: Lists) -> Result<u64, u32> {
                $calls::number_of(shape.axes, shape.level, m, l, i)
            }
            fn point_of(shape: Shape, number: u64) -> Result<Point, u32> {
                $calls::point_of(shape.axes, shape.level, number)
            }
            fn successor(shape: Shape, [m, l, i]: Lists) -> Result<Option<Point>, u32> {
                $calls::successor(shape.axes, shape.level, m, l, i)
            }
            fn parent(shape: Shape, [m, l, i]: Lists, axis: u32, right: bool) -> Result<Option<Point>, u32> {
                $calls::parent(shape.axes, shape.level, m, l, i, axis, right)
            }
        }
    };
}

plain!(ZeroBorder, points);
plain!(Border, bordered_points);

/// A point, and one side of it on an axis.
struct Beside {
    point: numolefays::Point,
    axis: u32,
    side: Side,
}

impl Beside {
    fn lists(&self) -> Lists<'_> {
        [self.point.marks(), self.point.levels(), self.point.indices()]
    }
}

pub fn print(shapes: &[(u32, u32)], seconds: f64) {
    head("Points: ns each (how many times as long the library takes)", &COLUMNS);
    for &(axes, level) in shapes {
        rows::<ZeroBorder>(Shape::new(axes, level), seconds);
    }
}

/// The rows of a shape, the opponent being of its sort.
pub fn rows<P: Plain>(shape: Shape, seconds: f64) {
    let n = shape.points().expect("a shape");
    let numbers = input::numbers(SAMPLE, n);
    let axes = input::numbers(SAMPLE, u64::from(shape.axes) * 2);
    let given: Vec<Beside> = numbers
        .iter()
        .zip(&axes)
        .map(|(&number, &choice)| Beside {
            point: shape.point(number).expect("a point"),
            axis: choice as u32 / 2 + 1,
            side: if choice % 2 == 1 { Side::Right } else { Side::Left },
        })
        .collect();
    same_answers::<P>(shape, &numbers, &given);
    same_refusals::<P>(shape, &given[..1_000]);
    let print = |what, times: &[f64], unit| {
        first_and_row(&format!("({}, {})", shape.axes, shape.level), what, times, unit);
    };
    print("number of a point", &number_of::<P>(shape, &given, seconds), SAMPLE as f64);
    print("point of a number", &point_of::<P>(shape, &numbers, seconds), SAMPLE as f64);
    print("successor, whole table", &successor::<P>(shape, seconds), n as f64);
    print("parent", &parent::<P>(shape, &given, seconds), SAMPLE as f64);
}

fn plainly(p: numolefays::Point) -> Point {
    Point { marks: p.all_marks, levels: p.all_levels, indices: p.all_indices }
}

fn same_answers<P: Plain>(shape: Shape, numbers: &[u64], given: &[Beside]) {
    for (&number, beside) in numbers.iter().zip(given) {
        let lists @ [m, l, i] = beside.lists();
        assert_eq!(P::point_of(shape, number), Ok(plainly(beside.point)));
        assert_eq!(P::number_of(shape, lists), Ok(number));
        assert_eq!(shape.number_of(m, l, i), Ok(number));
        let next = shape.successor(m, l, i).expect("a point");
        assert_eq!(P::successor(shape, lists), Ok(next.map(plainly)));
        let parent = shape.parent(m, l, i, beside.axis, beside.side).expect("a point");
        assert_eq!(P::parent(shape, lists, beside.axis, beside.side == Side::Right), Ok(parent.map(plainly)));
    }
}

/// Each list of each point with another item on an axis, or with an item too many.
fn same_refusals<P: Plain>(shape: Shape, given: &[Beside]) {
    for beside in given {
        let t = beside.axis as usize - 1;
        for which in 0..3 {
            for other in [0, 1, 2, 3, 4, 9, 511, 513, u32::MAX] {
                let mut lists = beside.lists().map(<[u32]>::to_vec);
                lists[which][t] = other;
                same_refusal::<P>(shape, [&lists[0], &lists[1], &lists[2]], beside.axis, beside.side);
            }
            let mut lists = beside.lists().map(<[u32]>::to_vec);
            lists[which].push(0);
            same_refusal::<P>(shape, [&lists[0], &lists[1], &lists[2]], beside.axis, beside.side);
        }
        same_refusal::<P>(shape, beside.lists(), 0, beside.side);
        same_refusal::<P>(shape, beside.lists(), shape.axes + 1, beside.side);
    }
}

fn same_refusal<P: Plain>(shape: Shape, lists: Lists, axis: u32, side: Side) {
    let [m, l, i] = lists;
    assert_eq!(P::number_of(shape, lists), shape.number_of(m, l, i).map_err(|r| r.number()));
    let next = shape.successor(m, l, i).map(|next| next.map(plainly)).map_err(|r| r.number());
    assert_eq!(P::successor(shape, lists), next);
    let parent = shape.parent(m, l, i, axis, side).map(|parent| parent.map(plainly)).map_err(|r| r.number());
    assert_eq!(P::parent(shape, lists, axis, side == Side::Right), parent);
}

fn number_of<P: Plain>(shape: Shape, given: &[Beside], seconds: f64) -> Vec<f64> {
    let mut all: [Contestant; 2] = [
        Box::new(|| {
            nanoseconds(|| {
                for beside in given {
                    let [m, l, i] = black_box(beside.lists());
                    let _ = black_box(shape.number_of(m, l, i));
                }
            })
        }),
        Box::new(|| {
            nanoseconds(|| {
                for beside in given {
                    let _ = black_box(P::number_of(shape, black_box(beside.lists())));
                }
            })
        }),
    ];
    contest(&mut all, seconds, 25)
}

fn point_of<P: Plain>(shape: Shape, numbers: &[u64], seconds: f64) -> Vec<f64> {
    let mut all: [Contestant; 2] = [
        Box::new(|| {
            nanoseconds(|| {
                for &n in numbers {
                    let _ = black_box(shape.point(black_box(n)));
                }
            })
        }),
        Box::new(|| {
            nanoseconds(|| {
                for &n in numbers {
                    let _ = black_box(P::point_of(shape, black_box(n)));
                }
            })
        }),
    ];
    contest(&mut all, seconds, 25)
}

fn successor<P: Plain>(shape: Shape, seconds: f64) -> Vec<f64> {
    let n = shape.points().expect("a shape");
    let d = shape.axes as usize;
    let mut all: [Contestant; 2] = [
        Box::new(|| {
            nanoseconds(|| {
                let mut here = shape.point(0).expect("a point");
                let mut steps = 1;
                while let Some(next) = shape.successor(here.marks(), here.levels(), here.indices()).expect("a point") {
                    here = next;
                    steps += 1;
                }
                assert_eq!(steps, n, "the end stands after the last point");
            })
        }),
        Box::new(|| {
            nanoseconds(|| {
                let mut here = P::point_of(shape, 0).expect("a point");
                let mut steps = 1;
                while let Some(next) =
                    P::successor(shape, [&here.marks[..d], &here.levels[..d], &here.indices[..d]]).expect("a point")
                {
                    here = next;
                    steps += 1;
                }
                assert_eq!(steps, n);
            })
        }),
    ];
    contest(&mut all, seconds, 15)
}

fn parent<P: Plain>(shape: Shape, given: &[Beside], seconds: f64) -> Vec<f64> {
    let mut all: [Contestant; 2] = [
        Box::new(|| {
            nanoseconds(|| {
                for beside in given {
                    let [m, l, i] = black_box(beside.lists());
                    let _ = black_box(shape.parent(m, l, i, beside.axis, beside.side));
                }
            })
        }),
        Box::new(|| {
            nanoseconds(|| {
                for beside in given {
                    let lists = black_box(beside.lists());
                    let _ = black_box(P::parent(shape, lists, beside.axis, beside.side == Side::Right));
                }
            })
        }),
    ];
    contest(&mut all, seconds, 25)
}

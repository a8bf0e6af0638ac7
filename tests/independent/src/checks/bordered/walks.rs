//! Every point of every shape with border values: its number, itself, its successor, and what stands beside it on each side
//! of each axis.

use super::Desk;
use crate::model::bordered::calls::Call;
use crate::model::bordered::grid::grid;
use crate::model::bordered::readings::RIGHT;
use crate::model::bordered::Shape;
use crate::model::MOST_POINTS;

/// The shapes with border values that have at most so many points.
pub fn shapes(most: usize) -> impl Iterator<Item = (u32, u32)> {
    let all = (1..=4).flat_map(|axes| (0..=8).map(move |level| (axes, level)));
    all.filter(move |&(axes, level)| Shape::new(axes, level, 1).count() <= most)
}

pub fn all(desk: &mut Desk, with_large: bool) {
    for (axes, level) in shapes(7_000) {
        let flag = super::inputs::flag(&mut desk.draw);
        walk(desk, Shape::new(axes, level, flag));
    }
    if with_large {
        for (axes, level) in shapes(MOST_POINTS as usize) {
            let shape = Shape::new(axes, level, 1);
            if shape.count() > 7_000 {
                walk(desk, shape);
            }
        }
    }
}

fn walk(desk: &mut Desk, shape: Shape) {
    desk.walked(shape, &Call::Count);
    let points = grid(shape, &RIGHT);
    for p in 0..points.order.len() {
        let lists = points.lists(p).lists(shape.axes);
        desk.walked(shape, &Call::Point(p as u64));
        desk.walked(shape, &Call::Number(lists.clone()));
        desk.walked(shape, &Call::Successor(lists.clone()));
        for axis in 1..=shape.axes {
            for side in [0, 1] {
                desk.walked(shape, &Call::Parent { of: lists.clone(), axis, side });
            }
        }
    }
}

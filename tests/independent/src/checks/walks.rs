//! Whole tables, point by point: number, point, successor and parents of every point of a shape.

use crate::boundary;
use crate::model::grid::grid;
use crate::model::points as model;
use crate::report::Report;
use crate::wrapper;
use numolefays::Shape;

pub fn walk(report: &mut Report, axes: u32, level: u32) {
    let shape = Shape::new(axes, level);
    let points = grid(axes, level);
    let last = points.lists.len() - 1;
    let say = || format!("axes {axes} level {level}");
    report.walked("count");
    report.same("count", "walk", &Ok(points.lists.len() as u64), &shape.points(), &say);
    for (number, (levels, indices)) in points.lists.iter().enumerate() {
        ["number", "point", "successor"].into_iter().for_each(|kind| report.walked(kind));
        let (levels, indices) = (levels.map(u32::from), indices.map(u32::from));
        let (l, i) = (&levels[..axes as usize], &indices[..axes as usize]);
        let say = || format!("axes {axes} level {level} number {number} levels {l:?} indices {i:?}");
        report.same("number", "walk", &Ok(number as u64), &wrapper::number_of(axes, level, l, i), &say);
        let point = wrapper::point(axes, level, number as u64);
        report.same("point", "walk", &Ok((levels, indices)), &point, &say);
        let next = wrapper::successor(axes, level, l, i);
        let want = if number == last {
            None
        } else {
            let (l, i) = points.lists[number + 1];
            Some((l.map(u32::from), i.map(u32::from)))
        };
        report.same("successor", "walk", &Ok(want), &next, &say);
        for (axis, side) in (1..=axes).flat_map(|axis| [(axis, 0), (axis, 1)]) {
            let (mut found, mut border, mut place) = ([[0; 8]; 2], 7, 7);
            let [pl, pi] = &mut found;
            let got = boundary::parent(axes, level, l, i, axis, side, pl, pi, &mut border, &mut place);
            let want = model::parent(axes, level, l, i, axis, side != 0).unwrap_or(None);
            let (zero, nowhere) = (u32::from(want.is_none()), ([0; 8], [0; 8]));
            let say = || format!("axes {axes} level {level} levels {l:?} indices {i:?} axis {axis} side {side}");
            report.walked("parent");
            report.same("parent", "walk", &(0, 0, zero), &(got, place, border), &say);
            report.same("parent", "walk, the point", &want.unwrap_or(nowhere), &(found[0], found[1]), &say);
            if let Some((pl, pi)) = want {
                let n = axes as usize;
                let earlier = wrapper::number_of(axes, level, &pl[..n], &pi[..n]).is_ok_and(|p| p < number as u64);
                report.walked("number");
                report.same("number", "a parent's is smaller", &true, &earlier, &say);
            }
        }
    }
}

//! Random inputs to every call, on shapes of both sorts.

use super::inputs;
use super::Desk;
use crate::draw::Draw;
use crate::model::bordered::calls::Call;
use crate::model::bordered::Shape;
use crate::report::Report;

/// One round; now and then with a larger table.
pub fn round(desk: &mut Desk, round: u64) {
    let most = match round % 100 {
        99 => 7_000,
        9 | 29 | 49 | 69 | 89 => 1_500,
        _ => 300,
    };
    points(desk, most);
    tables(desk, most);
    turns(desk, most);
    run(desk, most);
    estimates(desk, most);
}

/// Rounds in four threads at once, each with tables of its own.
pub fn in_threads(seed: u64, rounds: u64) -> Vec<Report> {
    let of_thread = |k: u64| {
        let mut report = Report::default();
        let mut desk = Desk { draw: Draw::new(seed ^ (k << 32)), report: &mut report };
        (0..rounds).for_each(|round_of_thread| round(&mut desk, round_of_thread));
        report
    };
    std::thread::scope(|scope| {
        let threads: Vec<_> = (1..=4).map(|k| scope.spawn(move || of_thread(k))).collect();
        threads.into_iter().map(|thread| thread.join().expect("a thread ends")).collect()
    })
}

fn points(desk: &mut Desk, most: u64) {
    let shape = inputs::shape(&mut desk.draw, most);
    desk.call(shape, &Call::Count);
    let of = inputs::lists(&mut desk.draw, shape);
    desk.call(shape, &Call::Number(of));
    let of = inputs::lists(&mut desk.draw, shape);
    desk.call(shape, &Call::Successor(of));
    let of = inputs::lists(&mut desk.draw, shape);
    let axis = crate::inputs::axis(&mut desk.draw, shape.axes);
    let side = desk.draw.of(&[0, 0, 1, 1, 2, 1 << 31, u32::MAX]);
    desk.call(shape, &Call::Parent { of, axis, side });
    let n = if shape.check().is_ok() { shape.count() as u64 } else { 5 };
    let inside = desk.draw.below(n);
    let beyond = [n, n + 1, (1 << 32) + inside, 1 << 63, (1 << 63) + inside, u64::from(u32::MAX), u64::MAX];
    let number = match desk.draw.below(8) {
        0 => desk.draw.of(&beyond),
        1 => n - 1,
        _ => inside,
    };
    desk.call(shape, &Call::Point(number));
}

fn tables(desk: &mut Desk, most: u64) {
    for make in [Call::Load, Call::ToCoefficients] {
        let shape = inputs::shape(&mut desk.draw, most);
        let places = inputs::places(&mut desk.draw, shape);
        let rates = crate::inputs::any_rates(&mut desk.draw, places);
        desk.call(shape, &make(rates));
    }
    for make in [Call::Adopt, Call::ToRates] {
        let shape = inputs::shape(&mut desk.draw, most);
        let table = inputs::contents(&mut desk.draw, shape, shape.all_bits());
        desk.call(shape, &make(table));
    }
    let shape = inputs::shape(&mut desk.draw, most);
    let bits = if desk.draw.one_in(3) { crate::inputs::bits(&mut desk.draw, shape.axes) } else { 0 };
    let table = inputs::contents(&mut desk.draw, shape, 0);
    desk.call(shape, &Call::Unload { bits, table });
}

fn turns(desk: &mut Desk, most: u64) {
    for back in [false, true] {
        let shape = inputs::shape(&mut desk.draw, most);
        let axis = crate::inputs::axis(&mut desk.draw, shape.axes);
        let mut bits = crate::inputs::bits(&mut desk.draw, shape.axes);
        // mostly an axis that the turn can take
        if (1..=8).contains(&axis) && axis <= shape.axes && !desk.draw.one_in(8) {
            let bit = 1 << (axis - 1);
            bits = if back { bits | bit } else { bits & !bit };
        }
        let table = inputs::contents(&mut desk.draw, shape, bits);
        desk.call(shape, &Call::Turn { back, bits, table, axis });
    }
}

/// Turns, mostly on axes of the shape.
pub fn some_turns(desk: &mut Desk, shape: Shape, count: usize) -> (Vec<u8>, Vec<u32>) {
    let draw = &mut desk.draw;
    let one = |_| {
        let direction = if draw.one_in(2) { 0 } else { draw.of(&[1, 1, 1, 2, 128, 255]) };
        (direction, crate::inputs::axis(draw, shape.axes))
    };
    (0..count).map(one).unzip()
}

fn run(desk: &mut Desk, most: u64) {
    let shape = inputs::shape(&mut desk.draw, most.min(1_500));
    let bits = crate::inputs::bits(&mut desk.draw, shape.axes);
    let table = inputs::contents(&mut desk.draw, shape, bits);
    let count = desk.draw.index(13);
    let (mut directions, mut axes) = some_turns(desk, shape, count);
    let draw = &mut desk.draw;
    let mut numbers: Vec<u32> = directions.iter().map(|_| draw.bits() as u32).collect();
    let mut places: Vec<u64> = directions.iter().map(|_| draw.bits()).collect();
    if draw.one_in(8) {
        let length = draw.index(count + 4);
        match draw.below(4) {
            0 => directions.resize(length, 0),
            1 => axes.resize(length, 1),
            2 => numbers.resize(length, 9),
            _ => places.resize(length, 9),
        }
    }
    desk.call(shape, &Call::Run { bits, table, directions, axes, numbers, places });
}

fn estimates(desk: &mut Desk, most: u64) {
    let shape = inputs::shape(&mut desk.draw, most);
    let all = shape.all_bits();
    let bits = if desk.draw.one_in(8) { crate::inputs::bits(&mut desk.draw, shape.axes) } else { all };
    let table = inputs::contents(&mut desk.draw, shape, all);
    for _ in 0..2 {
        let coordinates = inputs::coordinates(&mut desk.draw, shape);
        for call in inputs::estimates(bits, &table, &coordinates) {
            desk.call(shape, &call);
        }
    }
}

//! The loader: sampled rates come in any order, each with the point that it was sampled at. Each rate has one fixed number,
//! so it has one place in the table.

use numolefays::{read_house_file, Refusal, Shape, INSIDE, LOWER_BORDER, UPPER_BORDER};

/// Household size over income and age does not vanish at the lowest income: a table with values on the border, here of top
/// level 0, so that an axis has its two ends and its middle. Samples come by where they were taken.
fn sizes() -> Result<(), Refusal> {
    let shape = Shape::with_border(2, 0);
    println!(
        "household sizes: {} axes, top level {}, border values, {} points",
        shape.axes,
        shape.level,
        shape.points()?
    );
    let (low, middle, high) = (LOWER_BORDER, INSIDE, UPPER_BORDER);
    // a line for each age, from the lowest income to the highest
    let samples = [
        ([low, low], 1),
        ([middle, low], 1),
        ([high, low], 2),
        ([low, middle], 2),
        ([middle, middle], 4),
        ([high, middle], 3),
        ([low, high], 2),
        ([middle, high], 3),
        ([high, high], 5),
    ];
    let mut table = vec![0; shape.points()? as usize];
    for (marks, size) in samples {
        table[shape.number_of(&marks, &[0, 0], &[1, 1])? as usize] = size;
    }
    println!("sizes in point order: {table:?}");

    // the marks of each number; after the last point there is no other
    let mut next = Some(shape.point(0)?);
    while let Some(point) = next {
        print!(" {:?}", point.marks());
        next = shape.successor(point.marks(), point.levels(), point.indices())?;
    }
    println!();
    shape.load(&mut table)?;
    println!("loaded: {table:?}");
    // a border point of a shape with a zero border is none
    let refusal = Shape::new(2, 0).number_of(&[low, middle], &[0, 0], &[1, 1]).unwrap_err();
    println!("{refusal}");
    Ok(())
}

fn main() -> Result<(), Refusal> {
    let shape = Shape::new(2, 1);
    println!("loader: {} axes, top level {}, {} points", shape.axes, shape.level, shape.points()?);

    // levels, indices, rate; in the order in which the counters came home
    let samples =
        [([0, 1], [1, 3], 6), ([1, 0], [1, 1], 3), ([0, 0], [1, 1], 4), ([0, 1], [1, 1], 2), ([1, 0], [3, 1], 5)];
    let mut table = vec![0; shape.points()? as usize];
    for (levels, indices, rate) in samples {
        let number = shape.number_of(&[INSIDE; 2], &levels, &indices)?;
        println!("  levels {levels:?} indices {indices:?} is point {number}: rate {rate}");
        table[number as usize] = rate;
    }
    println!("rates in point order: {table:?}");

    // the same table from a house file; the buffer may be longer
    let file = [2, 1, 8, 6, 10, 4, 12];
    let mut buffer = [-1; 7];
    let filed = read_house_file(&file, &mut buffer)?;
    println!("from a house file: {} axes, top level {}, buffer {buffer:?}", filed.axes, filed.level);

    let state = shape.load(&mut table)?;
    println!("loaded: {table:?}, forward axes {:#04b}", state.bits);

    // a rate that is none is refused, and nothing has moved
    let mut wrong = vec![4, 3, 5, 3_000_000_000, 6];
    let refusal = shape.load(&mut wrong).unwrap_err();
    println!("{refusal}; the table is still {wrong:?}");
    sizes()
}

//! The reviewer: gets coefficients, and gets back the very rates that were sampled, or a refusal.

use numolefays::{house_file, house_file_shape, read_house_file, rewritten_house_file, Refusal, Shape, Side};

/// The rates as a house file, the same for every such table, and read back; a longer file of the same table has this one as
/// its form. Such files are for tables with a zero border, so they take axes and level alone.
fn file_again(shape: Shape, rates: &[i64]) -> Result<(), Refusal> {
    let file = house_file(shape.axes, shape.level, rates)?;
    println!("house file: {}", file.iter().map(|b| format!("{b:02x}")).collect::<Vec<_>>().join(" "));
    let points = house_file_shape(&file)?.points()?;
    let mut table = vec![0; points as usize];
    let same = read_house_file(&file, &mut table)? == shape && table == rates;
    println!("read back, {points} points: {}", if same { "the same shape and rates" } else { "another table" });
    let longer = [0x82, 0x00, 0x01, 0x88, 0x80, 0x00, 0x06, 0x0a, 0x04, 0x0c];
    let same = rewritten_house_file(&longer, rates.len())? == file;
    println!("rewritten from {} bytes: {}", longer.len(), if same { "the same file" } else { "another file" });
    Ok(())
}

/// Household sizes over income and age, the ends of both axes too.
fn sizes() -> Result<(), Refusal> {
    let shape = Shape::with_border(2, 0);
    let mut table = [8, 2, -2, -2, -2, 4, 8, 8, 20];
    println!("household sizes: coefficients {table:?}");
    // the parents on axis 1 of the point at the middle of both: the points on that axis's ends; and those have none
    let point = shape.point(0)?;
    for side in [Side::Left, Side::Right] {
        let Some(parent) = shape.parent(point.marks(), point.levels(), point.indices(), 1, side)? else { continue };
        let (marks, levels, indices) = (parent.marks(), parent.levels(), parent.indices());
        let number = shape.number_of(marks, levels, indices)?;
        println!(
            "parent of point 0, {side:?}: point {number}, marks {marks:?}, coefficient {}",
            table[number as usize]
        );
        println!("  parent of that on axis 1: {:?}", shape.parent(marks, levels, indices, 1, side)?);
    }
    shape.coefficients_to_rates(&mut table)?;
    println!("sizes, in one call: {table:?}");
    Ok(())
}

fn main() -> Result<(), Refusal> {
    let shape = Shape::new(2, 1);
    let coefficients = [16, 4, 12, 0, 16];
    println!("reviewer: coefficients {coefficients:?}");

    let mut rates = coefficients;
    shape.coefficients_to_rates(&mut rates)?;
    println!("rates, in one call: {rates:?}");

    // axis by axis, in either order
    for order in [[1, 2], [2, 1]] {
        let mut table = coefficients;
        let mut state = shape.adopt(&table)?;
        for axis in order {
            state.back(&mut table, axis)?;
        }
        state.unload(&mut table)?;
        println!("rates, back on axes {order:?}: {table:?}");
    }
    file_again(shape, &rates)?;

    // coefficients that no rates have
    let mut damaged = [16, 4, 12, 0, 17];
    let refusal = shape.coefficients_to_rates(&mut damaged).unwrap_err();
    println!("{refusal}; the table is still {damaged:?}");

    // the parents of point 4 on axis 2: what its coefficient was made with
    let point = shape.point(4)?;
    for side in [Side::Left, Side::Right] {
        match shape.parent(point.marks(), point.levels(), point.indices(), 2, side)? {
            Some(parent) => {
                let number = shape.number_of(parent.marks(), parent.levels(), parent.indices())?;
                println!("parent of point 4, {side:?}: point {number}");
            }
            None => println!("parent of point 4, {side:?}: the border"),
        }
    }

    // unloading too early
    let mut table = coefficients;
    let state = shape.adopt(&table)?;
    println!("{}", state.unload(&mut table).unwrap_err());
    sizes()
}

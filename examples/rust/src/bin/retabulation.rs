//! The retabulation job: it may stop between any two turns. What it saves is the table and the state, nothing else; another
//! process goes on from there.

use numolefays::{Refusal, Shape, State, Turn};

/// What the job leaves on disk: axes, level, whether there are values on the border, and forward bits, then the table.
fn save(state: State, table: &[i64]) -> Vec<u8> {
    let Shape { axes, level, border } = state.shape;
    let mut bytes = vec![axes as u8, level as u8, border as u8, state.bits];
    table.iter().for_each(|v| bytes.extend(v.to_le_bytes()));
    bytes
}

fn restore(bytes: &[u8]) -> (State, Vec<i64>) {
    let shape = Shape { axes: u32::from(bytes[0]), level: u32::from(bytes[1]), border: bytes[2] != 0 };
    let table = bytes[4..].chunks_exact(8).map(|b| i64::from_le_bytes(b.try_into().unwrap())).collect();
    (State::saved(shape, bytes[3]), table)
}

fn first_night(shape: Shape, rates: &[i64]) -> Result<Vec<u8>, Refusal> {
    let mut table = rates.to_vec();
    let mut state = shape.load(&mut table)?;
    println!("first night: loaded {table:?}");
    state.forward(&mut table, 2)?;
    println!("  forward on axis 2: {table:?}, forward axes {:#04b}; stopped", state.bits);
    Ok(save(state, &table))
}

fn second_night(saved: &[u8], rates: &[i64]) -> Result<(), Refusal> {
    let (mut state, mut table) = restore(saved);
    println!("second night: found {table:?}, forward axes {:#04b}", state.bits);
    // the whole list again: what is done already is refused, and the run goes on
    for answer in state.run(&mut table, &[Turn::Forward(2), Turn::Forward(1)])? {
        match answer {
            Ok(()) => println!("  carried out"),
            Err(refusal) => println!("  {refusal}"),
        }
    }
    println!("coefficients: {table:?}, forward axes {:#04b}", state.bits);

    let mut whole = rates.to_vec();
    state.shape.rates_to_coefficients(&mut whole)?;
    println!("the same as in one call: {}", whole == table);
    Ok(())
}

fn main() -> Result<(), Refusal> {
    let household_sizes = [4, 2, 3, 1, 3, 1, 2, 2, 5]; // over income and age, the ends of both axes too
    for (shape, rates) in [(Shape::new(2, 1), &[4, 3, 5, 2, 6][..]), (Shape::with_border(2, 0), &household_sizes)] {
        let saved = first_night(shape, rates)?;
        second_night(&saved, rates)?;
    }
    Ok(())
}

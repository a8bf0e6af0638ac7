//! The analyst: reads estimates, each with its margin, from fully turned tables only. A half-turned table looks reasonable, and is refused.

use numolefays::{Estimated, Refusal, Shape, UNIT};

/// Household sizes over income and age: at the lowest income there are households too.
fn sizes() -> Result<(), Refusal> {
    let shape = Shape::with_border(2, 0);
    let mut table = vec![4, 2, 3, 1, 3, 1, 2, 2, 5];
    shape.rates_to_coefficients(&mut table)?;
    let state = shape.adopt(&table)?;
    println!("household sizes, coefficients {table:?}; estimates are in quarters of a person");
    // the middle, two borders, a corner, then between
    for at in [[UNIT / 2, UNIT / 2], [0, UNIT / 2], [UNIT / 2, UNIT], [0, 0], [UNIT / 4, UNIT / 4], [0, UNIT / 4]] {
        let Estimated { estimate, margin, .. } = state.estimate_with_margin(&table, &at)?;
        println!("  at {at:?}: {estimate}, at most {margin} off");
    }
    Ok(())
}

fn main() -> Result<(), Refusal> {
    let shape = Shape::new(2, 1);
    let mut table = vec![4, 3, 5, 2, 6];
    let mut state = shape.load(&mut table)?;
    state.forward(&mut table, 1)?;
    println!("analyst: half turned {table:?}");
    let refusal = state.estimate(&table, &[UNIT / 2, UNIT / 2]).unwrap_err();
    println!("  {refusal}");

    state.forward(&mut table, 2)?;
    println!("fully turned {table:?}; estimates are in quarters of a rate");
    // the five samples, then places between them, then the border
    let places = [
        [UNIT / 2, UNIT / 2],
        [UNIT / 4, UNIT / 2],
        [3 * (UNIT / 4), UNIT / 2],
        [UNIT / 2, UNIT / 4],
        [UNIT / 2, 3 * (UNIT / 4)],
        [UNIT / 4, UNIT / 4],
        [640_000, 320_000],
        [197_520, 869_136],
        [0, UNIT / 2],
        [UNIT, UNIT],
    ];
    for at in places {
        let Estimated { estimate, margin, .. } = state.estimate_with_margin(&table, &at)?;
        println!("  at {at:?}: {estimate}, at most {margin} off");
    }
    let mut large = [4, 3, 5, 2, 6].map(|rate| rate * 1_000_000);
    shape.rates_to_coefficients(&mut large)?;
    let found = shape.adopt(&large)?.estimate_with_margin(&large, &[640_000, 320_000])?;
    println!("  of rates in millionths: {}, at most {} off", found.estimate, found.margin);
    let refusal = state.estimate(&table, &[0, UNIT + 1]).unwrap_err();
    println!("  {refusal}");
    sizes()
}

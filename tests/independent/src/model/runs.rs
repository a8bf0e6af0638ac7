//! Runs of turns: call by call, and demand 3's model, which sees no answers.

use super::grid::grid;
use super::turns::{forward_of, turn};
use super::{places as check_places, state, Refused};
use std::collections::BTreeSet;

pub struct Run {
    pub numbers: Vec<u32>,
    pub places: Vec<u64>,
    pub table: Vec<i64>,
    pub bits: u8,
}

/// `numbers` and `places` are the lengths of those lists. State and table are looked at before the lists, also where these are
/// empty. Each call is handed what the one before it left.
#[allow(clippy::too_many_arguments)]
pub fn run(
    axes: u32,
    level: u32,
    bits: u8,
    table: &[i64],
    directions: &[u8],
    turned: &[u32],
    numbers: usize,
    places: usize,
) -> Result<Run, Refused> {
    state(axes, level, bits)?;
    check_places(axes, level, table.len())?;
    let count = directions.len();
    if turned.len() != count || numbers != count || places != count {
        return Err((7, 0));
    }
    let mut run = Run { numbers: vec![], places: vec![], table: table.to_vec(), bits };
    for (&direction, &axis) in directions.iter().zip(turned) {
        let (number, place) = match turn(direction != 0, axes, level, run.bits, &run.table, axis) {
            Ok((table, bits)) => {
                run.table = table;
                run.bits = bits;
                (0, 0)
            }
            Err(refused) => refused,
        };
        run.numbers.push(number);
        run.places.push(place);
    }
    Ok(run)
}

/// Demand 3: what a list of turns does to a table that was just loaded from these rates, from the directions and axes alone.
pub fn demand3(axes: u32, level: u32, rates: &[i64], directions: &[u8], turned: &[u32]) -> Run {
    let mut set = BTreeSet::new();
    let (mut numbers, mut places) = (vec![], vec![]);
    for (&direction, &axis) in directions.iter().zip(turned) {
        let number = if axis < 1 || axis > axes {
            5
        } else if direction == 0 {
            if set.insert(axis) {
                0
            } else {
                15
            }
        } else if set.remove(&axis) {
            0
        } else {
            16
        };
        numbers.push(number);
        places.push(if number == 0 { 0 } else { u64::from(axis) });
    }
    let grid = grid(axes, level);
    let loaded: Vec<i64> = rates.iter().map(|&r| r * 2i64.pow(axes)).collect();
    let mut values = grid.values(&loaded);
    for &axis in &set {
        values = forward_of(&values, axis as usize - 1).expect("every half in the table of a set is whole");
    }
    Run { numbers, places, table: grid.table(&values), bits: set.iter().map(|&t| 2u8.pow(t - 1)).sum() }
}

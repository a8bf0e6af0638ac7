//! The planner: four offices open and close tables under one account of points. The account knows which
//! shapes are open, and holds no table.

use numolefays::{Account, Refusal, Usage};

/// One call of the planner's day.
enum Call {
    /// Office, tag, axes, top level.
    Open(u32, u32, u32, u32),
    /// Office, tag.
    Close(u32, u32),
}
use Call::{Close, Open};

const DAY: [Call; 13] = [
    Open(1, 0, 8, 5),
    Open(2, 0, 4, 7),
    Open(3, 0, 3, 7), // more common points than are free
    Open(3, 0, 3, 6),
    Open(3, 1, 3, 5),
    Open(3, 1, 1, 0), // the tag is open
    Open(4, 0, 2, 8),
    Open(4, 8, 2, 8), // no such tag
    Open(5, 0, 2, 8), // no such office
    Open(4, 1, 8, 6), // a shape of too many points
    Close(2, 3),      // nothing is open there
    Close(1, 0),
    Open(3, 2, 3, 7),
];

fn carry_out(account: &mut Account, call: Call) -> Result<(), Refusal> {
    let answer = match call {
        Open(office, tag, axes, level) => {
            print!("  open, office {office}, tag {tag}, axes {axes}, level {level}: ");
            account.open(office, tag, axes, level)
        }
        Close(office, tag) => {
            print!("  close, office {office}, tag {tag}: ");
            account.close(office, tag)
        }
    };
    match answer {
        Ok(()) => print!("done"),
        Err(refusal) => print!("refused with {}", refusal.number()),
    }
    println!("; {} common points free", account.usage()?.common_free);
    Ok(())
}

fn main() -> Result<(), Refusal> {
    println!("planner: four offices under one account");
    let mut account = Account::new();
    for call in DAY {
        carry_out(&mut account, call)?;
    }

    let Usage { by_office, in_all, common_used, common_free } = account.usage()?;
    println!("points open by office: {by_office:?}; in all {in_all}");
    println!("common points: {common_used} in use, {common_free} free");
    for (office, tag) in [(3, 2), (1, 0)] {
        match account.table_under(office, tag)? {
            Some(shape) => println!("office {office}, tag {tag}: axes {}, level {}", shape.axes, shape.level),
            None => println!("office {office}, tag {tag}: free"),
        }
    }

    // a line for each office
    println!("account:");
    for tags in account.bytes().chunks(8) {
        tags.iter().for_each(|byte| print!(" {byte:02x}"));
        println!();
    }

    let mut bytes = *account.bytes();
    bytes[31] = 0x90; // 9 axes
    let refusal = Account::from_bytes(bytes).usage().unwrap_err();
    println!("usage of an account with a byte 0x90: refused with {}", refusal.number());
    Ok(())
}

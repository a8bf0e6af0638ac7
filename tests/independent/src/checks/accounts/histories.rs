//! Histories: many calls, each on the account that the one before it left, and the points open reckoned beside them; and one
//! office alone and among the others.

use super::contents::{self, bytes_of, of_bytes};
use super::{Bytes, Desk};
use crate::model::account::{points, Account, Call, Out, Slot, COMMON, IN_ALL, OWN};
use std::collections::BTreeMap;

const CALLS: usize = 300;

pub fn all(desk: &mut Desk, rounds: u64) {
    let (rounds, mut wanting) = (rounds.max(5), 0);
    for round in 0..rounds {
        history(desk);
        wanting += u64::from(isolation(desk, round % 2 == 0));
    }
    let say = || format!("{wanting} of {rounds}");
    desk.report.same("separate code with itself", "others want for points", &true, &(wanting > 0), &say);
}

/// What was opened and closed so far.
#[derive(Default)]
struct Book {
    /// The points of each open table.
    open: BTreeMap<Slot, u64>,
    opened: u64,
    closed: u64,
}

impl Book {
    /// A call that was not refused; where it should have been, the sums will not do.
    fn write(&mut self, call: &Call) {
        match *call {
            Call::Open { office, tag, axes, level } => {
                let points = points((axes, level)).unwrap_or(0);
                self.opened += points;
                self.open.insert((office, tag), points);
            }
            Call::Close { office, tag } => {
                self.closed += self.open.remove(&(office, tag)).unwrap_or(0);
            }
            _ => (),
        }
    }
}

/// Mostly openings until little is left, then mostly closings, and so on; looks between them.
fn history(desk: &mut Desk) {
    let mut bytes: Bytes = desk.draw.bytes(32).try_into().expect("32 bytes");
    bytes = desk.call(&bytes, &Call::Empty).left;
    let mut book = Book::default();
    let mut filling = true;
    for _ in 0..CALLS {
        if desk.draw.one_in(40) {
            filling = !filling;
        }
        let mut call = contents::call(&mut desk.draw, &desk.tables);
        if let (true, Call::Close { office, tag }) = (filling && desk.draw.one_in(2), call) {
            let (axes, level) = contents::numbers(&mut desk.draw, &desk.tables);
            call = Call::Open { office, tag, axes, level };
        } else if let (false, Call::Open { office, tag, .. }) = (filling || desk.draw.one_in(3), call) {
            call = Call::Close { office, tag };
        }
        let made = desk.call(&bytes, &call);
        if made.number == 0 {
            book.write(&call);
            and_again(desk, &bytes, &call, &made.left);
        }
        bytes = made.left;
        reckoned(desk, &bytes, &book);
    }
}

/// Closing what was just opened gives the very account back, and so does opening again what was just closed.
fn and_again(desk: &mut Desk, before: &Bytes, call: &Call, left: &Bytes) {
    let back = match *call {
        Call::Open { office, tag, .. } => Call::Close { office, tag },
        Call::Close { office, tag } => {
            let Out::Under(Some((axes, level))) = desk.call(before, &Call::Under { office, tag }).out else {
                desk.report
                    .same("table under", "what was closed", &true, &false, &|| format!("{call:?} on {before:?}"));
                return;
            };
            Call::Open { office, tag, axes, level }
        }
        _ => return,
    };
    let made = desk.call(left, &back);
    let say = || format!("{call:?} on {before:?}, then {back:?}");
    desk.report.same(back.kind(), "there and back", &(0, *before), &(made.number, made.left), &say);
}

/// The points open are those opened less those closed, and within the allowance; so are the common ones.
fn reckoned(desk: &mut Desk, bytes: &Bytes, book: &Book) {
    let found = desk.call(bytes, &Call::Usage).out;
    let say = || format!("{bytes:?}");
    let Out::Usage(usage) = found else {
        desk.report.same("usage", "in a history", &true, &false, &say);
        return;
    };
    let mut same = |what, want: u64, got: u64| desk.report.same("usage", what, &want, &got, &say);
    same("opened less closed", book.opened - book.closed, usage.in_all);
    same("of all tables", book.open.values().sum(), usage.in_all);
    same("of all offices", usage.by_office.iter().sum(), usage.in_all);
    same("common, used and free", COMMON, usage.common_used + usage.common_free);
    let within = usage.in_all <= IN_ALL && usage.common_used <= COMMON;
    desk.report.same("usage", "within the allowance", &true, &within, &say);
}

/// What an office sees of its own call: number and what it is told of its tables.
type Seen = (u32, Out);

/// The calls of an office of which no opening that is looked at to the end takes it above its own 4,096 points.
fn modest(desk: &mut Desk, office: u32) -> Vec<Call> {
    let mut alone = Account::default();
    let mut calls = vec![];
    while calls.len() < 40 {
        let tag = desk.draw.of(&[0, 1, 2, 3, 4, 5, 6, 7, 0, 1, 2, 3, 8, 256]);
        let call = match desk.draw.below(6) {
            0 => Call::Under { office, tag },
            1 => Call::Close { office, tag },
            _ => {
                let (axes, level) = if desk.draw.one_in(3) {
                    contents::numbers(&mut desk.draw, &desk.tables)
                } else {
                    desk.tables.within(&mut desk.draw, 1_500)
                };
                Call::Open { office, tag, axes, level }
            }
        };
        // what it would have open with all the common points free: alone it is not refused with 20
        if let Ok((left, _)) = call.answer(&alone) {
            if left.usage().in_all > OWN {
                continue;
            }
            alone = left;
        }
        calls.push(call);
    }
    calls
}

/// The calls of one office, alone and among those of the others: the same answers, none of them 20. Whether one of the others
/// was refused with 20.
fn isolation(desk: &mut Desk, all_common: bool) -> bool {
    let office = 1 + desk.draw.below(4) as u32;
    let calls = modest(desk, office);
    let mut alone = [0; 32];
    let mut seen: Vec<Seen> = vec![];
    for call in &calls {
        let made = desk.call(&alone, call);
        alone = made.left;
        seen.push((made.number, made.out));
    }
    // the others fill the common points before, and go on between
    let mut among = [0; 32];
    if all_common {
        // with all common points in use from the beginning
        let full = loop {
            let full = contents::with_common(&mut desk.draw, &desk.tables, COMMON);
            if full.usage().by_office[office as usize - 1] <= OWN {
                break full;
            }
        };
        let open = full.open.into_iter().filter(|(slot, _)| slot.0 != office).collect();
        among = bytes_of(&Account { open });
    }
    let mut refused = others(desk, &mut among, office, 30);
    for (call, want) in calls.iter().zip(&seen) {
        let between = desk.draw.index(5);
        refused += others(desk, &mut among, office, between);
        let made = desk.call(&among, call);
        let say = || format!("{call:?} of office {office}, which asks for no more than its own, on {among:?}");
        desk.report.same(call.kind(), "alone and among others", want, &(made.number, made.out), &say);
        desk.report.same(call.kind(), "for want of points", &false, &(made.number == 20), &say);
        among = made.left;
    }
    let own = |bytes: &Bytes| {
        let open = of_bytes(bytes).open;
        open.into_iter().filter(|(slot, _)| slot.0 == office).collect::<BTreeMap<_, _>>()
    };
    let say = || format!("office {office} on {among:?}");
    desk.report.same("open table", "an office's tables, alone and among others", &own(&alone), &own(&among), &say);
    refused > 0
}

/// So many calls of the other offices, and of some that there are not; how many were refused with 20.
fn others(desk: &mut Desk, bytes: &mut Bytes, office: u32, many: usize) -> usize {
    let mut refused = 0;
    for _ in 0..many {
        let call = contents::call(&mut desk.draw, &desk.tables);
        let of_office = match call {
            Call::Open { office, .. } | Call::Close { office, .. } | Call::Under { office, .. } => Some(office),
            _ => None,
        };
        if of_office == Some(office) {
            continue;
        }
        let made = desk.call(bytes, &call);
        *bytes = made.left;
        refused += usize::from(made.number == 20);
    }
    refused
}

//! Every number that a call can be handed about its ends, every set of faults at once, every byte at every place, every pair of
//! shapes.

use super::contents::{above_common, all_open, bytes_of, of_bytes, possible, with_common};
use super::{Bytes, Desk};
use crate::model::account::{points, Account, Call, Numbers, Slot, COMMON, OWN};
use std::collections::BTreeSet;

/// Offices, tags, axes and levels that are far out, and those that numbers of 8, 16 or 32 bits take for others.
const OFFICES: [u32; 10] = [8, 255, 256, 257, 260, 65_537, (1 << 29) + 1, 1 << 31, (1 << 31) + 1, u32::MAX];
const TAGS: [u32; 11] = [15, 16, 31, 32, 255, 256, 263, 65_536, 1 << 31, u32::MAX - 7, u32::MAX];
const FAR: [u32; 12] = [11, 15, 16, 17, 24, 255, 256, 257, 65_537, 1 << 31, (1 << 31) + 2, u32::MAX];

pub fn all(desk: &mut Desk, with_large: bool) {
    let accounts = accounts(desk);
    let some = if with_large { accounts.len() } else { 2 };
    for bytes in &accounts[..some] {
        numbers(desk, bytes);
    }
    faults(desk);
    // the empty one, a usual one, one with all points open, and one that no history gives
    let around = if with_large { vec![0, 1, 4, 6] } else { vec![1] };
    for which in around {
        each_byte(desk, &accounts[which]);
    }
    pairs(desk, with_large);
    orders(desk);
}

/// The empty account, a usual one, two where nearly all or all common points are in use, one with all points open, and three
/// that no history gives: by a byte, by a common point too many, by far.
fn accounts(desk: &mut Desk) -> Vec<Bytes> {
    let Desk { draw, tables, .. } = desk;
    let mut usual = Account::default();
    while usual.open.len() < 18 || usual.open.len() > 24 {
        usual = possible(draw, tables, 60);
    }
    let near = with_common(draw, tables, COMMON - 40);
    let full = with_common(draw, tables, COMMON);
    let all = all_open(draw, tables);
    let mut stray = bytes_of(&usual);
    stray[13] = 0x19;
    let above = above_common(draw, tables);
    let [usual, near, full, all, above] = [usual, near, full, all, above].map(|account| bytes_of(&account));
    vec![[0; 32], usual, near, full, all, stray, above, [8 * 16 + 5; 32]]
}

/// All axes and levels to 10, all offices to 6, all tags to 9, each with each; those far out with some of the others.
fn numbers(desk: &mut Desk, bytes: &Bytes) {
    let (small_offices, small_tags) = (0..=6, 0..=9);
    let shapes: Vec<Numbers> = (0..=10).flat_map(|axes| (0..=10).map(move |level| (axes, level))).collect();
    for &(axes, level) in &shapes {
        for office in small_offices.clone() {
            for tag in small_tags.clone() {
                desk.call(bytes, &Call::Open { office, tag, axes, level });
            }
        }
    }
    let others = [0, 3, 8, 9, u32::MAX];
    let far = FAR.iter().flat_map(|&far| others.map(|other| [(far, other), (other, far)]));
    for (axes, level) in far.flatten() {
        for office in small_offices.clone() {
            for tag in [0, 3, 7, 8] {
                desk.call(bytes, &Call::Open { office, tag, axes, level });
            }
        }
    }
    let offices: Vec<u32> = small_offices.chain(OFFICES).collect();
    let tags: Vec<u32> = small_tags.chain(TAGS).collect();
    for &office in &offices {
        for &tag in &tags {
            desk.call(bytes, &Call::Close { office, tag });
            desk.call(bytes, &Call::Under { office, tag });
            if office > 6 || tag > 9 {
                for (axes, level) in [(1, 0), (8, 5), (0, 3), (3, 9), (0, 9), (8, 8)] {
                    desk.call(bytes, &Call::Open { office, tag, axes, level });
                }
            }
        }
    }
    desk.call(bytes, &Call::Usage);
    desk.call(bytes, &Call::Empty);
}

/// The refusals of an opening in the order in which they are looked at.
const ORDER: [u32; 7] = [20, 1, 2, 19, 22, 21, 20];

/// Which of them an opening cannot have at once: what is no shape has no points, and nothing is open where there is no such
/// office or tag.
const NEVER_TOGETHER: [(usize, usize); 5] = [(1, 3), (1, 6), (2, 3), (2, 6), (4, 5)];

/// Whether an opening has each of them.
type Faults = [bool; ORDER.len()];

/// Every set of faults that an opening, a closing or a look can have at once: refused with the first of them.
fn faults(desk: &mut Desk) {
    // 50,948 points of office 1, and of office 2 the 511 under tag 0: 2,300 common points are left
    let tight = [(1, 0, 8, 5), (1, 1, 8, 4), (1, 2, 8, 4), (1, 3, 8, 4), (2, 0, 1, 8)];
    let roomy = [(1, 0, 1, 2), (2, 0, 1, 8)];
    // a byte that is none of 1, 2 and 19, or too many common points
    let strays = [None, Some(0x19), Some(0x90), Some(0x09), Some(0x86), Some(0xff)];
    let mut met = BTreeSet::new();
    for (tables, is_tight) in [(&tight[..], true), (&roomy[..], false)] {
        let open = tables.iter().map(|&(office, tag, axes, level)| ((office, tag), (axes, level))).collect();
        let base = bytes_of(&Account { open });
        let mut all: Vec<(bool, Bytes)> = vec![];
        for stray in strays {
            let mut bytes = base;
            bytes[21] = stray.unwrap_or(bytes[21]);
            all.push((stray.is_some(), bytes));
        }
        let mut above = base;
        above[24..26].fill(8 * 16 + 5);
        all.push((true, above));
        for (is_impossible, bytes) in all {
            faults_on(desk, &bytes, is_tight, is_impossible, &mut met);
        }
    }
    for one in 0..ORDER.len() {
        for other in one + 1..ORDER.len() {
            let together = met.iter().any(|set| set[one] && set[other]);
            let can = !NEVER_TOGETHER.contains(&(one, other));
            let say = || format!("faults {one} and {other} of {ORDER:?}");
            desk.report.same("separate code with itself", "two faults at once", &can, &together, &say);
        }
    }
}

fn faults_on(desk: &mut Desk, bytes: &Bytes, is_tight: bool, is_impossible: bool, met: &mut BTreeSet<Faults>) {
    for office in [0, 2, 5, 256 + 2] {
        for tag in [0, 6, 8, 256] {
            let (no_slot, is_open) = (!(1..=4).contains(&office) || tag > 7, office == 2 && tag == 0);
            // 1 and 511 points; 6,401, which are too many on the tight account; 40,193, and 65,537, which are always; none
            let shapes = [
                (1, 0),
                (1, 8),
                (8, 4),
                (6, 6),
                (4, 8),
                (0, 0),
                (9, 8),
                (1, 9),
                (8, 9),
                (0, 9),
                (9, 9),
                (u32::MAX, u32::MAX),
            ];
            for (axes, level) in shapes {
                let (no_axes, no_level) = (!(1..=8).contains(&axes), level > 8);
                let counted = match (axes, level) {
                    (1, 0) => 1,
                    (1, 8) => 511,
                    (8, 4) => 6_401,
                    (6, 6) => 40_193,
                    (4, 8) => 65_537,
                    _ => 0,
                };
                let free = if is_tight { 2_300 } else { COMMON };
                let above = office == 2 && 511 + counted > OWN + free;
                let faults: Faults = [is_impossible, no_axes, no_level, counted > 32_768, no_slot, is_open, above];
                met.insert(faults);
                let first = ORDER.iter().zip(faults).find_map(|(&number, fault)| fault.then_some(number));
                let call = Call::Open { office, tag, axes, level };
                let made = desk.call(bytes, &call);
                let say = || format!("{call:?} on {bytes:?}, faults {faults:?}");
                desk.report.same("open table", "the first fault", &first.unwrap_or(0), &made.number, &say);
            }
            let calls = [
                (Call::Close { office, tag }, [(20, is_impossible), (22, no_slot), (21, !is_open)]),
                (Call::Under { office, tag }, [(20, is_impossible), (22, no_slot), (21, false)]),
                (Call::Usage, [(20, is_impossible), (22, false), (21, false)]),
            ];
            for (call, faults) in calls {
                let first = faults.iter().find_map(|&(number, fault)| fault.then_some(number));
                let made = desk.call(bytes, &call);
                let say = || format!("{call:?} on {bytes:?}, faults {faults:?}");
                desk.report.same(call.kind(), "the first fault", &first.unwrap_or(0), &made.number, &say);
            }
        }
    }
}

/// Every byte at every place of an account.
fn each_byte(desk: &mut Desk, account: &Bytes) {
    for place in 0..32 {
        let (office, tag) = (place as u32 / 8 + 1, place as u32 % 8);
        for byte in 0..=255 {
            let mut bytes = *account;
            bytes[place] = byte;
            desk.call(&bytes, &Call::Usage);
            desk.call(&bytes, &Call::Under { office, tag });
            desk.call(&bytes, &Call::Close { office, tag });
            // under this tag, or under the next
            let tag = (tag + u32::from(byte) % 2) % 8;
            let (axes, level) = desk.tables.within(&mut desk.draw, 300);
            desk.call(&bytes, &Call::Open { office, tag, axes, level });
        }
    }
}

/// A table of every shape that can be opened beside one of every shape, by the same office and by another.
fn pairs(desk: &mut Desk, with_large: bool) {
    let shapes: Vec<Numbers> = desk.tables.all.iter().map(|table| table.0).collect();
    let step = if with_large { 1 } else { 7 };
    for &first in shapes.iter().step_by(step) {
        let (office, tag) = slot_of(desk);
        let alone = desk.call(&[0; 32], &Call::Open { office, tag, axes: first.0, level: first.1 }).left;
        let say = || format!("{first:?} under office {office} tag {tag}");
        let open = |bytes: &Bytes| of_bytes(bytes).open.into_iter().collect::<Vec<_>>();
        desk.report.same("open table", "the only table", &vec![((office, tag), first)], &open(&alone), &say);
        desk.call(&alone, &Call::Usage);
        for &(axes, level) in &shapes {
            let (both, one) = (points(first).unwrap() + points((axes, level)).unwrap(), points(first).unwrap());
            for other in [office, office % 4 + 1] {
                let call = Call::Open { office: other, tag: (tag + 1) % 8, axes, level };
                let made = desk.call(&alone, &call);
                let above = if other == office {
                    both.saturating_sub(OWN)
                } else {
                    one.saturating_sub(OWN) + (both - one).saturating_sub(OWN)
                };
                let want = if above > COMMON { 20 } else { 0 };
                let say = || format!("{call:?} beside {first:?} under office {office} tag {tag}");
                desk.report.same("open table", "beside another", &want, &made.number, &say);
            }
        }
    }
}

fn slot_of(desk: &mut Desk) -> Slot {
    (1 + desk.draw.below(4) as u32, desk.draw.below(8) as u32)
}

/// Whether a history gives an account does not depend on the order in which its tables are opened, and closing them in any
/// order leads back to the empty account.
fn orders(desk: &mut Desk) {
    for round in 0..60 {
        let Desk { draw, tables, .. } = desk;
        let account = match round % 4 {
            0 => above_common(draw, tables),
            1 => with_common(draw, tables, COMMON),
            _ => possible(draw, tables, 60),
        };
        let given = account.given().is_ok();
        let mut left: Vec<(Slot, Numbers)> = account.open.iter().map(|(&slot, &numbers)| (slot, numbers)).collect();
        let (mut bytes, mut refused) = ([0; 32], 0);
        while !left.is_empty() {
            let ((office, tag), (axes, level)) = left.swap_remove(desk.draw.index(left.len()));
            let made = desk.call(&bytes, &Call::Open { office, tag, axes, level });
            refused += u32::from(made.number != 0);
            bytes = made.left;
        }
        let say = || format!("{:?}", account.open);
        desk.report.same("open table", "an account in any order", &given, &(refused == 0), &say);
        let mut open: Vec<Slot> = of_bytes(&bytes).open.into_keys().collect();
        while !open.is_empty() {
            let (office, tag) = open.swap_remove(desk.draw.index(open.len()));
            bytes = desk.call(&bytes, &Call::Close { office, tag }).left;
        }
        desk.report.same("close table", "all closed", &[0; 32], &bytes, &say);
    }
}

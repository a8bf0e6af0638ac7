//! Accounts as bytes, and accounts of every kind: open at random, with the common points used to the last one, and impossible.

use super::{Bytes, Desk};
use crate::draw::Draw;
use crate::model::account::{points, Account, Call, Numbers, Slot, COMMON, IN_ALL, OWN};

/// The bytes of an account: that of office o and tag t is at (o − 1) × 8 + t, 0 or 16 × d + n.
pub fn bytes_of(account: &Account) -> Bytes {
    let mut bytes = [0; 32];
    for (&(office, tag), &(axes, level)) in &account.open {
        bytes[(office * 8 + tag - 8) as usize] = (axes * 16 + level) as u8;
    }
    bytes
}

/// The other way, whatever the bytes are.
pub fn of_bytes(bytes: &Bytes) -> Account {
    let slots = (1..=4).flat_map(|office| (0..=7).map(move |tag| (office, tag)));
    let open = slots.zip(bytes).filter(|(_, &byte)| byte != 0);
    Account { open: open.map(|(slot, &byte)| (slot, (u32::from(byte) / 16, u32::from(byte) % 16))).collect() }
}

/// The tables that can be opened, fewer points first, and which sums of points so many of them can have.
pub struct Tables {
    pub all: Vec<(Numbers, u64)>,
    /// `reached[k][s]`: whether k tables can have s points together.
    reached: Vec<Vec<bool>>,
}

/// By how much accounts are made to pass the common points.
const MOST_ABOVE: u64 = 500;

/// The most points that one office has open in an account that is made.
const MOST: u64 = OWN + COMMON + MOST_ABOVE;

impl Tables {
    pub fn new() -> Tables {
        let every = (1..=8).flat_map(|axes| (0..=8).map(move |level| (axes, level)));
        let mut all: Vec<(Numbers, u64)> = every.filter_map(|n| points(n).ok().map(|points| (n, points))).collect();
        all.sort_by_key(|table| table.1);
        let mut sizes: Vec<usize> = all.iter().map(|table| table.1 as usize).collect();
        sizes.dedup();
        let mut reached = vec![vec![false; MOST as usize + 1]];
        reached[0][0] = true;
        for k in 0..8 {
            let fewer: &Vec<bool> = &reached[k];
            let mut more = vec![false; fewer.len()];
            for sum in (0..fewer.len()).filter(|&sum| fewer[sum]) {
                for size in sizes.iter().take_while(|&size| sum + size < fewer.len()) {
                    more[sum + size] = true;
                }
            }
            reached.push(more);
        }
        Tables { all, reached }
    }

    /// One with so many points at the most.
    pub fn within(&self, draw: &mut Draw, most: u64) -> Numbers {
        let many = self.all.partition_point(|table| table.1 <= most).max(1);
        self.all[draw.index(many)].0
    }

    /// One of any size, smaller ones or large ones.
    pub fn any(&self, draw: &mut Draw) -> Numbers {
        let most = draw.of(&[1, 20, 300, 1_500, 4_096, 7_000, 32_768, 32_768]);
        if draw.one_in(4) {
            let few = self.all.partition_point(|table| table.1 < 4_096);
            return self.all[few + draw.index(self.all.len() - few)].0;
        }
        self.within(draw, most)
    }

    /// Up to eight with exactly so many points together, if there are.
    fn of_sum(&self, draw: &mut Draw, points: u64) -> Option<Vec<Numbers>> {
        let possible: Vec<usize> = (0..=8).filter(|&k| self.reached[k][points as usize]).collect();
        if possible.is_empty() {
            return None;
        }
        let (mut left, mut found) = (points, vec![]);
        for k in (0..draw.of(&possible)).rev() {
            let fits = |table: &&(Numbers, u64)| table.1 <= left && self.reached[k][(left - table.1) as usize];
            let fitting: Vec<&(Numbers, u64)> = self.all.iter().filter(fits).collect();
            let &(numbers, points) = fitting[draw.index(fitting.len())];
            left -= points;
            found.push(numbers);
        }
        Some(found)
    }
}

/// A shape to be opened: mostly one that is.
pub fn numbers(draw: &mut Draw, tables: &Tables) -> Numbers {
    let (axes, level) = tables.any(draw);
    let bad_axes = [0, 9, 10, 16, 255, 256, 256 + axes, 65_536 + axes, 1 << 31, (1 << 31) + axes, u32::MAX];
    let bad_level = [9, 10, 15, 16, 31, 32, 255, 256 + level, 65_536 + level, 1 << 31, (1 << 31) + level, u32::MAX];
    match draw.below(24) {
        0 => (draw.of(&bad_axes), level),
        1 => (axes, draw.of(&bad_level)),
        2 if draw.one_in(3) => (draw.of(&bad_axes), draw.of(&bad_level)),
        3 => draw.of(&[(8, 6), (7, 6), (6, 6), (5, 7), (4, 8), (8, 8), (6, 7), (5, 8), (8, 7), (7, 8)]),
        _ => (axes, level),
    }
}

/// An office and a tag: mostly ones that there are.
pub fn slot(draw: &mut Draw) -> Slot {
    let (office, tag) = (1 + draw.below(4) as u32, draw.below(8) as u32);
    let bad_office = [0, 5, 6, 8, 255, 256 + office, 65_536 + office, (1 << 29) + office, (1 << 31) + office, u32::MAX];
    let bad_tag = [8, 9, 15, 16, 31, 32, 256 + tag, 65_536 + tag, (1 << 31) + tag, u32::MAX - tag];
    match draw.below(24) {
        0 => (draw.of(&bad_office), tag),
        1 => (office, draw.of(&bad_tag)),
        2 if draw.one_in(3) => (draw.of(&bad_office), draw.of(&bad_tag)),
        _ => (office, tag),
    }
}

/// A call of any office.
pub fn call(draw: &mut Draw, tables: &Tables) -> Call {
    let (office, tag) = slot(draw);
    match draw.below(8) {
        0 => Call::Usage,
        1 => Call::Under { office, tag },
        2 | 3 => Call::Close { office, tag },
        _ => {
            let (axes, level) = numbers(draw, tables);
            Call::Open { office, tag, axes, level }
        }
    }
}

/// An account that a history gives: so many tables are tried.
pub fn possible(draw: &mut Draw, tables: &Tables, tried: usize) -> Account {
    let mut account = Account::default();
    for _ in 0..tried {
        let (office, tag) = (1 + draw.below(4) as u32, draw.below(8) as u32);
        let (axes, level) = tables.any(draw);
        if let Ok((opened, _)) = (Call::Open { office, tag, axes, level }).answer(&account) {
            account = opened;
        }
    }
    account
}

/// An account with exactly so many common points in use, whether or not a history gives it.
pub fn with_common(draw: &mut Draw, tables: &Tables, common: u64) -> Account {
    loop {
        if let Some(account) = try_common(draw, tables, common) {
            return account;
        }
    }
}

/// The same, where what was drawn can be had.
fn try_common(draw: &mut Draw, tables: &Tables, common: u64) -> Option<Account> {
    let mut account = Account::default();
    let (first, above) = (draw.below(4) as u32, 1 + draw.below(4) as u32);
    let mut left = common;
    for k in 0..4 {
        let any = draw.below(left + 1);
        let part = if k + 1 == above { left } else { draw.of(&[0, 1.min(left), any, any, any, any]) };
        let open = if k < above {
            left -= part;
            tables.of_sum(draw, OWN + part)?
        } else {
            // of its own as many as were drawn, or the next fewer that can be had
            let any = draw.below(OWN + 1);
            let most = draw.of(&[OWN, OWN - 1, any, any]);
            (0..=most).rev().find_map(|points| tables.of_sum(draw, points))?
        };
        let mut tags: Vec<u32> = (0..8).collect();
        for numbers in open {
            account.open.insert(((first + k) % 4 + 1, tags.swap_remove(draw.index(tags.len()))), numbers);
        }
    }
    Some(account)
}

/// An account that no history gives, though its bytes stand for shapes and it has no more than 65,536 points.
pub fn above_common(draw: &mut Draw, tables: &Tables) -> Account {
    loop {
        let common = COMMON + draw.of(&[1, 1, 2, 3, MOST_ABOVE]);
        let account = with_common(draw, tables, common);
        if account.usage().in_all <= IN_ALL {
            return account;
        }
    }
}

/// An account with all its 65,536 points open: each office has its own, and together they have all that is common.
pub fn all_open(draw: &mut Draw, tables: &Tables) -> Account {
    loop {
        let account = with_common(draw, tables, COMMON);
        if account.usage().in_all == IN_ALL {
            return account;
        }
    }
}

/// Bytes of any kind.
fn bytes(draw: &mut Draw, tables: &Tables) -> Bytes {
    match draw.below(10) {
        0 => draw.bytes(32).try_into().expect("32 bytes"),
        1 => {
            // bytes that are mostly shapes, on all sizes
            let some = 1 + draw.below(9);
            let mut bytes = [0; 32];
            for byte in &mut bytes {
                if draw.one_in(some) {
                    let (axes, level) = tables.any(draw);
                    *byte = (axes * 16 + level) as u8;
                }
            }
            bytes
        }
        2 => {
            let tried = draw.index(40);
            let mut bytes = bytes_of(&possible(draw, tables, tried));
            bytes[draw.index(32)] = draw.bits() as u8;
            bytes
        }
        3 => bytes_of(&with_common(draw, tables, COMMON)),
        4 => bytes_of(&above_common(draw, tables)),
        5 => {
            let near = COMMON - draw.below(600);
            bytes_of(&with_common(draw, tables, near))
        }
        _ => {
            let tried = draw.index(60);
            bytes_of(&possible(draw, tables, tried))
        }
    }
}

/// Bytes of some kind, and on them a few calls.
pub fn random(desk: &mut Desk, round: u64) {
    let bytes = bytes(&mut desk.draw, &desk.tables);
    desk.call(&bytes, &Call::Usage);
    for _ in 0..5 {
        let call = call(&mut desk.draw, &desk.tables);
        desk.call(&bytes, &call);
    }
    if round % 16 == 15 {
        to_the_last(desk);
    }
    if round % 100 == 99 {
        desk.call(&bytes, &Call::Empty);
    }
}

/// An account that uses all common points but one table's, and one that lacks one point for it: the table is opened, or
/// refused. Then each office tries a point more.
fn to_the_last(desk: &mut Desk) {
    for above in 0..=1 {
        let full = with_common(&mut desk.draw, &desk.tables, COMMON + above);
        let open: Vec<(Slot, Numbers)> = full.open.iter().map(|(&slot, &numbers)| (slot, numbers)).collect();
        let ((office, tag), (axes, level)) = desk.draw.of(&open);
        let mut less = full.clone();
        less.open.remove(&(office, tag));
        let less = bytes_of(&less);
        let made = desk.call(&less, &Call::Open { office, tag, axes, level });
        let bytes = bytes_of(&full);
        let say = || format!("the last table of {bytes:?}, office {office} tag {tag}");
        if above == 0 {
            desk.report.same("open table", "the last common point", &(0, bytes), &(made.number, made.left), &say);
        } else {
            desk.report.same("open table", "a common point too many", &(20, less), &(made.number, made.left), &say);
        }
        for office in 1..=4 {
            for tag in 0..=7 {
                desk.call(&bytes, &Call::Open { office, tag, axes: 1, level: 0 });
            }
            let tag = desk.draw.below(8) as u32;
            desk.call(&bytes, &Call::Close { office, tag });
        }
        desk.call(&bytes, &Call::Usage);
    }
}

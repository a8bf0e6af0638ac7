//! The account that four offices share: opening, closing, usage and the table under a tag, in nanoseconds each.

use crate::input;
use crate::plain::accounts as plain;
use crate::points::COLUMNS;
use crate::table::{first_and_head, first_and_row};
use crate::timing::{contest, nanoseconds, Contestant};
use numolefays::{Account, Refusal, Shape};
use std::hint::black_box;

const SAMPLE: usize = 20_000;

/// Axes and level of what each office has open, from tag 0 on.
const OPEN: [&[(u32, u32)]; 4] = [
    &[(8, 4), (4, 5), (3, 4), (2, 6), (1, 8)],
    &[(5, 4), (6, 4), (2, 8), (3, 5)],
    &[(4, 6), (8, 3), (7, 3), (2, 4), (1, 6), (1, 7)],
    &[(3, 7), (5, 3), (4, 4), (6, 2), (2, 5)],
];

/// Office, tag, axes and level.
type Call = [u32; 4];

pub fn print(seconds: f64) {
    let mut some = Account::new();
    for (office, tables) in (1..).zip(OPEN) {
        for (tag, &(axes, level)) in (0..).zip(tables) {
            some.open(office, tag, axes, level).expect("an account with room for it");
        }
    }
    for bytes in accounts(&some) {
        same_answers(&bytes);
    }
    let what = "Accounts: ns each (how many times as long the library takes)";
    first_and_head("tables open", "what", what, &COLUMNS);
    for account in [some, Account::new()] {
        rows(&account, seconds);
    }
}

fn rows(account: &Account, seconds: f64) {
    let open = account.bytes().iter().filter(|&&byte| byte != 0).count().to_string();
    let print = |what: &str, times: &[f64]| first_and_row(&open, what, times, SAMPLE as f64);
    let is_opened = |&[office, tag, axes, level]: &Call| {
        let mut copy = *account;
        copy.open(office, tag, axes, level)
    };
    let of = |answer: Result<(), u32>| -> Vec<Call> {
        let alike: Vec<Call> =
            calls().into_iter().filter(|call| is_opened(call).map_err(Refusal::number) == answer).collect();
        let chosen = input::numbers(SAMPLE, alike.len().max(1) as u64);
        chosen.into_iter().filter_map(|k| alike.get(k as usize).copied()).collect()
    };
    print("open a table", &opening(account, &of(Ok(())), seconds));
    let refused = of(Err(20));
    if !refused.is_empty() {
        print("open a table, refused with 20", &opening(account, &refused, seconds));
    }
    let slots: Vec<Call> = of(Err(21));
    if slots.is_empty() {
        print("close a table, refused with 21", &closing(account, &of(Ok(())), seconds));
        print("nothing under a tag", &under(account, &of(Ok(())), seconds));
    } else {
        print("close a table", &closing(account, &slots, seconds));
        print("the table under a tag", &under(account, &slots, seconds));
    }
    print("usage", &usage(account, seconds));
}

/// Every table under every tag of every office.
fn calls() -> Vec<Call> {
    let mut all = vec![];
    for place in 0..32 {
        for (axes, level) in (1..=8).flat_map(|axes| (0..=8).map(move |level| (axes, level))) {
            if Shape::new(axes, level).points().is_ok() {
                all.push([place / 8 + 1, place % 8, axes, level]);
            }
        }
    }
    all
}

/// The empty account, this one, and some that are refused or nearly.
fn accounts(some: &Account) -> Vec<[u8; 32]> {
    let mut all = vec![[0; 32], *some.bytes(), [8 * 16 + 5; 32], [16; 32], [0xff; 32]];
    // one table of 31,745 points and three of 6,401: 50,948 of one office; with a fourth it has 53,253 above its own
    for more in [0, 8 * 16 + 4] {
        let mut full = [0; 32];
        full[8..13].copy_from_slice(&[8 * 16 + 5, 8 * 16 + 4, 8 * 16 + 4, 8 * 16 + 4, more]);
        full[30] = 24;
        all.push(full);
    }
    for byte in 0..=255 {
        let mut one = [0; 32];
        one[byte as usize % 32] = byte;
        all.push(one);
        let mut beside = *some.bytes();
        beside[byte as usize * 7 % 32] = byte;
        all.push(beside);
    }
    all
}

/// The same numbers and outputs, and the same account afterwards.
fn same_answers(bytes: &[u8; 32]) {
    let library = Account::from_bytes(*bytes);
    let mine = library.usage().map(|u| (u.by_office, u.in_all, u.common_used, u.common_free)).map_err(Refusal::number);
    let other = plain::usage(bytes)
        .map(|u| (u.by_office.map(u64::from), u64::from(u.in_all), u64::from(u.common_used), u64::from(u.common_free)));
    assert_eq!(mine, other, "the same usage of {bytes:?}");
    for office in [0, 1, 2, 3, 4, 5, 257, u32::MAX] {
        for tag in [0, 1, 4, 5, 7, 8, 256, u32::MAX] {
            for (axes, level) in [(1, 0), (8, 4), (3, 8), (8, 5), (6, 6), (0, 9), (9, 0), (1, 9), (257, 0), (1, 256)] {
                let (mut mine, mut other) = (library, *bytes);
                let answer = mine.open(office, tag, axes, level).map_err(Refusal::number);
                assert_eq!(answer, plain::open(&mut other, office, tag, axes, level));
                assert_eq!(*mine.bytes(), other, "the same account after opening");
            }
            let (mut mine, mut other) = (library, *bytes);
            assert_eq!(mine.close(office, tag).map_err(Refusal::number), plain::close(&mut other, office, tag));
            assert_eq!(*mine.bytes(), other, "the same account after closing");
            let found = library.table_under(office, tag).map(|found| found.map(|shape| (shape.axes, shape.level)));
            assert_eq!(found.map_err(Refusal::number), plain::table_under(bytes, office, tag));
        }
    }
}

/// Every call by the library and by plain code, on the account as it is.
fn both(
    account: &Account,
    calls: &[Call],
    seconds: f64,
    library: impl Fn(&Account, Call),
    plain: impl Fn(&[u8; 32], Call),
) -> Vec<f64> {
    let mut all: [Contestant; 2] = [
        Box::new(|| nanoseconds(|| calls.iter().for_each(|call| library(black_box(account), black_box(*call))))),
        Box::new(|| nanoseconds(|| calls.iter().for_each(|call| plain(black_box(account.bytes()), black_box(*call))))),
    ];
    contest(&mut all, seconds, 25)
}

/// A call on a copy of the account, which is seen afterwards.
fn on_copy<A: Copy, T>(account: &A, call: impl Fn(&mut A) -> T) {
    let mut copy = *account;
    let _ = black_box(call(&mut copy));
    black_box(&copy);
}

fn opening(account: &Account, calls: &[Call], seconds: f64) -> Vec<f64> {
    both(
        account,
        calls,
        seconds,
        |account, [office, tag, axes, level]| on_copy(account, |copy| copy.open(office, tag, axes, level)),
        |bytes, [office, tag, axes, level]| on_copy(bytes, |copy| plain::open(copy, office, tag, axes, level)),
    )
}

fn closing(account: &Account, calls: &[Call], seconds: f64) -> Vec<f64> {
    both(
        account,
        calls,
        seconds,
        |account, [office, tag, ..]| on_copy(account, |copy| copy.close(office, tag)),
        |bytes, [office, tag, ..]| on_copy(bytes, |copy| plain::close(copy, office, tag)),
    )
}

fn under(account: &Account, calls: &[Call], seconds: f64) -> Vec<f64> {
    both(
        account,
        calls,
        seconds,
        |account, [office, tag, ..]| _ = black_box(account.table_under(office, tag)),
        |bytes, [office, tag, ..]| _ = black_box(plain::table_under(bytes, office, tag)),
    )
}

fn usage(account: &Account, seconds: f64) -> Vec<f64> {
    let calls = [Call::default(); SAMPLE];
    both(
        account,
        &calls,
        seconds,
        |account, _| _ = black_box(account.usage()),
        |bytes, _| _ = black_box(plain::usage(bytes)),
    )
}

//! The account that four offices share, change request i: each call on an account of any 32 bytes, through the boundary with
//! every output and the account compared, and through the safe wrapper.

pub mod contents;
pub mod edges;
pub mod histories;
pub mod worked;

use super::{account_misreadings, answer, refusal};
use crate::boundary;
use crate::draw::Draw;
use crate::lent;
use crate::model::account::{Account, Call, Out, Usage};
use crate::model::Refused;
use crate::report::Report;
use contents::{bytes_of, of_bytes, Tables};

pub type Bytes = [u8; 32];

/// Where calls are made: what they are drawn from, and what is written down of them.
pub struct Desk<'a> {
    pub draw: Draw,
    pub report: &'a mut Report,
    pub tables: Tables,
}

/// What the library answered.
pub struct Made {
    pub number: u32,
    /// What it wrote, where it was not refused.
    pub out: Out,
    /// The account that it left.
    pub left: Bytes,
}

impl Desk<'_> {
    /// One call on an account that is handed in as it is.
    pub fn call(&mut self, bytes: &Bytes, call: &Call) -> Made {
        let account = of_bytes(bytes);
        let want = call.answer(&account);
        self.report.case(call.kind(), answer(&want).0);
        account_misreadings::of_call(self.report, &account, call, &want);
        self.wrapped(bytes, call, &want);
        self.compared(bytes, call, &want)
    }

    fn compared(&mut self, bytes: &Bytes, call: &Call, want: &Result<(Account, Out), Refused>) -> Made {
        let kind = call.kind();
        let say = || format!("{call:?} on {bytes:?}");
        let mut lent = lent::bytes(bytes, &mut self.draw);
        let account: &mut Bytes = lent.slice().try_into().expect("32 bytes");
        let mut at = self.draw.bits();
        // what the outputs hold before, and after a refusal
        let junk = [(); 7].map(|()| self.draw.bits());
        let junk_numbers = [(); 3].map(|()| self.draw.bits() as u32);
        let [a, b, c, d, mut in_all, mut used, mut free] = junk;
        let mut by_office = [a, b, c, d];
        let [mut axes, mut level, mut none] = junk_numbers;
        let number = match *call {
            Call::Empty => boundary::empty_account(account, &mut at),
            Call::Open { office, tag, axes, level } => boundary::open_table(account, office, tag, axes, level, &mut at),
            Call::Close { office, tag } => boundary::close_table(account, office, tag, &mut at),
            Call::Usage => boundary::account_usage(account, &mut by_office, &mut in_all, &mut used, &mut free, &mut at),
            Call::Under { office, tag } => {
                boundary::table_under(account, office, tag, &mut axes, &mut level, &mut none, &mut at)
            }
        };
        self.report.same(kind, "answer and place", &answer(want), &(number, at), &say);
        let want_left = want.as_ref().map_or(*bytes, |(left, _)| bytes_of(left));
        let left: Bytes = lent.contents().try_into().expect("32 bytes");
        self.report.same(kind, "account", &want_left, &left, &say);
        self.report.same(kind, "outside the account", &true, &lent.guarded(), &say);
        let out = want.as_ref().map_or(Out::Nothing, |(_, out)| *out);
        if *call == Call::Usage {
            let held = Usage { by_office: [a, b, c, d], in_all: junk[4], common_used: junk[5], common_free: junk[6] };
            let want_usage = if let Out::Usage(usage) = out { usage } else { held };
            let usage = Usage { by_office, in_all, common_used: used, common_free: free };
            self.report.same(kind, "usage", &want_usage, &usage, &say);
            let out = if number == 0 { Out::Usage(usage) } else { Out::Nothing };
            return Made { number, out, left };
        }
        if let Call::Under { .. } = call {
            let [held_axes, held_level, held_none] = junk_numbers;
            let want_numbers = match out {
                Out::Under(Some((axes, level))) => [axes, level, 0],
                Out::Under(None) => [held_axes, held_level, 1],
                _ => [held_axes, held_level, held_none],
            };
            self.report.same(kind, "axes, level and none", &want_numbers, &[axes, level, none], &say);
            let out = if number == 0 { Out::Under((none == 0).then_some((axes, level))) } else { Out::Nothing };
            return Made { number, out, left };
        }
        Made { number, out: Out::Nothing, left }
    }

    fn wrapped(&mut self, bytes: &Bytes, call: &Call, want: &Result<(Account, Out), Refused>) {
        let kind = call.kind();
        let say = || format!("{call:?} on {bytes:?}");
        let mut account = numolefays::Account::from_bytes(*bytes);
        let got = match *call {
            Call::Empty => {
                account = numolefays::Account::new();
                Ok(Out::Nothing)
            }
            Call::Open { office, tag, axes, level } => account.open(office, tag, axes, level).map(|()| Out::Nothing),
            Call::Close { office, tag } => account.close(office, tag).map(|()| Out::Nothing),
            Call::Usage => account.usage().map(|usage| {
                let numolefays::Usage { by_office, in_all, common_used, common_free } = usage;
                Out::Usage(Usage { by_office, in_all, common_used, common_free })
            }),
            Call::Under { office, tag } => account.table_under(office, tag).map(|found| {
                Out::Under(found.map(|shape| {
                    assert!(!shape.border, "a table of an account has no border values");
                    (shape.axes, shape.level)
                }))
            }),
        };
        let want_left = want.as_ref().map_or(*bytes, |(left, _)| bytes_of(left));
        let want = want.as_ref().map(|(_, out)| *out).map_err(|&refused| refusal(refused));
        self.report.same(kind, "wrapper", &want, &got, &say);
        self.report.same(kind, "wrapper's account", &want_left, account.bytes(), &say);
    }
}

/// What there is of all this, in the order in which it is run.
pub fn all(seed: u64, rounds: u64, with_large: bool, report: &mut Report) {
    let mut desk = Desk { draw: Draw::new(seed ^ 0x61_6363_6f75_6e74), report, tables: Tables::new() };
    worked::worked(&mut desk);
    edges::all(&mut desk, with_large);
    for round in 0..rounds {
        contents::random(&mut desk, round);
    }
    histories::all(&mut desk, rounds / 100);
}

//! Wrong readings of the rules of a shared account, change request i, and how many calls would show a library that follows
//! one. A rule is what the calls look at and in which order; the right one is put to the test too.

use crate::model::account::{Account, Call, Numbers, Out, Slot, Usage, COMMON, OWN};
use crate::model::grid::count;
use crate::model::{Refused, MOST_POINTS};
use crate::report::Report;
use std::array::from_fn;
use std::ops::RangeInclusive;
use std::sync::OnceLock;

/// One thing that a call looks at.
#[derive(Clone, Copy)]
enum Test {
    /// 20, of the account that was handed in.
    Account,
    /// 1, 2 and 19 of the shape that is to be opened; where there is none, of what stands under the tag.
    Axes,
    Level,
    Points,
    /// 22.
    Slot,
    /// 21.
    Tag,
    /// 20, of the account that an opening would leave.
    Allowance,
}
use Test::{Account as Given, Allowance, Axes, Level, Points, Slot as Exists, Tag};

/// The points in use, as the rules look at them.
#[derive(Clone, Copy, Default)]
struct InUse {
    /// Of offices 0 to 5.
    by_office: [u64; 6],
    /// What each table has above 4,096.
    above_by_table: u64,
}

impl InUse {
    fn add(&mut self, (office, _): Slot, points: u64) {
        if let Some(open) = self.by_office.get_mut(office as usize) {
            *open += points;
        }
        self.above_by_table += points.saturating_sub(OWN);
    }

    fn in_all(&self) -> u64 {
        self.by_office.iter().sum()
    }

    fn sum(&self, of: impl Fn(u64) -> u64) -> u64 {
        self.by_office.iter().map(|&open| of(open)).sum()
    }
}

/// How many points are common, and how many may be.
type Common = (fn(&InUse) -> u64, u64);

/// Which tables make 21.
#[derive(Clone, Copy, PartialEq)]
enum Open {
    UnderTheTag,
    /// Under this tag of any office.
    OfAnyOffice,
    /// At the place of these numbers in the bytes of an account, which may be that of another tag.
    AtThePlace,
}

#[derive(Clone)]
struct Rule {
    opening: &'static [Test],
    closing: &'static [Test],
    usage: &'static [Test],
    under: &'static [Test],
    common_of_opening: Common,
    common_of_account: Common,
    common_of_usage: fn(&InUse) -> u64,
    /// Whether a byte that stands for no shape makes an account impossible.
    shapes_of_account: bool,
    offices: RangeInclusive<u32>,
    tags: RangeInclusive<u32>,
    open: Open,
    /// What looking under a tag with nothing open is refused with.
    nothing_open: Option<u32>,
}

const ABOVE_OWN: fn(&InUse) -> u64 = |used| used.sum(|open| open.saturating_sub(OWN));

const RULE: Rule = Rule {
    opening: &[Given, Axes, Level, Points, Exists, Tag, Allowance],
    closing: &[Given, Exists, Tag],
    usage: &[Given],
    under: &[Given, Exists],
    common_of_opening: (ABOVE_OWN, COMMON),
    common_of_account: (ABOVE_OWN, COMMON),
    common_of_usage: ABOVE_OWN,
    shapes_of_account: true,
    offices: 1..=4,
    tags: 0..=7,
    open: Open::UnderTheTag,
    nothing_open: None,
};

type Wrong = (&'static str, Rule);

/// A wrong way to reckon the common points: of an opening, of the account that is handed in, in what is reported.
macro_rules! reckoned {
    ($how:literal, $common:expr) => {
        [
            (concat!($how, ", on opening"), Rule { common_of_opening: ($common, COMMON), ..RULE }),
            (concat!($how, ", of the account"), Rule { common_of_account: ($common, COMMON), ..RULE }),
            (concat!($how, ", as reported"), Rule { common_of_usage: $common, ..RULE }),
        ]
    };
}

const RECKONED: [[Wrong; 3]; 6] = [
    reckoned!("4,096 for all offices together", |used| used.in_all().saturating_sub(OWN)),
    reckoned!("what is above 4,096 twice", |used| 2 * ABOVE_OWN(used)),
    // so that up to 65,536 in all are accepted, and no more is asked
    reckoned!("all that is above 16,384 in all", |used| used.in_all().saturating_sub(4 * OWN)),
    reckoned!("4,096 for each table", |used| used.above_by_table),
    reckoned!("all of an office that has more than 4,096", |used| used.sum(|open| if open > OWN { open } else { 0 })),
    reckoned!("all points", InUse::in_all),
];

const LIMITS: [Wrong; 6] = [
    ("49,152 common refused on opening", Rule { common_of_opening: (ABOVE_OWN, COMMON - 1), ..RULE }),
    ("49,153 common not refused on opening", Rule { common_of_opening: (ABOVE_OWN, COMMON + 1), ..RULE }),
    ("an account of 49,152 common refused", Rule { common_of_account: (ABOVE_OWN, COMMON - 1), ..RULE }),
    ("an account of 49,153 common not refused", Rule { common_of_account: (ABOVE_OWN, COMMON + 1), ..RULE }),
    ("an account of any shapes not refused", Rule { common_of_account: (|_| 0, 0), ..RULE }),
    ("bytes that are no shape not refused", Rule { shapes_of_account: false, ..RULE }),
];

const ORDERS: [Wrong; 15] = [
    ("20 before 21 on opening", Rule { opening: &[Given, Axes, Level, Points, Exists, Allowance, Tag], ..RULE }),
    ("20 before 22 on opening", Rule { opening: &[Given, Axes, Level, Points, Allowance, Exists, Tag], ..RULE }),
    ("22 before 1, 2, 19", Rule { opening: &[Given, Exists, Axes, Level, Points, Tag, Allowance], ..RULE }),
    ("22 before 19", Rule { opening: &[Given, Axes, Level, Exists, Points, Tag, Allowance], ..RULE }),
    ("21 before 1, 2, 19", Rule { opening: &[Given, Tag, Axes, Level, Points, Exists, Allowance], ..RULE }),
    ("21 before 19", Rule { opening: &[Given, Axes, Level, Tag, Points, Exists, Allowance], ..RULE }),
    ("20 before 19 on opening", Rule { opening: &[Given, Axes, Level, Allowance, Points, Exists, Tag], ..RULE }),
    ("2 before 1", Rule { opening: &[Given, Level, Axes, Points, Exists, Tag, Allowance], ..RULE }),
    (
        "21 of the place in the bytes before 22 on opening",
        Rule { opening: &[Given, Axes, Level, Points, Tag, Exists, Allowance], open: Open::AtThePlace, ..RULE },
    ),
    ("21 before 22 on closing", Rule { closing: &[Given, Tag, Exists], ..RULE }),
    ("the account last on opening", Rule { opening: &[Axes, Level, Points, Exists, Tag, Allowance, Given], ..RULE }),
    ("the account after 1, 2, 19", Rule { opening: &[Axes, Level, Points, Given, Exists, Tag, Allowance], ..RULE }),
    ("the account last on closing", Rule { closing: &[Exists, Tag, Given], ..RULE }),
    ("the account after 22 by tag", Rule { under: &[Exists, Given], ..RULE }),
    ("1, 2, 19 of the table that is closed", Rule { closing: &[Axes, Level, Points, Given, Exists, Tag], ..RULE }),
];

const LEFT_OUT: [Wrong; 13] = [
    ("the account not looked at on opening", Rule { opening: &[Axes, Level, Points, Exists, Tag, Allowance], ..RULE }),
    ("the account not looked at on closing", Rule { closing: &[Exists, Tag], ..RULE }),
    ("the account not looked at for its usage", Rule { usage: &[], ..RULE }),
    ("the account not looked at by tag", Rule { under: &[Exists], ..RULE }),
    ("19 left out", Rule { opening: &[Given, Axes, Level, Exists, Tag, Allowance], ..RULE }),
    ("21 left out on opening", Rule { opening: &[Given, Axes, Level, Points, Exists, Allowance], ..RULE }),
    ("20 left out on opening", Rule { opening: &[Given, Axes, Level, Points, Exists, Tag], ..RULE }),
    ("tag 8 taken", Rule { tags: 0..=8, ..RULE }),
    ("tag 7 refused", Rule { tags: 0..=6, ..RULE }),
    ("office 0 taken", Rule { offices: 0..=4, ..RULE }),
    ("office 5 taken", Rule { offices: 1..=5, ..RULE }),
    ("a tag is of all offices", Rule { open: Open::OfAnyOffice, ..RULE }),
    ("21 where nothing is open by tag", Rule { nothing_open: Some(21), ..RULE }),
];

fn wrong() -> impl Iterator<Item = &'static Wrong> {
    static ALL: ([[Wrong; 3]; 6], [Wrong; 6], [Wrong; 15], [Wrong; 13]) = (RECKONED, LIMITS, ORDERS, LEFT_OUT);
    ALL.0.iter().flatten().chain(&ALL.1).chain(&ALL.2).chain(&ALL.3)
}

pub fn names() -> impl Iterator<Item = &'static str> {
    wrong().map(|reading| reading.0)
}

/// A call with this answer: the wrong readings that give another.
pub fn of_call(report: &mut Report, account: &Account, call: &Call, want: &Result<(Account, Out), Refused>) {
    let Some(spot) = Spot::new(account, call) else { return };
    let want = want.as_ref().map(|answer| answer.1).map_err(|refused| refused.0);
    let say = || format!("{call:?} on {:?}", account.open);
    report.same("separate code with itself", "by a list of tests", &want, &spot.answer(&RULE), &say);
    for (name, rule) in wrong() {
        if spot.answer(rule) != want {
            report.shown(name);
        }
    }
}

/// All that the rules look at in one call.
struct Spot<'a> {
    account: &'a Account,
    call: Call,
    slot: Slot,
    /// What is to be opened, or what stands under the tag.
    numbers: Option<Numbers>,
    shapes: bool,
    before: InUse,
    after: InUse,
}

/// The points of a shape of any size; of what is none, nothing is counted.
fn counted((axes, level): Numbers) -> Option<u64> {
    static KNOWN: OnceLock<[[u64; 9]; 8]> = OnceLock::new();
    let all = || from_fn(|t| from_fn(|level| count(t as u32 + 1, level as u32) as u64));
    let is_counted = (1..=8).contains(&axes) && level <= 8;
    is_counted.then(|| KNOWN.get_or_init(all)[axes as usize - 1][level as usize])
}

fn too_large(points: u64) -> bool {
    u128::from(points) > MOST_POINTS
}

impl Spot<'_> {
    fn new<'a>(account: &'a Account, call: &Call) -> Option<Spot<'a>> {
        let (slot, new) = match *call {
            // there is nothing to look at
            Call::Empty => return None,
            Call::Open { office, tag, axes, level } => ((office, tag), Some((axes, level))),
            Call::Close { office, tag } | Call::Under { office, tag } => ((office, tag), None),
            Call::Usage => ((1, 0), None),
        };
        let (mut before, mut shapes) = (InUse::default(), true);
        for (&slot, &numbers) in &account.open {
            let points = counted(numbers);
            before.add(slot, points.unwrap_or(0));
            shapes &= points.is_some_and(|points| !too_large(points));
        }
        let mut after = before;
        after.add(slot, new.and_then(counted).unwrap_or(0));
        let numbers = new.or_else(|| account.open.get(&slot).copied());
        Some(Spot { account, call: *call, slot, numbers, shapes, before, after })
    }

    fn answer(&self, rule: &Rule) -> Result<Out, u32> {
        let tests = match self.call {
            Call::Empty => &[],
            Call::Open { .. } => rule.opening,
            Call::Close { .. } => rule.closing,
            Call::Usage => rule.usage,
            Call::Under { .. } => rule.under,
        };
        if let Some(refused) = tests.iter().find_map(|&test| self.refused(rule, test)) {
            return Err(refused);
        }
        match self.call {
            Call::Usage => Ok(Out::Usage(self.usage(rule))),
            Call::Under { .. } => match (self.numbers, rule.nothing_open) {
                (None, Some(refused)) => Err(refused),
                (found, _) => Ok(Out::Under(found)),
            },
            _ => Ok(Out::Nothing),
        }
    }

    /// The number that the call is refused with for this, if it is.
    fn refused(&self, rule: &Rule, test: Test) -> Option<u32> {
        let above = |used, (common, most): Common| common(used) > most;
        let number = match test {
            Test::Account | Test::Allowance => 20,
            Test::Axes => 1,
            Test::Level => 2,
            Test::Points => 19,
            Test::Slot => 22,
            Test::Tag => 21,
        };
        let refused = match test {
            Test::Account => rule.shapes_of_account && !self.shapes || above(&self.before, rule.common_of_account),
            Test::Axes => self.numbers.is_some_and(|(axes, _)| !(1..=8).contains(&axes)),
            Test::Level => self.numbers.is_some_and(|(_, level)| level > 8),
            Test::Points => self.numbers.and_then(counted).is_some_and(too_large),
            Test::Slot => !rule.offices.contains(&self.slot.0) || !rule.tags.contains(&self.slot.1),
            Test::Tag => self.is_open(rule.open) == matches!(self.call, Call::Open { .. }),
            Test::Allowance => above(&self.after, rule.common_of_opening),
        };
        refused.then_some(number)
    }

    fn is_open(&self, open: Open) -> bool {
        let (office, tag) = self.slot;
        match open {
            Open::UnderTheTag => self.account.open.contains_key(&self.slot),
            Open::OfAnyOffice => (1..=4).any(|office| self.account.open.contains_key(&(office, tag))),
            Open::AtThePlace => {
                let place = office.wrapping_sub(1).wrapping_mul(8).wrapping_add(tag);
                self.account.open.contains_key(&(place / 8 + 1, place % 8))
            }
        }
    }

    fn usage(&self, rule: &Rule) -> Usage {
        let common_used = (rule.common_of_usage)(&self.before);
        Usage {
            by_office: [1, 2, 3, 4].map(|office| self.before.by_office[office]),
            in_all: self.before.in_all(),
            common_used,
            common_free: COMMON.saturating_sub(common_used),
        }
    }
}

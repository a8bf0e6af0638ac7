//! The account that four offices share, change request i: the open shapes by office and tag, as a map. Whether a history gives
//! an account is found by a history: its tables are opened one by one, from the empty account on. Since the common points in
//! use never fall when a table is opened, the order does not matter.

use super::{grid, shape, Refused};
use std::array::from_fn;
use std::collections::BTreeMap;
use std::sync::OnceLock;

/// What an office has of its own, and what is common.
pub const OWN: u64 = 4_096;
pub const COMMON: u64 = 49_152;

/// All points of the account.
pub const IN_ALL: u64 = 65_536;

/// An office and a tag.
pub type Slot = (u32, u32);

/// The axes and the level of a table, which may be any numbers.
pub type Numbers = (u32, u32);

#[derive(Clone, Debug, Default, PartialEq, Eq)]
pub struct Account {
    pub open: BTreeMap<Slot, Numbers>,
}

#[derive(Clone, Copy, Debug, PartialEq, Eq)]
pub struct Usage {
    pub by_office: [u64; 4],
    pub in_all: u64,
    pub common_used: u64,
    pub common_free: u64,
}

#[derive(Clone, Copy, Debug, PartialEq, Eq)]
pub enum Call {
    Empty,
    Open { office: u32, tag: u32, axes: u32, level: u32 },
    Close { office: u32, tag: u32 },
    Usage,
    Under { office: u32, tag: u32 },
}

/// What a call answers beside the account that it leaves.
#[derive(Clone, Copy, Debug, PartialEq, Eq)]
pub enum Out {
    Nothing,
    Usage(Usage),
    /// The shape under the tag, if one is open.
    Under(Option<Numbers>),
}

impl Call {
    pub fn kind(&self) -> &'static str {
        match self {
            Call::Empty => "empty account",
            Call::Open { .. } => "open table",
            Call::Close { .. } => "close table",
            Call::Usage => "usage",
            Call::Under { .. } => "table under",
        }
    }

    /// The account that the call leaves, and what else it answers.
    pub fn answer(&self, account: &Account) -> Result<(Account, Out), Refused> {
        if *self == Call::Empty {
            return Ok((Account::default(), Out::Nothing));
        }
        account.given()?;
        let mut left = account.clone();
        let out = match *self {
            Call::Empty => Out::Nothing,
            Call::Open { office, tag, axes, level } => {
                left.open((office, tag), (axes, level))?;
                Out::Nothing
            }
            Call::Close { office, tag } => {
                left.close((office, tag))?;
                Out::Nothing
            }
            Call::Usage => Out::Usage(left.usage()),
            Call::Under { office, tag } => {
                exists((office, tag))?;
                Out::Under(left.open.get(&(office, tag)).copied())
            }
        };
        Ok((left, out))
    }
}

/// How many points a shape has, or 1, 2, 19; the shapes counted once.
pub fn points((axes, level): Numbers) -> Result<u64, Refused> {
    static KNOWN: OnceLock<[[Result<u64, Refused>; 16]; 16]> = OnceLock::new();
    let count = |axes, level| shape(axes, level).map(|()| grid::count(axes, level) as u64);
    if axes > 15 || level > 15 {
        return count(axes, level);
    }
    let known = KNOWN.get_or_init(|| from_fn(|axes| from_fn(|level| count(axes as u32, level as u32))));
    known[axes as usize][level as usize]
}

/// Refusal 22.
fn exists((office, tag): Slot) -> Result<(), Refused> {
    if office == 0 || office > 4 || tag > 7 {
        return Err((22, 0));
    }
    Ok(())
}

impl Account {
    /// Refusal 20 of an account that no history gives.
    pub fn given(&self) -> Result<(), Refused> {
        let mut so_far = Account::default();
        for (&slot, &numbers) in &self.open {
            so_far.open(slot, numbers).map_err(|_| (20, 0))?;
        }
        Ok(())
    }

    /// An opening, on an account that a history gives: 1, 2, 19, 22, 21, 20.
    fn open(&mut self, slot: Slot, numbers: Numbers) -> Result<(), Refused> {
        points(numbers)?;
        exists(slot)?;
        if self.open.contains_key(&slot) {
            return Err((21, 0));
        }
        self.open.insert(slot, numbers);
        if self.usage().common_used > COMMON {
            self.open.remove(&slot);
            return Err((20, 0));
        }
        Ok(())
    }

    /// A closing, on an account that a history gives: 22, 21.
    fn close(&mut self, slot: Slot) -> Result<(), Refused> {
        exists(slot)?;
        self.open.remove(&slot).map(|_| ()).ok_or((21, 0))
    }

    /// Of open tables that are shapes, all under offices and tags that exist.
    pub fn usage(&self) -> Usage {
        let mut by_office = [0; 4];
        for (&(office, _), &numbers) in &self.open {
            by_office[office as usize - 1] += points(numbers).expect("a shape");
        }
        let common_used = by_office.iter().map(|open| open.saturating_sub(OWN)).sum();
        Usage {
            by_office,
            in_all: by_office.iter().sum(),
            common_used,
            common_free: COMMON.saturating_sub(common_used),
        }
    }
}

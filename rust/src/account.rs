//! An account of four offices that share an allowance of points.

use crate::{boundary, Refusal, Shape};

/// Which tables four offices have open, by office, 1 to 4, and tag, 0 to 7: shapes with a zero border. Each office has 4,096
/// points of its own, and 49,152 are common. An account holds no table. Any 32 bytes make an `Account`; each call refuses with
/// 20 those that no calls leave, from an empty one on. docs/MANUAL.md, section 20.
///
/// ```
/// use numolefays::{Account, Refusal, Shape};
///
/// let mut account = Account::new();
/// account.open(1, 0, 8, 5)?; // 31,745 points, 27,649 of them common
/// account.open(2, 7, 4, 7)?; // 23,297 points, 19,201 of them common
/// assert_eq!(account.open(3, 0, 3, 7), Err(Refusal::Allowance)); // 7,423 points, 3,327 of them common: 2,302 are free
/// account.open(3, 0, 2, 8)?; // 4,097 points, one of them common
/// let usage = account.usage()?;
/// assert_eq!(usage.by_office, [31_745, 23_297, 4_097, 0]);
/// assert_eq!((usage.in_all, usage.common_used, usage.common_free), (59_139, 46_851, 2_301));
/// assert_eq!(account.table_under(2, 7)?, Some(Shape::new(4, 7)));
/// account.close(1, 0)?;
/// assert_eq!(account.usage()?.common_free, 29_950);
/// # Ok::<(), Refusal>(())
/// ```
#[derive(Clone, Copy, Debug, PartialEq, Eq, Hash)]
pub struct Account {
    bytes: [u8; 32],
}

/// What is open, and what is left: the answer of [`Account::usage`].
#[derive(Clone, Copy, Debug, PartialEq, Eq, Hash)]
pub struct Usage {
    /// The points that each office has open, office 1 first.
    pub by_office: [u64; 4],
    /// The points open, of all offices together.
    pub in_all: u64,
    /// The common points in use: over the offices, what each has open above 4,096.
    pub common_used: u64,
    /// The common points that are free: 49,152 less those in use.
    pub common_free: u64,
}

impl Account {
    /// An account in which nothing is open.
    pub fn new() -> Account {
        let (mut bytes, mut place) = ([0; 32], 0);
        boundary::empty_account(&mut bytes, &mut place);
        Account { bytes }
    }

    /// The account of these bytes: that of office o and tag t is at place 8 × (o − 1) + t, 0 where nothing is open, else
    /// 16 × d + n. Nothing is checked here.
    pub const fn from_bytes(bytes: [u8; 32]) -> Account {
        Account { bytes }
    }

    /// Its bytes.
    pub const fn bytes(&self) -> &[u8; 32] {
        &self.bytes
    }

    /// An office opens a table of so many axes and this top level under a tag. Refused with 20 for the account, 1, 2, 19, 22,
    /// 21, and with 20 where the common points would pass 49,152.
    pub fn open(&mut self, office: u32, tag: u32, axes: u32, level: u32) -> Result<(), Refusal> {
        let mut place = 0;
        let number = boundary::open_table(&mut self.bytes, office, tag, axes, level, &mut place);
        Refusal::checked(number, place)
    }

    /// An office closes the table under a tag. Refused with 20 for the account, 22, 21.
    pub fn close(&mut self, office: u32, tag: u32) -> Result<(), Refusal> {
        let mut place = 0;
        let number = boundary::close_table(&mut self.bytes, office, tag, &mut place);
        Refusal::checked(number, place)
    }

    /// The points open, and the common points. Refused with 20.
    pub fn usage(&self) -> Result<Usage, Refusal> {
        let mut usage = Usage { by_office: [0; 4], in_all: 0, common_used: 0, common_free: 0 };
        let mut place = 0;
        let number = boundary::account_usage(
            &self.bytes,
            &mut usage.by_office,
            &mut usage.in_all,
            &mut usage.common_used,
            &mut usage.common_free,
            &mut place,
        );
        Refusal::checked(number, place).map(|()| usage)
    }

    /// The shape that an office has open under a tag, or `None`. Refused with 20 for the account, 22.
    pub fn table_under(&self, office: u32, tag: u32) -> Result<Option<Shape>, Refusal> {
        let (mut axes, mut level, mut none, mut place) = (0, 0, 0, 0);
        let number = boundary::table_under(&self.bytes, office, tag, &mut axes, &mut level, &mut none, &mut place);
        Refusal::checked(number, place).map(|()| if none == 0 { Some(Shape::new(axes, level)) } else { None })
    }
}

impl Default for Account {
    /// An account in which nothing is open.
    fn default() -> Account {
        Account::new()
    }
}

//! An account shared by four offices: a byte for each office and tag, all points read from one table of bytes.

use super::grid::{check_shape, BINOMIAL};

pub type Account = [u8; 32];

const OWN: u32 = 4_096;
const COMMON: u32 = 49_152;

/// `POINTS[b]`: the points of the shape that a byte stands for, none for 0; for a byte that stands for no shape more than an
/// account can hold.
static POINTS: [u32; 256] = points();

const fn points() -> [u32; 256] {
    let mut all = [0; 256];
    let mut byte = 1;
    while byte < 256 {
        let (axes, level) = (byte / 16, byte % 16);
        if check_shape(axes as u32, level as u32).is_some() {
            all[byte] = 1 << 20;
        } else {
            let mut sum = 0;
            while sum <= level {
                all[byte] += (BINOMIAL[axes - 1 + sum][sum] as u32) << sum;
                sum += 1;
            }
        }
        byte += 1;
    }
    all
}

#[derive(Clone, Copy, Debug, PartialEq)]
pub struct Usage {
    pub by_office: [u32; 4],
    pub in_all: u32,
    pub common_used: u32,
    pub common_free: u32,
}

/// The points in use, or refusal 20.
pub fn usage(account: &Account) -> Result<Usage, u32> {
    let mut by_office = [0; 4];
    for (open, bytes) in by_office.iter_mut().zip(account.chunks_exact(8)) {
        *open = bytes.iter().map(|&byte| POINTS[byte as usize]).sum();
    }
    let common_used = by_office.iter().map(|open: &u32| open.saturating_sub(OWN)).sum();
    if common_used > COMMON {
        return Err(20);
    }
    Ok(Usage { by_office, in_all: by_office.iter().sum(), common_used, common_free: COMMON - common_used })
}

/// The place of an office and a tag, or refusal 22.
fn slot(office: u32, tag: u32) -> Result<usize, u32> {
    if office == 0 || office > 4 || tag > 7 {
        return Err(22);
    }
    Ok((8 * (office - 1) + tag) as usize)
}

/// Opens a table, or a refusal, which leaves the account.
pub fn open(account: &mut Account, office: u32, tag: u32, axes: u32, level: u32) -> Result<(), u32> {
    let used = usage(account)?;
    if let Some(refused) = check_shape(axes, level) {
        return Err(refused);
    }
    let slot = slot(office, tag)?;
    if account[slot] != 0 {
        return Err(21);
    }
    let byte = (16 * axes + level) as u8;
    let before = used.by_office[office as usize - 1];
    let after = before + POINTS[byte as usize];
    if after.saturating_sub(OWN) - before.saturating_sub(OWN) > used.common_free {
        return Err(20);
    }
    account[slot] = byte;
    Ok(())
}

/// Closes a table, or a refusal, which leaves the account.
pub fn close(account: &mut Account, office: u32, tag: u32) -> Result<(), u32> {
    usage(account)?;
    let slot = slot(office, tag)?;
    if account[slot] == 0 {
        return Err(21);
    }
    account[slot] = 0;
    Ok(())
}

/// The axes and the level of the table under a tag, or none where nothing is open.
pub fn table_under(account: &Account, office: u32, tag: u32) -> Result<Option<(u32, u32)>, u32> {
    usage(account)?;
    let byte = u32::from(account[slot(office, tag)?]);
    Ok((byte != 0).then_some((byte / 16, byte % 16)))
}

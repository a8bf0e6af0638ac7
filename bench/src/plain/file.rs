//! House files read, written and rewritten number by number: a first pass tests, and the second fills or writes. Only where
//! the output buffer might be too short a pass between them sums how many bytes are needed.

use super::grid::{check_shape, count};
use super::is_rate;

/// One filed number from the front: the number and how many bytes it took, or refusal 11 or 12.
fn filed(bytes: &[u8]) -> Result<(u32, usize), u32> {
    let mut number: u32 = 0;
    for at in 0..5 {
        let Some(&byte) = bytes.get(at) else {
            return Err(11);
        };
        if at == 4 && byte > 0x0f {
            return Err(12);
        }
        number |= u32::from(byte & 0x7f) << (7 * at);
        if byte < 0x80 {
            return Ok((number, at + 1));
        }
    }
    unreachable!("a fifth byte with its top bit set is above 0x0f")
}

/// A number in its fewest groups, from a place on; the place after it.
fn put(number: u32, out: &mut [u8], place: usize) -> usize {
    let (mut left, mut at) = (number, place);
    while left >= 0x80 {
        out[at] = left as u8 | 0x80;
        left >>= 7;
        at += 1;
    }
    out[at] = left as u8;
    at + 1
}

/// How many bytes a number takes in its fewest groups.
fn size(number: u32) -> usize {
    1 + [1 << 7, 1 << 14, 1 << 21, 1 << 28].iter().filter(|&&bound| number >= bound).count()
}

fn filed_of(rate: i64) -> u32 {
    (if rate < 0 { -2 * rate - 1 } else { 2 * rate }) as u32
}

/// The shape, its points and the bytes of its rates, all tested.
fn open(bytes: &[u8], places: usize) -> Result<(u32, u32, usize, &[u8]), u32> {
    let (axes, first) = filed(bytes)?;
    let (level, second) = filed(&bytes[first..])?;
    if let Some(refused) = check_shape(axes, level) {
        return Err(refused);
    }
    let points = count(axes as usize, level) as usize;
    if places < points {
        return Err(3);
    }
    let rates = &bytes[first + second..];
    let mut at = 0;
    for _ in 0..points {
        at += filed(&rates[at..])?.1;
    }
    if at != rates.len() {
        return Err(13);
    }
    Ok((axes, level, points, rates))
}

/// Fills the first N places; answers the shape or a refusal.
pub fn read(bytes: &[u8], table: &mut [i64]) -> Result<(u32, u32), u32> {
    let (axes, level, points, rates) = open(bytes, table.len())?;
    let mut at = 0;
    for place in &mut table[..points] {
        let (number, taken) = filed(&rates[at..])?;
        *place = i64::from(number >> 1) ^ -i64::from(number & 1);
        at += taken;
    }
    Ok((axes, level))
}

/// The file of a shape and its rates into the first bytes of `out`; its length, or the number and place of a refusal.
pub fn write(axes: u32, level: u32, rates: &[i64], out: &mut [u8]) -> Result<usize, (u32, u64)> {
    if let Some(refused) = check_shape(axes, level) {
        return Err((refused, 0));
    }
    if rates.len() as u64 != count(axes as usize, level) {
        return Err((3, 0));
    }
    if let Some(p) = rates.iter().position(|&r| !is_rate(r)) {
        return Err((4, p as u64));
    }
    if out.len() < 2 + 5 * rates.len() && out.len() < 2 + rates.iter().map(|&r| size(filed_of(r))).sum::<usize>() {
        return Err((3, 0));
    }
    out[0] = axes as u8;
    out[1] = level as u8;
    Ok(rates.iter().fold(2, |at, &rate| put(filed_of(rate), out, at)))
}

/// A file of at most so many points, written again in the fewest groups; its length or a refusal.
pub fn rewrite(bytes: &[u8], most_points: usize, out: &mut [u8]) -> Result<usize, u32> {
    let (axes, level, points, rates) = open(bytes, most_points)?;
    if out.len() < bytes.len() {
        let (mut from, mut total) = (0, 2);
        for _ in 0..points {
            let (number, taken) = filed(&rates[from..])?;
            total += size(number);
            from += taken;
        }
        if out.len() < total {
            return Err(3);
        }
    }
    out[0] = axes as u8;
    out[1] = level as u8;
    let (mut from, mut at) = (0, 2);
    for _ in 0..points {
        let (number, taken) = filed(&rates[from..])?;
        at = put(number, out, at);
        from += taken;
    }
    Ok(at)
}

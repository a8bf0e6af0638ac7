//! House files read, written and rewritten. All tests come first, many bytes or rates at once; where one fails, a second
//! look finds which number is refused and why. Words of 8 or 16 bytes are read and written as long as enough of the file
//! follows, so that what is written past a number is written again; the last numbers go byte by byte.

use super::grid::{check_shape, count};
use super::is_rate;

/// The top bits of the bytes of a word: set where another byte follows.
const MORE: u64 = 0x8080_8080_8080_8080;

/// One filed number from the front: the number and how many bytes it took, or refusal 11 or 12.
fn filed(bytes: &[u8]) -> Result<(u32, usize), u32> {
    let mut number: u32 = 0;
    for at in 0..5 {
        let Some(&byte) = bytes.get(at) else {
            return Err(11);
        };
        if at == 4 && byte > 0x0f {
            return Err(12);
        }
        number |= u32::from(byte & 0x7f) << (7 * at);
        if byte < 0x80 {
            return Ok((number, at + 1));
        }
    }
    unreachable!("a fifth byte with its top bit set is above 0x0f")
}

/// A number in its fewest groups, from a place on; the place after it.
fn put(number: u32, out: &mut [u8], place: usize) -> usize {
    let (mut left, mut at) = (number, place);
    while left >= 0x80 {
        out[at] = left as u8 | 0x80;
        left >>= 7;
        at += 1;
    }
    out[at] = left as u8;
    at + 1
}

/// How many bytes a number takes in its fewest groups.
fn size(number: u32) -> usize {
    // a seventh of its bits, rounded up, without a division
    ((number | 1).ilog2() as usize * 9 + 73) / 64
}

/// The rate of a filed number, and the other way.
fn rate_of(number: u32) -> i64 {
    i64::from(number >> 1) ^ -i64::from(number & 1)
}

fn filed_of(rate: i64) -> u32 {
    (rate as u32) << 1 ^ (rate >> 63) as u32
}

/// The groups of a number, one for each byte of a word, joined to the number; and the other way.
fn joined(groups: u64) -> u32 {
    let pairs = groups & 0x7f_007f_007f | (groups & 0x7f00_7f00) >> 1;
    (pairs & 0x3fff | pairs >> 2 & 0x0fff_c000 | pairs >> 4 & 0xf000_0000) as u32
}

fn spread(number: u32) -> u64 {
    let n = u64::from(number);
    n & 0x7f | (n & 0x3f80) << 1 | (n & 0x1f_c000) << 2 | (n & 0xfe0_0000) << 3 | (n & 0xf000_0000) << 4
}

/// A file once d and n are read and tested against the places that there are for its rates.
struct Opened<'a> {
    axes: u32,
    level: u32,
    points: usize,
    /// The bytes of the rates, not tested yet.
    rates: &'a [u8],
}

fn open(bytes: &[u8], places: usize) -> Result<Opened<'_>, u32> {
    let (axes, first) = filed(bytes)?;
    let (level, second) = filed(&bytes[first..])?;
    if let Some(refused) = check_shape(axes, level) {
        return Err(refused);
    }
    let points = count(axes as usize, level) as usize;
    if places < points {
        return Err(3);
    }
    Ok(Opened { axes, level, points, rates: &bytes[first + second..] })
}

/// Refusal 11 or 12 of the first of the rates that is no filed number, then 13.
fn check_rates(bytes: &[u8], points: usize) -> Result<(), u32> {
    if are_filed(bytes, points) {
        return Ok(());
    }
    let mut at = 0;
    for _ in 0..points {
        at += filed(&bytes[at..])?.1;
    }
    if at != bytes.len() {
        return Err(13);
    }
    Ok(())
}

/// Whether the bytes are exactly so many filed numbers: as many bytes are the last of a number, the last byte is one of
/// them, and nowhere do four bytes go on and a fifth is above 0x0f.
fn are_filed(bytes: &[u8], numbers: usize) -> bool {
    // sums of bytes, which are taken 16 at a time
    let ends: usize =
        bytes.chunks(255).map(|part| usize::from(part.iter().map(|&b| u8::from(b < 0x80)).sum::<u8>())).sum();
    let wrong = bytes.windows(5).fold(0, |wrong, w| {
        let over = if w[4] > 0x0f { 0x80 } else { 0 };
        wrong | w[0] & w[1] & w[2] & w[3] & over
    });
    ends == numbers && wrong < 0x80 && bytes.last().is_some_and(|&b| b < 0x80)
}

/// Fills the first N places; answers the shape or a refusal.
pub fn read(bytes: &[u8], table: &mut [i64]) -> Result<(u32, u32), u32> {
    let file = open(bytes, table.len())?;
    check_rates(file.rates, file.points)?;
    fill(file.rates, &mut table[..file.points]);
    Ok((file.axes, file.level))
}

/// The rates, which were tested.
fn fill(bytes: &[u8], table: &mut [i64]) {
    let mut at = 0;
    let mut places = table;
    while let Some(eight) = bytes.get(at..at + 8) {
        let word = u64::from_le_bytes(eight.try_into().unwrap());
        if word & MORE == 0 && places.len() >= 8 {
            let (now, later) = places.split_at_mut(8);
            for (place, &byte) in now.iter_mut().zip(eight) {
                *place = rate_of(u32::from(byte));
            }
            places = later;
            at += 8;
            continue;
        }
        let Some((place, later)) = places.split_first_mut() else {
            return;
        };
        places = later;
        if !word & 0x8080_8080 == 0 {
            *place = rate_of(joined(word));
            at += 5;
        } else {
            let ends = !word & 0x8080_8080;
            // all below the first end's top bit
            *place = rate_of(joined(word & (ends ^ (ends - 1))));
            at += ends.trailing_zeros() as usize / 8 + 1;
        }
    }
    for place in places {
        let Ok((number, taken)) = filed(&bytes[at..]) else {
            return;
        };
        *place = rate_of(number);
        at += taken;
    }
}

/// The file of a shape and its rates into the first bytes of `out`; its length, or the number and place of a refusal.
pub fn write(axes: u32, level: u32, rates: &[i64], out: &mut [u8]) -> Result<usize, (u32, u64)> {
    if let Some(refused) = check_shape(axes, level) {
        return Err((refused, 0));
    }
    if rates.len() as u64 != count(axes as usize, level) {
        return Err((3, 0));
    }
    // each is from 0 to 2^32 − 1 after this addition
    if rates.iter().fold(0, |all, &r| all | r.wrapping_add(1 << 31) as u64) >> 32 != 0 {
        if let Some(p) = rates.iter().position(|&r| !is_rate(r)) {
            return Err((4, p as u64));
        }
    }
    // no sum where five bytes for each would fit
    if out.len() < 2 + 5 * rates.len() && out.len() < 2 + rates_size(rates) {
        return Err((3, 0));
    }
    out[0] = axes as u8;
    out[1] = level as u8;
    Ok(put_rates(rates, out, 2))
}

/// How many bytes the rates take.
fn rates_size(rates: &[i64]) -> usize {
    // in parts and in 32 bits, four rates at a time
    let further = |part: &[i64]| -> u32 {
        part.iter()
            .map(|&r| {
                let half = r as i32 ^ (r as i32 >> 31);
                u32::from(half >= 1 << 6)
                    + u32::from(half >= 1 << 13)
                    + u32::from(half >= 1 << 20)
                    + u32::from(half >= 1 << 27)
            })
            .sum()
    };
    rates.len() + rates.chunks(1 << 20).map(|part| further(part) as usize).sum::<usize>()
}

/// Rates from a place on, for which there is room; the place after them.
fn put_rates(rates: &[i64], out: &mut [u8], place: usize) -> usize {
    let mut at = place;
    let mut rest = rates;
    while let Some((eight, later)) = rest.split_first_chunk::<8>() {
        // seven rates more: the last word's bytes past its number are theirs
        let Some(room) = out[at..].first_chunk_mut::<43>().filter(|_| later.len() >= 7) else {
            break;
        };
        let numbers = eight.map(filed_of);
        if numbers.iter().fold(0, |all, n| all | n) < 0x80 {
            room[..8].copy_from_slice(&numbers.map(|n| n as u8));
            at += 8;
        } else {
            let mut taken = 0;
            for &rate in eight {
                let number = filed_of(rate);
                let bytes = size(number);
                let word = spread(number) | MORE & ((1 << (8 * (bytes - 1))) - 1);
                room[taken..taken + 8].copy_from_slice(&word.to_le_bytes());
                taken += bytes;
            }
            at += taken;
        }
        rest = later;
    }
    rest.iter().fold(at, |at, &rate| put(filed_of(rate), out, at))
}

/// A file of at most so many points, written again in the fewest groups; its length or a refusal.
pub fn rewrite(bytes: &[u8], most_points: usize, out: &mut [u8]) -> Result<usize, u32> {
    let file = open(bytes, most_points)?;
    check_rates(file.rates, file.points)?;
    // no sum where the file as it is would fit
    if out.len() < bytes.len() && out.len() < 2 + form_size(file.rates) {
        return Err(3);
    }
    out[0] = file.axes as u8;
    out[1] = file.level as u8;
    Ok(put_form(file.rates, out, 2))
}

/// How many bytes the rates, which were tested, take in their fewest groups.
fn form_size(bytes: &[u8]) -> usize {
    let (mut at, mut total) = (0, 0);
    while let Ok((number, taken)) = filed(&bytes[at..]) {
        total += size(number);
        at += taken;
    }
    total
}

/// The rates, which were tested, in their fewest groups from a place on, for which there is room; the place after them.
fn put_form(bytes: &[u8], out: &mut [u8], place: usize) -> usize {
    const EACH: u128 = u128::MAX / 255;
    const MORE: u128 = EACH * 0x80;
    let (mut from, mut at) = (0, place);
    // 80 bytes more: at least 16 numbers, and what is written past the present ones is theirs
    while let Some(ahead) = bytes.get(from..from + 96) {
        let word = u128::from_le_bytes(ahead[..16].try_into().unwrap());
        let ends = !word & MORE;
        // the zero bytes that come after one that goes on; a borrow only flags bytes that come after a zero byte
        let needless = word.wrapping_sub(EACH) & ends & word << 8;
        if needless == 0 {
            let whole = 16 - ends.leading_zeros() as usize / 8;
            out[at..at + 16].copy_from_slice(&word.to_le_bytes());
            from += whole;
            at += whole;
        } else {
            // all to the first of them, less the last number's zero groups, but not its first group
            let before = (needless ^ (needless - 1)) >> 1;
            let first = 128 - (ends & before).leading_zeros();
            let last = (word & before & !MORE | 1 << first).ilog2() & !7;
            out[at..at + 16].copy_from_slice(&(word & before & !(MORE << last)).to_le_bytes());
            from += needless.trailing_zeros() as usize / 8 + 1;
            at += last as usize / 8 + 1;
        }
    }
    while let Ok((number, taken)) = filed(&bytes[from..]) {
        at = put(number, out, at);
        from += taken;
    }
    at
}

//! House files, read and written as the papers say it.

use super::grid::count;
use super::rates::all_rates;
use super::{places, shape, Refused};

/// Takes one number off the front: groups of seven bits, lowest first, at most 5 bytes, at most 4,294,967,295.
fn number(bytes: &mut &[u8]) -> Result<u128, Refused> {
    let mut groups: Vec<u128> = Vec::with_capacity(5);
    loop {
        let Some((&byte, rest)) = bytes.split_first() else {
            return Err((11, 0));
        };
        *bytes = rest;
        groups.push(u128::from(byte % 128));
        let another_follows = byte >= 128;
        if groups.len() == 5 && another_follows {
            return Err((12, 0));
        }
        if !another_follows {
            break;
        }
    }
    let value = groups.iter().rev().fold(0, |value, group| value * 128 + group);
    if value > 4_294_967_295 {
        return Err((12, 0));
    }
    Ok(value)
}

pub struct File {
    pub axes: u32,
    pub level: u32,
    pub rates: Vec<i64>,
}

/// What the file holds, for a buffer of so many places.
pub fn read(bytes: &[u8], buffer: usize) -> Result<File, Refused> {
    let mut left = bytes;
    let axes = number(&mut left)? as u32;
    let level = number(&mut left)? as u32;
    shape(axes, level)?;
    let points = count(axes, level);
    if (buffer as u128) < points {
        return Err((3, 0));
    }
    let mut rates = Vec::new();
    for _ in 0..points {
        let filed = number(&mut left)? as i64;
        // 2r if r ≥ 0, else −2r − 1
        rates.push(if filed % 2 == 0 { filed / 2 } else { -((filed + 1) / 2) });
    }
    if !left.is_empty() {
        return Err((13, 0));
    }
    Ok(File { axes, level, rates })
}

/// d, n and N of a file, from its first two numbers.
pub fn shape_of(bytes: &[u8]) -> Result<(u32, u32, u64), Refused> {
    let mut left = bytes;
    let axes = number(&mut left)? as u32;
    let level = number(&mut left)? as u32;
    shape(axes, level)?;
    Ok((axes, level, count(axes, level) as u64))
}

/// The file of a shape and its rates, for an output buffer of so many bytes.
pub fn write(axes: u32, level: u32, rates: &[i64], room: usize) -> Result<Vec<u8>, Refused> {
    shape(axes, level)?;
    places(axes, level, rates.len())?;
    all_rates(rates)?;
    let file = file_of(axes, level, rates);
    if file.len() > room {
        return Err((3, 0));
    }
    Ok(file)
}

/// A file read and written again, for a table of so many places and an output buffer of so many bytes.
pub fn rewrite(bytes: &[u8], most_points: usize, room: usize) -> Result<Vec<u8>, Refused> {
    let file = read(bytes, most_points)?;
    write(file.axes, file.level, &file.rates, room)
}

/// d, n and the rates in point order, each number in its fewest groups.
pub fn file_of(axes: u32, level: u32, rates: &[i64]) -> Vec<u8> {
    let mut bytes = filed(u64::from(axes), 0);
    bytes.extend(filed(u64::from(level), 0));
    for &r in rates {
        bytes.extend(filed(filed_rate(r), 0));
    }
    bytes
}

/// One number as a file has it, with so many needless zero groups if they fit 5 bytes.
pub fn filed(mut value: u64, needless: usize) -> Vec<u8> {
    let mut groups = Vec::with_capacity(5);
    groups.push((value % 128) as u8);
    value /= 128;
    while value > 0 {
        groups.push((value % 128) as u8);
        value /= 128;
    }
    let longest = 5.max(groups.len());
    groups.resize((groups.len() + needless).min(longest), 0);
    let last = groups.len() - 1;
    groups[..last].iter_mut().for_each(|g| *g += 128);
    groups
}

pub fn filed_rate(r: i64) -> u64 {
    if r >= 0 {
        2 * r as u64
    } else {
        (-2 * r - 1) as u64
    }
}

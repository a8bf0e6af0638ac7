//! A buffer that is lent to a call, with places before and after it that the call must not touch.

use crate::draw::Draw;

const GUARD: usize = 3;

pub struct Lent<T> {
    all: Vec<T>,
    before: Vec<T>,
}

impl<T: Copy + PartialEq> Lent<T> {
    pub fn new(contents: &[T], draw: &mut Draw, any: impl Fn(u64) -> T) -> Lent<T> {
        let mut all: Vec<T> = (0..GUARD).map(|_| any(draw.bits())).collect();
        all.extend_from_slice(contents);
        all.extend((0..GUARD).map(|_| any(draw.bits())));
        Lent { before: all.clone(), all }
    }

    pub fn slice(&mut self) -> &mut [T] {
        let end = self.all.len() - GUARD;
        &mut self.all[GUARD..end]
    }

    pub fn contents(&self) -> &[T] {
        &self.all[GUARD..self.all.len() - GUARD]
    }

    /// Nothing outside what was lent has changed.
    pub fn guarded(&self) -> bool {
        let end = self.all.len() - GUARD;
        self.all[..GUARD] == self.before[..GUARD] && self.all[end..] == self.before[end..]
    }
}

pub fn table(contents: &[i64], draw: &mut Draw) -> Lent<i64> {
    Lent::new(contents, draw, |bits| bits as i64)
}

pub fn bytes(contents: &[u8], draw: &mut Draw) -> Lent<u8> {
    Lent::new(contents, draw, |bits| bits as u8)
}

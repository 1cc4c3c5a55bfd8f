//! A lent buffer with known bytes in it, before it and behind it.

use std::ops::Range;

/// Odd lengths, so that the buffer stands at an odd address.
const BEFORE: usize = 61;
const BEHIND: usize = 67;

#[derive(Clone)]
pub struct Fenced {
    bytes: Vec<u8>,
    salt: u64,
    length: usize,
}

/// A byte that depends on its place, so that a shifted write shows.
fn known(place: usize, salt: u64) -> u8 {
    (place as u64).wrapping_mul(167).wrapping_add(salt ^ 0x5C) as u8
}

impl Fenced {
    pub fn new(length: usize, salt: u64) -> Fenced {
        let whole = BEFORE + length + BEHIND;
        Fenced {
            bytes: (0..whole).map(|place| known(place, salt)).collect(),
            salt,
            length,
        }
    }

    /// A buffer that holds an input.
    pub fn holding(input: &[u8], salt: u64) -> Fenced {
        let mut fenced = Fenced::new(input.len(), salt);
        fenced.lent().copy_from_slice(input);
        fenced
    }

    fn inside(&self) -> Range<usize> {
        BEFORE..BEFORE + self.length
    }

    pub fn lent(&mut self) -> &mut [u8] {
        let inside = self.inside();
        &mut self.bytes[inside]
    }

    pub fn holds(&self) -> &[u8] {
        &self.bytes[self.inside()]
    }

    /// Whether all bytes but the first few of the buffer are as they were.
    pub fn kept_beyond(&self, used: usize) -> bool {
        let as_was = |place: usize| self.bytes[place] == known(place, self.salt);
        (0..BEFORE).all(as_was) && (BEFORE + used..self.bytes.len()).all(as_was)
    }
}

//! The journal of commits: records of 8 bytes in a lent buffer.

use crate::{Desk, JOURNAL_BYTES, RECORD_BYTES};

/// Byte 0 of a record.
pub const WRITTEN: u8 = 1;
pub const CLOSING: u8 = 2;

/// A lent buffer, of which bytes past the limit are left alone, and how many
/// of its bytes hold records.
pub struct Journal<'a> {
    bytes: &'a mut [u8],
    used: usize,
}

impl<'a> Journal<'a> {
    /// An empty journal; its bytes are zeroed.
    pub fn open(bytes: &'a mut [u8]) -> Journal<'a> {
        let journal = Journal::resume(bytes, 0);
        journal.bytes.fill(0);
        journal
    }

    /// The journal as an earlier call left it.
    pub fn resume(bytes: &'a mut [u8], used: usize) -> Journal<'a> {
        let length = bytes.len().min(JOURNAL_BYTES);
        Journal {
            bytes: &mut bytes[..length],
            used,
        }
    }

    pub fn used(&self) -> usize {
        self.used
    }

    /// Adds the records of one commit, or none of them if there is no room.
    pub(crate) fn add(&mut self, number: u32, desk: &Desk) -> bool {
        let mut items: Vec<usize> = desk.written.members().collect();
        items.sort();
        let needed = (items.len() + 1) * RECORD_BYTES;
        if self.bytes.len() - self.used < needed {
            return false;
        }
        for &item in &items {
            self.put(WRITTEN, item as u8, number, desk.copies[item]);
        }
        self.put(CLOSING, 0, number, items.len() as u32);
        true
    }

    fn put(&mut self, kind: u8, item: u8, number: u32, value: u32) {
        let record = record(kind, item, number as u16, value);
        self.bytes[self.used..self.used + RECORD_BYTES].copy_from_slice(&record);
        self.used += RECORD_BYTES;
    }
}

/// A record's bytes, the low byte of each number first.
pub fn record(kind: u8, item: u8, number: u16, value: u32) -> [u8; RECORD_BYTES] {
    let [low, high] = number.to_le_bytes();
    let [a, b, c, d] = value.to_le_bytes();
    [kind, item, low, high, a, b, c, d]
}

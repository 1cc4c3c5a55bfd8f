//! The 8-byte request record.

use crate::ITEMS;

#[derive(Clone, Copy, Debug, PartialEq, Eq)]
pub struct Request {
    pub kind: u8,
    pub desk: u8,
    pub item: u8,
    pub spare: u8,
    pub value: u32,
}

impl Request {
    pub const BEGIN: u8 = 1;
    pub const READ: u8 = 2;
    pub const WRITE: u8 = 3;
    pub const END: u8 = 4;
    pub const ABANDON: u8 = 5;

    #[inline]
    pub fn from_record(record: &[u8; 8]) -> Request {
        Request {
            kind: record[0],
            desk: record[1],
            item: record[2],
            spare: record[3],
            value: u32::from_le_bytes([record[4], record[5], record[6], record[7]]),
        }
    }

    pub fn uses_item(&self) -> bool {
        self.kind == Self::READ || self.kind == Self::WRITE
    }

    pub fn uses_value(&self) -> bool {
        self.kind == Self::WRITE
    }

    /// The item a request names, if it names one.
    pub fn names(&self) -> Option<usize> {
        (self.uses_item() && (self.item as usize) < ITEMS).then_some(self.item as usize)
    }
}

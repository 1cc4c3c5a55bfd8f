//! The 12-byte answer record.

#[derive(Clone, Copy, Debug, PartialEq, Eq)]
pub enum Answer {
    Refused { reason: u8 },
    Opened { age: u32, start: u32 },
    Value { item: u8, value: u32 },
    Stored { item: u8 },
    Wait { item: u8, holder: usize },
    Committed { number: u32 },
    Abandoned,
    Overwritten { item: u8, number: u32 },
    TooOld { start: u32 },
    Yield { item: u8, holder: usize },
}

impl Answer {
    /// The record, with the request's desk byte as it came.
    #[inline]
    pub fn record(self, desk: u8) -> [u8; 12] {
        let (code, item, reason, first, second) = match self {
            Answer::Refused { reason } => (0, 0, reason, 0, 0),
            Answer::Opened { age, start } => (1, 0, 0, age, start),
            Answer::Value { item, value } => (2, item, 0, value, 0),
            Answer::Stored { item } => (3, item, 0, 0, 0),
            Answer::Wait { item, holder } => (4, item, 0, holder as u32, 0),
            Answer::Committed { number } => (5, 0, 0, number, 0),
            Answer::Abandoned => (6, 0, 0, 0, 0),
            Answer::Overwritten { item, number } => (7, item, 1, number, 0),
            Answer::TooOld { start } => (7, 0, 2, start, 0),
            Answer::Yield { item, holder } => (7, item, 3, holder as u32, 0),
        };
        let [a, b, c, d] = u32::to_le_bytes(first);
        let [e, f, g, h] = u32::to_le_bytes(second);
        [code, desk, item, reason, a, b, c, d, e, f, g, h]
    }
}

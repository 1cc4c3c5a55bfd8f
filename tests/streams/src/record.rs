//! Requests as 8-byte records.

pub type Record = [u8; 8];

pub const fn begin(desk: u8) -> Record {
    [1, desk, 0, 0, 0, 0, 0, 0]
}

pub const fn read(desk: u8, item: u8) -> Record {
    [2, desk, item, 0, 0, 0, 0, 0]
}

pub const fn write(desk: u8, item: u8, value: u32) -> Record {
    let [a, b, c, d] = value.to_le_bytes();
    [3, desk, item, 0, a, b, c, d]
}

pub const fn end(desk: u8) -> Record {
    [4, desk, 0, 0, 0, 0, 0, 0]
}

pub const fn abandon(desk: u8) -> Record {
    [5, desk, 0, 0, 0, 0, 0, 0]
}

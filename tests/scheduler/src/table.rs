//! The opening table: 64 rows of 16 bytes.

use crate::{Board, ITEMS, ROW_BYTES, TABLE_BYTES};

#[derive(Clone, Copy, Debug, PartialEq, Eq)]
pub enum Kind {
    Open,
    Guarded,
}

#[derive(Clone, Copy, Debug, PartialEq, Eq)]
pub struct Item {
    pub floor: u32,
    pub ceiling: u32,
    pub kind: Kind,
}

/// A fresh board, or refusal 10.
pub fn open(table: &[u8]) -> Result<Board, u8> {
    if table.len() != TABLE_BYTES {
        return Err(10);
    }
    let mut board = Board::empty();
    for item in 0..ITEMS {
        let row = &table[item * ROW_BYTES..(item + 1) * ROW_BYTES];
        let (read, value) = open_row(row).ok_or(10)?;
        board.items[item] = read;
        board.values[item] = value;
    }
    Ok(board)
}

/// The row's item and opening value, or nothing if the row is wrong.
fn open_row(row: &[u8]) -> Option<(Item, u32)> {
    let floor = number(&row[0..4]);
    let ceiling = number(&row[4..8]);
    let value = number(&row[8..12]);
    let kind = match row[12] {
        0 => Kind::Open,
        1 => Kind::Guarded,
        _ => return None,
    };
    let right = floor <= value && value <= ceiling && row[13..16] == [0, 0, 0];
    right.then_some((
        Item {
            floor,
            ceiling,
            kind,
        },
        value,
    ))
}

/// Four bytes, low byte first.
fn number(bytes: &[u8]) -> u32 {
    u32::from_le_bytes([bytes[0], bytes[1], bytes[2], bytes[3]])
}

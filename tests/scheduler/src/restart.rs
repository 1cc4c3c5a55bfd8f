//! The restart: the values after the last whole commit of a journal that may
//! have been cut or damaged anywhere.

use crate::journal::{CLOSING, WRITTEN};
use crate::{open, Item, ITEMS, JOURNAL_BYTES, RECORD_BYTES, ROW_BYTES};

/// How far a journal has been read.
struct Reading<'a> {
    items: &'a [Item; ITEMS],
    /// After the last whole commit.
    values: [u32; ITEMS],
    commits: u32,
    /// Of the commit that is not closed yet, ascending.
    pending: Vec<(usize, u32)>,
}

/// Puts the values into the table's rows and gives the count of commits, or
/// -10 for a wrong table, which stays as it is.
pub fn restart(table: &mut [u8], journal: &[u8]) -> i64 {
    let Ok(board) = open(table) else {
        return -10;
    };
    let mut reading = Reading {
        items: &board.items,
        values: board.values,
        commits: 0,
        pending: Vec::new(),
    };
    let length = journal.len().min(JOURNAL_BYTES);
    for record in journal[..length].chunks_exact(RECORD_BYTES) {
        if !reading.takes(record) {
            break;
        }
    }
    for (row, value) in table.chunks_exact_mut(ROW_BYTES).zip(reading.values) {
        row[8..12].copy_from_slice(&value.to_le_bytes());
    }
    i64::from(reading.commits)
}

impl Reading<'_> {
    /// Whether the record fits where it stands; if so, it is taken in.
    fn takes(&mut self, record: &[u8]) -> bool {
        let number = u16::from_le_bytes([record[2], record[3]]);
        let value = u32::from_le_bytes([record[4], record[5], record[6], record[7]]);
        if u32::from(number) != self.commits + 1 {
            return false;
        }
        match record[0] {
            WRITTEN => self.takes_written(record[1] as usize, value),
            CLOSING => record[1] == 0 && self.closes(value),
            _ => false,
        }
    }

    fn takes_written(&mut self, item: usize, value: u32) -> bool {
        let ascends = self.pending.last().is_none_or(|&(last, _)| last < item);
        let fits = item < ITEMS && {
            let limits = self.items[item];
            limits.floor <= value && value <= limits.ceiling
        };
        if ascends && fits {
            self.pending.push((item, value));
        }
        ascends && fits
    }

    fn closes(&mut self, count: u32) -> bool {
        if count as usize != self.pending.len() {
            return false;
        }
        for (item, value) in self.pending.drain(..) {
            self.values[item] = value;
        }
        self.commits += 1;
        true
    }
}

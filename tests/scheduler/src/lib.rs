//! A second scheduler for the hub, written from the outline alone.
//!
//! It shares no code and no constant with the proved hub. Each file follows
//! one part of the outline, in its words, so the two can be read side by side.

mod answer;
mod board;
mod ending;
mod journal;
mod locks;
mod refusals;
mod request;
mod restart;
mod run;
mod set;
mod step;
mod table;

pub use answer::Answer;
pub use board::{Board, Desk};
pub use journal::{record, Journal, CLOSING, WRITTEN};
pub use request::Request;
pub use restart::restart;
pub use run::{run, run_journal};
pub use set::Set;
pub use table::{open, Item, Kind};

pub const DESKS: usize = 16;
pub const ITEMS: usize = 64;
/// How many of the last write sets the board keeps.
pub const KEPT: u32 = 16;
pub const LAST_AGE: u32 = 2_000;
pub const MOST_REQUESTS: usize = 4_096;
pub const TABLE_BYTES: usize = 1_024;
pub const ROW_BYTES: usize = 16;
pub const REQUEST_BYTES: usize = 8;
pub const ANSWER_BYTES: usize = 12;
pub const VALUES_BYTES: usize = 256;
pub const RECORD_BYTES: usize = 8;
/// So much of a journal is used, however long it is.
pub const JOURNAL_BYTES: usize = 65_536;

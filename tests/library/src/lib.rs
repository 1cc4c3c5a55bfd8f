//! The safe binding to the compiled hub.

#[cfg(feature = "journal")]
mod journal;
mod run;
#[cfg(feature = "steps")]
mod steps;

#[cfg(feature = "journal")]
pub use journal::{restart, run_journal, Journaled, JournaledSpace};
pub use run::{run, run_with_null};
#[cfg(feature = "steps")]
pub use steps::{Board, Space, BOARD_BYTES, GUARD_BYTES};

/// The archive that was linked.
pub const ARCHIVE: &str = env!("HUB_ARCHIVE");

/// That of the calls with a journal.
#[cfg(feature = "journal")]
pub const JOURNAL_ARCHIVE: &str = env!("HUB_JOURNAL_ARCHIVE");

//! What the tests, the fuzzer and the benchmark share.

mod ages;
mod cases;
mod compare;
mod coverage;
mod fenced;
mod fuzzing;
mod holder;
#[cfg(feature = "journal")]
mod journaled;
mod neighbours;
mod rebuild;
mod shrink;
mod words;

pub use ages::{Aged, Ages};
pub use cases::{chosen, each, sized};
pub use compare::{compare, library_run, Outcome};
pub use coverage::Coverage;
pub use fenced::Fenced;
pub use fuzzing::fuzzed;
pub use holder::named_holder;
#[cfg(feature = "journal")]
pub use journaled::{
    closings, compare_journaled, compare_restart, library_run_journal, library_steps_journal,
    values_after, JournaledOutcome,
};
pub use neighbours::{exchanged, journaled_neighbours, neighbours};
pub use rebuild::{rebuild, Committed, Deed};
pub use shrink::{shrunk, shrunk_by};
pub use words::{answer_in_words, request_in_words, rerun, stream_in_words};

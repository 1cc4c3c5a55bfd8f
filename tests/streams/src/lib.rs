//! Random request streams for the hub. A generator's name and a seed give
//! the whole case, so any failure can be made again from these two.

mod again;
mod ages;
mod case;
mod damage;
mod desks;
mod door;
mod errors;
pub mod examples;
mod guarded;
mod history;
mod holders;
mod kept;
mod limits;
mod mixed;
mod mutated;
mod random;
mod record;
mod room;
mod table;

pub use case::{make, Case, Generator, GENERATORS};
pub use mixed::bench_case;
pub use random::Random;
pub use record::{abandon, begin, end, read, write, Record};
pub use table::{outline_table, random_table, row, Shape};

//! A case: what one run is given, and the generator and seed it came from.

use crate::{again, ages, damage, door, guarded, history, limits, mixed, mutated, room, Random};

#[derive(Clone)]
pub struct Case {
    pub generator: &'static str,
    pub seed: u64,
    pub table: Vec<u8>,
    pub requests: Vec<u8>,
    pub answers_length: usize,
    pub values_length: usize,
    /// Where a journal is lent.
    pub journal_length: usize,
}

impl Case {
    /// A case with buffers at least as long as needed, often exactly so.
    pub fn new(table: Vec<u8>, requests: Vec<u8>, random: &mut Random) -> Case {
        let spare = [0, 0, 0, 1, 11, 12, 13, 40];
        Case {
            generator: "",
            seed: 0,
            answers_length: requests.len() / 8 * 12 + random.pick(&spare),
            values_length: 256 + random.pick(&spare),
            journal_length: 65_536,
            table,
            requests,
        }
    }

    /// The requests one by one; a ragged rest is left out.
    pub fn records(&self) -> impl Iterator<Item = &[u8; 8]> + '_ {
        let whole = self.requests.chunks_exact(8);
        whole.map(|record| record.try_into().expect("a chunk of 8 bytes"))
    }
}

pub struct Generator {
    pub name: &'static str,
    /// How many streams of this kind one test run compares.
    pub streams: u64,
    pub make: fn(&mut Random) -> Case,
}

const fn generator(name: &'static str, streams: u64, make: fn(&mut Random) -> Case) -> Generator {
    Generator {
        name,
        streams,
        make,
    }
}

pub const GENERATORS: &[Generator] = &[
    generator("mixed", 24_000, mixed::mixed),
    generator("outline", 8_000, mixed::outline),
    generator("full", 1_200, mixed::full),
    generator("guarded", 16_000, guarded::guarded),
    generator("history", 12_000, history::history),
    generator("again", 8_000, again::again),
    generator("ages", 240, ages::ages),
    generator("last", 240, again::last),
    generator("limits", 12_000, limits::limits),
    generator("junk", 8_000, damage::junk),
    generator("nearly", 4_000, damage::nearly),
    generator("damaged", 12_000, damage::damaged),
    generator("empty", 1_200, damage::empty),
    generator("door", 12_000, door::door),
    generator("mutated", 12_000, mutated::mutated),
    generator("room", 8_000, room::room),
];

/// The case of a named generator and a seed.
pub fn make(name: &str, seed: u64) -> Option<Case> {
    let generator = GENERATORS.iter().find(|generator| generator.name == name)?;
    let mut case = (generator.make)(&mut Random::new(seed));
    case.generator = generator.name;
    case.seed = seed;
    Some(case)
}

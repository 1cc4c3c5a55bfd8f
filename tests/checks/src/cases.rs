//! Which cases a test goes through.

use std::env;
use streams::{make, Case, GENERATORS};

/// The one case that the environment asks for.
pub fn chosen() -> Option<Case> {
    let name = env::var("CHAFFDANCER_GENERATOR").ok()?;
    let seed = env::var("CHAFFDANCER_SEED").ok()?;
    let seed = seed.parse().expect("CHAFFDANCER_SEED is a whole number");
    Some(make(&name, seed).expect("CHAFFDANCER_GENERATOR is the name of a generator"))
}

/// The seeds of a run begin here; another base gives other streams.
fn base() -> u64 {
    let base: u64 = match env::var("CHAFFDANCER_BASE") {
        Ok(base) => base.parse().expect("CHAFFDANCER_BASE is a whole number"),
        Err(_) => 1,
    };
    base.wrapping_mul(1_000_000)
}

/// Goes through one case in every few (`share`) of each generator, or
/// through the chosen case alone.
pub fn each(share: u64, mut body: impl FnMut(&Case)) {
    if let Some(case) = chosen() {
        return body(&case);
    }
    sized(|streams| streams.div_ceil(share), 0, 1, &mut body);
}

/// Goes through the seeds of each generator that leave the rest `turn` when
/// divided by `turns`.
pub fn sized(size: impl Fn(u64) -> u64, turn: u64, turns: u64, body: &mut impl FnMut(&Case)) {
    for generator in GENERATORS {
        for index in (0..size(generator.streams)).filter(|index| index % turns == turn) {
            body(&make(generator.name, base() + index).expect("a known name"));
        }
    }
}

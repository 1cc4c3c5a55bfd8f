//! A bounded run of the fuzzer; the program `fuzz` goes on for longer.

use checks::fuzzed;
use streams::make;

#[test]
fn a_bounded_run() {
    if checks::chosen().is_some() {
        return;
    }
    for seed in 900_000_000..900_020_000 {
        let case = make("mutated", seed).expect("a known name");
        if let Err(why) = fuzzed(&case) {
            panic!("{why}");
        }
    }
}

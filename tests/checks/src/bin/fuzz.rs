//! The fuzzer: changed cases against the second scheduler, until stopped.
//!
//! `fuzz` goes on until stopped, `fuzz 60` for 60 seconds, `fuzz 60 7` begins
//! with seed 7, and `fuzz 5000x` makes 5,000 cases.

use checks::{fuzzed, Coverage};
use std::env;
use std::process::ExitCode;
use std::time::{Duration, Instant, SystemTime};
use streams::make;

fn main() -> ExitCode {
    let arguments: Vec<String> = env::args().skip(1).collect();
    let bound = arguments.first().map(String::as_str).unwrap_or("");
    let cases: u64 = match bound.strip_suffix('x') {
        Some(cases) => cases.parse().expect("a number of cases"),
        None => u64::MAX,
    };
    let seconds = match bound {
        _ if bound.is_empty() || bound.ends_with('x') => None,
        _ => Some(bound.parse().expect("a number of seconds")),
    };
    let first = match arguments.get(1) {
        Some(seed) => seed.parse().expect("a seed"),
        None => clock(),
    };
    println!("first seed {first}");
    let began = Instant::now();
    let mut said = Instant::now();
    let mut coverage = Coverage::default();
    for index in 0..cases {
        if seconds.is_some_and(|seconds| began.elapsed() >= Duration::from_secs(seconds)) {
            break;
        }
        let case = make("mutated", first.wrapping_add(index)).expect("a known name");
        match fuzzed(&case) {
            Ok(outcome) => coverage.count(&outcome),
            Err(why) => {
                println!("{why}");
                return ExitCode::FAILURE;
            }
        }
        if said.elapsed() >= Duration::from_secs(10) {
            println!("{} cases, {} requests", coverage.streams, coverage.requests);
            said = Instant::now();
        }
    }
    println!("no difference: {coverage:?}");
    ExitCode::SUCCESS
}

/// A seed that is another one each time.
fn clock() -> u64 {
    let now = SystemTime::now().duration_since(SystemTime::UNIX_EPOCH);
    now.map(|since| since.as_nanos() as u64 >> 10 << 20)
        .unwrap_or(1)
}

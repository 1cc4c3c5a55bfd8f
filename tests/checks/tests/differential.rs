//! The compiled library against the second scheduler on random streams:
//! every answer byte, every final value, every buffer byte.

use checks::{chosen, compare, rerun, shrunk, sized, Coverage};
use std::thread;
use streams::Case;

fn check(case: &Case, coverage: &mut Coverage) {
    match compare(case) {
        Ok(outcome) => coverage.count(&outcome),
        Err(why) => panic!("{}\n{why}\n{}", rerun(case), shrunk(case)),
    }
}

#[test]
fn library_equals_scheduler() {
    let mut coverage = Coverage::default();
    if let Some(case) = chosen() {
        return check(&case, &mut coverage);
    }
    let half = |turn| {
        let mut coverage = Coverage::default();
        sized(|streams| streams, turn, 2, &mut |case| {
            check(case, &mut coverage)
        });
        coverage
    };
    thread::scope(|scope| {
        let other = scope.spawn(|| half(1));
        coverage.add(&half(0));
        match other.join() {
            Ok(more) => coverage.add(&more),
            Err(panic) => std::panic::resume_unwind(panic),
        }
    });
    println!("{coverage:?}");
    assert!(coverage.streams >= 20_000);
    coverage.assert_each(50);
}

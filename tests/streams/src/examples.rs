//! The outline's own cases, all on its table: the worked example, P1 to P13,
//! no requests, the easy errors, whom a desk waits for or yields to, and the
//! age that an aborted desk keeps.

use crate::errors::{copies, easy_errors};
use crate::holders::holders;
use crate::kept::kept;
use crate::{begin, end, read, write};

/// Desk, code, item, reason, first, second: a printed line.
pub type Line = [u32; 6];

pub struct Example {
    pub name: &'static str,
    pub requests: Vec<[u8; 8]>,
    /// What the last requests are answered, one line for each.
    pub last: Vec<Line>,
    /// The items whose final value differs from the opening.
    pub finals: Vec<(usize, u32)>,
}

pub fn examples() -> Vec<Example> {
    let mut all = vec![worked()];
    all.extend(limits());
    all.extend(ages_of_reads());
    all.extend(locks());
    all.extend(holders());
    all.extend(kept());
    all.extend(copies());
    all.extend(easy_errors());
    all
}

pub(crate) fn example(name: &'static str, requests: Vec<[u8; 8]>, last: &[Line]) -> Example {
    let (last, finals) = (last.to_vec(), Vec::new());
    Example {
        name,
        requests,
        last,
        finals,
    }
}

fn worked() -> Example {
    let requests = vec![
        begin(0),
        begin(1),
        read(0, 0),
        write(1, 0, 115),
        end(1),
        write(0, 1, 1),
        end(0),
        write(1, 0, 1150),
        begin(1),
        write(1, 0, 1150),
    ];
    let last = [
        [0, 1, 0, 0, 1, 0],
        [1, 1, 0, 0, 2, 0],
        [0, 2, 0, 0, 140, 0],
        [1, 3, 0, 0, 0, 0],
        [1, 5, 0, 0, 1, 0],
        [0, 3, 1, 0, 0, 0],
        [0, 7, 0, 1, 1, 0],
        [1, 0, 0, 5, 0, 0],
        [1, 1, 0, 0, 3, 1],
        [1, 0, 0, 8, 0, 0],
    ];
    let mut worked = example("the worked example", requests, &last);
    worked.finals.push((0, 115));
    worked
}

fn limits() -> Vec<Example> {
    let to_item_0 = |value| vec![begin(0), write(0, 0, value)];
    vec![
        example(
            "P1 the ceiling is stored",
            to_item_0(250),
            &[[0, 3, 0, 0, 0, 0]],
        ),
        example(
            "P2 above the ceiling",
            to_item_0(251),
            &[[0, 0, 0, 8, 0, 0]],
        ),
        example(
            "P3 the floor is stored",
            to_item_0(30),
            &[[0, 3, 0, 0, 0, 0]],
        ),
        example("P4 below the floor", to_item_0(29), &[[0, 0, 0, 7, 0, 0]]),
        example("no requests", vec![], &[]),
    ]
}

/// Desk 0 begins and makes its requests; then come commits of desk 1 which
/// write item 2; then desk 0 ends.
pub(crate) fn after_commits(first: &[[u8; 8]], commits: usize) -> Vec<[u8; 8]> {
    let mut requests = vec![begin(0)];
    requests.extend(first);
    for _ in 0..commits {
        requests.extend([begin(1), write(1, 2, 9), end(1)]);
    }
    requests.push(end(0));
    requests
}

fn ages_of_reads() -> Vec<Example> {
    let mut all = vec![
        example(
            "P5 16 commits",
            after_commits(&[read(0, 0)], 16),
            &[[0, 5, 0, 0, 17, 0]],
        ),
        example(
            "P6 17 commits",
            after_commits(&[read(0, 0)], 17),
            &[[0, 7, 0, 2, 0, 0]],
        ),
        example(
            "P7 17, nothing open read",
            after_commits(&[], 17),
            &[[0, 5, 0, 0, 18, 0]],
        ),
        example(
            "P7 with a guarded read",
            after_commits(&[read(0, 1)], 17),
            &[[0, 5, 0, 0, 18, 0]],
        ),
        example(
            "the oldest kept set is tested",
            after_commits(&[read(0, 2)], 16),
            &[[0, 7, 2, 1, 1, 0]],
        ),
    ];
    all.iter_mut()
        .for_each(|example| example.finals.push((2, 9)));
    all
}

fn locks() -> Vec<Example> {
    let shared_by_1 = |first, second| vec![begin(first), begin(second), read(1, 1), write(0, 1, 1)];
    let two_holders = vec![
        begin(0),
        begin(1),
        begin(2),
        read(0, 1),
        read(2, 1),
        write(1, 1, 1),
    ];
    let sole = vec![begin(0), read(0, 1), write(0, 1, 1)];
    let shared = vec![begin(0), begin(1), read(0, 1), read(1, 1)];
    let written_older = vec![begin(0), begin(1), write(0, 1, 1), read(1, 1)];
    let written_younger = vec![begin(0), begin(1), write(1, 1, 1), read(0, 1)];
    vec![
        example(
            "P8 the older waits",
            shared_by_1(0, 1),
            &[[0, 4, 1, 0, 1, 0]],
        ),
        example(
            "P9 the younger yields",
            shared_by_1(1, 0),
            &[[0, 7, 1, 3, 1, 0]],
        ),
        example(
            "P10 ages 1 and 3 hold, 2 yields",
            two_holders,
            &[[1, 7, 1, 3, 0, 0]],
        ),
        example("P11 the sole sharer writes", sole, &[[0, 3, 1, 0, 0, 0]]),
        example("two may share", shared, &[[1, 2, 1, 0, 0, 0]]),
        example(
            "a younger reader yields",
            written_older,
            &[[1, 7, 1, 3, 0, 0]],
        ),
        example(
            "an older reader waits",
            written_younger,
            &[[0, 4, 1, 0, 1, 0]],
        ),
    ]
}

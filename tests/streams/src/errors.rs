//! The outline's cases about copies, and its easy errors.

use crate::examples::{example, Example};
use crate::{begin, end, read, write};

pub fn copies() -> Vec<Example> {
    let own = vec![begin(0), write(0, 0, 99), read(0, 0)];
    let other = vec![begin(0), begin(1), write(0, 0, 99), read(1, 0)];
    let own_then_tested = vec![
        begin(0),
        begin(1),
        write(0, 0, 99),
        read(0, 0),
        write(1, 0, 98),
        end(1),
        end(0),
    ];
    let mut tested = example(
        "an own copy read is tested too",
        own_then_tested,
        &[[0, 7, 0, 1, 1, 0]],
    );
    tested.finals.push((0, 98));
    vec![
        example("P12 the own copy is read back", own, &[[0, 2, 0, 0, 99, 0]]),
        example(
            "P13 another reads the old value",
            other,
            &[[1, 2, 0, 0, 140, 0]],
        ),
        tested,
    ]
}

pub fn easy_errors() -> Vec<Example> {
    let slips_through = vec![
        begin(0),
        read(0, 0),
        begin(1),
        write(1, 0, 115),
        end(1),
        end(0),
    ];
    let mut range = example(
        "a blind write after the last read",
        slips_through,
        &[[0, 7, 0, 1, 1, 0]],
    );
    range.finals.push((0, 115));

    let fresh_lock = vec![
        begin(0),
        begin(1),
        write(1, 1, 1),
        end(1),
        read(0, 1),
        end(0),
    ];
    let last = [[0, 2, 1, 0, 1, 0], [0, 5, 0, 0, 2, 0]];
    let mut fresh = example("a guarded read is not tested", fresh_lock, &last);
    fresh.finals.push((1, 1));

    let leftover = vec![
        begin(0),
        read(0, 0),
        write(0, 2, 7),
        begin(1),
        write(1, 0, 100),
        end(1),
        end(0),
        begin(0),
        read(0, 2),
        end(0),
    ];
    let last = [
        [0, 7, 0, 1, 1, 0],
        [0, 1, 0, 0, 1, 1],
        [0, 2, 2, 0, 0, 0],
        [0, 5, 0, 0, 2, 0],
    ];
    let mut left = example("copies of an aborted transaction are gone", leftover, &last);
    left.finals.push((0, 100));

    let several = vec![
        begin(0),
        read(0, 5),
        read(0, 3),
        read(0, 2),
        begin(1),
        write(1, 5, 1),
        write(1, 3, 1),
        end(1),
        begin(1),
        write(1, 2, 1),
        end(1),
        end(0),
    ];
    let mut lowest = example(
        "the lowest number, then its lowest item",
        several,
        &[[0, 7, 3, 1, 1, 0]],
    );
    lowest.finals.extend([(2, 1), (3, 1), (5, 1)]);
    vec![range, fresh, left, lowest]
}

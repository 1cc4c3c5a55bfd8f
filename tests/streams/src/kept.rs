//! The age that an aborted desk keeps, answer by answer. Item 1 is guarded.

use crate::examples::{after_commits, example, Example, Line};
use crate::{abandon, begin, end, read, write, Record};

pub fn kept() -> Vec<Example> {
    let mut all = vec![made_to_yield(), older_and_begun_later()];
    all.extend(after_each_reason());
    all.extend(new_ages());
    all.extend(kept_on());
    all.extend(all_ages_given());
    all
}

/// Desk 1 begins first and takes item 1, and desk 0 asks for it.
const ROUND: [Record; 7] = [
    begin(1),
    write(1, 1, 1),
    begin(0),
    write(0, 1, 1),
    end(1),
    write(0, 1, 1),
    end(0),
];

/// In every round desk 0 begins after desk 1; in every second one it is older.
fn made_to_yield() -> Example {
    let answers = [
        [1, 1, 0, 0, 1, 0],
        [1, 3, 1, 0, 0, 0],
        [0, 1, 0, 0, 2, 0],
        [0, 7, 1, 3, 1, 0],
        [1, 5, 0, 0, 1, 0],
        [0, 0, 0, 5, 0, 0],
        [0, 0, 0, 5, 0, 0],
        // Desk 1 has a new age, desk 0 the one it kept: it waits and is served.
        [1, 1, 0, 0, 3, 1],
        [1, 3, 1, 0, 0, 0],
        [0, 1, 0, 0, 2, 1],
        [0, 4, 1, 0, 1, 0],
        [1, 5, 0, 0, 2, 0],
        [0, 3, 1, 0, 0, 0],
        [0, 5, 0, 0, 3, 0],
        // It has committed and keeps nothing.
        [1, 1, 0, 0, 4, 3],
        [1, 3, 1, 0, 0, 0],
        [0, 1, 0, 0, 5, 3],
        [0, 7, 1, 3, 1, 0],
        [1, 5, 0, 0, 4, 0],
        [0, 0, 0, 5, 0, 0],
        [0, 0, 0, 5, 0, 0],
        [1, 1, 0, 0, 6, 4],
        [1, 3, 1, 0, 0, 0],
        [0, 1, 0, 0, 5, 4],
        [0, 4, 1, 0, 1, 0],
        [1, 5, 0, 0, 5, 0],
        [0, 3, 1, 0, 0, 0],
        [0, 5, 0, 0, 6, 0],
    ];
    let mut story = example(
        "who is made to yield gets through",
        ROUND.repeat(4),
        &answers,
    );
    story.finals.push((1, 1));
    story
}

/// Desk 9 yields and begins again after desk 4, which is younger all the same:
/// whom others wait for, and who yields, goes by age.
fn older_and_begun_later() -> Example {
    let requests = vec![
        begin(6),
        begin(5),
        write(5, 1, 1),
        begin(9),
        read(9, 1),
        abandon(5),
        begin(4),
        read(4, 1),
        begin(9),
        read(9, 1),
        write(6, 1, 1),
        begin(0),
        write(0, 1, 1),
        write(9, 1, 1),
        write(4, 1, 1),
        write(9, 1, 1),
    ];
    let answers = [
        [6, 1, 0, 0, 1, 0],
        [5, 1, 0, 0, 2, 0],
        [5, 3, 1, 0, 0, 0],
        [9, 1, 0, 0, 3, 0],
        [9, 7, 1, 3, 5, 0],
        [5, 6, 0, 0, 0, 0],
        [4, 1, 0, 0, 4, 0],
        [4, 2, 1, 0, 0, 0],
        [9, 1, 0, 0, 3, 0],
        [9, 2, 1, 0, 0, 0],
        [6, 4, 1, 0, 9, 0],
        [0, 1, 0, 0, 5, 0],
        [0, 7, 1, 3, 9, 0],
        [9, 4, 1, 0, 4, 0],
        [4, 7, 1, 3, 9, 0],
        [9, 3, 1, 0, 0, 0],
    ];
    example("who began again is as old as before", requests, &answers)
}

/// Desk 1 holds item 1, and desk 0, which has age 2, is made to yield to it.
fn yielded(then: &[Record]) -> Vec<Record> {
    let mut requests = vec![begin(1), write(1, 1, 1), begin(0), write(0, 1, 1)];
    requests.extend(then);
    requests
}

/// An open item that desk 0 has read is overwritten.
fn overwritten(then: &[Record]) -> Vec<Record> {
    let mut requests = vec![begin(0), read(0, 0), begin(1), write(1, 0, 115)];
    requests.extend([end(1), end(0)]);
    requests.extend(then);
    requests
}

fn after_each_reason() -> Vec<Example> {
    let mut too_old = after_commits(&[read(0, 0)], 17);
    too_old.push(begin(0));
    let mut all = vec![
        example(
            "the age is kept after a yield",
            yielded(&[begin(0)]),
            &[[0, 7, 1, 3, 1, 0], [0, 1, 0, 0, 2, 0]],
        ),
        example(
            "the age is kept after an overwriting, with a new start",
            overwritten(&[begin(0)]),
            &[[0, 7, 0, 1, 1, 0], [0, 1, 0, 0, 1, 1]],
        ),
        example(
            "the age is kept by who was too old, with a new start",
            too_old,
            &[[0, 7, 0, 2, 0, 0], [0, 1, 0, 0, 1, 17]],
        ),
    ];
    all[1].finals.push((0, 115));
    all[2].finals.push((2, 9));
    all
}

fn new_ages() -> Vec<Example> {
    let after_a_commit = vec![begin(0), end(0), begin(0)];
    let after_an_abandon = vec![begin(0), abandon(0), begin(0)];
    let committed_with_it = [begin(0), end(0), begin(0)];
    let abandoned_with_it = [begin(0), abandon(0), begin(0)];
    vec![
        example(
            "a new age after a commit",
            after_a_commit,
            &[[0, 5, 0, 0, 1, 0], [0, 1, 0, 0, 2, 1]],
        ),
        example(
            "a new age after an abandon",
            after_an_abandon,
            &[[0, 6, 0, 0, 0, 0], [0, 1, 0, 0, 2, 0]],
        ),
        example(
            "who commits with a kept age has used it up",
            yielded(&committed_with_it),
            &[[0, 1, 0, 0, 2, 0], [0, 5, 0, 0, 1, 0], [0, 1, 0, 0, 3, 1]],
        ),
        example(
            "who abandons with a kept age drops it",
            yielded(&abandoned_with_it),
            &[[0, 1, 0, 0, 2, 0], [0, 6, 0, 0, 0, 0], [0, 1, 0, 0, 3, 0]],
        ),
    ]
}

fn kept_on() -> Vec<Example> {
    vec![
        three_aborts(),
        refused_meanwhile(),
        nobody_else_gets_it(),
        each_has_its_own(),
    ]
}

/// For each of the reasons, one after the other.
fn three_aborts() -> Example {
    let mut then = vec![begin(0), read(0, 1), begin(0), read(0, 0)];
    then.extend([
        begin(2),
        write(2, 0, 115),
        end(2),
        end(0),
        begin(0),
        read(0, 5),
    ]);
    then.extend([begin(2), end(2)].repeat(17));
    then.extend([end(0), begin(0), begin(3)]);
    let mut answers: Vec<Line> = vec![
        [0, 7, 1, 3, 1, 0],
        [0, 1, 0, 0, 2, 0],
        [0, 7, 1, 3, 1, 0],
        [0, 1, 0, 0, 2, 0],
        [0, 2, 0, 0, 140, 0],
        [2, 1, 0, 0, 3, 0],
        [2, 3, 0, 0, 0, 0],
        [2, 5, 0, 0, 1, 0],
        [0, 7, 0, 1, 1, 0],
        [0, 1, 0, 0, 2, 1],
        [0, 2, 5, 0, 0, 0],
    ];
    for number in 1..=17 {
        answers.extend([
            [2, 1, 0, 0, number + 3, number],
            [2, 5, 0, 0, number + 1, 0],
        ]);
    }
    answers.extend([
        [0, 7, 0, 2, 1, 0],
        [0, 1, 0, 0, 2, 18],
        [3, 1, 0, 0, 21, 18],
    ]);
    let mut aborts = example("several aborts in a row", yielded(&then), &answers);
    aborts.finals.push((0, 115));
    aborts
}

/// Nothing that a desk asks with nothing open takes its age away.
fn refused_meanwhile() -> Example {
    let mut malformed = begin(0);
    malformed[3] = 1;
    let asked = [read(0, 1), write(0, 1, 1), end(0), abandon(0), malformed];
    let then = [&asked[..], &[abandon(0), begin(0)]].concat();
    let answers = [
        [0, 0, 0, 5, 0, 0],
        [0, 0, 0, 5, 0, 0],
        [0, 0, 0, 5, 0, 0],
        [0, 0, 0, 5, 0, 0],
        [0, 0, 0, 3, 0, 0],
        [0, 0, 0, 5, 0, 0],
        [0, 1, 0, 0, 2, 0],
    ];
    example("refusals leave the age", yielded(&then), &answers)
}

fn nobody_else_gets_it() -> Example {
    let then = [
        begin(2),
        begin(15),
        end(1),
        begin(1),
        begin(0),
        abandon(2),
        begin(2),
    ];
    let answers = [
        [2, 1, 0, 0, 3, 0],
        [15, 1, 0, 0, 4, 0],
        [1, 5, 0, 0, 1, 0],
        [1, 1, 0, 0, 5, 1],
        [0, 1, 0, 0, 2, 1],
        [2, 6, 0, 0, 0, 0],
        [2, 1, 0, 0, 6, 1],
    ];
    let mut others = example("no other desk gets a kept age", yielded(&then), &answers);
    others.finals.push((1, 1));
    others
}

fn each_has_its_own() -> Example {
    let mut then = vec![begin(7), begin(3), read(7, 1), read(3, 1)];
    then.extend([begin(3), begin(0), begin(5), begin(7)]);
    let answers = [
        [7, 1, 0, 0, 3, 0],
        [3, 1, 0, 0, 4, 0],
        [7, 7, 1, 3, 1, 0],
        [3, 7, 1, 3, 1, 0],
        [3, 1, 0, 0, 4, 0],
        [0, 1, 0, 0, 2, 0],
        [5, 1, 0, 0, 5, 0],
        [7, 1, 0, 0, 3, 0],
    ];
    example("each desk has the age it kept", yielded(&then), &answers)
}

/// Desk 0 keeps age 2 while desk 2 uses up all the others.
fn after_all_ages(then: &[Record]) -> Vec<Record> {
    let mut requests = yielded(&[]);
    requests.extend([begin(2), abandon(2)].repeat(1_998));
    requests.extend(then);
    requests
}

fn all_ages_given() -> Vec<Example> {
    let mut malformed = begin(0);
    malformed[7] = 1;
    let committed = [
        begin(3),
        begin(2),
        malformed,
        begin(0),
        begin(0),
        begin(1),
        write(0, 1, 1),
        begin(0),
        end(1),
        begin(1),
        write(0, 1, 1),
        end(0),
        begin(0),
    ];
    let answers = [
        [3, 0, 0, 9, 0, 0],
        [2, 0, 0, 9, 0, 0],
        [0, 0, 0, 3, 0, 0],
        [0, 1, 0, 0, 2, 0],
        [0, 0, 0, 4, 0, 0],
        [1, 0, 0, 4, 0, 0],
        [0, 7, 1, 3, 1, 0],
        [0, 1, 0, 0, 2, 0],
        [1, 5, 0, 0, 1, 0],
        [1, 0, 0, 9, 0, 0],
        [0, 3, 1, 0, 0, 0],
        [0, 5, 0, 0, 2, 0],
        [0, 0, 0, 9, 0, 0],
    ];
    let mut all = vec![
        example(
            "a kept age is taken when all are given",
            after_all_ages(&committed),
            &answers,
        ),
        example(
            "abandoned, and no age is left",
            after_all_ages(&[begin(0), abandon(0), begin(0)]),
            &[[0, 1, 0, 0, 2, 0], [0, 6, 0, 0, 0, 0], [0, 0, 0, 9, 0, 0]],
        ),
        the_last_age(),
    ];
    all[0].finals.push((1, 1));
    all
}

/// Age 2,000 itself is kept, and no age is given beyond it.
fn the_last_age() -> Example {
    let mut requests = [begin(2), abandon(2)].repeat(1_998);
    requests.extend([begin(1), write(1, 1, 1), begin(0), read(0, 1)]);
    requests.extend([
        begin(2),
        begin(0),
        end(1),
        begin(1),
        read(0, 1),
        end(0),
        begin(0),
    ]);
    let answers = [
        [1, 1, 0, 0, 1_999, 0],
        [1, 3, 1, 0, 0, 0],
        [0, 1, 0, 0, 2_000, 0],
        [0, 7, 1, 3, 1, 0],
        [2, 0, 0, 9, 0, 0],
        [0, 1, 0, 0, 2_000, 0],
        [1, 5, 0, 0, 1, 0],
        [1, 0, 0, 9, 0, 0],
        [0, 2, 1, 0, 1, 0],
        [0, 5, 0, 0, 2, 0],
        [0, 0, 0, 9, 0, 0],
    ];
    let mut last = example("age 2,000 is kept too", requests, &answers);
    last.finals.push((1, 1));
    last
}

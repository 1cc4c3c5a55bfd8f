//! The item that an overwritten transaction is told of: the lowest of those
//! that it read and the other wrote, at every place and for every two places.
//! The answers follow from the items alone, not from the second scheduler.

use checks::library_run;
use streams::{begin, end, read, row, write, Case, Record};

/// Desk 0 reads, desk 1 writes and commits as number 1, and desk 0 ends.
fn last_answer(read_items: &[u8], written_items: &[u8]) -> Vec<u8> {
    let mut requests: Vec<Record> = vec![begin(0)];
    requests.extend(read_items.iter().map(|&item| read(0, item)));
    requests.push(begin(1));
    requests.extend(written_items.iter().map(|&item| write(1, item, 1)));
    requests.extend([end(1), end(0)]);
    let case = Case {
        generator: "overwritten",
        seed: 0,
        table: row(0, 1, 0, 0).repeat(64),
        answers_length: requests.len() * 12,
        requests: requests.concat(),
        values_length: 256,
        journal_length: 0,
    };
    let outcome = library_run(&case).expect("a run");
    assert_eq!(outcome.count as usize, requests.len());
    outcome.answers[outcome.answers.len() - 12..].to_vec()
}

fn aborted_at(item: u8) -> Vec<u8> {
    vec![7, 0, item, 1, 1, 0, 0, 0, 0, 0, 0, 0]
}

fn committed_as_2() -> Vec<u8> {
    vec![5, 0, 0, 0, 2, 0, 0, 0, 0, 0, 0, 0]
}

#[test]
fn the_lowest_of_two_is_named_wherever_they_stand() {
    let all: Vec<u8> = (0..64).collect();
    for low in 0..64 {
        for high in low..64 {
            let two = [high, low];
            assert_eq!(last_answer(&all, &two), aborted_at(low), "{two:?} written");
            assert_eq!(last_answer(&two, &all), aborted_at(low), "{two:?} read");
        }
    }
}

#[test]
fn the_lowest_of_many_is_named() {
    for low in 0..64 {
        let from: Vec<u8> = (low..64).rev().collect();
        assert_eq!(last_answer(&from, &from), aborted_at(low));
    }
}

#[test]
fn where_nothing_is_shared_both_commit() {
    for place in 0..=64 {
        let (below, above): (Vec<u8>, Vec<u8>) = (0..64).partition(|&item| item < place);
        assert_eq!(last_answer(&below, &above), committed_as_2());
        assert_eq!(last_answer(&above, &below), committed_as_2());
    }
}

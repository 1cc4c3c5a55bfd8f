//! Damaged tables and lengths at the outer door, null pointers, and the order
//! of its refusals. The expected numbers are written out from the outline.

use checks::{compare, Fenced};
use streams::{begin, end, outline_table, read, write, Case};

fn case(table: Vec<u8>, requests: Vec<u8>, answers_length: usize, values_length: usize) -> Case {
    Case {
        generator: "damage",
        seed: 0,
        table,
        requests,
        answers_length,
        values_length,
        journal_length: 0,
    }
}

fn some_requests() -> Vec<u8> {
    [
        begin(0),
        read(0, 0),
        write(0, 1, 1),
        write(0, 63, 9),
        end(0),
    ]
    .concat()
}

/// A run of exactly these parts: its number, compared with the scheduler's.
fn verdict(table: Vec<u8>, requests: Vec<u8>, answers: usize, values: usize) -> i64 {
    let case = case(table, requests, answers, values);
    match compare(&case).and_then(|outcome| same_with_a_journal(&case, outcome.count)) {
        Ok(count) => count,
        Err(why) => panic!("answers {answers}, values {values}: {why}"),
    }
}

/// A journal, here one without room, makes no difference to these refusals.
#[cfg(feature = "journal")]
fn same_with_a_journal(case: &Case, count: i64) -> Result<i64, String> {
    let journaled = checks::compare_journaled(case, 5)?.outcome.count;
    match journaled == count {
        true => Ok(count),
        false => Err(format!("hub_run {count}, hub_run_journal {journaled}")),
    }
}

#[cfg(not(feature = "journal"))]
fn same_with_a_journal(_: &Case, count: i64) -> Result<i64, String> {
    Ok(count)
}

#[test]
fn every_byte_of_the_table() {
    let mut refused = 0;
    for place in 0..1_024 {
        let right = outline_table()[place];
        let mut bytes: Vec<u8> = (0..8).map(|bit| right ^ (1 << bit)).collect();
        bytes.extend([
            0,
            1,
            2,
            255,
            !right,
            right.wrapping_add(1),
            right.wrapping_sub(1),
        ]);
        for byte in bytes {
            let mut table = outline_table();
            table[place] = byte;
            let number = verdict(table, some_requests(), 60, 256);
            // The kind and the zero bytes leave no doubt.
            match place % 16 {
                12 => assert_eq!(number == -10, byte > 1, "byte {place} is {byte}"),
                13..=15 => assert_eq!(number == -10, byte != 0, "byte {place} is {byte}"),
                _ => {}
            }
            refused += u32::from(number == -10);
        }
    }
    assert!(refused > 3_000 && refused < 15_000, "{refused} refused");
}

#[test]
fn every_length_of_the_table() {
    for length in 0..=1_040 {
        let mut table = outline_table();
        table.resize(length, 0);
        let wanted = if length == 1_024 { 5 } else { -10 };
        assert_eq!(
            verdict(table, some_requests(), 60, 256),
            wanted,
            "length {length}"
        );
    }
    let twice = [outline_table(), outline_table()].concat();
    assert_eq!(verdict(twice, some_requests(), 60, 256), -10);
}

#[test]
fn every_length_of_the_requests() {
    for length in (0..=200).chain(32_750..=32_790) {
        let requests: Vec<u8> = begin(0).repeat(length / 8 + 1)[..length].to_vec();
        let wanted = match length {
            _ if length % 8 != 0 => -11,
            _ if length / 8 > 4_096 => -14,
            _ => (length / 8) as i64,
        };
        let number = verdict(outline_table(), requests, 60_000, 256);
        assert_eq!(number, wanted, "length {length}");
    }
}

#[test]
fn buffer_lengths_beside_their_limits() {
    for count in [0usize, 1, 2, 5, 64, 4_095, 4_096] {
        let requests = begin(0).repeat(count);
        let around = (12 * count).saturating_sub(13)..=12 * count + 13;
        for answers in around {
            for values in [0, 1, 255, 256, 257, 512] {
                let wanted = match () {
                    _ if answers < 12 * count => -12,
                    _ if values < 256 => -13,
                    _ => count as i64,
                };
                let number = verdict(outline_table(), requests.clone(), answers, values);
                assert_eq!(number, wanted, "{count} requests, {answers}, {values}");
            }
        }
    }
    for values in 0..=300 {
        let wanted = if values < 256 { -13 } else { 5 };
        assert_eq!(
            verdict(outline_table(), some_requests(), 60, values),
            wanted
        );
    }
    assert_eq!(
        verdict(outline_table(), begin(0).repeat(4_097), 60_000, 256),
        -14
    );
}

/// Every choice of spoilt parts gives the first number in the outline's order.
#[test]
fn order_of_refusals() {
    for spoilt in 0..32u32 {
        let bad = |bit: u32| spoilt & (1 << bit) != 0;
        let mut table = outline_table();
        table[15] = u8::from(bad(0));
        let many = if bad(2) { 4_097 } else { 3 };
        let mut requests = begin(0).repeat(many);
        if bad(1) {
            requests.push(0);
        }
        let answers = if bad(3) { 35 } else { 12 * 4_098 };
        let values = if bad(4) { 255 } else { 256 };
        let order = [10, 11, 14, 12, 13];
        let first = (0..5).find(|&bit| bad(bit)).map(|bit| -order[bit as usize]);
        let number = verdict(table, requests, answers, values);
        assert_eq!(number, first.unwrap_or(3), "spoilt {spoilt:05b}");
    }
}

/// Nothing lent, as a dangling pointer and as a null pointer.
#[test]
fn nothing_lent() {
    type Run = fn(&[u8], &[u8], &mut [u8], &mut [u8]) -> i64;
    for run in [library::run as Run, library::run_with_null as Run] {
        let table = outline_table();
        let mut values = Fenced::new(256, 3);
        assert_eq!(run(&[], &[], &mut [], &mut []), -10);
        assert_eq!(run(&[], &begin(0), &mut [], values.lent()), -10);
        assert_eq!(run(&table, &[], &mut [], &mut []), -13);
        assert_eq!(run(&table, &begin(0), &mut [], values.lent()), -12);
        assert_eq!(run(&table, &begin(0), &mut [0; 12], &mut []), -13);
        assert!(values.kept_beyond(0));
        assert_eq!(run(&table, &[], &mut [], values.lent()), 0);
        let opened: Vec<u8> = table
            .chunks(16)
            .flat_map(|row| row[8..12].to_vec())
            .collect();
        assert_eq!(values.holds(), opened);
        assert!(values.kept_beyond(256));
    }
}

/// A refused run writes nothing in either buffer, whatever the reason.
#[test]
fn a_refused_run_writes_nothing() {
    let mut wrong = outline_table();
    wrong[12] = 2;
    let ragged = vec![1; 15];
    let refused = [
        (wrong, some_requests(), 60, 256, -10),
        (outline_table(), ragged, 60, 256, -11),
        (outline_table(), begin(0).repeat(4_097), 49_164, 256, -14),
        (outline_table(), some_requests(), 59, 256, -12),
        (outline_table(), some_requests(), 60, 255, -13),
    ];
    for (table, requests, answers, values, wanted) in refused {
        let mut answers = Fenced::new(answers, 1);
        let mut values = Fenced::new(values, 2);
        let number = library::run(&table, &requests, answers.lent(), values.lent());
        assert_eq!(number, wanted);
        assert!(
            answers.kept_beyond(0) && values.kept_beyond(0),
            "refusal {wanted}"
        );
    }
}

//! The restart: after any cut the values of the last whole commit, and at any
//! damage what stands before it. What is wanted comes from requests and
//! answers alone, from written-out records, or from the second scheduler.

use checks::{
    chosen, closings, compare_restart, each, library_run_journal, rerun, values_after, Fenced,
};
use scheduler::{record, CLOSING, WRITTEN};
use streams::{begin, end, outline_table, random_table, read, row, write, Case, Random, Shape};

type Record = [u8; 8];

fn number(bytes: &[u8]) -> u32 {
    u32::from_le_bytes([bytes[0], bytes[1], bytes[2], bytes[3]])
}

fn values_of(table: &[u8]) -> Vec<u32> {
    table.chunks(16).map(|row| number(&row[8..])).collect()
}

/// The restart's count and table; nothing but the values may have changed.
fn restarted(table: &[u8], journal: &[u8]) -> (i64, Vec<u8>) {
    let mut given = Fenced::holding(table, 7);
    let lent = Fenced::holding(journal, 8);
    let count = library::restart(given.lent(), lent.holds());
    assert!(given.kept_beyond(table.len()) && lent.holds() == journal);
    for (given, row) in given.holds().chunks(16).zip(table.chunks(16)) {
        let (kept, rest) = (row.len().min(8), row.len().min(12));
        assert!(given[..kept] == row[..kept] && given[rest..] == row[rest..]);
    }
    (count, given.holds().to_vec())
}

/// The same, compared with the second scheduler.
fn compared(table: &[u8], journal: &[u8]) -> (i64, Vec<u8>) {
    compare_restart(table, journal).unwrap_or_else(|why| panic!("{why}"))
}

/// The used part of the journal that the case leaves, and the values after
/// each count of commits.
fn journal_of(case: &Case) -> Option<(Vec<u8>, Vec<Vec<u32>>)> {
    let run = library_run_journal(case, case.requests.len()).expect("a run");
    if run.outcome.count < 0 {
        return None;
    }
    let used = closings(&run.journal).last().copied().unwrap_or(0);
    let values = values_after(case, &run.outcome.answers);
    Some((run.journal[..used].to_vec(), values))
}

/// Checks one cut: commits whose closing record is whole, no more, no fewer.
fn cut(table: &[u8], journal: &[u8], closings: &[usize], length: usize, values: &[Vec<u32>]) {
    let whole = closings
        .iter()
        .filter(|&&closing| closing <= length)
        .count();
    let (count, restarted) = restarted(table, &journal[..length]);
    assert_eq!(count, whole as i64, "cut after {length} bytes");
    assert_eq!(
        values_of(&restarted),
        values[whole],
        "cut after {length} bytes"
    );
}

#[test]
fn every_cut() {
    let mut cuts = 0;
    each(60, |case| {
        let Some((journal, values)) = journal_of(case) else {
            return;
        };
        let closings = closings(&journal);
        let random = &mut Random::new(case.seed);
        // Of long journals some stretch, and their end.
        let from = random.below(journal.len().saturating_sub(600).max(1));
        for length in (from..=journal.len().min(from + 600)).chain([journal.len()]) {
            cut(&case.table, &journal, &closings, length, &values);
            cuts += 1;
        }
    });
    println!("{cuts} cuts");
    assert!(chosen().is_some() || cuts > 50_000);
}

/// What a cut leaves may be followed by zeros, by what an earlier journal
/// left there, or by anything else that doesn't fit.
#[test]
fn a_cut_and_what_may_stand_behind_it() {
    each(60, |case| {
        let Some((journal, _)) = journal_of(case) else {
            return;
        };
        let random = &mut Random::new(case.seed ^ 0xC0DE);
        for _ in 0..20 {
            let mut bytes = journal[..random.below(journal.len() + 1)].to_vec();
            match random.below(3) {
                0 => bytes.resize(bytes.len() + random.below(40), 0),
                1 => bytes.extend((0..random.below(40)).map(|_| random.byte())),
                _ => bytes.extend(&journal[..random.below(journal.len() + 1)]),
            }
            compared(&case.table, &bytes);
        }
    });
}

/// Every byte of small journals, each bit of it and some other changes.
#[test]
fn every_byte_damaged() {
    let mut shorter = 0;
    each(1_000, |case| {
        let Some((mut journal, _)) = journal_of(case) else {
            return;
        };
        journal.truncate(240);
        let whole = restarted(&case.table, &journal).0;
        for place in 0..journal.len() {
            let right = journal[place];
            let mut bytes: Vec<u8> = (0..8).map(|bit| right ^ (1 << bit)).collect();
            bytes.extend([0, 1, 2, 3, 63, 64, 255, right.wrapping_add(1)]);
            for byte in bytes {
                journal[place] = byte;
                shorter += u32::from(compared(&case.table, &journal).0 < whole);
            }
            journal[place] = right;
        }
    });
    println!("{shorter} journals were cut short by damage");
    assert!(chosen().is_some() || shorter > 10_000);
}

/// Records swapped, doubled, left out, put elsewhere, renumbered and zeroed.
#[test]
fn records_out_of_order() {
    each(40, |case| {
        let Some((journal, _)) = journal_of(case) else {
            return;
        };
        let records: Vec<Record> = journal.chunks(8).map(|r| r.try_into().unwrap()).collect();
        if records.is_empty() {
            return;
        }
        let random = &mut Random::new(case.seed ^ 0x0DD);
        for _ in 0..20 {
            let mut records = records.clone();
            for _ in 0..random.within(1, 2) {
                disorder(&mut records, random);
            }
            compared(&case.table, &records.concat());
        }
    });
}

fn disorder(records: &mut Vec<Record>, random: &mut Random) {
    if records.is_empty() {
        return;
    }
    // Mostly near the beginning, so that much stands behind.
    let end = records.len().min(random.pick(&[4, 16, 10_000]));
    let (one, other) = (random.below(end), random.below(end));
    match random.below(9) {
        0 => records.swap(one, other),
        1 => records.swap(one, (one + 1) % end),
        2 => records.insert(one, records[other]),
        3 => records.insert(one, records[one]),
        4 => drop(records.remove(one)),
        5 => records[one] = [0; 8],
        6 => records[one][1] = random.below(66) as u8,
        7 => records[one][2] = records[one][2].wrapping_add(random.pick(&[1, 255])),
        _ => records[one][4] = records[one][4].wrapping_add(random.pick(&[1, 255])),
    }
}

/// Journals on the outline's table, and how many commits they hold.
fn written_out() -> Vec<(&'static str, Vec<Record>, i64)> {
    let first = || vec![record(WRITTEN, 0, 1, 115), record(CLOSING, 0, 1, 1)];
    let after = |more: &[Record]| [first(), more.to_vec()].concat();
    let set = |number, item, value| record(WRITTEN, item, number, value);
    let close = |number, count| record(CLOSING, 0, number, count);
    vec![
        ("nothing", vec![], 0),
        ("a zeroed record", vec![[0; 8]], 0),
        ("an empty commit", vec![close(1, 0)], 1),
        ("one commit", first(), 1),
        ("two commits", after(&[set(2, 63, 1_000), close(2, 1)]), 2),
        ("not closed", after(&[set(2, 2, 1)]), 1),
        ("a count too high", after(&[set(2, 2, 1), close(2, 2)]), 1),
        (
            "a count too low",
            after(&[set(2, 2, 1), set(2, 3, 1), close(2, 1)]),
            1,
        ),
        ("a count of nothing", after(&[close(2, 1)]), 1),
        ("a count with a high byte", after(&[close(2, 1 << 24)]), 1),
        ("a count of 256 for none", after(&[close(2, 256)]), 1),
        ("number 0", vec![close(0, 0)], 0),
        ("number 2 first", vec![close(2, 0)], 0),
        ("number 256 for 1", vec![close(256, 0)], 0),
        ("number 257 for 1", vec![close(257, 0)], 0),
        ("a number twice", after(&[close(1, 0)]), 1),
        ("a number left out", after(&[close(3, 0)]), 1),
        (
            "a record of another number",
            after(&[set(1, 2, 1), close(2, 1)]),
            1,
        ),
        (
            "a record of the next number",
            after(&[set(3, 2, 1), close(2, 1)]),
            1,
        ),
        (
            "a closing of another number",
            after(&[set(2, 2, 1), close(3, 1)]),
            1,
        ),
        (
            "descending items",
            after(&[set(2, 3, 1), set(2, 2, 1), close(2, 2)]),
            1,
        ),
        (
            "an item twice",
            after(&[set(2, 3, 1), set(2, 3, 1), close(2, 2)]),
            1,
        ),
        (
            "ascending over a commit's end",
            after(&[set(2, 0, 99), close(2, 1)]),
            2,
        ),
        ("item 64", after(&[set(2, 64, 1), close(2, 1)]), 1),
        ("item 255", after(&[set(2, 255, 1), close(2, 1)]), 1),
        ("the ceiling", after(&[set(2, 0, 250), close(2, 1)]), 2),
        (
            "above the ceiling",
            after(&[set(2, 0, 251), close(2, 1)]),
            1,
        ),
        ("the floor", after(&[set(2, 0, 30), close(2, 1)]), 2),
        ("below the floor", after(&[set(2, 0, 29), close(2, 1)]), 1),
        ("kind 0", after(&[record(0, 2, 2, 1), close(2, 1)]), 1),
        ("kind 3", after(&[record(3, 0, 2, 0)]), 1),
        ("kind 129", after(&[record(129, 2, 2, 1), close(2, 1)]), 1),
        (
            "a closing with an item",
            after(&[record(CLOSING, 1, 2, 0)]),
            1,
        ),
        (
            "what follows is not looked at",
            after(&[[0; 8], close(2, 0)]),
            1,
        ),
    ]
}

#[test]
fn journals_written_out() {
    for (name, records, wanted) in written_out() {
        let (count, table) = compared(&outline_table(), &records.concat());
        assert_eq!(count, wanted, "{name}");
        assert_eq!(
            values_of(&table),
            values_at(&records, wanted as usize),
            "{name}"
        );
    }
}

/// What the records up to this closing one write on the outline's table.
fn values_at(records: &[Record], commits: usize) -> Vec<u32> {
    let mut values = values_of(&outline_table());
    let closed = |at: &usize| records[*at][0] == CLOSING;
    let end = match commits {
        0 => 0,
        _ => (0..records.len())
            .filter(closed)
            .nth(commits - 1)
            .expect("so many"),
    };
    for record in records[..end].iter().filter(|record| record[0] == WRITTEN) {
        values[record[1] as usize] = number(&record[4..]);
    }
    values
}

/// 8,192 records fill the limit; what stands behind it is not read, were it
/// the rest of a record or of a commit.
#[test]
fn bytes_past_the_limit_are_not_read() {
    let table = outline_table();
    let empty: Vec<u8> = (1..=9_000).flat_map(|n| record(CLOSING, 0, n, 0)).collect();
    for (length, wanted) in [
        (65_527, 8_190),
        (65_528, 8_191),
        (65_535, 8_191),
        (65_536, 8_192),
        (65_537, 8_192),
        (65_544, 8_192),
        (70_000, 8_192),
        (72_000, 8_192),
    ] {
        assert_eq!(
            compared(&table, &empty[..length]).0,
            wanted,
            "{length} bytes"
        );
    }
    // Its closing record stands just behind the limit.
    let mut open_at_the_limit: Vec<u8> = empty[..65_528].to_vec();
    open_at_the_limit.extend(record(WRITTEN, 5, 8_192, 9));
    open_at_the_limit.extend(record(CLOSING, 0, 8_192, 1));
    let (count, after) = compared(&table, &open_at_the_limit);
    assert_eq!((count, after), (8_191, table));
}

/// A commit of all 64 items, at the low and the high end of their ranges.
#[test]
fn all_items_in_one_commit() {
    let table: Vec<u8> = (0..64)
        .flat_map(|item| row(item, u32::MAX - item, 1_000, (item % 2) as u8))
        .collect();
    for high in [false, true] {
        let value = |item: u32| if high { u32::MAX - item } else { item };
        let mut journal: Vec<u8> = (0..64)
            .flat_map(|item| record(WRITTEN, item as u8, 1, value(item)))
            .collect();
        journal.extend(record(CLOSING, 0, 1, 64));
        let (count, after) = compared(&table, &journal);
        assert_eq!(count, 1);
        assert_eq!(values_of(&after), (0..64).map(value).collect::<Vec<u32>>());
        for item in 0..64u32 {
            let mut spoilt = journal.clone();
            let beyond = if high {
                value(item).wrapping_add(1)
            } else {
                value(item).wrapping_sub(1)
            };
            let outside = beyond < item || beyond > u32::MAX - item;
            spoilt[item as usize * 8 + 4..][..4].copy_from_slice(&beyond.to_le_bytes());
            assert_eq!(
                compared(&table, &spoilt).0,
                i64::from(!outside),
                "item {item}"
            );
        }
    }
}

#[test]
fn any_bytes_at_all() {
    let random = &mut Random::new(77);
    for _ in 0..20_000 {
        let shape = Shape::random(random);
        let table = random_table(random, shape);
        let count = random.below(6);
        let mut journal: Vec<u8> = Vec::new();
        for _ in 0..count {
            let kind = random.pick(&[1, 1, 1, 2, 2, 0, 3]);
            let item = random.pick(&[0, 0, 1, 2, 63, 64]);
            let value = random.pick(&[0, 1, 2, number(&table[8..]), number(&table[24..])]);
            journal.extend(record(kind, item, random.within(0, 3) as u16, value));
        }
        journal.extend((0..random.below(9)).map(|_| random.byte()));
        compared(&table, &journal);
    }
}

#[test]
fn a_wrong_table_is_refused_and_kept() {
    let journal = [record(WRITTEN, 0, 1, 115), record(CLOSING, 0, 1, 1)].concat();
    for length in (0..1_040).filter(|&length| length != 1_024).chain([2_048]) {
        let mut table = outline_table();
        table.resize(length, 0);
        assert_eq!(restarted(&table, &journal), (-10, table), "length {length}");
    }
    let mut refused = 0;
    let random = &mut Random::new(3);
    for place in 0..1_024 {
        let mut table = outline_table();
        table[place] ^= 1 << random.below(8);
        let (count, after) = compared(&table, &journal);
        if count == -10 {
            refused += 1;
            assert_eq!(after, table, "byte {place}");
        }
        match place % 16 {
            13..=15 => assert_eq!(count, -10, "byte {place}"),
            _ => assert!(count == -10 || count == 1 || place < 16, "byte {place}"),
        }
    }
    assert!(refused > 300 && refused < 900, "{refused} refused");
    assert_eq!(library::restart(&mut [], &[]), -10);
    assert_eq!(library::restart(&mut outline_table(), &[]), 0);
}

/// Run, cut, restart, run on: over several such days nothing that was
/// committed before the cut is lost, and the table always opens.
#[test]
fn a_restart_of_a_restart() {
    let mut commits = 0;
    each(60, |case| {
        let random = &mut Random::new(case.seed ^ 0x0DA1);
        let mut day = case.clone();
        for _ in 0..4 {
            let Some((journal, values)) = journal_of(&day) else {
                return;
            };
            let length = random.below(journal.len() + 1);
            let (count, table) = restarted(&day.table, &journal[..length]);
            let whole = closings(&journal)
                .iter()
                .filter(|&&end| end <= length)
                .count();
            assert_eq!(count, whole as i64, "{}", rerun(case));
            assert_eq!(values_of(&table), values[whole], "{}", rerun(case));
            // The next day begins with these values, number 1 and an empty journal.
            let mut lent = vec![7; 64];
            let mut board = library::Journaled::open(&table, &mut lent).expect("a right table");
            assert!(board.used() == 0 && lent == [0; 64]);
            assert_eq!(
                board.step(&begin(0), &mut lent)[..12],
                [1, 0, 0, 0, 1, 0, 0, 0, 0, 0, 0, 0]
            );
            assert_eq!(
                board.step(&end(0), &mut lent)[..8],
                [5, 0, 0, 0, 1, 0, 0, 0]
            );
            commits += whole;
            day.table = table;
        }
    });
    println!("{commits} commits restored");
    assert!(chosen().is_some() || commits > 5_000);
}

/// A restarted board is the one that hub_open makes of the restarted table;
/// the age that desk 4 had kept is gone.
#[test]
fn the_restarted_board_is_a_fresh_one() {
    let mut requests = vec![begin(3), begin(4), read(4, 0), write(3, 0, 115)];
    requests.extend([write(3, 9, 4), end(3), begin(5), end(4)]);
    let mut journal = [0; 100];
    let mut board = library::Journaled::open(&outline_table(), &mut journal).expect("right");
    requests.iter().for_each(|request| {
        board.step(request, &mut journal);
    });
    let mut table = outline_table();
    assert_eq!(library::restart(&mut table, &journal), 1);
    let mut by_hand = outline_table();
    by_hand[8] = 115;
    by_hand[9 * 16 + 8] = 4;
    assert_eq!(table, by_hand);
    let kept = board.clone().step(&begin(4), &mut journal);
    assert_eq!(kept, [1, 4, 0, 0, 2, 0, 0, 0, 1, 0, 0, 0]);
    let restarted = library::Journaled::open_in(board.into_space(), &table, &mut journal);
    let mut restarted = restarted.expect("right");
    let fresh = library::Board::open(&by_hand).expect("right");
    assert!(restarted.bytes() == fresh.bytes() && restarted.used() == 0);
    assert_eq!(journal, [0; 100]);
    let begun = restarted.step(&begin(4), &mut journal);
    assert_eq!(begun, [1, 4, 0, 0, 1, 0, 0, 0, 0, 0, 0, 0]);
}

//! The calls with a journal against the second scheduler: every answer byte,
//! final value and byte of the journal, in journals of every kind of length.

use checks::{
    chosen, closings, compare_journaled, each, exchanged, journaled_neighbours, library_run,
    library_run_journal, library_steps_journal, rerun, shrunk_by, sized, Coverage,
};
use library::Journaled;
use std::thread;
use streams::{Case, Random};

/// Each request adds at most one record, which is as long as a request.
fn enough(case: &Case) -> usize {
    case.requests.len()
}

const LIMITS: [usize; 9] = [0, 7, 8, 15, 16, 65_535, 65_536, 65_537, 70_000];

/// A length of its own for each case: one at a limit, or one that just fits
/// or just doesn't fit some commit.
fn some_length(case: &Case, journal: &[u8], random: &mut Random) -> usize {
    let closings = closings(journal);
    match random.below(4) {
        0 => random.pick(&LIMITS),
        1 | 2 if !closings.is_empty() => random.pick(&closings) + 1 - random.below(3),
        _ => case.journal_length,
    }
}

fn check(case: &Case, coverage: &mut Coverage) {
    let random = &mut Random::new(case.seed ^ 0x10B5);
    let with_room = compare_journaled(case, enough(case));
    let short = with_room.and_then(|with_room| {
        let length = some_length(case, &with_room.journal, random);
        compare_journaled(case, length)
    });
    match short {
        Ok(short) => coverage.count(&short.outcome),
        Err(why) => {
            let all_lengths = |case: &Case| {
                let with_room = compare_journaled(case, enough(case))?;
                // A long stream has too many commits to try each of them again and again.
                let few = case.requests.len() <= 8 * 500;
                let tight = closings(&with_room.journal).into_iter().filter(|_| few);
                let mut lengths = tight.flat_map(|length| [length - 1, length]).chain(LIMITS);
                lengths.try_for_each(|length| compare_journaled(case, length).map(drop))
            };
            panic!("{}\n{why}\n{}", rerun(case), shrunk_by(case, all_lengths))
        }
    }
}

#[test]
fn library_equals_scheduler() {
    let mut coverage = Coverage::default();
    if let Some(case) = chosen() {
        return check(&case, &mut coverage);
    }
    let half = |turn| {
        let mut coverage = Coverage::default();
        sized(|streams| streams.div_ceil(16), turn, 2, &mut |case| {
            check(case, &mut coverage)
        });
        coverage
    };
    thread::scope(|scope| {
        let other = scope.spawn(|| half(1));
        coverage.add(&half(0));
        match other.join() {
            Ok(more) => coverage.add(&more),
            Err(panic) => std::panic::resume_unwind(panic),
        }
    });
    println!("{coverage:?}");
    assert!(coverage.refusals[15] >= 2_000);
    assert!(coverage.codes.iter().all(|&count| count >= 50));
    assert!(coverage.kept[1..].iter().all(|&count| count >= 50));
}

/// Every length up to what a run needs and a little beyond.
#[test]
fn every_length() {
    let mut lengths = 0;
    each(800, |case| {
        if case.requests.len() > 8 * 500 {
            return;
        }
        let random = &mut Random::new(case.seed ^ 0xE11E);
        let with_room = compare_journaled(case, enough(case)).unwrap_or_else(|why| panic!("{why}"));
        let needed = closings(&with_room.journal).last().copied().unwrap_or(0);
        // Of long journals some stretch.
        let from = random.below(needed.saturating_sub(300).max(1));
        for length in from..=(needed + 9).min(from + 300) {
            if let Err(why) = compare_journaled(case, length) {
                panic!("{}\n{why}", rerun(case));
            }
            lengths += 1;
        }
    });
    println!("{lengths} lengths");
    assert!(chosen().is_some() || lengths > 10_000);
}

/// With room a run answers as it does without a journal, which never gives
/// 15.
#[test]
fn with_room_a_run_is_that_without_a_journal() {
    each(24, |case| {
        let both = (library_run(case), library_run_journal(case, enough(case)));
        let (Ok(plain), Ok(journaled)) = both else {
            panic!("{}", rerun(case));
        };
        let outcome = journaled.outcome;
        let same = plain.count == outcome.count
            && plain.answers == outcome.answers
            && plain.values == outcome.values;
        let never_15 = !plain
            .answers
            .chunks(12)
            .any(|answer| answer[..4] == [0, answer[1], 0, 15]);
        assert!(same && never_15, "{}", rerun(case));
    });
}

/// Steps give the answers and the journal of a run; refusals, 15 among them,
/// and waits leave board and journal as they were.
#[test]
fn steps_equal_a_run() {
    let mut lacks = 0;
    each(32, |case| {
        let check = || {
            let length = case.journal_length.min(enough(case)).min(2_000);
            let run = library_run_journal(case, length)?;
            if run.outcome.count < 0 {
                return Ok(0);
            }
            let steps = library_steps_journal(case, length)?;
            if steps.outcome.answers != run.outcome.answers {
                return Err("steps and run answer differently".to_string());
            }
            if steps.journal != run.journal {
                return Err("steps and run leave different journals".to_string());
            }
            let mut answers = steps.outcome.answers.chunks(12);
            Ok(answers
                .by_ref()
                .filter(|answer| answer[0] == 0 && answer[3] == 15)
                .count())
        };
        match check() {
            Ok(more) => lacks += more,
            Err(why) => panic!("{}\n{why}", rerun(case)),
        }
    });
    println!("{lacks} ends lacked room");
    assert!(chosen().is_some() || lacks > 300);
}

/// Neighbouring requests that share nothing may change places with a journal
/// too, and the journal's bytes are the same then.
#[test]
fn exchange_of_neighbours() {
    let mut seen = [0; 8];
    let mut lacks = 0;
    each(24, |case| {
        let random = &mut Random::new(case.seed ^ 0x0E8C);
        let length = random.pick(&[0, 8, 40, 200, enough(case), case.journal_length]);
        let run = library_run_journal(case, length).expect("a run");
        let places = journaled_neighbours(case, length);
        if run.outcome.count < 0 || places.is_empty() {
            return;
        }
        for _ in 0..3 {
            let place = random.pick(&places);
            let other = library_run_journal(&exchanged(case, place), length).expect("a run");
            let mut answers = other.outcome.answers;
            let (one, two) = answers[place * 12..place * 12 + 24].split_at_mut(12);
            one.swap_with_slice(two);
            let same = answers == run.outcome.answers
                && other.outcome.values == run.outcome.values
                && other.journal == run.journal;
            assert!(
                same,
                "{}\nexchange at {place}, journal {length}",
                rerun(case)
            );
            for answer in run.outcome.answers[place * 12..place * 12 + 24].chunks(12) {
                seen[answer[0] as usize] += 1;
                lacks += u64::from(answer[0] == 0 && answer[3] == 15);
            }
        }
    });
    println!("codes of exchanged requests: {seen:?}, {lacks} of them refused 15");
    assert!(chosen().is_some() || (seen.iter().all(|&count| count > 50) && lacks > 50));
}

/// After the pair the whole board is the same in both orders, and so is the
/// journal.
#[test]
fn exchange_of_neighbours_leaves_the_same_board() {
    let mut exchanges = 0;
    each(32, |case| {
        let random = &mut Random::new(case.seed ^ 0xB0A2);
        let length = random.pick(&[8, 40, enough(case), case.journal_length.min(enough(case))]);
        let places = journaled_neighbours(case, length);
        if case.requests.len() % 8 != 0 || places.is_empty() {
            return;
        }
        let place = random.pick(&places);
        let after_the_pair = |case: &Case| {
            let mut journal = vec![7; length];
            let mut board = Journaled::open(&case.table, &mut journal).expect("a right table");
            case.records().take(place + 2).for_each(|request| {
                board.step(request, &mut journal);
            });
            (board, journal)
        };
        let same = after_the_pair(case) == after_the_pair(&exchanged(case, place));
        assert!(
            same,
            "{}\nexchange at {place}, journal {length}",
            rerun(case)
        );
        exchanges += 1;
    });
    println!("{exchanges} exchanges");
    assert!(chosen().is_some() || exchanges > 500);
}

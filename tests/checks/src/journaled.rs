//! One case put to the compiled library and to the second scheduler, with a
//! journal lent to both.

use crate::compare::{fenced_run, same};
use crate::{rebuild, Deed, Fenced, Outcome};
use library::Journaled;
use scheduler::{CLOSING, JOURNAL_BYTES, RECORD_BYTES};
use streams::Case;

pub struct JournaledOutcome {
    pub outcome: Outcome,
    /// All that was lent, as the run left it.
    pub journal: Vec<u8>,
}

/// Runs the library with a journal of this length. Before the call the
/// journal holds anything but zeros; bytes past the limit must keep it.
pub fn library_run_journal(case: &Case, length: usize) -> Result<JournaledOutcome, String> {
    let mut journal = Fenced::new(length, case.seed ^ 0x33);
    let outcome = fenced_run(case, |table, requests, answers, values| {
        library::run_journal(table, requests, answers, values, journal.lent())
    })?;
    kept(&journal, outcome.count < 0)?;
    Ok(JournaledOutcome {
        outcome,
        journal: journal.holds().to_vec(),
    })
}

fn kept(journal: &Fenced, refused: bool) -> Result<(), String> {
    let written = match refused {
        true => 0,
        false => journal.holds().len().min(JOURNAL_BYTES),
    };
    match journal.kept_beyond(written) {
        true => Ok(()),
        false => Err(format!(
            "a byte of the journal beyond {written} was written"
        )),
    }
}

/// The same by single steps; gives the answers one after the other.
pub fn library_steps_journal(case: &Case, length: usize) -> Result<JournaledOutcome, String> {
    let mut journal = Fenced::new(length, case.seed ^ 0x33);
    let mut board = Journaled::open(&case.table, journal.lent())
        .map_err(|code| format!("hub_open_journal gave {code}"))?;
    let mut answers = Vec::new();
    for (place, request) in case.records().enumerate() {
        let (board_before, journal_before) = (board.clone(), journal.holds()[..].to_vec());
        let answer = board.step(request, journal.lent());
        if answer[0] == 0 || answer[0] == 4 {
            if board != board_before {
                return Err(format!("request {place}: {answer:?} changed the board"));
            }
        } else if board.guard() != board_before.guard() {
            return Err(format!("request {place} wrote behind the board"));
        }
        only_appended(
            &board,
            &board_before,
            journal.holds(),
            &journal_before,
            &answer,
        )
        .map_err(|why| format!("request {place}: {why}"))?;
        answers.extend(answer);
    }
    kept(&journal, false)?;
    Ok(JournaledOutcome {
        outcome: Outcome {
            count: (answers.len() / 12) as i64,
            answers,
            values: Vec::new(),
        },
        journal: journal.holds().to_vec(),
    })
}

/// A commit adds bytes behind those used before; nothing else changes any.
fn only_appended(
    board: &Journaled,
    board_before: &Journaled,
    journal: &[u8],
    before: &[u8],
    answer: &[u8; 12],
) -> Result<(), String> {
    let (from, to) = (board_before.used(), board.used());
    let committed = answer[0] == 5;
    if committed != (to > from) || to > journal.len().min(JOURNAL_BYTES) {
        return Err(format!(
            "{answer:?} took the used bytes from {from} to {to}"
        ));
    }
    if journal[..from] != before[..from] || journal[to..] != before[to..] {
        return Err(format!("{answer:?} wrote beside the bytes {from} to {to}"));
    }
    Ok(())
}

/// The library's outcome, or in words how it differs from the scheduler's.
pub fn compare_journaled(case: &Case, length: usize) -> Result<JournaledOutcome, String> {
    let given = library_run_journal(case, length)?;
    let mut answers = vec![0; case.answers_length];
    let mut values = vec![0; case.values_length];
    let mut journal = Fenced::new(length, case.seed ^ 0x33);
    let count = scheduler::run_journal(
        &case.table,
        &case.requests,
        &mut answers,
        &mut values,
        journal.lent(),
    );
    same(case, &given.outcome, count, &answers, &values)
        .and_then(|()| same_journal(&given.journal, journal.holds()))
        .map_err(|why| format!("with a journal of {length} bytes, {why}"))?;
    Ok(given)
}

fn same_journal(given: &[u8], wanted: &[u8]) -> Result<(), String> {
    let pairs = given.chunks(RECORD_BYTES).zip(wanted.chunks(RECORD_BYTES));
    for (place, (given, wanted)) in pairs.enumerate() {
        if given != wanted {
            return Err(format!(
                "record {place} of the journal: library {given:?}, scheduler {wanted:?}"
            ));
        }
    }
    Ok(())
}

/// How many bytes the journal has up to the end of each closing record, in a
/// journal that a run left.
pub fn closings(journal: &[u8]) -> Vec<usize> {
    let records = journal.chunks_exact(RECORD_BYTES).enumerate();
    records
        .filter(|(_, record)| record[0] == CLOSING)
        .map(|(place, _)| (place + 1) * RECORD_BYTES)
        .collect()
}

/// The values after each count of commits, from none on, as requests and
/// answers alone tell them.
pub fn values_after(case: &Case, answers: &[u8]) -> Vec<Vec<u32>> {
    let value = |row: &[u8]| u32::from_le_bytes([row[8], row[9], row[10], row[11]]);
    let mut values: Vec<u32> = case.table.chunks(16).map(value).collect();
    let mut all = vec![values.clone()];
    for transaction in rebuild(&case.requests, answers) {
        for deed in transaction.deeds {
            if let Deed::Put(item, value) = deed {
                values[item] = value;
            }
        }
        all.push(values.clone());
    }
    all
}

/// The library's count and restarted table, or in words how they differ from
/// the scheduler's.
pub fn compare_restart(table: &[u8], journal: &[u8]) -> Result<(i64, Vec<u8>), String> {
    let mut given = Fenced::holding(table, 7);
    let lent = Fenced::holding(journal, 8);
    let count = library::restart(given.lent(), lent.holds());
    let mut wanted = table.to_vec();
    let wanted_count = scheduler::restart(&mut wanted, journal);
    if !given.kept_beyond(table.len()) || lent.holds() != journal {
        return Err("the restart wrote beside the table".to_string());
    }
    if count != wanted_count {
        return Err(format!(
            "restart: library {count}, scheduler {wanted_count}, journal {journal:?}"
        ));
    }
    if given.holds() != wanted {
        return Err(format!("restart: the tables differ, journal {journal:?}"));
    }
    Ok((count, wanted))
}

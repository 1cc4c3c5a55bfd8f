//! One case put to the compiled library and to the second scheduler.

use crate::{answer_in_words, request_in_words, Fenced};
use streams::Case;

pub struct Outcome {
    /// The count of answers, or minus the refusal number.
    pub count: i64,
    pub answers: Vec<u8>,
    pub values: Vec<u8>,
}

/// Runs the library on the case and checks what any run must keep.
pub fn library_run(case: &Case) -> Result<Outcome, String> {
    fenced_run(case, library::run)
}

/// The same for any way to run: table, requests, answers and values are lent.
pub(crate) fn fenced_run(
    case: &Case,
    run: impl FnOnce(&[u8], &[u8], &mut [u8], &mut [u8]) -> i64,
) -> Result<Outcome, String> {
    let mut answers = Fenced::new(case.answers_length, case.seed);
    let mut values = Fenced::new(case.values_length, case.seed ^ 0xFF);
    let table = Fenced::holding(&case.table, 5);
    let requests = Fenced::holding(&case.requests, 6);
    let count = run(
        table.holds(),
        requests.holds(),
        answers.lent(),
        values.lent(),
    );
    if table.holds() != case.table || requests.holds() != case.requests {
        return Err("the run changed an input".to_string());
    }
    let used = usize::try_from(count).unwrap_or(0).saturating_mul(12);
    let used_values = if count < 0 { 0 } else { 256 };
    if used > case.answers_length || used_values > case.values_length {
        return Err(format!("count {count} does not fit the buffers"));
    }
    if !answers.kept_beyond(used) {
        return Err("bytes beyond the answers were written".to_string());
    }
    if !values.kept_beyond(used_values) {
        return Err("bytes beyond the values were written".to_string());
    }
    Ok(Outcome {
        count,
        answers: answers.holds()[..used].to_vec(),
        values: values.holds()[..used_values].to_vec(),
    })
}

/// The library's outcome, or in words how it differs from the scheduler's.
pub fn compare(case: &Case) -> Result<Outcome, String> {
    let outcome = library_run(case)?;
    let mut answers = vec![0; case.answers_length];
    let mut values = vec![0; case.values_length];
    let count = scheduler::run(&case.table, &case.requests, &mut answers, &mut values);
    same(case, &outcome, count, &answers, &values)?;
    Ok(outcome)
}

/// In words how the library's outcome differs from what the scheduler gave.
pub(crate) fn same(
    case: &Case,
    outcome: &Outcome,
    count: i64,
    answers: &[u8],
    values: &[u8],
) -> Result<(), String> {
    if outcome.count != count {
        return Err(format!(
            "the library returned {}, the scheduler {count}",
            outcome.count
        ));
    }
    let pairs = outcome.answers.chunks(12).zip(answers.chunks(12));
    for (place, (given, wanted)) in pairs.enumerate() {
        if given != wanted {
            return Err(format!(
                "request {place}: {}\n  library:   {}\n  scheduler: {}",
                request_in_words(&case.requests[place * 8..place * 8 + 8]),
                answer_in_words(given),
                answer_in_words(wanted)
            ));
        }
    }
    let pairs = outcome.values.chunks(4).zip(values.chunks(4));
    for (item, (given, wanted)) in pairs.enumerate() {
        if given != wanted {
            return Err(format!(
                "final value of item {item}: library {given:?}, scheduler {wanted:?}"
            ));
        }
    }
    Ok(())
}

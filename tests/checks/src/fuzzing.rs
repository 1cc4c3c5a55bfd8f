//! What the fuzzer asks of a case.

use crate::{compare, rerun, shrunk_by, Outcome};
use streams::Case;

/// The outcome, or in words which case differs and how.
pub fn fuzzed(case: &Case) -> Result<Outcome, String> {
    let check = |case: &Case| {
        let outcome = compare(case)?;
        journaled(case)?;
        Ok(outcome)
    };
    check(case).map_err(|why| {
        let small = shrunk_by(case, |case| check(case).map(drop));
        format!("{}\n{why}\n{small}", rerun(case))
    })
}

/// The same with a journal, and a restart from what is left of it.
#[cfg(feature = "journal")]
fn journaled(case: &Case) -> Result<(), String> {
    let random = &mut streams::Random::new(case.seed ^ 0xF022);
    let (needed, any) = (case.requests.len(), random.below(300));
    let length = random.pick(&[case.journal_length.min(needed), needed, any]);
    let mut journal = crate::compare_journaled(case, length)?.journal;
    journal.truncate(random.below(journal.len() + 1));
    for _ in 0..random.below(3) {
        let place = random.below(journal.len().clamp(1, 200));
        if let Some(byte) = journal.get_mut(place) {
            *byte = byte.wrapping_add(random.pick(&[1, 255, 128]));
        }
    }
    crate::compare_restart(&case.table, &journal).map(drop)
}

#[cfg(not(feature = "journal"))]
fn journaled(_: &Case) -> Result<(), String> {
    Ok(())
}

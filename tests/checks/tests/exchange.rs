//! Two neighbouring requests of different desks that share no item, at most
//! one of them a begin or an end, may change places: every request keeps its
//! answer, and the final values stay.

use checks::{each, exchanged, library_run, neighbours, rerun};
use streams::{Case, Random};

/// Exchanges a few pairs of the case, one at a time; gives how many.
fn exchange(case: &Case, seen: &mut [u64; 8]) -> Result<(), String> {
    let run = library_run(case)?;
    let places = neighbours(case);
    if run.count < 0 || places.is_empty() {
        return Ok(());
    }
    let random = &mut Random::new(case.seed ^ 0xE8C4);
    for _ in 0..4 {
        let place = random.pick(&places);
        let other = library_run(&exchanged(case, place))?;
        let mut answers = other.answers;
        let pair = &mut answers[place * 12..place * 12 + 24];
        let (one, two) = pair.split_at_mut(12);
        one.swap_with_slice(two);
        if answers != run.answers {
            let first = (0..).find(|&at| answers[at * 12..][..12] != run.answers[at * 12..][..12]);
            return Err(format!("exchange at {place} changed answer {first:?}"));
        }
        if other.values != run.values {
            return Err(format!("exchange at {place} changed a final value"));
        }
        seen[run.answers[place * 12] as usize] += 1;
        seen[run.answers[place * 12 + 12] as usize] += 1;
    }
    Ok(())
}

#[test]
fn exchange_of_neighbours() {
    let mut seen = [0; 8];
    each(4, |case| {
        if let Err(why) = exchange(case, &mut seen) {
            panic!("{}\n{why}", rerun(case));
        }
    });
    println!("codes of exchanged requests: {seen:?}");
    // Requests of every answer were exchanged, not refused ones alone.
    assert!(checks::chosen().is_some() || seen.iter().all(|&count| count > 100));
}

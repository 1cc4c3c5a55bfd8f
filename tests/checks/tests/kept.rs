//! An aborted desk keeps its age, followed from requests and answers alone:
//! what each begin must be answered, that no two desks have the same age, and
//! that the oldest open desk never yields. Streams with their answers written
//! out are in `streams/src/kept.rs`.

use checks::{
    chosen, each, library_run, library_run_journal, named_holder, rerun, Aged, Ages, Outcome,
};
use streams::{begin, Case, Random};

const LAST_AGE: u32 = 2_000;

/// A request and its answer, the ages before it, and the ages after it.
struct Step<'a> {
    request: &'a [u8; 8],
    answer: &'a [u8],
    before: &'a Ages,
    after: &'a Ages,
}

impl Step<'_> {
    fn desk(&self) -> usize {
        self.request[1] as usize
    }
}

/// Hands each request of a run to the check.
fn follow(
    case: &Case,
    outcome: &Outcome,
    mut check: impl FnMut(Step) -> Result<(), String>,
) -> Result<(), String> {
    let mut before = Ages::default();
    let pairs = case.records().zip(outcome.answers.chunks_exact(12));
    for (place, (request, answer)) in pairs.enumerate() {
        let mut after = before;
        after.follow(answer);
        let step = Step {
            request,
            answer,
            before: &before,
            after: &after,
        };
        check(step).map_err(|why| format!("request {place}: {why}"))?;
        before = after;
    }
    Ok(())
}

/// The same for one in every few (`share`) of the random streams.
fn follow_each(share: u64, mut check: impl FnMut(&Case, Step) -> Result<(), String>) {
    each(share, |case| {
        let run = library_run(case);
        let followed = run.and_then(|outcome| follow(case, &outcome, |step| check(case, step)));
        if let Err(why) = followed {
            panic!("{}\n{why}", rerun(case));
        }
    });
}

/// How begins were answered.
#[derive(Default, Debug)]
struct Begins {
    new: u64,
    /// By the reason of the abort that left the age.
    kept: [u64; 4],
    /// When all ages had been given.
    kept_at_last: u64,
    none_left: u64,
}

impl Begins {
    fn assert_each_reason(&self, often: u64) {
        assert!(
            self.kept[1..].iter().all(|&count| count > often),
            "{self:?}"
        );
    }

    /// A begin is answered as it must be, and nothing else as a begin is.
    fn check(&mut self, step: Step) -> Result<(), String> {
        let Step {
            request, answer, ..
        } = step;
        let desk = request[1];
        if desk < 16 && *request == begin(desk) {
            let wanted = self.wanted(step.before, desk);
            if answer != wanted {
                return Err(format!("a begin is told {answer:?}, wanted {wanted:?}"));
            }
        } else if answer[0] == 1 || (answer[0] == 0 && answer[3] == 9) {
            return Err(format!("{request:?} is told {answer:?}"));
        }
        Ok(())
    }

    /// What a begin must be answered, as the answers before it tell.
    fn wanted(&mut self, ages: &Ages, desk: u8) -> [u8; 12] {
        let aged = ages.desks[desk as usize];
        match ages.kept(desk as usize) {
            _ if aged.open => refused(desk, 4),
            Some(age) => {
                self.kept[aged.reason as usize] += 1;
                self.kept_at_last += u64::from(ages.last == LAST_AGE);
                opened(desk, age, ages.commits)
            }
            None if ages.last == LAST_AGE => {
                self.none_left += 1;
                refused(desk, 9)
            }
            None => {
                self.new += 1;
                opened(desk, ages.last + 1, ages.commits)
            }
        }
    }
}

fn opened(desk: u8, age: u32, start: u32) -> [u8; 12] {
    let [a, b, c, d] = age.to_le_bytes();
    let [e, f, g, h] = start.to_le_bytes();
    [1, desk, 0, 0, a, b, c, d, e, f, g, h]
}

fn refused(desk: u8, reason: u8) -> [u8; 12] {
    [0, desk, 0, reason, 0, 0, 0, 0, 0, 0, 0, 0]
}

/// Each begin has the age that its desk kept at its last abort, else one more
/// than the last new age.
#[test]
fn every_begin() {
    let mut begins = Begins::default();
    follow_each(3, |_, step| begins.check(step));
    println!("{begins:?}");
    if chosen().is_none() {
        begins.assert_each_reason(5_000);
        assert!(begins.new > 100_000);
        assert!(begins.kept_at_last > 300 && begins.none_left > 300);
    }
}

/// With a journal that is soon full: an end that lacks room leaves the
/// transaction open, and its age with it.
#[test]
fn every_begin_with_a_journal() {
    let (mut begins, mut lacks) = (Begins::default(), 0);
    each(16, |case| {
        let random = &mut Random::new(case.seed ^ 0xA6E5);
        let length = random.pick(&[0, 8, 40, 200, case.journal_length.min(2_000)]);
        let run = library_run_journal(case, length);
        let followed = run.and_then(|run| {
            follow(case, &run.outcome, |step| {
                lacks += u64::from(step.answer[0] == 0 && step.answer[3] == 15);
                begins.check(step)
            })
        });
        if let Err(why) = followed {
            panic!("{}\njournal of {length} bytes, {why}", rerun(case));
        }
    });
    println!("{begins:?}, {lacks} ends lacked room");
    if chosen().is_none() {
        begins.assert_each_reason(100);
        assert!(lacks > 5_000);
    }
}

/// No two desks, open or not, have the same age, and the older one is that
/// which began first since it last committed or abandoned. No commit comes
/// without an age of its own.
#[test]
fn no_two_desks_have_the_same_age() {
    let (mut pairs, mut with_kept) = (0u64, 0u64);
    follow_each(4, |_, step| {
        let ages = step.after;
        if ages.commits > ages.last || ages.last > LAST_AGE {
            return Err(format!("{} commits, {} ages", ages.commits, ages.last));
        }
        if step.answer[0] != 1 {
            return Ok(());
        }
        let own = ages.desks[step.desk()];
        for other in (0..16).filter(|&other| other != step.desk()) {
            let aged = ages.desks[other];
            if aged.age != 0 {
                apart(&own, &aged).map_err(|why| format!("desk {other} too: {why}"))?;
                pairs += 1;
                with_kept += u64::from(!aged.open);
            }
        }
        Ok(())
    });
    println!("{pairs} pairs of ages, {with_kept} with one that a desk keeps");
    assert!(chosen().is_some() || (pairs > 1_000_000 && with_kept > 100_000));
}

fn apart(one: &Aged, other: &Aged) -> Result<(), String> {
    let older = one.age < other.age;
    if one.age == other.age || older != (one.first_begin < other.first_begin) {
        return Err(format!("{one:?}, {other:?}"));
    }
    Ok(())
}

/// What open desks were told that asked for a guarded item.
#[derive(Default, Debug)]
struct Told {
    oldest: Asked,
    /// The oldest one, though another open desk began before it.
    oldest_begun_later: Asked,
    yields: u64,
    /// To a desk that began later.
    yields_to_begun_later: u64,
}

#[derive(Default, Debug)]
struct Asked {
    granted: u64,
    waits: u64,
}

impl Asked {
    fn count(&mut self, waits: bool) {
        self.granted += u64::from(!waits);
        self.waits += u64::from(waits);
    }
}

impl Told {
    /// The oldest is the one that began first, since it last committed or
    /// abandoned, of all that are open.
    fn check(&mut self, step: &Step) -> Result<(), String> {
        let own = step.before.desks[step.desk()];
        let oldest = !comes_later(step.before, &own, |aged| aged.first_begin);
        let waits = step.answer[0] == 4;
        match named_holder(step.answer) {
            Some(_) if oldest && !waits => Err("the oldest desk is told to yield".to_string()),
            Some(holder) if !waits => self.yields_to(&own, &step.before.desks[holder]),
            Some(holder) if step.before.desks[holder].first_begin < own.first_begin => Err(
                format!("it is told to wait for desk {holder}, which is older"),
            ),
            _ => {
                if oldest {
                    self.oldest.count(waits);
                }
                if oldest && comes_later(step.before, &own, |aged| aged.last_begin) {
                    self.oldest_begun_later.count(waits);
                }
                Ok(())
            }
        }
    }

    fn yields_to(&mut self, own: &Aged, holder: &Aged) -> Result<(), String> {
        self.yields += 1;
        self.yields_to_begun_later += u64::from(own.last_begin < holder.last_begin);
        match holder.open && holder.first_begin < own.first_begin {
            true => Ok(()),
            false => Err(format!("{own:?} is told to yield to {holder:?}")),
        }
    }
}

/// Whether another open desk comes before this one in some order.
fn comes_later(ages: &Ages, own: &Aged, by: fn(&Aged) -> usize) -> bool {
    let mut open = ages.desks.iter().filter(|aged| aged.open);
    open.any(|other| by(other) < by(own))
}

#[test]
fn the_oldest_never_yields() {
    let mut told = Told::default();
    follow_each(4, |case, step| {
        let guarded = |item: u8| case.table[item as usize * 16 + 12] == 1;
        let granted = [2, 3].contains(&step.answer[0]) && guarded(step.answer[2]);
        match granted || named_holder(step.answer).is_some() {
            true => told.check(&step),
            false => Ok(()),
        }
    });
    println!("{told:?}");
    if chosen().is_none() {
        assert!(told.oldest.granted > 50_000 && told.oldest.waits > 50_000);
        let begun_later = &told.oldest_begun_later;
        assert!(begun_later.granted > 5_000 && begun_later.waits > 5_000);
        assert!(told.yields > 100_000 && told.yields_to_begun_later > 5_000);
    }
}

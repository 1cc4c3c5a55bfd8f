//! The locks, followed from requests and answers alone: no two desks hold a
//! guarded item against each other, and each wait and each yield has its
//! cause and names the oldest desk in the way. A desk waits for younger ones
//! only, so no circle can close.

use checks::{each, library_run, named_holder, rerun};
use streams::Case;

#[derive(Clone, Copy, PartialEq)]
enum Hold {
    None,
    Shared,
    Alone,
}

/// What one desk holds, and its age.
#[derive(Clone)]
struct Desk {
    age: u32,
    holds: [Hold; 64],
}

const FREE: Desk = Desk {
    age: 0,
    holds: [Hold::None; 64],
};

#[derive(Default, Debug)]
struct Seen {
    grants: u64,
    waits: Named,
    yields: Named,
}

impl Seen {
    fn told(&mut self, waits: bool) -> &mut Named {
        if waits {
            &mut self.waits
        } else {
            &mut self.yields
        }
    }
}

/// How many answers named a desk.
#[derive(Default, Debug)]
struct Named {
    all: u64,
    /// Several desks were in the way.
    several: u64,
    /// The one named was neither the first of them in number nor the last.
    inner: u64,
}

impl Named {
    /// The desks in the way are ascending.
    fn count(&mut self, in_the_way: &[usize], named: usize) {
        self.all += 1;
        self.several += u64::from(in_the_way.len() > 1);
        let outer = [in_the_way.first(), in_the_way.last()];
        self.inner += u64::from(!outer.contains(&Some(&named)));
    }

    /// Then an answer that names the first in number, the last or the youngest
    /// is noticed.
    fn assert_each(&self, often: u64) {
        let least = self.all.min(self.several).min(self.inner);
        assert!(least >= often, "{self:?}");
    }
}

fn follow(case: &Case, seen: &mut Seen) -> Result<(), String> {
    let outcome = library_run(case)?;
    if outcome.count < 0 {
        return Ok(());
    }
    let mut desks = vec![FREE; 16];
    let pairs = case.records().zip(outcome.answers.chunks_exact(12));
    for (place, (request, answer)) in pairs.enumerate() {
        if let Err(why) = one(&case.table, &mut desks, request, answer, seen) {
            return Err(format!("request {place}: {why}"));
        }
    }
    Ok(())
}

fn one(
    table: &[u8],
    desks: &mut [Desk],
    request: &[u8; 8],
    answer: &[u8],
    seen: &mut Seen,
) -> Result<(), String> {
    let (desk, item) = (request[1] as usize, request[2] as usize);
    let guarded = |item: usize| table[item * 16 + 12] == 1;
    let (granted, named) = (answer[0] == 2 || answer[0] == 3, named_holder(answer));
    if answer[0] == 1 {
        desks[desk].age = u32::from_le_bytes([answer[4], answer[5], answer[6], answer[7]]);
    }
    if named.is_some() && !guarded(item) {
        return Err("an open item has no lock".to_string());
    }
    if (granted || named.is_some()) && guarded(item) {
        let in_the_way = in_the_way(desks, desk, item, request[0] == 3);
        match named {
            Some(named) => {
                let waits = answer[0] == 4;
                check_named(desks, desk, &in_the_way, named, waits)?;
                seen.told(waits).count(&in_the_way, named);
            }
            None if in_the_way.is_empty() => seen.grants += 1,
            None => return Err(format!("granted, and {in_the_way:?} were in the way")),
        }
        let hold = &mut desks[desk].holds[item];
        match answer[0] {
            2 if *hold == Hold::None => *hold = Hold::Shared,
            3 => *hold = Hold::Alone,
            _ => {}
        }
    }
    if [5, 6, 7].contains(&answer[0]) {
        desks[desk] = FREE;
    }
    Ok(())
}

/// The other desks that hold the item against the asker, ascending.
fn in_the_way(desks: &[Desk], asker: usize, item: usize, writes: bool) -> Vec<usize> {
    let holds = |desk: usize| match desks[desk].holds[item] {
        Hold::None => false,
        Hold::Shared => writes,
        Hold::Alone => true,
    };
    let others = (0..16).filter(|&desk| desk != asker);
    others.filter(|&desk| holds(desk)).collect()
}

/// The desk named is in the way and every other one there is younger; the
/// asker waits if it is older than the desk named, else it yields.
fn check_named(
    desks: &[Desk],
    asker: usize,
    in_the_way: &[usize],
    named: usize,
    waits: bool,
) -> Result<(), String> {
    let wrong = |why: &str| {
        let told = format!("desk {asker} was told of desk {named}");
        Err(format!("{told}, in the way were {in_the_way:?}: {why}"))
    };
    if !in_the_way.contains(&named) {
        return wrong("it is not one of them");
    }
    let younger = |desk: usize| desks[named].age < desks[desk].age;
    let mut rest = in_the_way.iter().filter(|&&desk| desk != named);
    if !rest.all(|&desk| younger(desk)) {
        return wrong("one of them is older");
    }
    match (waits, younger(asker)) {
        (true, true) => wrong("the asker is younger, and waits"),
        (false, false) => wrong("the asker is older, and yields"),
        _ => Ok(()),
    }
}

#[test]
fn locks_are_granted_waited_for_or_yielded() {
    let mut seen = Seen::default();
    each(2, |case| {
        if let Err(why) = follow(case, &mut seen) {
            panic!("{}\n{why}", rerun(case));
        }
    });
    println!("{seen:?}");
    if checks::chosen().is_none() {
        assert!(seen.grants > 10_000);
        seen.waits.assert_each(5_000);
        seen.yields.assert_each(5_000);
    }
}

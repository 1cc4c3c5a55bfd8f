//! Desks are told apart by their ages alone: if all desks change names, the
//! answers change the desks they name and nothing else, and once all desks are
//! free and keep no age the board doesn't tell who did what.

use checks::{each, library_run, named_holder, rerun};
use streams::{Case, Random};

/// A new name for each desk; bytes that name no desk stay.
fn new_names(random: &mut Random) -> Vec<u8> {
    let mut names: Vec<u8> = (0..=255).collect();
    for place in (1..16).rev() {
        names.swap(place, random.below(place + 1));
    }
    names
}

fn renamed(case: &Case, names: &[u8]) -> Case {
    let mut renamed = case.clone();
    for record in renamed.requests.chunks_exact_mut(8) {
        record[1] = names[record[1] as usize];
    }
    renamed
}

/// The answer with the new name of its desk, and of the holder if it names one.
fn renamed_answer(answer: &[u8], names: &[u8]) -> Vec<u8> {
    let mut renamed = answer.to_vec();
    renamed[1] = names[answer[1] as usize];
    if named_holder(answer).is_some() {
        renamed[4] = names[answer[4] as usize];
    }
    renamed
}

/// How many kept ages were dropped before the boards were compared.
fn check(case: &Case) -> Result<usize, String> {
    let names = new_names(&mut Random::new(case.seed ^ 0x4A3E));
    let other = renamed(case, &names);
    let (run, other_run) = (library_run(case)?, library_run(&other)?);
    if run.count != other_run.count || run.values != other_run.values {
        return Err("new names change the count or a final value".to_string());
    }
    let pairs = run.answers.chunks(12).zip(other_run.answers.chunks(12));
    for (place, (answer, other)) in pairs.enumerate() {
        if renamed_answer(answer, &names) != other {
            return Err(format!("new names change answer {place}"));
        }
    }
    same_board(case, &other)
}

#[cfg(feature = "steps")]
fn same_board(case: &Case, other: &Case) -> Result<usize, String> {
    let (Some(one), Some(two)) = (all_free(case)?, all_free(other)?) else {
        return Ok(0);
    };
    if one != two {
        return Err("a free desk left a trace on the board".to_string());
    }
    Ok(one.1)
}

/// The board after the case, once all desks are free and keep no age, and how
/// many had kept one: such a desk drops it by a begin and an abandon, which
/// take no new age.
#[cfg(feature = "steps")]
fn all_free(case: &Case) -> Result<Option<(library::Board, usize)>, String> {
    let Ok(mut board) = library::Board::open(&case.table) else {
        return Ok(None);
    };
    let mut ages = checks::Ages::default();
    for request in case.records() {
        ages.follow(&board.step(request));
    }
    for desk in 0..16 {
        board.step(&streams::abandon(desk));
    }
    for desk in ages.keepers() {
        if board.step(&streams::begin(desk))[0] != 1 {
            return Err(format!("desk {desk} has kept an age and can't begin"));
        }
        board.step(&streams::abandon(desk));
    }
    Ok(Some((board, ages.keepers().count())))
}

#[cfg(not(feature = "steps"))]
fn same_board(_: &Case, _: &Case) -> Result<usize, String> {
    Ok(0)
}

#[test]
fn desks_may_change_names() {
    let mut kept = 0;
    each(8, |case| match check(case) {
        Ok(more) => kept += more,
        Err(why) => panic!("{}\n{why}", rerun(case)),
    });
    println!("{kept} kept ages were dropped");
    let counted = cfg!(feature = "steps") && checks::chosen().is_none();
    assert!(!counted || kept > 1_000);
}

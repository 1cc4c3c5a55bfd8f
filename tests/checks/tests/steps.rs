//! The inner calls hub_open and hub_step against hub_run and the scheduler.

use checks::{each, exchanged, library_run, neighbours, rerun, Fenced};
use library::Board;
use streams::{abandon, begin, read, Case, Random};

/// Steps through the case; a refusal and a wait leave the board as it was.
fn stepped(case: &Case, keeps: &mut u64) -> Result<(Board, Vec<u8>), String> {
    let mut board = Board::open(&case.table).map_err(|code| format!("hub_open {code}"))?;
    let mut answers = Vec::new();
    for (place, request) in case.records().enumerate() {
        let before = board.clone();
        let answer = board.step(request);
        if answer[0] == 0 || answer[0] == 4 {
            *keeps += 1;
            if before != board {
                return Err(format!("request {place}: {answer:?} changed the board"));
            }
        }
        if before.guard() != board.guard() {
            return Err(format!("request {place} wrote behind the board"));
        }
        answers.extend(answer);
    }
    Ok((board, answers))
}

/// All values as the board itself tells them, unless no age is left.
fn told_values(board: &mut Board) -> Option<Vec<u8>> {
    for desk in 0..16 {
        board.step(&abandon(desk));
    }
    if board.step(&begin(0))[0] != 1 {
        return None;
    }
    let values = (0..64).map(|item| board.step(&read(0, item)));
    Some(values.flat_map(|answer| answer[4..8].to_vec()).collect())
}

fn check(case: &Case, keeps: &mut u64) -> Result<(), String> {
    let run = library_run(case)?;
    if run.count < 0 {
        let opened = Board::open(&case.table).err();
        return match (run.count == -10, opened) {
            (true, Some(-10)) | (false, None) => Ok(()),
            (_, opened) => Err(format!("hub_run {}, hub_open {opened:?}", run.count)),
        };
    }
    let (mut board, answers) = stepped(case, keeps)?;
    if answers != run.answers {
        return Err("steps and run answer differently".to_string());
    }
    match told_values(&mut board) {
        Some(values) if values != run.values => Err("steps and run end differently".to_string()),
        _ => Ok(()),
    }
}

#[test]
fn steps_equal_a_run() {
    let mut keeps = 0;
    each(4, |case| {
        if let Err(why) = check(case, &mut keeps) {
            panic!("{}\n{why}", rerun(case));
        }
    });
    println!("{keeps} refusals and waits kept the board");
    assert!(checks::chosen().is_some() || keeps > 10_000);
}

/// At odd addresses, a step reads its 8 bytes and writes its 12.
#[test]
fn a_step_writes_its_answer_alone() {
    each(40, |case| {
        let Ok(mut board) = Board::open(&case.table) else {
            return;
        };
        let requests = Fenced::holding(&case.requests, 1);
        let mut answer = Fenced::new(12, 2);
        for request in requests.holds().chunks_exact(8) {
            let lent = answer.lent().try_into().expect("12 bytes");
            board.step_into(request.try_into().expect("8 bytes"), lent);
            assert!(answer.kept_beyond(12), "{}", rerun(case));
        }
        assert_eq!(requests.holds(), case.requests, "{}", rerun(case));
    });
}

#[test]
fn exchange_of_neighbours_leaves_the_same_board() {
    let mut exchanges = 0;
    each(8, |case| {
        let places = neighbours(case);
        if case.requests.len() % 8 != 0 || places.is_empty() {
            return;
        }
        let place = Random::new(case.seed).pick(&places);
        let mut board = Board::open(&case.table).expect("a right table");
        let mut other = board.clone();
        let swapped = exchanged(case, place);
        for (at, (one, two)) in case.records().zip(swapped.records()).enumerate() {
            board.step(one);
            other.step(two);
            if at == place + 1 {
                break;
            }
        }
        assert!(board == other, "{}\nexchange at {place}", rerun(case));
        exchanges += 1;
    });
    println!("{exchanges} exchanges");
    assert!(checks::chosen().is_some() || exchanges > 1_000);
}

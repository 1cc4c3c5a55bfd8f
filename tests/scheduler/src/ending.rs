//! The end of a transaction: the test, the number and the writing, in one.

use crate::{Answer, Board, Journal, KEPT};

/// With a journal, a commit that it has no room for is refused and stays open.
pub fn end(board: &mut Board, desk: usize, journal: Option<&mut Journal>) -> Answer {
    if let Some(reason) = fails(board, desk) {
        board.desks[desk].free_keeping_age();
        return reason;
    }
    if let Some(journal) = journal {
        if !journal.add(board.last_number + 1, &board.desks[desk]) {
            return Answer::Refused { reason: 15 };
        }
    }
    Answer::Committed {
        number: board.commit(desk),
    }
}

/// Why the open items read no longer hold, if they don't.
fn fails(board: &Board, desk: usize) -> Option<Answer> {
    let desk = &board.desks[desk];
    if desk.read.is_empty() {
        return None;
    }
    if board.last_number - desk.start > KEPT {
        return Some(Answer::TooOld { start: desk.start });
    }
    for number in desk.start + 1..=board.last_number {
        if let Some(item) = desk.read.lowest_shared(board.write_set(number)) {
            let item = item as u8;
            return Some(Answer::Overwritten { item, number });
        }
    }
    None
}

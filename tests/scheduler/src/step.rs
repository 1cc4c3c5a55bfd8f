//! One request handed to a board.

use crate::ending::end;
use crate::locks::{ask, Lock};
use crate::refusals::refusal;
use crate::{Answer, Board, Journal, Kind, Request};

impl Board {
    /// Handles one request in place and gives its answer's record.
    #[inline]
    pub fn handle(&mut self, record: &[u8; 8]) -> [u8; 12] {
        answered(self, record, None)
    }

    /// The same with a journal, which a commit adds its records to.
    #[inline]
    pub fn handle_journaled(&mut self, record: &[u8; 8], journal: &mut Journal) -> [u8; 12] {
        answered(self, record, Some(journal))
    }
}

#[inline]
fn answered(board: &mut Board, record: &[u8; 8], journal: Option<&mut Journal>) -> [u8; 12] {
    let request = Request::from_record(record);
    let answer = match refusal(board, &request) {
        Some(reason) => Answer::Refused { reason },
        None => serve(board, &request, journal),
    };
    answer.record(request.desk)
}

/// A request that no refusal applies to.
fn serve(board: &mut Board, request: &Request, journal: Option<&mut Journal>) -> Answer {
    let desk = request.desk as usize;
    match request.kind {
        Request::BEGIN => begin(board, desk),
        Request::READ => read(board, desk, request.item),
        Request::WRITE => write(board, desk, request.item, request.value),
        Request::END => end(board, desk, journal),
        _ => {
            board.desks[desk].free();
            Answer::Abandoned
        }
    }
}

fn begin(board: &mut Board, desk: usize) -> Answer {
    let (age, start) = (board.take_age(desk), board.last_number);
    let desk = &mut board.desks[desk];
    desk.open = true;
    desk.age = age;
    desk.start = start;
    Answer::Opened { age, start }
}

fn read(board: &mut Board, desk: usize, item: u8) -> Answer {
    let place = item as usize;
    match board.items[place].kind {
        Kind::Open => board.desks[desk].read.join(place),
        Kind::Guarded => {
            if !board.desks[desk].written.has(place) {
                match ask(board, desk, place, false) {
                    Lock::Granted => board.desks[desk].shared.join(place),
                    Lock::Wait { holder } => return Answer::Wait { item, holder },
                    Lock::Yield { holder } => return give_way(board, desk, item, holder),
                }
            }
        }
    }
    let own = &board.desks[desk];
    let value = if own.written.has(place) {
        own.copies[place]
    } else {
        board.values[place]
    };
    Answer::Value { item, value }
}

fn write(board: &mut Board, desk: usize, item: u8, value: u32) -> Answer {
    let place = item as usize;
    if board.items[place].kind == Kind::Guarded {
        match ask(board, desk, place, true) {
            Lock::Granted => board.desks[desk].shared.leave(place),
            Lock::Wait { holder } => return Answer::Wait { item, holder },
            Lock::Yield { holder } => return give_way(board, desk, item, holder),
        }
    }
    let own = &mut board.desks[desk];
    own.written.join(place);
    own.copies[place] = value;
    Answer::Stored { item }
}

fn give_way(board: &mut Board, desk: usize, item: u8, holder: usize) -> Answer {
    board.desks[desk].free_keeping_age();
    Answer::Yield { item, holder }
}

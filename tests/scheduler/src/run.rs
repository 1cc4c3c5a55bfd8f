//! A whole run: the outer door.

use crate::{open, Board, Journal, ANSWER_BYTES, MOST_REQUESTS, REQUEST_BYTES, VALUES_BYTES};

/// The count of answers, or minus the refusal number; a refused run writes
/// nothing.
pub fn run(table: &[u8], requests: &[u8], answers: &mut [u8], values: &mut [u8]) -> i64 {
    match admitted(table, requests, answers, values) {
        Ok(board) => served(board, requests, answers, values, Board::handle),
        Err(refusal) => -refusal,
    }
}

/// The same with a journal, which is zeroed first.
pub fn run_journal(
    table: &[u8],
    requests: &[u8],
    answers: &mut [u8],
    values: &mut [u8],
    journal: &mut [u8],
) -> i64 {
    match admitted(table, requests, answers, values) {
        Ok(board) => {
            let mut journal = Journal::open(journal);
            let handle = |board: &mut Board, request: &[u8; REQUEST_BYTES]| {
                board.handle_journaled(request, &mut journal)
            };
            served(board, requests, answers, values, handle)
        }
        Err(refusal) => -refusal,
    }
}

/// A fresh board, or the first refusal of the run.
fn admitted(table: &[u8], requests: &[u8], answers: &[u8], values: &[u8]) -> Result<Board, i64> {
    let board = open(table).map_err(i64::from)?;
    if !requests.len().is_multiple_of(REQUEST_BYTES) {
        return Err(11);
    }
    let count = requests.len() / REQUEST_BYTES;
    if count > MOST_REQUESTS {
        return Err(14);
    }
    if answers.len() < ANSWER_BYTES * count {
        return Err(12);
    }
    if values.len() < VALUES_BYTES {
        return Err(13);
    }
    Ok(board)
}

#[inline]
fn served(
    mut board: Board,
    requests: &[u8],
    answers: &mut [u8],
    values: &mut [u8],
    mut handle: impl FnMut(&mut Board, &[u8; REQUEST_BYTES]) -> [u8; ANSWER_BYTES],
) -> i64 {
    let records = requests.chunks_exact(REQUEST_BYTES);
    for (request, answer) in records.zip(answers.chunks_exact_mut(ANSWER_BYTES)) {
        let request = request.try_into().expect("a chunk of 8 bytes");
        answer.copy_from_slice(&handle(&mut board, request));
    }
    for (value, place) in board.values.iter().zip(values.chunks_exact_mut(4)) {
        place.copy_from_slice(&value.to_le_bytes());
    }
    (requests.len() / REQUEST_BYTES) as i64
}

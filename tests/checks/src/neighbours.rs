//! Pairs of neighbouring requests whose exchange changes nothing.

use scheduler::{Board, Journal, Request};
use streams::Case;

/// The places of all first requests of such pairs: different desks, at most
/// one of the two a begin or an end, and no item touched or named by both.
pub fn neighbours(case: &Case) -> Vec<usize> {
    found(case, |board, record| {
        board.handle(record);
    })
}

/// The same where a journal of this length is lent.
pub fn journaled_neighbours(case: &Case, length: usize) -> Vec<usize> {
    let mut bytes = vec![0; length];
    let mut journal = Journal::open(&mut bytes);
    found(case, |board, record| {
        board.handle_journaled(record, &mut journal);
    })
}

fn found(case: &Case, mut handle: impl FnMut(&mut Board, &[u8; 8])) -> Vec<usize> {
    let Ok(mut board) = scheduler::open(&case.table) else {
        return Vec::new();
    };
    let records: Vec<&[u8; 8]> = case.records().collect();
    let mut places = Vec::new();
    for place in 0..records.len().saturating_sub(1) {
        let one = Request::from_record(records[place]);
        let other = Request::from_record(records[place + 1]);
        if one.desk != other.desk
            && !(counts(&one) && counts(&other))
            && apart(&board, &one, &other)
        {
            places.push(place);
        }
        handle(&mut board, records[place]);
    }
    places
}

/// A begin or an end gives or reads a counter.
fn counts(request: &Request) -> bool {
    let kind = request.kind == Request::BEGIN || request.kind == Request::END;
    kind && request.desk < 16 && request.item == 0 && request.spare == 0 && request.value == 0
}

fn apart(board: &Board, one: &Request, other: &Request) -> bool {
    (0..64).all(|item| !(concerns(board, one, item) && concerns(board, other, item)))
}

/// Touched by the request's desk before the pair, or named by the request.
fn concerns(board: &Board, request: &Request, item: usize) -> bool {
    let desk = board.desks.get(request.desk as usize);
    desk.is_some_and(|desk| desk.touched(item)) || request.names() == Some(item)
}

/// The case with the pair at this place exchanged.
pub fn exchanged(case: &Case, place: usize) -> Case {
    let mut exchanged = case.clone();
    let pair = &mut exchanged.requests[place * 8..place * 8 + 16];
    let (one, other) = pair.split_at_mut(8);
    one.swap_with_slice(other);
    exchanged
}

//! Locks on guarded items.

use crate::{Board, Desk, DESKS};

/// Wait and yield name a conflicting holder: of several, the oldest.
pub enum Lock {
    Granted,
    Wait { holder: usize },
    Yield { holder: usize },
}

/// What a desk that asks for a guarded item is told.
pub fn ask(board: &Board, desk: usize, item: usize, writes: bool) -> Lock {
    let age = |desk: usize| board.desks[desk].age;
    let others = (0..DESKS).filter(|&other| other != desk);
    let holders = others.filter(|&other| conflicts(&board.desks[other], item, writes));
    match holders.min_by_key(|&holder| age(holder)) {
        None => Lock::Granted,
        Some(holder) if age(holder) < age(desk) => Lock::Yield { holder },
        Some(holder) => Lock::Wait { holder },
    }
}

/// A reader conflicts with another desk's write; a writer also with another
/// desk's shared hold.
fn conflicts(other: &Desk, item: usize, writes: bool) -> bool {
    other.written.has(item) || (writes && other.shared.has(item))
}

//! Refusals 1 to 9, in that order, before locks.

use crate::{Board, Request, DESKS, ITEMS, LAST_AGE};

/// The number of the first refusal that applies.
#[inline]
pub fn refusal(board: &Board, request: &Request) -> Option<u8> {
    if request.kind < Request::BEGIN || request.kind > Request::ABANDON {
        return Some(1);
    }
    if request.desk as usize >= DESKS {
        return Some(2);
    }
    let item_stray = !request.uses_item() && request.item != 0;
    let value_stray = !request.uses_value() && request.value != 0;
    if request.spare != 0 || item_stray || value_stray {
        return Some(3);
    }
    let desk = &board.desks[request.desk as usize];
    let begins = request.kind == Request::BEGIN;
    if begins && desk.open {
        return Some(4);
    }
    if !begins && !desk.open {
        return Some(5);
    }
    if request.uses_item() && request.item as usize >= ITEMS {
        return Some(6);
    }
    if request.kind == Request::WRITE {
        let item = &board.items[request.item as usize];
        if request.value < item.floor {
            return Some(7);
        }
        if request.value > item.ceiling {
            return Some(8);
        }
    }
    if begins && desk.kept_age().is_none() && board.last_age >= LAST_AGE {
        return Some(9);
    }
    None
}

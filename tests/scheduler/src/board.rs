//! Records of a desk and of the board.

use crate::{Item, Kind, Set, DESKS, ITEMS, KEPT};

/// A desk. With nothing open, everything is at zero or empty, but for an age
/// that an abort left to it.
#[derive(Clone, PartialEq, Eq)]
pub struct Desk {
    pub open: bool,
    /// Of the open transaction, or kept for the next one.
    pub age: u32,
    pub start: u32,
    /// Open items read: the set that is tested at the end.
    pub read: Set,
    /// Items written; a guarded one among them is held alone.
    pub written: Set,
    pub copies: [u32; ITEMS],
    /// Guarded items held shared.
    pub shared: Set,
}

impl Desk {
    const FREE: Desk = Desk {
        open: false,
        age: 0,
        start: 0,
        read: Set::EMPTY,
        written: Set::EMPTY,
        copies: [0; ITEMS],
        shared: Set::EMPTY,
    };

    /// After a commit or an abandon nothing is left.
    pub fn free(&mut self) {
        self.free_keeping_age();
        self.age = 0;
    }

    /// After an abort the age alone is left.
    pub fn free_keeping_age(&mut self) {
        for item in self.written.members() {
            self.copies[item] = 0;
        }
        self.read.clear();
        self.written.clear();
        self.shared.clear();
        self.open = false;
        self.start = 0;
    }

    /// The age that an abort left to a desk with nothing open.
    pub fn kept_age(&self) -> Option<u32> {
        (!self.open && self.age != 0).then_some(self.age)
    }

    pub fn touched(&self, item: usize) -> bool {
        self.read.has(item) || self.written.has(item) || self.shared.has(item)
    }
}

#[derive(Clone, PartialEq, Eq)]
pub struct Board {
    pub items: [Item; ITEMS],
    pub values: [u32; ITEMS],
    pub last_age: u32,
    pub last_number: u32,
    /// The write set of number n stands in place n mod 16.
    write_sets: [Set; KEPT as usize],
    pub desks: [Desk; DESKS],
}

impl Board {
    pub(crate) fn empty() -> Board {
        Board {
            items: [Item {
                floor: 0,
                ceiling: 0,
                kind: Kind::Open,
            }; ITEMS],
            values: [0; ITEMS],
            last_age: 0,
            last_number: 0,
            write_sets: [Set::EMPTY; KEPT as usize],
            desks: [Desk::FREE; DESKS],
        }
    }

    /// The write set of one of the last 16 numbers.
    pub fn write_set(&self, number: u32) -> &Set {
        &self.write_sets[(number % KEPT) as usize]
    }

    /// The age of the desk's next transaction: the one that it kept, else a new
    /// one.
    pub(crate) fn take_age(&mut self, desk: usize) -> u32 {
        self.desks[desk].kept_age().unwrap_or_else(|| {
            self.last_age += 1;
            self.last_age
        })
    }

    /// Takes the next number for the desk's write set, installs its copies
    /// and frees it.
    pub(crate) fn commit(&mut self, desk: usize) -> u32 {
        self.last_number += 1;
        let desk = &mut self.desks[desk];
        let place = (self.last_number % KEPT) as usize;
        self.write_sets[place].become_copy(&desk.written);
        for item in desk.written.members() {
            self.values[item] = desk.copies[item];
        }
        desk.free();
        self.last_number
    }
}

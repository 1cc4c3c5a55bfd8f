//! A set of items.

use crate::ITEMS;

/// Yes or no for each item, and the members in the order they joined: the
/// list lets a small set be walked and emptied without visiting all items.
#[derive(Clone)]
pub struct Set {
    has: [bool; ITEMS],
    list: [u8; ITEMS],
    length: usize,
}

impl Set {
    pub const EMPTY: Set = Set {
        has: [false; ITEMS],
        list: [0; ITEMS],
        length: 0,
    };

    #[inline]
    pub fn has(&self, item: usize) -> bool {
        self.has[item]
    }

    pub fn is_empty(&self) -> bool {
        self.length == 0
    }

    #[inline]
    pub fn join(&mut self, item: usize) {
        if !self.has[item] {
            self.has[item] = true;
            self.list[self.length] = item as u8;
            self.length += 1;
        }
    }

    pub fn leave(&mut self, item: usize) {
        if self.has[item] {
            self.has[item] = false;
            let place = self.members().position(|member| member == item);
            let place = place.expect("a member stands in the list");
            self.length -= 1;
            self.list[place] = self.list[self.length];
        }
    }

    #[inline]
    pub fn members(&self) -> impl Iterator<Item = usize> + '_ {
        self.list[..self.length].iter().map(|&item| item as usize)
    }

    pub fn clear(&mut self) {
        for place in 0..self.length {
            self.has[self.list[place] as usize] = false;
        }
        self.length = 0;
    }

    /// Makes this set equal to another, touching members only.
    pub fn become_copy(&mut self, other: &Set) {
        self.clear();
        for item in other.members() {
            self.join(item);
        }
    }

    /// The lowest item in both sets.
    pub fn lowest_shared(&self, other: &Set) -> Option<usize> {
        self.members().filter(|&item| other.has(item)).min()
    }
}

/// The order of joining is no part of a set.
impl PartialEq for Set {
    fn eq(&self, other: &Set) -> bool {
        self.has == other.has
    }
}
impl Eq for Set {}

//! Journals that are soon full, and desks that ask again, abandon or go on
//! when an end lacks room.

use crate::desks::{Hall, Manners};
use crate::{abandon, end, random_table, Case, Random, Shape};

pub fn room(random: &mut Random) -> Case {
    let shape = Shape::random(random);
    let table = random_table(random, shape);
    let manners = Manners::random(random);
    let journal_length = length(random);
    let mut hall = Hall::with_journal(&table, journal_length);
    let requests = random.pick(&[8, 30, 60, 120, 200]);
    while hall.length() < requests {
        match hall.lacks_room {
            Some(desk) if random.chance(30) => drop(hall.put(end(desk))),
            Some(desk) if random.chance(30) => drop(hall.put(abandon(desk))),
            _ => hall.go_on(&manners, random),
        }
    }
    Case {
        journal_length,
        ..Case::new(table, hall.requests, random)
    }
}

/// Mostly a few records, and as often as not no whole number of them.
fn length(random: &mut Random) -> usize {
    match random.below(4) {
        0 => random.pick(&[0, 1, 7, 8, 9, 15, 16, 17, 23, 24, 25]),
        1 => random.below(50) * 8,
        _ => random.below(400),
    }
}

//! A reader that ends after about 16 commits of others, whose reads are or
//! are not overwritten by one of them, or that read nothing open.

use crate::desks::Hall;
use crate::{begin, end, outline_table, random_table, read, write, Case, Random, Shape};
use scheduler::Kind;

pub fn history(random: &mut Random) -> Case {
    let table = if random.chance(30) {
        outline_table()
    } else {
        let guarded_percent = random.pick(&[0, 30, 60]);
        let narrow = random.chance(50);
        random_table(
            random,
            Shape {
                guarded_percent,
                narrow,
            },
        )
    };
    let mut hall = Hall::new(&table);
    // A random number of commits first, so that the 16 kept sets wrap at
    // every place.
    for _ in 0..random.below(40) {
        one_commit(&mut hall, 15, None, random);
    }
    for _ in 0..random.within(1, 3) {
        scene(&mut hall, random);
    }
    Case::new(table, hall.requests, random)
}

fn scene(hall: &mut Hall, random: &mut Random) {
    hall.put(begin(0));
    let reads = reads(hall, random);
    let late = random.chance(30);
    if !late {
        reads.iter().for_each(|&item| {
            hall.put(read(0, item));
        });
    }
    let commits = random.pick(&[0, 1, 2, 14, 15, 15, 16, 16, 16, 17, 17, 18, 33]);
    let overwriting = random.chance(50) && commits > 0;
    let place = random.below(commits.max(1));
    for commit in 0..commits {
        let hit =
            (overwriting && commit == place && !reads.is_empty()).then(|| random.pick(&reads));
        one_commit(hall, random.within(1, 15) as u8, hit, random);
    }
    if late {
        reads.iter().for_each(|&item| {
            hall.put(read(0, item));
        });
    }
    if random.chance(30) {
        let item = random.below(64) as u8;
        let limits = hall.board.items[item as usize];
        hall.put(write(0, item, limits.floor));
        // Its own copy is read back, and an open one is then tested too.
        if random.chance(50) {
            hall.put(read(0, item));
        }
    }
    hall.put(end(0));
}

/// The low items, which only an overwriting commit writes. In some scenes
/// guarded items alone are read, in some nothing.
fn reads(hall: &Hall, random: &mut Random) -> Vec<u8> {
    let wanted = match random.below(4) {
        0 => return Vec::new(),
        1 => Kind::Guarded,
        _ => Kind::Open,
    };
    let low = (0..8u8).filter(|&item| hall.board.items[item as usize].kind == wanted);
    let mut low: Vec<u8> = low.collect();
    low.truncate(random.within(1, 4));
    low
}

/// One commit of a free desk, perhaps with nothing written; it hits the item
/// if one is given.
fn one_commit(hall: &mut Hall, desk: u8, hit: Option<u8>, random: &mut Random) {
    hall.put(begin(desk));
    let mut items: Vec<u8> = (0..random.below(3))
        .map(|_| random.within(8, 63) as u8)
        .collect();
    items.extend(hit);
    for item in items {
        let limits = hall.board.items[item as usize];
        let value = random.value_within(limits.floor, limits.ceiling);
        hall.put(write(desk, item, value));
    }
    hall.put(end(desk));
}

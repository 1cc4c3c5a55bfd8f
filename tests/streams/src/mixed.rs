//! Streams of desks that behave, on tables of every mix.

use crate::desks::{Hall, Manners};
use crate::{outline_table, random_table, row, Case, Random, Shape};

/// 2 to 16 desks on 2 to 64 items.
pub fn mixed(random: &mut Random) -> Case {
    let shape = Shape::random(random);
    let table = random_table(random, shape);
    let length = random.pick(&[1, 8, 30, 100, 200, 400]);
    behaved(table, length, random)
}

/// The same on the outline's table, whose first two items are hot.
pub fn outline(random: &mut Random) -> Case {
    let mut manners = Manners::random(random);
    manners.items = (0..random.within(2, 64)).map(|item| item as u8).collect();
    manners.hot_items = 2;
    manners.hot = 80;
    let length = random.within(1, 150);
    filled(outline_table(), length, &manners, random)
}

/// Runs of 4,096 requests.
pub fn full(random: &mut Random) -> Case {
    let shape = Shape::random(random);
    let table = random_table(random, shape);
    behaved(table, 4_096, random)
}

/// The benchmark's stream: 16 desks, 12 hot items, a third of the items
/// guarded, 4,096 requests.
pub fn bench_case(seed: u64) -> Case {
    let random = &mut Random::new(seed);
    let mut table = Vec::new();
    for item in 0..64 {
        table.extend(row(0, 1_000_000, 500, u8::from(item % 3 == 0)));
    }
    let manners = Manners {
        desks: 16,
        items: (0..64).collect(),
        hot: 80,
        hot_items: 12,
        writes: 35,
        ends: 15,
        abandons: 1,
        slips: 2,
    };
    filled(table, 4_096, &manners, random)
}

pub fn behaved(table: Vec<u8>, length: usize, random: &mut Random) -> Case {
    let manners = Manners::random(random);
    filled(table, length, &manners, random)
}

fn filled(table: Vec<u8>, length: usize, manners: &Manners, random: &mut Random) -> Case {
    let mut hall = Hall::new(&table);
    while hall.length() < length {
        hall.go_on(manners, random);
    }
    Case::new(table, hall.requests, random)
}

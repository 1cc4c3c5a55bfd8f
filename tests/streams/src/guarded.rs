//! Guarded items with holders of several ages, so that wait and yield both
//! come often.

use crate::desks::Hall;
use crate::{abandon, begin, end, random_table, read, write, Case, Random, Shape};

pub fn guarded(random: &mut Random) -> Case {
    let shape = Shape {
        guarded_percent: 90,
        narrow: random.chance(50),
    };
    let table = random_table(random, shape);
    let mut hall = Hall::new(&table);
    let desks = random.within(2, 16);
    let items = random.within(1, 4);
    for _ in 0..random.within(1, 12) {
        scene(&mut hall, desks, items, random);
    }
    Case::new(table, hall.requests, random)
}

/// All desks begin in a random order, some hold items, then some ask.
fn scene(hall: &mut Hall, desks: usize, items: usize, random: &mut Random) {
    let mut order: Vec<u8> = (0..desks as u8).collect();
    for place in (1..desks).rev() {
        order.swap(place, random.below(place + 1));
    }
    for &desk in &order {
        if !hall.board.desks[desk as usize].open {
            hall.put(begin(desk));
        }
    }
    let hold_writes = random.pick(&[0, 10, 50]);
    for _ in 0..random.within(1, desks) {
        ask(hall, random.pick(&order), items, hold_writes, random);
    }
    let ask_writes = random.pick(&[30, 80, 100]);
    for _ in 0..random.within(1, desks) {
        ask(hall, random.pick(&order), items, ask_writes, random);
    }
    for _ in 0..random.below(desks) {
        let desk = random.pick(&order);
        hall.put(if random.chance(70) {
            end(desk)
        } else {
            abandon(desk)
        });
    }
}

fn ask(hall: &mut Hall, desk: u8, items: usize, writes: usize, random: &mut Random) {
    let item = random.below(items) as u8;
    let limits = hall.board.items[item as usize];
    hall.put(if random.chance(writes) {
        let value = random.value_within(limits.floor, limits.ceiling);
        write(desk, item, value)
    } else {
        read(desk, item)
    });
}

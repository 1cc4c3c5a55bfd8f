//! Every field of a request at and beside its limits.

use crate::desks::Hall;
use crate::{begin, outline_table, random_table, Case, Random, Shape};

pub fn limits(random: &mut Random) -> Case {
    let table = if random.chance(40) {
        outline_table()
    } else {
        let shape = Shape::random(random);
        random_table(random, shape)
    };
    let mut hall = Hall::new(&table);
    let length = random.within(1, 120);
    for desk in [0, 15] {
        if random.chance(80) {
            hall.put(begin(desk));
        }
    }
    while hall.length() < length {
        let request = request(&hall, random);
        hall.put(request);
    }
    Case::new(table, hall.requests, random)
}

fn request(hall: &Hall, random: &mut Random) -> [u8; 8] {
    let kind = random.pick(&[1, 2, 2, 3, 3, 3, 3, 4, 5, 0, 6, 255]);
    let desk = random.pick(&[0, 0, 0, 15, 15, 15, 1, 14, 16, 17, 128, 255]);
    let mut item = random.pick(&[0, 1, 1, 2, 3, 62, 63, 63, 64, 65, 127, 128, 255]);
    let spare = random.pick(&[0, 0, 0, 0, 0, 0, 0, 0, 1, 128, 255]);
    let mut value = value(hall, item, random);
    // Mostly the unused fields are zero, else nothing but refusal 3 comes.
    if ![2, 3].contains(&kind) && random.chance(85) {
        item = 0;
    }
    if kind != 3 && random.chance(85) {
        value = 0;
    }
    let [a, b, c, d] = value.to_le_bytes();
    [kind, desk, item, spare, a, b, c, d]
}

fn value(hall: &Hall, item: u8, random: &mut Random) -> u32 {
    let limits = hall.board.items[item as usize % 64];
    random.pick(&[
        limits.floor.wrapping_sub(1),
        limits.floor,
        limits.floor.wrapping_add(1),
        limits.ceiling.wrapping_sub(1),
        limits.ceiling,
        limits.ceiling.wrapping_add(1),
        0,
        1,
        u32::MAX,
        1 << 24,
    ])
}

//! Right opening tables.

use crate::Random;

/// One row of an opening table.
pub fn row(floor: u32, ceiling: u32, value: u32, kind: u8) -> [u8; 16] {
    let mut row = [0; 16];
    row[0..4].copy_from_slice(&floor.to_le_bytes());
    row[4..8].copy_from_slice(&ceiling.to_le_bytes());
    row[8..12].copy_from_slice(&value.to_le_bytes());
    row[12] = kind;
    row
}

/// The table of the outline's example.
pub fn outline_table() -> Vec<u8> {
    let mut table = Vec::new();
    table.extend(row(30, 250, 140, 0));
    table.extend(row(0, 1, 0, 1));
    for _ in 2..64 {
        table.extend(row(0, 1_000, 0, 0));
    }
    table
}

/// What share of a random table's rows is guarded, and how wide its ranges.
#[derive(Clone, Copy)]
pub struct Shape {
    pub guarded_percent: usize,
    pub narrow: bool,
}

impl Shape {
    pub fn random(random: &mut Random) -> Shape {
        Shape {
            guarded_percent: random.pick(&[0, 20, 33, 50, 80, 100]),
            narrow: random.chance(30),
        }
    }
}

pub fn random_table(random: &mut Random, shape: Shape) -> Vec<u8> {
    let mut table = Vec::new();
    for _ in 0..64 {
        let (floor, ceiling) = range(random, shape.narrow);
        let value = match random.below(4) {
            0 => floor,
            1 => ceiling,
            _ => random.value_within(floor, ceiling),
        };
        let kind = u8::from(random.chance(shape.guarded_percent));
        table.extend(row(floor, ceiling, value, kind));
    }
    table
}

fn range(random: &mut Random, narrow: bool) -> (u32, u32) {
    if narrow {
        let floor = random.pick(&[0, 1, 255, 256, 65_535, u32::MAX - 3]);
        return (floor, floor + random.below(4) as u32);
    }
    match random.below(4) {
        0 => (0, u32::MAX),
        1 => (0, 1_000),
        _ => {
            let one = random.draw() as u32;
            let other = random.draw() as u32;
            (one.min(other), one.max(other))
        }
    }
}

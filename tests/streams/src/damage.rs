//! Streams that are no desk's work: junk, nearly requests, damage, nothing.

use crate::mixed::behaved;
use crate::{outline_table, random_table, Case, Random, Shape};

/// Bytes without any order.
pub fn junk(random: &mut Random) -> Case {
    let table = table(random);
    let length = random.below(200) * 8;
    let requests = (0..length).map(|_| random.byte()).collect();
    Case::new(table, requests, random)
}

/// Junk whose bytes are small, so that most fields are in range.
pub fn nearly(random: &mut Random) -> Case {
    let table = table(random);
    let mut requests = Vec::new();
    for _ in 0..random.below(200) {
        let kind = random.below(7) as u8;
        let desk = random.below(17) as u8;
        let item = random.below(66) as u8;
        let value = random.pick(&[0, 0, 0, 1, 200]);
        requests.extend([kind, desk, item, 0, value, 0, 0, 0]);
    }
    Case::new(table, requests, random)
}

/// A stream of desks that behave, where some requests had a byte changed.
pub fn damaged(random: &mut Random) -> Case {
    let table = table(random);
    let length = random.within(1, 200);
    let mut case = behaved(table, length, random);
    let often = random.pick(&[1, 5, 20]);
    for record in 0..length {
        if random.chance(often) {
            let place = record * 8 + random.below(8);
            case.requests[place] = match random.below(3) {
                0 => case.requests[place] ^ (1 << random.below(8)),
                1 => random.pick(&[0, 1, 2, 15, 16, 63, 64, 255]),
                _ => random.byte(),
            };
        }
    }
    case
}

/// No requests.
pub fn empty(random: &mut Random) -> Case {
    let table = table(random);
    Case::new(table, Vec::new(), random)
}

fn table(random: &mut Random) -> Vec<u8> {
    if random.chance(30) {
        return outline_table();
    }
    let shape = Shape::random(random);
    random_table(random, shape)
}

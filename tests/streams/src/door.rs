//! Runs that the outer door refuses, for one reason or for several, and runs
//! that only just pass it.

use crate::mixed::behaved;
use crate::{random_table, Case, Random, Shape};

pub fn door(random: &mut Random) -> Case {
    let shape = Shape::random(random);
    let table = random_table(random, shape);
    let length = random.below(40);
    let mut case = behaved(table, length, random);
    for _ in 0..random.pick(&[1, 1, 1, 2, 3]) {
        spoil(&mut case, random);
    }
    case
}

fn spoil(case: &mut Case, random: &mut Random) {
    match random.below(6) {
        0 => spoil_table(&mut case.table, random),
        1 => {
            let length = random.pick(&[0, 1, 1_008, 1_023, 1_024, 1_025, 1_040]);
            case.table.resize(length, 0);
        }
        2 => {
            let length = case.requests.len() + random.within(1, 8);
            case.requests.resize(length, 1);
        }
        3 => {
            let count = random.pick(&[4_095, 4_096, 4_097, 5_000]);
            case.requests.resize(count * 8, 1);
            case.answers_length = count * 12;
        }
        4 => {
            let needed = case.requests.len() / 8 * 12;
            case.answers_length = needed.saturating_sub(random.pick(&[0, 1, 1, 12, 13]));
        }
        _ => case.values_length = random.pick(&[0, 1, 4, 252, 255, 255, 256, 257]),
    }
}

/// One row's range is turned about, or its kind or its last bytes spoilt.
fn spoil_table(table: &mut [u8], random: &mut Random) {
    if table.len() < 1_024 {
        return;
    }
    let row = random.below(64) * 16;
    match random.below(4) {
        0 => {
            for place in 0..4 {
                table.swap(row + place, row + 4 + place);
            }
        }
        1 => table[row + random.below(12)] ^= 1 << random.below(8),
        2 => table[row + 12] = random.pick(&[0, 1, 2, 3, 128, 255]),
        _ => table[row + random.within(13, 15)] = random.pick(&[1, 128, 255]),
    }
}

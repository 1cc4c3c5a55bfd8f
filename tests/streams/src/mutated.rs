//! Cases of the other generators, changed at random in their structure: the
//! fuzzer's source.

use crate::{again, ages, damage, door, guarded, history, limits, mixed, room, Case, Random};

const SOURCES: [fn(&mut Random) -> Case; 10] = [
    mixed::mixed,
    mixed::outline,
    guarded::guarded,
    again::again,
    history::history,
    limits::limits,
    damage::nearly,
    damage::damaged,
    door::door,
    room::room,
];

const BYTES: [u8; 16] = [0, 1, 2, 3, 4, 5, 6, 14, 15, 16, 62, 63, 64, 127, 128, 255];

pub fn mutated(random: &mut Random) -> Case {
    // Runs to the last age are long, so they are few.
    let mut case = match random.below(200) {
        0 => random.pick(&[ages::ages, again::last])(random),
        _ => random.pick(&SOURCES)(random),
    };
    for _ in 0..random.pick(&[1, 1, 2, 4, 16, 64]) {
        match random.below(20) {
            0 => mutate_table(&mut case.table, random),
            1 => mutate_lengths(&mut case, random),
            _ => mutate_requests(&mut case.requests, random),
        }
    }
    // A longer stream mostly gets the room it needs.
    if random.chance(95) {
        case.answers_length = case.answers_length.max(case.requests.len() / 8 * 12);
    }
    case
}

fn mutate_table(table: &mut Vec<u8>, random: &mut Random) {
    match random.below(4) {
        0 if table.len() >= 1_024 => {
            let (from, to) = (random.below(64) * 16, random.below(64) * 16);
            table.copy_within(from..from + 16, to);
        }
        1 if table.len() >= 1_024 => table[random.below(64) * 16 + 12] ^= 1,
        2 => table.resize(random.within(1_016, 1_032), 0),
        _ => change_byte(table, random),
    }
}

fn mutate_lengths(case: &mut Case, random: &mut Random) {
    if random.chance(50) {
        let needed = case.requests.len() / 8 * 12;
        case.answers_length = (needed + random.below(4)).saturating_sub(1);
    } else {
        case.values_length = random.within(254, 258);
    }
}

fn mutate_requests(requests: &mut Vec<u8>, random: &mut Random) {
    let count = requests.len() / 8;
    if count == 0 {
        requests.extend((0..8).map(|_| random.pick(&BYTES)));
        return;
    }
    let (one, other) = (random.below(count) * 8, random.below(count) * 8);
    match random.below(8) {
        0 => drop(requests.drain(one..one + 8)),
        1 => requests.copy_within(one..one + 8, other),
        2 => {
            let record: Vec<u8> = requests[one..one + 8].to_vec();
            requests.splice(other..other, record);
        }
        3 => (0..8).for_each(|place| requests.swap(one + place, other + place)),
        4 => requests[one + 1] = random.below(17) as u8,
        5 => requests[one + 2] = random.pick(&BYTES),
        6 if random.chance(10) => requests.truncate(requests.len() - random.within(1, 8)),
        7 if random.chance(20) && count < 2_000 => requests.extend_from_within(..),
        _ => change_byte(requests, random),
    }
}

fn change_byte(bytes: &mut [u8], random: &mut Random) {
    if bytes.is_empty() {
        return;
    }
    let place = random.below(bytes.len());
    bytes[place] = match random.below(3) {
        0 => bytes[place] ^ (1 << random.below(8)),
        1 => random.pick(&BYTES),
        _ => random.byte(),
    };
}

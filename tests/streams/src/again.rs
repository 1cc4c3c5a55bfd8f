//! Desks that are aborted and begin again, mostly at once and with the age
//! they kept, on few items that all of them want.

use crate::desks::{Hall, Manners};
use crate::{abandon, begin, end, random_table, Case, Random, Shape};
use scheduler::{Desk, DESKS, LAST_AGE};

pub fn again(random: &mut Random) -> Case {
    let table = table(random);
    let manners = crowd(16, random);
    let mut hall = Hall::new(&table);
    let length = random.pick(&[30, 60, 120, 200, 400]);
    contend(&mut hall, length, &manners, random);
    Case::new(table, hall.requests, random)
}

/// The same where the ages run out: who keeps one begins, and no other can.
pub fn last(random: &mut Random) -> Case {
    let table = table(random);
    let mut manners = crowd(15, random);
    let mut hall = Hall::new(&table);
    // Some keep an early age up to the end.
    let early = random.pick(&[0, 10, 30]);
    contend(&mut hall, early, &manners, random);
    let left = random.below(manners.desks + 1) as u32;
    use_up(&mut hall, LAST_AGE - left, random);
    // Whoever commits then is out.
    manners.ends = random.pick(&[2, 5, 10]);
    contend(&mut hall, 4_096, &manners, random);
    Case::new(table, hall.requests, random)
}

fn table(random: &mut Random) -> Vec<u8> {
    let guarded_percent = random.pick(&[30, 60, 100]);
    let narrow = random.chance(50);
    random_table(
        random,
        Shape {
            guarded_percent,
            narrow,
        },
    )
}

/// Of at most so many desks.
fn crowd(most: usize, random: &mut Random) -> Manners {
    let items = random.within(1, 6);
    Manners {
        desks: random.within(2, most),
        items: (0..items as u8).collect(),
        hot: 0,
        hot_items: items,
        writes: random.pick(&[30, 60, 90]),
        ends: random.pick(&[8, 15, 30]),
        abandons: random.pick(&[0, 0, 2]),
        slips: random.pick(&[0, 0, 5]),
    }
}

/// Up to this length of the stream.
fn contend(hall: &mut Hall, length: usize, manners: &Manners, random: &mut Random) {
    let at_once = random.pick(&[30, 80, 100]);
    while hall.length() < length {
        match some_desk(hall, random, |desk| desk.kept_age().is_some()) {
            Some(desk) if random.chance(at_once) => drop(hall.put(begin(desk as u8))),
            _ => go_on(hall, manners, random),
        }
    }
}

/// When all ages are given, mostly those go on that still have one.
fn go_on(hall: &mut Hall, manners: &Manners, random: &mut Random) {
    match some_desk(hall, random, |desk| desk.open) {
        Some(desk) if hall.board.last_age == LAST_AGE && random.chance(90) => {
            hall.go_on_at(desk, manners, random)
        }
        _ => hall.go_on(manners, random),
    }
}

fn some_desk(hall: &Hall, random: &mut Random, is: fn(&Desk) -> bool) -> Option<usize> {
    let desks: Vec<usize> = (0..DESKS)
        .filter(|&desk| is(&hall.board.desks[desk]))
        .collect();
    (!desks.is_empty()).then(|| random.pick(&desks))
}

/// Desk 15, which is not one of the crowd, takes all ages up to this one.
fn use_up(hall: &mut Hall, age: u32, random: &mut Random) {
    let ends = random.pick(&[0, 2, 100]);
    while hall.board.last_age < age {
        hall.put(begin(15));
        hall.put(if random.chance(ends) {
            end(15)
        } else {
            abandon(15)
        });
    }
}

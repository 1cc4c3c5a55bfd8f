//! Runs that reach age 2,000 and go on behind it.

use crate::desks::{Hall, Manners};
use crate::{abandon, begin, end, outline_table, random_table, Case, Random, Shape};

pub fn ages(random: &mut Random) -> Case {
    let table = if random.chance(30) {
        outline_table()
    } else {
        let shape = Shape::random(random);
        random_table(random, shape)
    };
    let mut hall = Hall::new(&table);
    let manners = Manners::random(random);
    let ends = random.pick(&[0, 50, 100]);
    // Short transactions up to shortly before the last age; a begin and a
    // finish each fit in 4,096 requests.
    let shortly = 2_000 - random.below(40) as u32;
    while hall.board.last_age < shortly && hall.length() < 4_060 {
        let desk = random.below(16);
        if !hall.board.desks[desk].open {
            hall.put(begin(desk as u8));
        }
        if hall.length() + needed(&hall, shortly) + 40 < 4_096 && random.chance(30) {
            let request = hall.work(desk as u8, &manners, random);
            hall.put(request);
        }
        if hall.board.desks[desk].open && !(hall.board.last_age + 8 > shortly && random.chance(50))
        {
            hall.put(if random.chance(ends) {
                end(desk as u8)
            } else {
                abandon(desk as u8)
            });
        }
    }
    while hall.length() < 4_096 {
        if random.chance(30) {
            hall.put(begin(random.below(16) as u8));
        } else {
            hall.go_on(&manners, random);
        }
    }
    Case::new(table, hall.requests, random)
}

/// A begin and a finish for each age up to this one, and for each kept age.
fn needed(hall: &Hall, age: u32) -> usize {
    let desks = hall.board.desks.iter();
    let kept = desks.filter(|desk| desk.kept_age().is_some()).count();
    2 * ((age - hall.board.last_age) as usize + kept)
}

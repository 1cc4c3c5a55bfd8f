//! Whom a desk waits for or yields to: the oldest of the other desks that hold
//! the item in its way. Here desk numbers do not follow the order of ages.

use crate::examples::{example, Example};
use crate::{abandon, begin, end, read, write, Record};

pub fn holders() -> Vec<Example> {
    let mut all = one_holder();
    all.extend(not_named());
    all.extend(several_holders());
    all.extend(every_three_desks());
    all
}

/// Desk 9 holds item 1 and desk 3 asks for it.
fn one_holder() -> Vec<Example> {
    let ways = [
        ("one sharer, a writer asks", read(9, 1), write(3, 1, 1)),
        ("one writer, a reader asks", write(9, 1, 1), read(3, 1)),
        ("one writer, a writer asks", write(9, 1, 1), write(3, 1, 1)),
    ];
    let both = ways.map(|(name, hold, ask)| {
        let older_asks = vec![begin(3), begin(9), hold, ask];
        let younger_asks = vec![begin(9), begin(3), hold, ask];
        [
            example(name, older_asks, &[[3, 4, 1, 0, 9, 0]]),
            example(name, younger_asks, &[[3, 7, 1, 3, 9, 0]]),
        ]
    });
    both.into_iter().flatten().collect()
}

fn not_named() -> Vec<Example> {
    let the_asker = vec![begin(3), begin(9), read(3, 1), read(9, 1), write(3, 1, 1)];
    let lower_asker = vec![begin(9), begin(3), read(9, 1), read(3, 1), write(3, 1, 1)];
    let elsewhere = vec![
        begin(1),
        begin(3),
        begin(9),
        write(1, 2, 1),
        read(9, 1),
        write(3, 1, 1),
    ];
    let wait = [[3, 4, 1, 0, 9, 0]];
    vec![
        example("not the asker, the oldest sharer", the_asker, &wait),
        example(
            "not the asker, the sharer of the lowest number",
            lower_asker,
            &[[3, 7, 1, 3, 9, 0]],
        ),
        example("not the writer of another item", elsewhere, &wait),
    ]
}

/// Desks 6, 9, 4 and 12 begin in this order; 4 is the first to share item 1,
/// then 12, then 9.
fn shared_by_three(then: &[Record]) -> Vec<Record> {
    let mut requests = vec![begin(6), begin(9), begin(4), begin(12)];
    requests.extend([read(4, 1), read(12, 1), read(9, 1)]);
    requests.extend(then);
    requests
}

fn several_holders() -> Vec<Example> {
    vec![
        example(
            "of three sharers the oldest is waited for",
            shared_by_three(&[write(6, 1, 1)]),
            &[[6, 4, 1, 0, 9, 0]],
        ),
        example(
            "of three sharers the oldest is yielded to",
            shared_by_three(&[begin(0), write(0, 1, 1)]),
            &[[0, 7, 1, 3, 9, 0]],
        ),
        example(
            "the youngest sharer yields to the oldest",
            shared_by_three(&[write(12, 1, 1)]),
            &[[12, 7, 1, 3, 9, 0]],
        ),
        example(
            "the oldest sharer waits for the next in age",
            shared_by_three(&[write(9, 1, 1)]),
            &[[9, 4, 1, 0, 4, 0]],
        ),
        example(
            "who asks again is told who is left",
            shared_by_three(&[end(9), write(6, 1, 1), abandon(4), write(6, 1, 1)]),
            &[
                [9, 5, 0, 0, 1, 0],
                [6, 4, 1, 0, 4, 0],
                [4, 6, 0, 0, 0, 0],
                [6, 4, 1, 0, 12, 0],
            ],
        ),
        example(
            "who committed and began again is the youngest",
            shared_by_three(&[end(9), begin(9), read(9, 1), write(6, 1, 1)]),
            &[[6, 4, 1, 0, 4, 0]],
        ),
    ]
}

/// Every two desks share item 1 and every third asks to write it, having begun
/// before both, between them or after both.
fn every_three_desks() -> Vec<Example> {
    let mut all = Vec::new();
    for older in 0..16 {
        for younger in (0..16).filter(|&desk| desk != older) {
            for asker in (0..16).filter(|&desk| desk != older && desk != younger) {
                all.extend((0..3).map(|place| three_desks(older, younger, asker, place)));
            }
        }
    }
    all
}

/// The asker's place in the order of begins is 0, 1 or 2. The younger sharer
/// is the first to hold.
fn three_desks(older: u8, younger: u8, asker: u8, place: usize) -> Example {
    let mut order = vec![older, younger];
    order.insert(place, asker);
    let mut requests: Vec<Record> = order.into_iter().map(begin).collect();
    requests.extend([read(younger, 1), read(older, 1), write(asker, 1, 1)]);
    let (code, reason) = if place == 0 { (4, 0) } else { (7, 3) };
    let last = [asker, code, 1, reason, older, 0].map(u32::from);
    example("two share, a third asks to write", requests, &[last])
}

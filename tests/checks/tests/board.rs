//! The bytes of the board record.

use checks::{each, Ages};
use library::{Board, Space, BOARD_BYTES};
use streams::{abandon, begin, outline_table, read, write, Random};

#[test]
fn opening_writes_every_byte_of_the_board_and_no_other() {
    let open = |byte| {
        let mut space = Space::filled(byte);
        assert_eq!(space.call_open(&outline_table()), 0);
        space
    };
    let (one, other) = (open(0xAA), open(0x55));
    let differs = (0..BOARD_BYTES).find(|&place| one.board[place] != other.board[place]);
    assert_eq!(
        differs, None,
        "BOARD_BYTES is too large, or a byte is left out"
    );
    assert!(
        one.guard.iter().all(|&byte| byte == 0xAA),
        "BOARD_BYTES is too small"
    );
    assert!(
        other.guard.iter().all(|&byte| byte == 0x55),
        "BOARD_BYTES is too small"
    );
}

#[test]
fn a_refused_opening_keeps_every_byte() {
    let random = &mut Random::new(7);
    for place in 0..1_024 {
        let mut table = outline_table();
        table[place] ^= 1 << random.below(8);
        let wrong = scheduler::open(&table).is_err();
        let mut space = Space::filled(0xAA);
        let before = space.clone();
        assert_eq!(space.call_open(&table), if wrong { -10 } else { 0 });
        assert_eq!(space == before, wrong, "byte {place}");
    }
    let mut space = Space::filled(0x55);
    assert_eq!(space.call_open_with_null(), -10);
    assert!(space == Space::filled(0x55));
    for length in (0..1_040).filter(|&length| length != 1_024) {
        let mut table = outline_table();
        table.resize(length, 0);
        let mut space = Space::filled(0x55);
        let before = space.clone();
        assert_eq!(space.call_open(&table), -10);
        assert!(space == before, "length {length}");
    }
}

/// Wherever a stream stands, a transaction that worked and was abandoned
/// leaves the same board as one that did nothing. If it was aborted on the way
/// and has begun again, it stands where it stood when it had just begun.
#[test]
fn an_abandoned_transaction_leaves_nothing() {
    let (mut seen, mut aborted) = (0, 0);
    each(20, |case| {
        let Ok(mut board) = Board::open(&case.table) else {
            return;
        };
        let random = &mut Random::new(case.seed);
        let stop = random.below(case.requests.len() / 8 + 1);
        case.records().take(stop).for_each(|request| {
            board.step(request);
        });
        let desk = random.below(16) as u8;
        board.step(&abandon(desk));
        let opened = board.step(&begin(desk));
        if opened[0] != 1 {
            return;
        }
        let begun = board.clone();
        let mut idle = board.clone();
        idle.step(&abandon(desk));
        for _ in 0..random.within(1, 20) {
            let item = random.below(64);
            let value = &case.table[item * 16 + 4..item * 16 + 8];
            let value = u32::from_le_bytes(value.try_into().unwrap());
            let answer = board.step(&if random.chance(50) {
                read(desk, item as u8)
            } else {
                write(desk, item as u8, value)
            });
            if answer[0] == 7 {
                assert_eq!(board.step(&begin(desk)), opened, "{}", checks::rerun(case));
                assert!(board == begun, "{}", checks::rerun(case));
                aborted += 1;
            }
        }
        assert_eq!(board.step(&abandon(desk))[0], 6, "{}", checks::rerun(case));
        assert!(board == idle, "{}", checks::rerun(case));
        seen += 1;
    });
    println!("{seen} abandoned, {aborted} aborted on the way");
    assert!(checks::chosen().is_some() || (seen > 500 && aborted > 300));
}

/// The one place of four bytes in which two boards differ, and the number that
/// stands there in the first; in the second there are zeros.
fn only_difference(with: &Board, without: &Board) -> Option<(usize, u32)> {
    let (mut with, without) = (*with.bytes(), without.bytes());
    let differs = |&place: &usize| with[place] != without[place];
    let place = (0..BOARD_BYTES).find(differs)? / 4 * 4;
    let four: &mut [u8; 4] = (&mut with[place..place + 4]).try_into().ok()?;
    let number = u32::from_le_bytes(std::mem::take(four));
    (with == *without).then_some((place, number))
}

/// What an abort left, if it left nothing else: but for a number in one place
/// the board is as if the desk had abandoned instead, and it is so altogether
/// once the desk has begun and abandoned.
fn left_by_abort(before: &Board, after: &Board, desk: u8) -> Option<(usize, u32)> {
    let (mut instead, mut dropped) = (before.clone(), after.clone());
    instead.step(&abandon(desk));
    dropped.step(&begin(desk));
    dropped.step(&abandon(desk));
    let left = only_difference(after, &instead)?;
    (dropped == instead).then_some(left)
}

/// An abort leaves the age and nothing else, whatever the transaction had read
/// and written; a desk's age always stands in the same place.
#[test]
fn an_abort_leaves_the_age_alone() {
    let mut seen = [0; 4];
    let mut places: [Option<usize>; 16] = [None; 16];
    each(40, |case| {
        let Ok(mut board) = Board::open(&case.table) else {
            return;
        };
        let mut ages = Ages::default();
        for request in case.records() {
            let before = board.clone();
            let answer = board.step(request);
            if answer[0] == 7 {
                let desk = answer[1] as usize;
                let left = left_by_abort(&before, &board, answer[1]);
                let place = *places[desk].get_or_insert(left.map_or(0, |left| left.0));
                let wanted = Some((place, ages.desks[desk].age));
                assert_eq!(left, wanted, "{}", checks::rerun(case));
                seen[answer[3] as usize] += 1;
            }
            ages.follow(&answer);
        }
    });
    println!("aborts of reason 1 to 3: {:?}", &seen[1..]);
    assert!(checks::chosen().is_some() || seen[1..].iter().all(|&count| count > 300));
}

/// The bytes of a board on which desks keep ages are opened again, and nothing
/// of it is left.
#[test]
fn an_opening_leaves_no_age() {
    let mut kept = 0;
    each(40, |case| {
        let Ok(fresh) = Board::open(&case.table) else {
            return;
        };
        let mut board = fresh.clone();
        let mut ages = Ages::default();
        for request in case.records() {
            ages.follow(&board.step(request));
        }
        kept += ages.keepers().count();
        let again = Board::open_in(board.into_space(), &case.table);
        assert!(again == Ok(fresh), "{}", checks::rerun(case));
    });
    println!("{kept} kept ages are gone");
    assert!(checks::chosen().is_some() || kept > 500);
}

/// A sole sharer that writes holds the item alone and no longer shared, so
/// its earlier read can't be told from the board.
#[test]
fn a_written_item_leaves_the_shared_set() {
    let after = |requests: &[[u8; 8]]| {
        let mut board = Board::open(&outline_table()).expect("a right table");
        requests.iter().for_each(|request| {
            board.step(request);
        });
        board
    };
    let shared_first = after(&[begin(4), read(4, 1), write(4, 1, 1)]);
    let alone = after(&[begin(4), write(4, 1, 1)]);
    assert!(shared_first == alone);
    // A read of what it holds alone changes nothing either, nor a second
    // write of the same value.
    let read_back = after(&[begin(4), write(4, 1, 0), write(4, 1, 1), read(4, 1)]);
    assert!(read_back == alone);
}

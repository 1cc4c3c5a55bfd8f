//! Refusal 15, with expected answers and bytes written out, and journals at
//! their limit of 65,536 bytes, which only single steps can reach.

use checks::Fenced;
use library::{Journaled, JournaledSpace};
use scheduler::{record, Journal, CLOSING, WRITTEN};
use streams::{abandon, begin, end, outline_table, read, write, Random};

/// A board with a journal of its own, stepped and compared with nothing.
struct Desk {
    board: Journaled,
    journal: Fenced,
}

impl Desk {
    fn open(length: usize) -> Desk {
        let mut journal = Fenced::new(length, 9);
        let board = Journaled::open(&outline_table(), journal.lent()).expect("a right table");
        Desk { board, journal }
    }

    /// Code, reason and first number of the answer.
    fn ask(&mut self, request: [u8; 8]) -> (u8, u8, u32) {
        let answer = self.board.step(&request, self.journal.lent());
        let first = u32::from_le_bytes([answer[4], answer[5], answer[6], answer[7]]);
        (answer[0], answer[3], first)
    }

    fn records(&self) -> &[u8] {
        &self.journal.holds()[..self.board.used()]
    }
}

const LACKS_ROOM: (u8, u8, u32) = (0, 15, 0);
const ABANDONED: (u8, u8, u32) = (6, 0, 0);

fn committed(number: u32) -> (u8, u8, u32) {
    (5, 0, number)
}

#[test]
fn the_records_of_a_commit() {
    let mut desk = Desk::open(100);
    desk.ask(begin(3));
    for (item, value) in [(63, 7), (0, 115), (1, 1), (63, 1_000)] {
        assert_eq!(desk.ask(write(3, item, value)).0, 3);
    }
    assert_eq!(desk.records(), []);
    assert_eq!(desk.ask(end(3)), committed(1));
    let wanted = [
        [1, 0, 1, 0, 115, 0, 0, 0],
        [1, 1, 1, 0, 1, 0, 0, 0],
        [1, 63, 1, 0, 0xE8, 3, 0, 0],
        [2, 0, 1, 0, 3, 0, 0, 0],
    ];
    assert_eq!(desk.records(), wanted.concat());
    desk.ask(begin(15));
    desk.ask(read(15, 5));
    assert_eq!(desk.ask(end(15)), committed(2));
    assert_eq!(desk.records()[32..], [2, 0, 2, 0, 0, 0, 0, 0]);
    assert!(desk.journal.holds()[40..].iter().all(|&byte| byte == 0));
}

/// An empty commit needs 8 bytes, one of an item 16, and so on.
#[test]
fn just_enough_room() {
    for items in 0..=20usize {
        let needed = 8 * (items + 1);
        for length in (0..needed + 10).filter(|length| length.abs_diff(needed) < 10) {
            let mut desk = Desk::open(length);
            desk.ask(begin(0));
            for item in 0..items {
                desk.ask(write(0, item as u8 + 2, 1));
            }
            let wanted = if length < needed {
                LACKS_ROOM
            } else {
                committed(1)
            };
            assert_eq!(desk.ask(end(0)), wanted, "{items} items, {length} bytes");
        }
    }
}

#[test]
fn the_same_end_asked_again() {
    let mut desk = Desk::open(16);
    desk.ask(begin(0));
    desk.ask(write(0, 2, 5));
    desk.ask(write(0, 3, 6));
    for _ in 0..3 {
        assert_eq!(desk.ask(end(0)), LACKS_ROOM);
    }
    // Still open: its copy is there, a begin is refused, and it goes on.
    assert_eq!(desk.ask(read(0, 2)), (2, 0, 5));
    assert_eq!(desk.ask(begin(0)), (0, 4, 0));
    assert_eq!(desk.ask(write(0, 4, 7)), (3, 0, 0));
    assert_eq!(desk.ask(end(0)), LACKS_ROOM);
    // No number was taken, and a smaller commit still fits.
    assert_eq!(desk.records(), []);
    desk.ask(begin(1));
    desk.ask(write(1, 9, 9));
    assert_eq!(desk.ask(end(1)), committed(1));
    assert_eq!(desk.ask(end(0)), LACKS_ROOM);
    assert_eq!(desk.ask(abandon(0)), ABANDONED);
    assert_eq!(desk.ask(begin(0)), (1, 0, 3));
    assert_eq!(desk.ask(read(0, 2)), (2, 0, 0));
    let wanted = [record(WRITTEN, 9, 1, 9), record(CLOSING, 0, 1, 1)];
    assert_eq!(desk.records(), wanted.concat());
}

/// A guarded item stays locked while its end lacks room.
#[test]
fn its_locks_stay() {
    let mut desk = Desk::open(8);
    desk.ask(begin(7));
    desk.ask(begin(8));
    desk.ask(write(8, 1, 1));
    assert_eq!(desk.ask(end(8)), LACKS_ROOM);
    assert_eq!(desk.ask(read(7, 1)), (4, 0, 8));
    assert_eq!(desk.ask(abandon(8)), ABANDONED);
    assert_eq!(desk.ask(read(7, 1)), (2, 0, 0));
}

/// A transaction with a kept age that lacks room is open, as old as it was,
/// and drops its age when it is abandoned.
#[test]
fn its_age_stays() {
    let mut desk = Desk::open(8);
    desk.ask(begin(7));
    desk.ask(write(7, 1, 1));
    assert_eq!(desk.ask(begin(8)), (1, 0, 2));
    assert_eq!(desk.ask(read(8, 1)), (7, 3, 7));
    assert_eq!(desk.ask(abandon(7)), ABANDONED);
    assert_eq!(desk.ask(begin(9)), (1, 0, 3));
    assert_eq!(desk.ask(begin(8)), (1, 0, 2));
    assert_eq!(desk.ask(write(8, 1, 1)), (3, 0, 0));
    assert_eq!(desk.ask(end(8)), LACKS_ROOM);
    assert_eq!(desk.ask(begin(8)), (0, 4, 0));
    assert_eq!(desk.ask(read(9, 1)), (7, 3, 8));
    assert_eq!(desk.ask(begin(9)), (1, 0, 3));
    assert_eq!(desk.ask(end(8)), LACKS_ROOM);
    assert_eq!(desk.ask(abandon(8)), ABANDONED);
    assert_eq!(desk.ask(begin(8)), (1, 0, 4));
    assert_eq!(desk.ask(write(9, 1, 1)), (3, 0, 0));
    assert_eq!(desk.ask(read(8, 1)), (7, 3, 9));
}

/// Room is asked for after validation: who can't commit is aborted.
#[test]
fn an_end_that_fails_is_aborted_without_room() {
    let mut overwritten = Desk::open(16);
    overwritten.ask(begin(0));
    overwritten.ask(read(0, 5));
    overwritten.ask(begin(1));
    overwritten.ask(write(1, 5, 1));
    assert_eq!(overwritten.ask(end(1)), committed(1));
    assert_eq!(overwritten.ask(end(0)), (7, 1, 1));
    assert_eq!(overwritten.ask(end(0)), (0, 5, 0));
    assert_eq!(overwritten.ask(begin(0)), (1, 0, 1));

    let mut too_old = Desk::open(17 * 8);
    too_old.ask(begin(0));
    too_old.ask(read(0, 5));
    for number in 1..=17 {
        too_old.ask(begin(1));
        assert_eq!(too_old.ask(end(1)), committed(number));
    }
    too_old.ask(begin(1));
    assert_eq!(too_old.ask(end(1)), LACKS_ROOM);
    assert_eq!(too_old.ask(end(0)), (7, 2, 0));
    assert_eq!(too_old.ask(begin(0)), (1, 0, 1));
}

/// While an end lacks room others commit, and it may be overwritten then.
#[test]
fn an_end_asked_again_is_validated_again() {
    let mut desk = Desk::open(24);
    desk.ask(begin(0));
    desk.ask(read(0, 5));
    for item in 20..23 {
        desk.ask(write(0, item, 1));
    }
    assert_eq!(desk.ask(end(0)), LACKS_ROOM);
    desk.ask(begin(1));
    desk.ask(write(1, 5, 2));
    assert_eq!(desk.ask(end(1)), committed(1));
    assert_eq!(desk.ask(end(0)), (7, 1, 1));
}

/// Commits of 64 items and then of one fill 65,536 bytes to the last; no
/// longer journal has room for more.
#[test]
fn no_more_than_65536_bytes() {
    for length in [65_535, 65_536, 65_537, 65_544, 70_000] {
        let mut desk = Desk::open(length);
        for number in 1..=126 {
            desk.ask(begin(2));
            (0..64).for_each(|item| {
                let value = if item == 1 { number % 2 } else { 30 + number };
                assert_eq!(desk.ask(write(2, item, value)), (3, 0, 0));
            });
            assert_eq!(desk.ask(end(2)), committed(number));
        }
        desk.ask(begin(2));
        desk.ask(write(2, 60, 1));
        if length < 65_536 {
            assert_eq!(desk.ask(end(2)), LACKS_ROOM);
        } else {
            assert_eq!(desk.ask(end(2)), committed(127));
            desk.ask(begin(2));
            assert_eq!(desk.ask(end(2)), LACKS_ROOM, "{length} bytes");
        }
        assert!(
            desk.journal.kept_beyond(length.min(65_536)),
            "{length} bytes"
        );
    }
}

/// Long random histories against the second scheduler, to the end of the room.
#[test]
fn long_histories() {
    let mut lacks = 0;
    for seed in 0..10 {
        let random = &mut Random::new(seed ^ 0x1046);
        let length = random.pick(&[65_535, 65_536, 65_537, 70_000, 30_001]);
        let mut desk = Desk::open(length);
        let mut second = scheduler::open(&outline_table()).expect("a right table");
        let mut bytes = Fenced::new(length, 9);
        let mut journal = Journal::open(bytes.lent());
        for step in 0..30_000 {
            let name = random.below(16) as u8;
            let request = match random.below(100) {
                0..8 => begin(name),
                8..12 => end(name),
                12 => read(name, random.below(4) as u8),
                _ => write(name, random.within(2, 63) as u8, random.below(1_001) as u32),
            };
            let given = desk.board.step(&request, desk.journal.lent());
            let wanted = second.handle_journaled(&request, &mut journal);
            assert_eq!(given, wanted, "seed {seed}, step {step}");
            lacks += u32::from(given[0] == 0 && given[3] == 15);
        }
        assert_eq!(desk.board.used(), journal.used());
        assert_eq!(desk.journal.holds(), bytes.holds());
    }
    println!("{lacks} ends lacked room");
    assert!(lacks > 1_000);
}

/// Opening zeroes the journal up to its limit, writes every byte of the board
/// and the count of used bytes, and no byte beside them.
#[test]
fn an_opening_writes_board_and_journal_alone() {
    let open = |byte| {
        let mut space = JournaledSpace::filled(byte);
        assert_eq!(space.call_open(&outline_table(), &mut [1; 9]), 0);
        space
    };
    let (one, other) = (open(0xAA), open(0x55));
    assert!(one.board == other.board && one.used == 0 && other.used == 0);
    assert!(one.guard.iter().all(|&byte| byte == 0xAA));
    assert!(other.guard.iter().all(|&byte| byte == 0x55));
    for length in [0, 1, 7, 8, 9, 1_000, 65_535, 65_536, 65_537, 70_000] {
        let mut journal = Fenced::new(length, 4);
        let opened = Journaled::open(&outline_table(), journal.lent());
        assert!(opened.is_ok());
        let zeroed = length.min(65_536);
        assert!(journal.holds()[..zeroed].iter().all(|&byte| byte == 0));
        assert!(journal.kept_beyond(zeroed), "{length} bytes");
    }
}

/// The board is that of hub_open, and goes on as hub_step takes it on.
#[test]
fn the_board_is_the_one_without_a_journal() {
    let mut plain = library::Board::open(&outline_table()).expect("a right table");
    let mut desk = Desk::open(1_000);
    let random = &mut Random::new(5);
    for _ in 0..400 {
        assert!(plain.bytes() == desk.board.bytes());
        let name = random.below(3) as u8;
        let request = match random.below(5) {
            0 => begin(name),
            1 => end(name),
            2 => read(name, random.below(4) as u8),
            3 => abandon(name),
            _ => write(name, random.below(4) as u8, random.below(300) as u32),
        };
        let answer = desk.board.step(&request, desk.journal.lent());
        assert!(answer[0] != 0 || answer[3] != 15);
        assert_eq!(answer, plain.step(&request));
    }
}

#[test]
fn a_refused_opening_keeps_every_byte() {
    for (place, byte) in [(0, 141), (12, 2), (15, 1), (1_020, 7)] {
        let mut table = outline_table();
        table[place] = byte;
        refused_opening(&table);
    }
    for length in [0, 1, 1_008, 1_023, 1_025, 2_048] {
        let mut table = outline_table();
        table.resize(length, 0);
        refused_opening(&table);
    }
}

fn refused_opening(table: &[u8]) {
    for length in [0, 8, 70_000] {
        let mut space = JournaledSpace::filled(0xAA);
        let mut journal = Fenced::new(length, 4);
        assert_eq!(space.call_open(table, journal.lent()), -10);
        assert!(space == JournaledSpace::filled(0xAA));
        assert!(journal.kept_beyond(0));
    }
}

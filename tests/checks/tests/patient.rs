//! Desks that are aborted over and over, by single steps: one among fifteen
//! rivals, more begins than there are ages, and long histories after the last
//! age was given.

use checks::Ages;
use library::Board;
use streams::{abandon, begin, end, outline_table, read, row, write, Random};

const LAST_AGE: u32 = 2_000;

/// A board by single steps, and what its desks were told.
struct Room {
    board: Board,
    ages: Ages,
}

/// Code, reason and first number of an answer.
type Short = (u8, u8, u32);

const STORED: Short = (3, 0, 0);
const NO_AGE_LEFT: Short = (0, 9, 0);

fn short(answer: &[u8; 12]) -> Short {
    let first = u32::from_le_bytes([answer[4], answer[5], answer[6], answer[7]]);
    (answer[0], answer[3], first)
}

impl Room {
    fn open(table: &[u8]) -> Room {
        Room {
            board: Board::open(table).expect("a right table"),
            ages: Ages::default(),
        }
    }

    fn answer(&mut self, request: &[u8; 8]) -> [u8; 12] {
        let answer = self.board.step(request);
        self.ages.follow(&answer);
        answer
    }

    fn ask(&mut self, request: [u8; 8]) -> Short {
        short(&self.answer(&request))
    }

    fn is_open(&self, desk: u8) -> bool {
        self.ages.desks[desk as usize].open
    }

    /// Whether it has a transaction, or keeps the age of one.
    fn has_age(&self, desk: u8) -> bool {
        self.ages.desks[desk as usize].age != 0
    }

    fn let_begin(&mut self, desk: u8) {
        if !self.is_open(desk) {
            assert_eq!(self.ask(begin(desk)).0, 1);
        }
    }

    /// Leaves the desk free and with no age.
    fn let_finish(&mut self, desk: u8) {
        if self.has_age(desk) {
            self.let_begin(desk);
            assert_eq!(self.ask(abandon(desk)).0, 6);
        }
    }
}

/// Whenever the patient desk asks for item 1, some rival has just taken it. It
/// yields at most once to each rival that is older than it, and then it waits
/// and is served. Gives how often it was made to yield.
fn gets_through(room: &mut Room, patient: u8, random: &mut Random) -> usize {
    let rivals: Vec<u8> = (0..16).filter(|&desk| desk != patient).collect();
    let mut older: Vec<u8> = Vec::new();
    for yields in 0..=rivals.len() {
        let one_of = match random.chance(70) && !older.is_empty() {
            true => &older,
            false => &rivals,
        };
        let taker = random.pick(one_of);
        room.let_begin(taker);
        assert_eq!(room.ask(write(taker, 1, 1)), STORED);
        others_ask(room, &rivals, taker, random);
        if yields == 0 {
            let have_age = rivals.iter().filter(|&&rival| room.has_age(rival));
            older = have_age.copied().collect();
        }
        let waits = must_wait(room, patient, taker);
        assert_eq!(waits, !older.contains(&taker), "desks {patient}, {taker}");
        finish(room, taker, random);
        older.retain(|&rival| rival != taker);
        if waits {
            assert_eq!(room.ask(write(patient, 1, 1)), STORED);
            assert_eq!(room.ask(end(patient)).0, 5);
            return yields;
        }
    }
    panic!("desk {patient} yields more often than there are rivals");
}

/// Some other rivals begin; some ask for the item in vain, and some of those
/// that yield begin again.
fn others_ask(room: &mut Room, rivals: &[u8], taker: u8, random: &mut Random) {
    for _ in 0..random.below(5) {
        let other = random.pick(rivals);
        room.let_begin(other);
        if other != taker && random.chance(50) {
            assert!([4, 7].contains(&room.ask(read(other, 1)).0));
            if random.chance(50) {
                room.let_begin(other);
            }
        }
    }
}

/// Asks for the item that the taker holds; if the answer is not to wait for it,
/// then it is to yield to it.
fn must_wait(room: &mut Room, patient: u8, taker: u8) -> bool {
    room.let_begin(patient);
    let told = room.ask(write(patient, 1, 1));
    let (wait, give_way) = ((4, 0, u32::from(taker)), (7, 3, u32::from(taker)));
    assert!([wait, give_way].contains(&told), "{told:?}");
    told == wait
}

fn finish(room: &mut Room, desk: u8, random: &mut Random) {
    let (request, code) = match random.chance(80) {
        true => (end(desk), 5),
        false => (abandon(desk), 6),
    };
    assert_eq!(room.ask(request).0, code);
}

#[test]
fn who_is_made_to_yield_gets_through_many_rivals() {
    let (mut all, mut most) = (0, 0);
    for seed in 0..400 {
        let random = &mut Random::new(seed ^ 0x15A1);
        let mut room = Room::open(&outline_table());
        // Some begin before all others do.
        for _ in 0..random.below(20) {
            room.let_begin(random.below(16) as u8);
        }
        for _ in 0..10 {
            let patient = random.below(16) as u8;
            room.let_finish(patient);
            let yields = gets_through(&mut room, patient, random);
            all += yields;
            most = most.max(yields);
        }
    }
    println!("4000 times served, after {all} yields, at most {most} for one");
    assert!(all > 10_000 && most > 11);
}

/// A begin with a kept age takes none of the 2,000.
#[test]
fn more_begins_than_ages() {
    let mut room = Room::open(&outline_table());
    room.ask(begin(1));
    room.ask(write(1, 1, 1));
    for _ in 0..5_000 {
        assert_eq!(room.ask(begin(0)), (1, 0, 2));
        assert_eq!(room.ask(write(0, 1, 1)), (7, 3, 1));
    }
    for age in 3..=LAST_AGE {
        assert_eq!(room.ask(begin(2)), (1, 0, age));
        assert_eq!(room.ask(abandon(2)), (6, 0, 0));
    }
    for _ in 0..5_000 {
        assert_eq!(room.ask(begin(2)), NO_AGE_LEFT);
        assert_eq!(room.ask(begin(0)), (1, 0, 2));
        assert_eq!(room.ask(write(0, 1, 1)), (7, 3, 1));
    }
    assert_eq!(room.ask(end(1)), (5, 0, 1));
    assert_eq!(room.ask(begin(0)), (1, 0, 2));
    assert_eq!(room.ask(write(0, 1, 1)), STORED);
    assert_eq!(room.ask(end(0)), (5, 0, 2));
    for desk in 0..16 {
        assert_eq!(room.ask(begin(desk)), NO_AGE_LEFT);
    }
}

/// The library and the second scheduler, which must answer alike.
struct Both {
    room: Room,
    second: scheduler::Board,
}

impl Both {
    fn ask(&mut self, request: [u8; 8]) -> Short {
        let answer = self.room.answer(&request);
        assert_eq!(answer, self.second.handle(&request), "{request:?}");
        short(&answer)
    }
}

/// Items 0 to 3 are guarded and 4 to 7 open; all desks want them.
fn some_request(random: &mut Random) -> [u8; 8] {
    let (desk, item) = (random.below(16) as u8, random.below(8) as u8);
    match random.below(200) {
        0 => abandon(desk),
        1 | 2 => end(desk),
        3..80 => begin(desk),
        80..150 => read(desk, item),
        _ => write(desk, item, random.below(1_001) as u32),
    }
}

/// Desk 15 takes all ages that are left.
fn use_up(both: &mut Both) {
    both.ask(abandon(15));
    while both.ask(begin(15)) != NO_AGE_LEFT {
        both.ask(abandon(15));
    }
}

/// Long after the last age was given, against the second scheduler; when every
/// desk has dropped its age, none can begin.
#[test]
fn long_histories_after_the_last_age() {
    let guarded = row(0, 1_000, 0, 1).repeat(4);
    let table = [guarded, row(0, 1_000, 0, 0).repeat(60)].concat();
    let (mut begins, mut commits) = (0, 0);
    for seed in 0..20 {
        let random = &mut Random::new(seed ^ 0x2000);
        let mut both = Both {
            room: Room::open(&table),
            second: scheduler::open(&table).expect("a right table"),
        };
        for _ in 0..200 {
            both.ask(some_request(random));
        }
        use_up(&mut both);
        for _ in 0..4_000 {
            begins += u64::from(both.ask(some_request(random)).0 == 1);
        }
        let mut room = both.room;
        assert!(room.ages.commits <= LAST_AGE);
        commits += room.ages.commits;
        for desk in 0..16 {
            room.let_finish(desk);
            assert_eq!(room.ask(begin(desk)), NO_AGE_LEFT, "seed {seed}");
        }
    }
    println!("{begins} begins after the last age, {commits} commits");
    assert!(begins > 1_500 && commits > 100);
}

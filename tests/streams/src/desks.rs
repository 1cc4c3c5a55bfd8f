//! Desks that behave: they begin, read and write, and end, they ask again
//! when told to wait, and they begin again after an abort. To know what they
//! are told, they put each request to the second scheduler.

use crate::{begin, end, read, write, Random};
use scheduler::{Board, Journal};

/// How the desks behave, in percent where nothing else is said.
#[derive(Clone)]
pub struct Manners {
    /// The desks in use: 0 up to this one, which is left out.
    pub desks: usize,
    /// The items in use.
    pub items: Vec<u8>,
    /// How often one of the first few items is taken.
    pub hot: usize,
    pub hot_items: usize,
    pub writes: usize,
    pub ends: usize,
    pub abandons: usize,
    /// How often a request is nonsense in the place where it comes.
    pub slips: usize,
}

impl Manners {
    pub fn random(random: &mut Random) -> Manners {
        let items = random.within(2, 64);
        let first = random.below(64 - items + 1);
        let hot_items = random.within(1, items.min(8));
        Manners {
            desks: random.within(2, 16),
            items: (first..first + items).map(|item| item as u8).collect(),
            hot: random.pick(&[0, 50, 80, 95]),
            hot_items,
            writes: random.pick(&[10, 40, 70]),
            ends: random.pick(&[8, 15, 25, 40]),
            abandons: random.pick(&[0, 2, 5]),
            slips: random.pick(&[0, 3, 8]),
        }
    }
}

/// A board and the stream of requests put to it so far.
pub struct Hall {
    pub board: Board,
    pub requests: Vec<u8>,
    /// What each desk was told to wait with, and so asks again.
    waiting: [Option<[u8; 8]>; 16],
    /// The desk whose last request met a journal without room for it.
    pub lacks_room: Option<u8>,
    /// Its bytes, and how many of them hold records; without a journal there
    /// is room for all.
    journal: Option<(Vec<u8>, usize)>,
}

impl Hall {
    pub fn new(table: &[u8]) -> Hall {
        Hall {
            board: scheduler::open(table).unwrap_or_else(|_| panic!("a right table")),
            requests: Vec::new(),
            waiting: [None; 16],
            lacks_room: None,
            journal: None,
        }
    }

    pub fn with_journal(table: &[u8], length: usize) -> Hall {
        Hall {
            journal: Some((vec![0; length], 0)),
            ..Hall::new(table)
        }
    }

    pub fn length(&self) -> usize {
        self.requests.len() / 8
    }

    /// Puts a request to the board and gives its answer's code.
    pub fn put(&mut self, request: [u8; 8]) -> u8 {
        self.requests.extend(request);
        let answer = self.answered(&request);
        self.lacks_room = (answer[0] == 0 && answer[3] == 15).then_some(request[1]);
        if request[1] < 16 {
            self.waiting[request[1] as usize] = (answer[0] == 4).then_some(request);
        }
        answer[0]
    }

    fn answered(&mut self, request: &[u8; 8]) -> [u8; 12] {
        let Some((bytes, used)) = &mut self.journal else {
            return self.board.handle(request);
        };
        let mut journal = Journal::resume(bytes, *used);
        let answer = self.board.handle_journaled(request, &mut journal);
        *used = journal.used();
        answer
    }

    /// Lets some desk put its next request.
    pub fn go_on(&mut self, manners: &Manners, random: &mut Random) {
        let desk = random.below(manners.desks);
        self.go_on_at(desk, manners, random);
    }

    pub fn go_on_at(&mut self, desk: usize, manners: &Manners, random: &mut Random) {
        let name = desk as u8;
        let request = if random.chance(manners.slips) {
            self.slip(name, manners, random)
        } else if !self.board.desks[desk].open {
            begin(name)
        } else if let Some(again) = self.waiting[desk] {
            again
        } else if random.chance(manners.ends) {
            end(name)
        } else if random.chance(manners.abandons) {
            crate::abandon(name)
        } else {
            self.work(name, manners, random)
        };
        self.put(request);
    }

    /// A read or a write that no refusal applies to.
    pub fn work(&self, desk: u8, manners: &Manners, random: &mut Random) -> [u8; 8] {
        let item = item(manners, random);
        if random.chance(manners.writes) {
            let limits = self.board.items[item as usize];
            let value = match random.below(6) {
                0 => limits.floor,
                1 => limits.ceiling,
                _ => random.value_within(limits.floor, limits.ceiling),
            };
            write(desk, item, value)
        } else {
            read(desk, item)
        }
    }

    /// Any right-looking request, whether or not it fits.
    fn slip(&self, desk: u8, manners: &Manners, random: &mut Random) -> [u8; 8] {
        match random.below(5) {
            0 => begin(desk),
            1 => end(desk),
            2 => crate::abandon(desk),
            3 => write(desk, item(manners, random), random.draw() as u32),
            _ => read(desk, item(manners, random)),
        }
    }
}

fn item(manners: &Manners, random: &mut Random) -> u8 {
    if random.chance(manners.hot) {
        manners.items[random.below(manners.hot_items)]
    } else {
        random.pick(&manners.items)
    }
}

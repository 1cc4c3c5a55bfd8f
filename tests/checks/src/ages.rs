//! The ages of the desks, followed from the answers alone.

const DESKS: usize = 16;

/// What a desk was told of its age.
#[derive(Clone, Copy, Default, Debug)]
pub struct Aged {
    pub open: bool,
    /// Of the open transaction, or kept for the next one; 0 for none.
    pub age: u32,
    /// The first begin since the desk last committed or abandoned, and the
    /// last begin, each by its place among the answers.
    pub first_begin: usize,
    pub last_begin: usize,
    /// Why the last transaction was aborted, if an age was kept then.
    pub reason: u8,
}

#[derive(Clone, Copy, Default, Debug)]
pub struct Ages {
    pub desks: [Aged; DESKS],
    /// The last new age.
    pub last: u32,
    pub commits: u32,
    answers: usize,
}

impl Ages {
    /// The age that this desk has kept after an abort.
    pub fn kept(&self, desk: usize) -> Option<u32> {
        let desk = self.desks[desk];
        (!desk.open && desk.age != 0).then_some(desk.age)
    }

    /// All desks that have kept an age.
    pub fn keepers(&self) -> impl Iterator<Item = u8> + '_ {
        let keeps = |&desk: &u8| self.kept(desk as usize).is_some();
        (0..DESKS as u8).filter(keeps)
    }

    /// Takes in one answer.
    pub fn follow(&mut self, answer: &[u8]) {
        self.answers += 1;
        match answer[0] {
            1 => self.opened(answer),
            5 => {
                self.desks[answer[1] as usize] = Aged::default();
                self.commits += 1;
            }
            6 => self.desks[answer[1] as usize] = Aged::default(),
            7 => {
                let desk = &mut self.desks[answer[1] as usize];
                (desk.open, desk.reason) = (false, answer[3]);
            }
            _ => {}
        }
    }

    fn opened(&mut self, answer: &[u8]) {
        let place = answer[1] as usize;
        let age = u32::from_le_bytes([answer[4], answer[5], answer[6], answer[7]]);
        let first_begin = match self.kept(place) {
            Some(_) => self.desks[place].first_begin,
            None => self.answers,
        };
        self.desks[place] = Aged {
            open: true,
            age,
            first_begin,
            last_begin: self.answers,
            reason: 0,
        };
        self.last = self.last.max(age);
    }
}

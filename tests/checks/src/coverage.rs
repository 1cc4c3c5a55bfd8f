//! How often each code, abort reason and refusal came, whom answers named, and
//! how often a kept age was taken.

use crate::{named_holder, Ages, Outcome};
use scheduler::LAST_AGE;

#[derive(Clone, Copy, Default, Debug)]
pub struct Coverage {
    pub streams: u64,
    pub requests: u64,
    pub codes: [u64; 8],
    /// Abort reasons 1 to 3; place 0 stays empty.
    pub reasons: [u64; 4],
    /// Refusals 1 to 15; place 0 stays empty.
    pub refusals: [u64; 16],
    /// The desks waited for or yielded to.
    pub holders: [u64; 16],
    /// Begins that took a kept age, by the reason of the abort before them;
    /// place 0 stays empty.
    pub kept: [u64; 4],
    /// Those of them that came when all ages had been given.
    pub kept_at_last: u64,
}

impl Coverage {
    pub fn count(&mut self, outcome: &Outcome) {
        self.streams += 1;
        if outcome.count < 0 {
            self.refusals[-outcome.count as usize] += 1;
        }
        let mut ages = Ages::default();
        for answer in outcome.answers.chunks(12) {
            self.requests += 1;
            if answer[0] == 1 {
                self.count_begin(&ages, answer);
            }
            ages.follow(answer);
            self.codes[answer[0] as usize] += 1;
            match answer[0] {
                0 => self.refusals[answer[3] as usize] += 1,
                7 => self.reasons[answer[3] as usize] += 1,
                _ => {}
            }
            if let Some(holder) = named_holder(answer) {
                self.holders[holder] += 1;
            }
        }
    }

    fn count_begin(&mut self, ages: &Ages, answer: &[u8]) {
        let desk = answer[1] as usize;
        let age = u32::from_le_bytes([answer[4], answer[5], answer[6], answer[7]]);
        if ages.kept(desk) == Some(age) {
            self.kept[ages.desks[desk].reason as usize] += 1;
            self.kept_at_last += u64::from(ages.last == LAST_AGE);
        }
    }

    pub fn add(&mut self, other: &Coverage) {
        self.streams += other.streams;
        self.requests += other.requests;
        self.kept_at_last += other.kept_at_last;
        let pairs = [
            (&mut self.codes[..], &other.codes[..]),
            (&mut self.reasons[..], &other.reasons[..]),
            (&mut self.refusals[..], &other.refusals[..]),
            (&mut self.holders[..], &other.holders[..]),
            (&mut self.kept[..], &other.kept[..]),
        ];
        for (sums, more) in pairs {
            sums.iter_mut()
                .zip(more)
                .for_each(|(sum, more)| *sum += more);
        }
    }

    /// Everything that a run without a journal can answer came at least so
    /// often, every desk was named, kept ages were taken, and refusal 15 never
    /// came.
    pub fn assert_each(&self, often: u64) {
        let enough = |counts: &[u64]| counts.iter().all(|&count| count >= often);
        assert!(enough(&self.codes), "codes {:?}", self.codes);
        assert!(
            enough(&self.reasons[1..]),
            "abort reasons {:?}",
            self.reasons
        );
        let refusals = &self.refusals;
        assert!(enough(&refusals[1..15]), "refusals {refusals:?}");
        assert_eq!(refusals[15], 0, "refusals {refusals:?}");
        assert!(enough(&self.holders), "desks named {:?}", self.holders);
        assert!(enough(&self.kept[1..]), "kept ages taken {:?}", self.kept);
        assert!(self.kept_at_last >= often, "{} at last", self.kept_at_last);
    }
}

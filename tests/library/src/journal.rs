//! The calls with a journal, and the restart from one.

use crate::run::{or_null, or_null_mut};
use crate::{BOARD_BYTES, GUARD_BYTES};

extern "C" {
    fn hub_run_journal(
        table: *const u8,
        table_length: usize,
        requests: *const u8,
        requests_length: usize,
        answers: *mut u8,
        answers_length: usize,
        values: *mut u8,
        values_length: usize,
        journal: *mut u8,
        journal_length: usize,
    ) -> i64;
    fn hub_open_journal(
        board: *mut u8,
        table: *const u8,
        table_length: usize,
        journal: *mut u8,
        journal_length: usize,
    ) -> i64;
    fn hub_step_journal(
        board: *mut u8,
        request: *const [u8; 8],
        answer: *mut [u8; 12],
        journal: *mut u8,
        journal_length: usize,
    );
    fn hub_restart(
        table: *mut u8,
        table_length: usize,
        journal: *const u8,
        journal_length: usize,
    ) -> i64;
}

/// A whole run with a journal; an empty slice is lent as a null pointer.
pub fn run_journal(
    table: &[u8],
    requests: &[u8],
    answers: &mut [u8],
    values: &mut [u8],
    journal: &mut [u8],
) -> i64 {
    // SAFETY: the five slices are live and apart for the length of the call;
    // a null pointer comes with length 0 only.
    unsafe {
        hub_run_journal(
            or_null(table),
            table.len(),
            or_null(requests),
            requests.len(),
            or_null_mut(answers),
            answers.len(),
            or_null_mut(values),
            values.len(),
            or_null_mut(journal),
            journal.len(),
        )
    }
}

/// Puts the values after the last whole commit into the table; gives the
/// count of commits, or minus the refusal number.
pub fn restart(table: &mut [u8], journal: &[u8]) -> i64 {
    // SAFETY: as in `run_journal`.
    unsafe {
        hub_restart(
            or_null_mut(table),
            table.len(),
            or_null(journal),
            journal.len(),
        )
    }
}

/// Room for one board with a journal, holding anything, with guard bytes
/// behind it.
#[repr(C, align(8))]
#[derive(Clone, PartialEq, Eq)]
pub struct JournaledSpace {
    pub board: [u8; BOARD_BYTES],
    pub used: u64,
    pub guard: [u8; GUARD_BYTES],
}

impl JournaledSpace {
    pub fn filled(byte: u8) -> Box<JournaledSpace> {
        Box::new(JournaledSpace {
            board: [byte; BOARD_BYTES],
            used: u64::from_le_bytes([byte; 8]),
            guard: [byte; GUARD_BYTES],
        })
    }

    /// The bare call: 0, or minus the refusal number.
    pub fn call_open(&mut self, table: &[u8], journal: &mut [u8]) -> i64 {
        // SAFETY: the space is large enough and aligned; a test checks that
        // no byte behind the board changes.
        unsafe {
            hub_open_journal(
                self as *mut JournaledSpace as *mut u8,
                or_null(table),
                table.len(),
                or_null_mut(journal),
                journal.len(),
            )
        }
    }
}

/// A board with a journal that was opened, and so may be stepped. The journal
/// is lent to each call by the caller.
#[derive(Clone, PartialEq, Eq)]
pub struct Journaled(Box<JournaledSpace>);

impl Journaled {
    pub fn open(table: &[u8], journal: &mut [u8]) -> Result<Journaled, i64> {
        Journaled::open_in(JournaledSpace::filled(0), table, journal)
    }

    pub fn open_in(
        mut space: Box<JournaledSpace>,
        table: &[u8],
        journal: &mut [u8],
    ) -> Result<Journaled, i64> {
        match space.call_open(table, journal) {
            0 => Ok(Journaled(space)),
            refused => Err(refused),
        }
    }

    /// The board's own bytes, to be opened again.
    pub fn into_space(self) -> Box<JournaledSpace> {
        self.0
    }

    pub fn step(&mut self, request: &[u8; 8], journal: &mut [u8]) -> [u8; 12] {
        let mut answer = [0xA5; 12];
        // SAFETY: this board was left by an opening and by such calls.
        unsafe {
            hub_step_journal(
                &mut *self.0 as *mut JournaledSpace as *mut u8,
                request,
                &mut answer,
                or_null_mut(journal),
                journal.len(),
            )
        };
        answer
    }

    /// How many bytes of the journal hold records.
    pub fn used(&self) -> usize {
        self.0.used as usize
    }

    pub fn bytes(&self) -> &[u8; BOARD_BYTES] {
        &self.0.board
    }

    pub fn guard(&self) -> &[u8; GUARD_BYTES] {
        &self.0.guard
    }
}

//! The inner calls, hub_open and hub_step.

/// The size of the hub's board record. It stands here only.
pub const BOARD_BYTES: usize = 5648;

/// Bytes behind the board which no call may change; many, so that a wrong
/// BOARD_BYTES is noticed before it harms.
pub const GUARD_BYTES: usize = 4096;

extern "C" {
    fn hub_open(board: *mut u8, table: *const u8, table_length: usize) -> i64;
    fn hub_step(board: *mut u8, request: *const [u8; 8], answer: *mut [u8; 12]);
}

/// Room for one board, holding anything, with guard bytes behind it.
#[repr(C, align(8))]
#[derive(Clone, PartialEq, Eq)]
pub struct Space {
    pub board: [u8; BOARD_BYTES],
    pub guard: [u8; GUARD_BYTES],
}

impl Space {
    pub fn filled(byte: u8) -> Box<Space> {
        Box::new(Space {
            board: [byte; BOARD_BYTES],
            guard: [byte; GUARD_BYTES],
        })
    }

    /// The bare call: 0, or minus the refusal number.
    pub fn call_open(&mut self, table: &[u8]) -> i64 {
        // SAFETY: the space is large enough and aligned; a test checks that
        // no byte behind the board changes.
        unsafe { hub_open(self as *mut Space as *mut u8, table.as_ptr(), table.len()) }
    }

    /// The bare call with no table at all, as a C host may ask for it.
    pub fn call_open_with_null(&mut self) -> i64 {
        // SAFETY: a null pointer comes with length 0 only.
        unsafe { hub_open(self as *mut Space as *mut u8, std::ptr::null(), 0) }
    }
}

/// A board that was opened, and so may be stepped.
#[derive(Clone, PartialEq, Eq)]
pub struct Board(Box<Space>);

impl Board {
    pub fn open(table: &[u8]) -> Result<Board, i64> {
        Board::open_in(Space::filled(0), table)
    }

    pub fn open_in(mut space: Box<Space>, table: &[u8]) -> Result<Board, i64> {
        match space.call_open(table) {
            0 => Ok(Board(space)),
            refused => Err(refused),
        }
    }

    /// The board's own bytes, to be opened again.
    pub fn into_space(self) -> Box<Space> {
        self.0
    }

    pub fn step(&mut self, request: &[u8; 8]) -> [u8; 12] {
        let mut answer = [0xA5; 12];
        self.step_into(request, &mut answer);
        answer
    }

    pub fn step_into(&mut self, request: &[u8; 8], answer: &mut [u8; 12]) {
        // SAFETY: this board was left by an opening and by such calls.
        unsafe { hub_step(&mut *self.0 as *mut Space as *mut u8, request, answer) };
    }

    pub fn bytes(&self) -> &[u8; BOARD_BYTES] {
        &self.0.board
    }

    pub fn guard(&self) -> &[u8; GUARD_BYTES] {
        &self.0.guard
    }
}

//! A safe wrapper over libpawdoku, the proved board inside a championship sudoku console.
//!
//! [`Session`] is a board with its memory, to be played on. [`sys`] has every function of the library as it is, for
//! hosts that hold board and memory themselves, and for trying it with anything at all. Both are safe: the library
//! answers any input by an answer or a numbered [`Refusal`].
#![deny(unsafe_code)]
#![warn(missing_docs)]

mod refusal;
mod session;
#[allow(unsafe_code)]
pub mod sys;

pub use refusal::Reason;
pub use session::{Session, givens_of_line};
pub use sys::{Board, Refusal};

/// The version of the library's boundary that this wrapper is written for: of the names, layouts and numbers of
/// include/pawdoku.h. [`sys::version`] is that of the linked library; a library of another version does not link.
pub const VERSION: u32 = 4;
/// Cells of the grid.
pub const CELLS: usize = 81;
/// Moves that a journal holds.
pub const MAX_MOVES: usize = 1024;
/// Checks that the check memory holds.
pub const MAX_CHECKS: usize = 256;
/// Bytes of one move in the journal.
pub const SLOT_BYTES: usize = 8;
/// Bytes of one stored check.
pub const CHECK_BYTES: usize = 6;
/// Bytes of the journal.
pub const JOURNAL_BYTES: usize = SLOT_BYTES * MAX_MOVES;
/// Bytes of the check memory.
pub const CHECK_MEMORY: usize = CHECK_BYTES * MAX_CHECKS;
/// No record is longer.
pub const MAX_RECORD: usize = 5955;
/// Bytes of a puzzle line that is written: one character for each cell.
pub const LINE_BYTES: usize = CELLS;
/// Room for the givens of a line, however few they are.
pub const LINE_GIVENS: usize = 3 * CELLS;

/// The kinds of a move, in slots, readings and records. A mark that the pencil wrote and one that it struck are two.
pub mod kind {
    /// Place a digit.
    pub const PLACE: u8 = 2;
    /// Erase a digit.
    pub const ERASE: u8 = 3;
    /// A mark written.
    pub const WRITE_MARK: u8 = 4;
    /// A mark struck.
    pub const STRIKE_MARK: u8 = 5;
}

/// The first byte of a record's items that are no moves.
pub mod record {
    /// A given.
    pub const GIVEN: u8 = 1;
    /// The count of undone moves.
    pub const UNDONE: u8 = 6;
    /// A check.
    pub const CHECK: u8 = 7;
}

/// The first byte of an encoded call, which says which call it is: see [`sys::play`]. None is the [`kind`] of a move: a
/// list of kinds encodes no call and does nothing.
pub mod call {
    /// Place a digit.
    pub const PLACE: u8 = 16;
    /// Erase a digit.
    pub const ERASE: u8 = 17;
    /// The pencil: strike a mark that is present, write one that is absent.
    pub const PENCIL: u8 = 18;
    /// Undo.
    pub const UNDO: u8 = 19;
    /// Redo.
    pub const REDO: u8 = 20;
    /// Check.
    pub const CHECK: u8 = 21;
}

/// A grid without conflicts, for examples and tests: cell (r, c) is (3(r-1) + (r-1)/3 + c-1) mod 9, plus 1.
#[must_use]
pub fn example_solution() -> [u8; CELLS] {
    let mut solution = [0; CELLS];
    for (digit, at) in solution.iter_mut().zip(0_u8..) {
        let (row, column) = (at / 9, at % 9);
        *digit = (3 * row + row / 3 + column) % 9 + 1;
    }
    solution
}

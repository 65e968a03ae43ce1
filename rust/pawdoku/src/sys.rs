//! Every function of include/pawdoku.h as it is: any board, any slices, any bytes. Place, erase, the pencil, undo and
//! redo stand here twice: [`undo`] returns its answer, [`undo_on`] lays it over the one before.
//!
//! The library refuses what it cannot use by a number, whatever it is handed, so all of these are safe: what it
//! asks of a caller beyond that (pointers that can be used, no overlap with memory that is written) is what a Rust
//! slice is. This is the only module with `unsafe` in it.
//!
//! The structs have the layout of the header's, which is asserted below. Flags are bytes, 0 or 1.

use core::mem::{MaybeUninit, offset_of, size_of};

/// Why a call is refused; number 0 where it is not. Place and inner are 0 where nothing is said of them.
#[repr(C)]
#[derive(Debug, Clone, Copy, PartialEq, Eq, Default)]
pub struct Refusal {
    /// 0, or why not.
    pub number: u8,
    /// The cell, given, item, move, slot, check or character that is meant.
    pub place: usize,
    /// The number inside: why a move or a check of a record is refused, or the second cell of a conflict.
    pub inner: u8,
}

/// A board, as the library takes and returns it by value. All fields are open: any bytes may stand in them.
#[repr(C)]
#[derive(Debug, Clone, Copy, PartialEq, Eq)]
pub struct Board {
    /// Cell n stands at n - 1; 0 for none.
    pub digits: [u8; 81],
    /// 1 where the cell is a given.
    pub given: [u8; 81],
    /// Mark d is the bit of value `1 << d`; a note under a digit is kept and not shown.
    pub notes: [u16; 81],
    /// The solution, row by row.
    pub solution: [u8; 81],
    /// 1 when the board is solved.
    pub solved: u8,
    /// Moves in the journal.
    pub made: usize,
    /// Of these, not undone.
    pub standing: usize,
    /// Checks stored.
    pub checks: usize,
}

impl Board {
    /// The board with every field 0, which a refused opening hands back.
    pub const ZERO: Self = Self {
        digits: [0; 81],
        given: [0; 81],
        notes: [0; 81],
        solution: [0; 81],
        solved: 0,
        made: 0,
        standing: 0,
        checks: 0,
    };
}

impl Default for Board {
    fn default() -> Self {
        Self::ZERO
    }
}

/// The answer of a call that changes the board.
#[repr(C)]
#[derive(Debug, Clone, Copy, PartialEq, Eq)]
pub struct Answer {
    /// Why the call was refused, if it was.
    pub refusal: Refusal,
    /// The board afterwards.
    pub board: Board,
}

/// The answer of a check.
#[repr(C)]
#[derive(Debug, Clone, Copy, PartialEq, Eq)]
pub struct Checked {
    /// Why the call was refused, if it was.
    pub refusal: Refusal,
    /// 1 when the digit is the solution's.
    pub right: u8,
    /// The board afterwards.
    pub board: Board,
}

/// The answer of writing, and of reading a line.
#[repr(C)]
#[derive(Debug, Clone, Copy, PartialEq, Eq)]
pub struct Written {
    /// Why the call was refused, if it was.
    pub refusal: Refusal,
    /// How long the record is, or the line, or the givens of one.
    pub length: usize,
}

/// A move that is shown: its slot stands in the journal at `offset`.
#[repr(C)]
#[derive(Debug, Clone, Copy, PartialEq, Eq)]
pub struct Shown {
    /// Why the call was refused, if it was.
    pub refusal: Refusal,
    /// Where in the journal the slot stands.
    pub offset: usize,
    /// Eight, or 0 beside a refusal.
    pub length: usize,
}

/// What the board shows of one cell.
#[repr(C)]
#[derive(Debug, Clone, Copy, PartialEq, Eq)]
pub struct CellAnswer {
    /// Why the call was refused, if it was.
    pub refusal: Refusal,
    /// The digit, 0 for none.
    pub digit: u8,
    /// 1 where the cell is a given.
    pub given: u8,
    /// 1 where a peer holds the same digit.
    pub conflicting: u8,
    /// The kept note.
    pub note: u16,
    /// 1 where the note is shown.
    pub shown: u8,
}

/// The answer of a question for yes or no.
#[repr(C)]
#[derive(Debug, Clone, Copy, PartialEq, Eq)]
pub struct YesNo {
    /// Why the call was refused, if it was.
    pub refusal: Refusal,
    /// 1 for yes.
    pub holds: u8,
}

/// The answer of the question for one key of the keypad.
#[repr(C)]
#[derive(Debug, Clone, Copy, PartialEq, Eq)]
pub struct Left {
    /// Why the call was refused, if it was.
    pub refusal: Refusal,
    /// Nine less the cells that hold the digit and conflict with no peer.
    pub left: u8,
}

/// The answer of the question for the whole keypad.
#[repr(C)]
#[derive(Debug, Clone, Copy, PartialEq, Eq)]
pub struct KeypadAnswer {
    /// Why the call was refused, if it was.
    pub refusal: Refusal,
    /// What [`digits_left`] answers for each of the digits 1 to 9.
    pub left: [u8; 9],
}

/// Move k, and the digits and notes as they stood once it and no later one had been made.
#[repr(C)]
#[derive(Debug, Clone, Copy, PartialEq, Eq)]
pub struct ReadingAnswer {
    /// Why the call was refused, if it was.
    pub refusal: Refusal,
    /// One of [`crate::kind`]; 0 beside a refusal.
    pub kind: u8,
    /// The target's row.
    pub row: u8,
    /// The target's column.
    pub column: u8,
    /// The digit, 0 for erase.
    pub digit: u8,
    /// 1 where the move is undone.
    pub undone: u8,
    /// k.
    pub index: usize,
    /// The digits after move k.
    pub digits: [u8; 81],
    /// The kept notes after move k.
    pub notes: [u16; 81],
}

/// The marks of a note, ascending, zeros behind them.
#[repr(C)]
#[derive(Debug, Clone, Copy, PartialEq, Eq)]
pub struct Digits {
    /// The digits.
    pub digits: [u8; 9],
}

/// The peers of a cell, ascending; zeros where there is no such cell.
#[repr(C)]
#[derive(Debug, Clone, Copy, PartialEq, Eq)]
pub struct PeerCells {
    /// The peers' cell numbers.
    pub cells: [u8; 20],
}

const _: () = {
    assert!(size_of::<usize>() == 8, "pawdoku is built for 64 bits");
    assert!(size_of::<Refusal>() == 24);
    assert!(offset_of!(Refusal, place) == 8 && offset_of!(Refusal, inner) == 16);
    assert!(size_of::<Board>() == 432);
    assert!(offset_of!(Board, given) == 81 && offset_of!(Board, notes) == 162);
    assert!(offset_of!(Board, solution) == 324 && offset_of!(Board, solved) == 405);
    assert!(offset_of!(Board, made) == 408 && offset_of!(Board, standing) == 416);
    assert!(offset_of!(Board, checks) == 424);
    assert!(size_of::<Answer>() == 456 && offset_of!(Answer, board) == 24);
    assert!(size_of::<Checked>() == 464 && offset_of!(Checked, board) == 32);
    assert!(size_of::<Written>() == 32 && size_of::<Shown>() == 40);
    assert!(size_of::<CellAnswer>() == 32 && offset_of!(CellAnswer, note) == 28);
    assert!(size_of::<YesNo>() == 32 && size_of::<Left>() == 32);
    assert!(size_of::<KeypadAnswer>() == 40 && offset_of!(KeypadAnswer, left) == 24);
    assert!(size_of::<ReadingAnswer>() == 288 && offset_of!(ReadingAnswer, index) == 32);
    assert!(offset_of!(ReadingAnswer, notes) == 122);
    assert!(size_of::<Digits>() == 9 && size_of::<PeerCells>() == 20);
};

#[cfg(not(all(target_arch = "x86_64", target_family = "unix", target_pointer_width = "64")))]
compile_error!("pawdoku is called by the System V ABI for x86-64, where an answer comes back through a pointer");

// Place, erase, the pencil, undo and redo are declared with the pointer shown that C hides. By the System V ABI for
// x86-64 a struct of more than 64 bytes has class MEMORY and is returned through a pointer: the caller passes it as if
// it were the first argument, and it comes back in rax. So `answer f(board, ...)` and `answer *f(answer *, board, ...)`
// are the same call. With the pointer shown the caller says where the answer is laid, and nothing has to copy it there.
mod c {
    use super::{Answer, Board, CellAnswer, Checked, Digits, KeypadAnswer, Left};
    use super::{PeerCells, ReadingAnswer, Shown, Written, YesNo};

    unsafe extern "C" {
        pub fn pawdoku_version() -> u32;
        pub fn pawdoku_abi_4() -> u32;
        pub fn pawdoku_open(
            givens: *const u8,
            givens_length: usize,
            solution: *const u8,
            solution_length: usize,
            journal: *mut u8,
            journal_length: usize,
            checks: *mut u8,
            checks_length: usize,
        ) -> Answer;
        pub fn pawdoku_place(
            answer: *mut Answer,
            board: Board,
            journal: *mut u8,
            journal_length: usize,
            row: u8,
            column: u8,
            digit: u8,
        ) -> *mut Answer;
        pub fn pawdoku_erase(
            answer: *mut Answer,
            board: Board,
            journal: *mut u8,
            journal_length: usize,
            row: u8,
            column: u8,
        ) -> *mut Answer;
        pub fn pawdoku_pencil(
            answer: *mut Answer,
            board: Board,
            journal: *mut u8,
            journal_length: usize,
            row: u8,
            column: u8,
            digit: u8,
        ) -> *mut Answer;
        pub fn pawdoku_undo(
            answer: *mut Answer,
            board: Board,
            journal: *const u8,
            journal_length: usize,
        ) -> *mut Answer;
        pub fn pawdoku_redo(
            answer: *mut Answer,
            board: Board,
            journal: *const u8,
            journal_length: usize,
        ) -> *mut Answer;
        pub fn pawdoku_check(board: Board, checks: *mut u8, checks_length: usize, row: u8, column: u8) -> Checked;
        pub fn pawdoku_latest(
            board: Board,
            journal: *const u8,
            journal_length: usize,
            output: *mut u8,
            output_length: usize,
        ) -> Shown;
        pub fn pawdoku_next(
            board: Board,
            journal: *const u8,
            journal_length: usize,
            output: *mut u8,
            output_length: usize,
        ) -> Shown;
        pub fn pawdoku_write(
            board: Board,
            journal: *const u8,
            journal_length: usize,
            checks: *const u8,
            checks_length: usize,
            output: *mut u8,
            output_length: usize,
        ) -> Written;
        pub fn pawdoku_reopen(
            record: *const u8,
            record_length: usize,
            solution: *const u8,
            solution_length: usize,
            journal: *mut u8,
            journal_length: usize,
            checks: *mut u8,
            checks_length: usize,
        ) -> Answer;
        pub fn pawdoku_read_line(line: *const u8, line_length: usize, output: *mut u8, output_length: usize)
        -> Written;
        pub fn pawdoku_write_line(board: Board, output: *mut u8, output_length: usize) -> Written;
        pub fn pawdoku_reading(board: Board, journal: *const u8, journal_length: usize, k: usize) -> ReadingAnswer;
        pub fn pawdoku_cell(board: Board, row: u8, column: u8) -> CellAnswer;
        pub fn pawdoku_conflicts(board: Board, row: u8, column: u8) -> YesNo;
        pub fn pawdoku_accepts_marks(board: Board, row: u8, column: u8) -> YesNo;
        pub fn pawdoku_holds_players_digit(board: Board, row: u8, column: u8) -> YesNo;
        pub fn pawdoku_is_solved(board: Board) -> YesNo;
        pub fn pawdoku_is_full(board: Board) -> YesNo;
        pub fn pawdoku_is_consistent(board: Board) -> YesNo;
        pub fn pawdoku_can_undo(board: Board) -> YesNo;
        pub fn pawdoku_can_redo(board: Board) -> YesNo;
        pub fn pawdoku_digits_left(board: Board, digit: u8) -> Left;
        pub fn pawdoku_keypad(board: Board) -> KeypadAnswer;
        pub fn pawdoku_play(
            board: Board,
            journal: *mut u8,
            journal_length: usize,
            checks: *mut u8,
            checks_length: usize,
            calls: *const u8,
            calls_length: usize,
            answers: *mut u8,
            answers_length: usize,
        ) -> Answer;
        pub fn pawdoku_note_contains(note: u16, digit: u8) -> u8;
        pub fn pawdoku_note_len(note: u16) -> usize;
        pub fn pawdoku_note_is_empty(note: u16) -> u8;
        pub fn pawdoku_note_digits(note: u16) -> Digits;
        pub fn pawdoku_cell_of(row: u8, column: u8) -> usize;
        pub fn pawdoku_band(row: u8) -> u8;
        pub fn pawdoku_stack(column: u8) -> u8;
        pub fn pawdoku_is_peer_of(row: u8, column: u8, row2: u8, column2: u8) -> u8;
        pub fn pawdoku_peers(cell: usize) -> PeerCells;
    }
}

// What these declarations are of: the library has one function with its version in the name, and a library of another
// version leaves this undefined, so that nothing links with it. Nobody calls it; the name goes with `VERSION`.
#[used]
static ABI: unsafe extern "C" fn() -> u32 = c::pawdoku_abi_4;

// SAFETY, for every block below: the declarations are the header's (five with the answer's pointer shown), the structs
// have its layout, every field is an integer (so that any bytes are a value), and each pointer with its length is a
// slice that Rust holds for the call: valid for its length, written only where it is borrowed mutably, which also keeps
// it apart from the rest. The library keeps no pointer.
// A shown pointer names room for one answer that Rust holds as well, mutably and so apart from every slice. The board
// that goes in is copied before the call, like any argument, so it may stand in that room. A call fills all of it.

/// The answer that a call lays where it is told. The call has to fill all of it.
#[inline]
unsafe fn laid(call: impl FnOnce(*mut Answer) -> *mut Answer) -> Answer {
    let mut answer = MaybeUninit::uninit();
    call(answer.as_mut_ptr());
    unsafe { answer.assume_init() }
}

/// The version of the boundary that the linked library has: [`crate::VERSION`].
#[must_use]
#[inline]
pub fn version() -> u32 {
    unsafe { c::pawdoku_version() }
}

/// Opens a board on givens, triples of row, column, digit in ascending order. Refused by 1, 19, 22 to 27.
#[must_use]
#[inline]
pub fn open(givens: &[u8], solution: &[u8], journal: &mut [u8], checks: &mut [u8]) -> Answer {
    unsafe {
        c::pawdoku_open(
            givens.as_ptr(),
            givens.len(),
            solution.as_ptr(),
            solution.len(),
            journal.as_mut_ptr(),
            journal.len(),
            checks.as_mut_ptr(),
            checks.len(),
        )
    }
}

/// Places a digit. Refused by 1 to 5, 8, 9, 15.
#[must_use]
#[inline]
pub fn place(board: &Board, journal: &mut [u8], row: u8, column: u8, digit: u8) -> Answer {
    let (lent, length) = (journal.as_mut_ptr(), journal.len());
    unsafe { laid(|answer| c::pawdoku_place(answer, *board, lent, length, row, column, digit)) }
}

/// Places a digit, on the board of the latest answer. Refused by 1 to 5, 8, 9, 15.
///
/// The answer is laid over the one before, without a copy.
#[inline]
pub fn place_on(answer: &mut Answer, journal: &mut [u8], row: u8, column: u8, digit: u8) {
    let (lent, length) = (journal.as_mut_ptr(), journal.len());
    unsafe { c::pawdoku_place(answer, answer.board, lent, length, row, column, digit) };
}

/// Erases the player's digit. Refused by 1 to 4, 6, 15.
#[must_use]
#[inline]
pub fn erase(board: &Board, journal: &mut [u8], row: u8, column: u8) -> Answer {
    let (lent, length) = (journal.as_mut_ptr(), journal.len());
    unsafe { laid(|answer| c::pawdoku_erase(answer, *board, lent, length, row, column)) }
}

/// Erases the player's digit, on the board of the latest answer. Refused by 1 to 4, 6, 15.
///
/// The answer is laid over the one before, without a copy.
#[inline]
pub fn erase_on(answer: &mut Answer, journal: &mut [u8], row: u8, column: u8) {
    let (lent, length) = (journal.as_mut_ptr(), journal.len());
    unsafe { c::pawdoku_erase(answer, answer.board, lent, length, row, column) };
}

/// Strikes the mark where it is present, writes it where it is absent. Made again on the board of its answer it turns
/// the mark round again; made again on this board, where an answer was lost, it answers the same. Refused by 1 to 4, 7,
/// 8, 15.
#[must_use]
#[inline]
pub fn pencil(board: &Board, journal: &mut [u8], row: u8, column: u8, digit: u8) -> Answer {
    let (lent, length) = (journal.as_mut_ptr(), journal.len());
    unsafe { laid(|answer| c::pawdoku_pencil(answer, *board, lent, length, row, column, digit)) }
}

/// Strikes the mark where it is present, writes it where it is absent, on the board of the latest answer. Refused by 1
/// to 4, 7, 8, 15.
///
/// The answer is laid over the one before, without a copy.
#[inline]
pub fn pencil_on(answer: &mut Answer, journal: &mut [u8], row: u8, column: u8, digit: u8) {
    let (lent, length) = (journal.as_mut_ptr(), journal.len());
    unsafe { c::pawdoku_pencil(answer, answer.board, lent, length, row, column, digit) };
}

/// Takes the latest standing move back. Refused by 1, 2, 4, 12, 14.
#[must_use]
#[inline]
pub fn undo(board: &Board, journal: &[u8]) -> Answer {
    unsafe { laid(|answer| c::pawdoku_undo(answer, *board, journal.as_ptr(), journal.len())) }
}

/// Takes the latest standing move back, on the board of the latest answer. Refused by 1, 2, 4, 12, 14.
///
/// The answer is laid over the one before, without a copy.
#[inline]
pub fn undo_on(answer: &mut Answer, journal: &[u8]) {
    unsafe { c::pawdoku_undo(answer, answer.board, journal.as_ptr(), journal.len()) };
}

/// Makes the next undone move again. Refused by 1, 2, 4, 13, 14.
#[must_use]
#[inline]
pub fn redo(board: &Board, journal: &[u8]) -> Answer {
    unsafe { laid(|answer| c::pawdoku_redo(answer, *board, journal.as_ptr(), journal.len())) }
}

/// Makes the next undone move again, on the board of the latest answer. Refused by 1, 2, 4, 13, 14.
///
/// The answer is laid over the one before, without a copy.
#[inline]
pub fn redo_on(answer: &mut Answer, journal: &[u8]) {
    unsafe { c::pawdoku_redo(answer, answer.board, journal.as_ptr(), journal.len()) };
}

/// Compares a player's digit with the solution's and stores the check. Refused by 1 to 4, 6, 16.
#[must_use]
#[inline]
pub fn check(board: &Board, checks: &mut [u8], row: u8, column: u8) -> Checked {
    unsafe { c::pawdoku_check(*board, checks.as_mut_ptr(), checks.len(), row, column) }
}

/// Shows the latest standing move: copies its slot into the output. Refused by 1, 2, 12, 34.
#[must_use]
#[inline]
pub fn latest(board: &Board, journal: &[u8], output: &mut [u8]) -> Shown {
    let (out, room) = (output.as_mut_ptr(), output.len());
    unsafe { c::pawdoku_latest(*board, journal.as_ptr(), journal.len(), out, room) }
}

/// Shows the next move to redo: copies its slot into the output. Refused by 1, 2, 13, 34.
#[must_use]
#[inline]
pub fn next(board: &Board, journal: &[u8], output: &mut [u8]) -> Shown {
    let (out, room) = (output.as_mut_ptr(), output.len());
    unsafe { c::pawdoku_next(*board, journal.as_ptr(), journal.len(), out, room) }
}

/// Writes the record; bytes of the output beyond it stay. Refused by 1, 2, 14, 34.
#[must_use]
#[inline]
pub fn write(board: &Board, journal: &[u8], checks: &[u8], output: &mut [u8]) -> Written {
    unsafe {
        c::pawdoku_write(
            *board,
            journal.as_ptr(),
            journal.len(),
            checks.as_ptr(),
            checks.len(),
            output.as_mut_ptr(),
            output.len(),
        )
    }
}

/// Reopens a record with the puzzle's solution. Refused by 1, 17 to 33.
#[must_use]
#[inline]
pub fn reopen(record: &[u8], solution: &[u8], journal: &mut [u8], checks: &mut [u8]) -> Answer {
    unsafe {
        c::pawdoku_reopen(
            record.as_ptr(),
            record.len(),
            solution.as_ptr(),
            solution.len(),
            journal.as_mut_ptr(),
            journal.len(),
            checks.as_mut_ptr(),
            checks.len(),
        )
    }
}

/// Reads a puzzle line into givens as [`open`] takes them; bytes of the output beyond them stay. The output has
/// [`crate::LINE_GIVENS`] bytes or more. Refused by 34, 36, 37.
#[must_use]
#[inline]
pub fn read_line(line: &[u8], output: &mut [u8]) -> Written {
    unsafe { c::pawdoku_read_line(line.as_ptr(), line.len(), output.as_mut_ptr(), output.len()) }
}

/// Writes the board's givens as a puzzle line; bytes of the output beyond it stay. Refused by 2, 34.
#[must_use]
#[inline]
pub fn write_line(board: &Board, output: &mut [u8]) -> Written {
    unsafe { c::pawdoku_write_line(*board, output.as_mut_ptr(), output.len()) }
}

/// The reading of move k. Refused by 1, 2, 14, 35.
#[must_use]
#[inline]
pub fn reading(board: &Board, journal: &[u8], k: usize) -> ReadingAnswer {
    unsafe { c::pawdoku_reading(*board, journal.as_ptr(), journal.len(), k) }
}

/// What the board shows of one cell. Refused by 2, 3.
#[must_use]
#[inline]
pub fn cell(board: &Board, row: u8, column: u8) -> CellAnswer {
    unsafe { c::pawdoku_cell(*board, row, column) }
}

/// Does the cell hold a digit that a peer also holds? Refused by 2, 3.
#[must_use]
#[inline]
pub fn conflicts(board: &Board, row: u8, column: u8) -> YesNo {
    unsafe { c::pawdoku_conflicts(*board, row, column) }
}

/// Does the cell hold no digit, so that marks are accepted? Refused by 2, 3.
#[must_use]
#[inline]
pub fn accepts_marks(board: &Board, row: u8, column: u8) -> YesNo {
    unsafe { c::pawdoku_accepts_marks(*board, row, column) }
}

/// Does the cell hold a digit and is no given? Refused by 2, 3.
#[must_use]
#[inline]
pub fn holds_players_digit(board: &Board, row: u8, column: u8) -> YesNo {
    unsafe { c::pawdoku_holds_players_digit(*board, row, column) }
}

/// Is the board solved? Refused by 2.
#[must_use]
#[inline]
pub fn is_solved(board: &Board) -> YesNo {
    unsafe { c::pawdoku_is_solved(*board) }
}

/// Does every cell hold a digit? Refused by 2.
#[must_use]
#[inline]
pub fn is_full(board: &Board) -> YesNo {
    unsafe { c::pawdoku_is_full(*board) }
}

/// Does no cell conflict? Refused by 2.
#[must_use]
#[inline]
pub fn is_consistent(board: &Board) -> YesNo {
    unsafe { c::pawdoku_is_consistent(*board) }
}

/// Is there a move to take back, on a board that is not solved? Refused by 2.
#[must_use]
#[inline]
pub fn can_undo(board: &Board) -> YesNo {
    unsafe { c::pawdoku_can_undo(*board) }
}

/// Is there a move to make again, on a board that is not solved? Refused by 2.
#[must_use]
#[inline]
pub fn can_redo(board: &Board) -> YesNo {
    unsafe { c::pawdoku_can_redo(*board) }
}

/// How many of a digit are left for its key: nine less the cells that hold it and conflict with no peer. Refused by 2,
/// 8.
#[must_use]
#[inline]
pub fn digits_left(board: &Board, digit: u8) -> Left {
    unsafe { c::pawdoku_digits_left(*board, digit) }
}

/// What [`digits_left`] answers for each of the digits 1 to 9. Refused by 2.
#[must_use]
#[inline]
pub fn keypad(board: &Board) -> KeypadAnswer {
    unsafe { c::pawdoku_keypad(*board) }
}

/// Runs a list of calls, four bytes each: one of [`crate::call`], row, column, digit. Writes four bytes for each into
/// the answers: number, place (two bytes, low first), verdict. As many are run as there are whole groups of four in
/// both. The list itself is never refused: each of its calls is answered as it is by itself.
#[must_use]
#[inline]
pub fn play(board: &Board, journal: &mut [u8], checks: &mut [u8], calls: &[u8], answers: &mut [u8]) -> Answer {
    unsafe {
        c::pawdoku_play(
            *board,
            journal.as_mut_ptr(),
            journal.len(),
            checks.as_mut_ptr(),
            checks.len(),
            calls.as_ptr(),
            calls.len(),
            answers.as_mut_ptr(),
            answers.len(),
        )
    }
}

/// Does the note hold the mark? 1 for yes.
#[must_use]
#[inline]
pub fn note_contains(note: u16, digit: u8) -> u8 {
    unsafe { c::pawdoku_note_contains(note, digit) }
}

/// How many of the marks 1 to 9 the note holds.
#[must_use]
#[inline]
pub fn note_len(note: u16) -> usize {
    unsafe { c::pawdoku_note_len(note) }
}

/// Does the note hold none of the marks 1 to 9? 1 for yes.
#[must_use]
#[inline]
pub fn note_is_empty(note: u16) -> u8 {
    unsafe { c::pawdoku_note_is_empty(note) }
}

/// The marks of the note.
#[must_use]
#[inline]
pub fn note_digits(note: u16) -> Digits {
    unsafe { c::pawdoku_note_digits(note) }
}

/// The cell's number from 1 to 81, row by row; 0 off the grid.
#[must_use]
#[inline]
pub fn cell_of(row: u8, column: u8) -> usize {
    unsafe { c::pawdoku_cell_of(row, column) }
}

/// The band of a row, for every byte.
#[must_use]
#[inline]
pub fn band(row: u8) -> u8 {
    unsafe { c::pawdoku_band(row) }
}

/// The stack of a column, for every byte.
#[must_use]
#[inline]
pub fn stack(column: u8) -> u8 {
    unsafe { c::pawdoku_stack(column) }
}

/// Do two positions share a row, a column or a box, and are two? 1 for yes.
#[must_use]
#[inline]
pub fn is_peer_of(row: u8, column: u8, row2: u8, column2: u8) -> u8 {
    unsafe { c::pawdoku_is_peer_of(row, column, row2, column2) }
}

/// The twenty peers of a cell; zeros where there is no such cell.
#[must_use]
#[inline]
pub fn peers(cell: usize) -> PeerCells {
    unsafe { c::pawdoku_peers(cell) }
}

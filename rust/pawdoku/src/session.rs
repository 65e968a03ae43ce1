//! A board together with the memory that is lent to its calls.

use crate::sys::{self, Answer, Board, CellAnswer, ReadingAnswer, Refusal};
use crate::{CHECK_MEMORY, JOURNAL_BYTES, LINE_BYTES, LINE_GIVENS, MAX_RECORD, SLOT_BYTES};

/// A board in play: the board value, its journal and its check memory.
///
/// Board and memory are changed by calls alone, so a session's calls are never refused by 1, 2 or 14.
///
/// ```
/// use pawdoku::{Reason, Session};
///
/// let solution = pawdoku::example_solution();
/// let mut session = Session::open(&[], &solution)?;
/// session.pencil(1, 2, 5)?;                      // writes the mark; once more would strike it
/// session.place(1, 1, 5)?;                       // strikes the mark of the peer
/// assert_eq!(session.cell(1, 2)?.note, 0);
/// session.undo()?;                               // and brings it back
/// assert_eq!(session.cell(1, 2)?.note, 1 << 5);
///
/// let refusal = session.erase(1, 1).unwrap_err();
/// assert_eq!(refusal.reason(), Some(Reason::NoPlayersDigit));
///
/// let reopened = Session::reopen(&session.write()?, &solution)?;
/// assert_eq!(reopened.board(), session.board());
/// # Ok::<(), pawdoku::Refusal>(())
/// ```
#[derive(Debug, Clone)]
pub struct Session {
    /// The latest answer. Its board, refused or not, is the one to go on with.
    answer: Answer,
    journal: Box<[u8; JOURNAL_BYTES]>,
    checks: Box<[u8; CHECK_MEMORY]>,
}

/// A refusal of any call.
type Refused<T> = Result<T, Refusal>;

/// The givens of a puzzle line, as [`Session::open`] takes them: 81 characters, row by row, 1 to 9 for a given, a full
/// stop or 0 for a blank, and at most one line feed behind them.
///
/// A line is no proof that its puzzle has one solution and no other; and it holds none: opening takes the solution
/// beside the givens.
///
/// ```
/// let solution = pawdoku::example_solution();
/// let line = format!("12300{}\n", ".".repeat(76));
/// let session = pawdoku::Session::open(&pawdoku::givens_of_line(line.as_bytes())?, &solution)?;
/// assert_eq!(session.line()?, format!("123{}", ".".repeat(78)).as_bytes());
/// # Ok::<(), pawdoku::Refusal>(())
/// ```
///
/// # Errors
///
/// Refused by 36, 37.
pub fn givens_of_line(line: &[u8]) -> Refused<Vec<[u8; 3]>> {
    let mut givens = [[0; 3]; LINE_GIVENS / 3];
    let read = sys::read_line(line, givens.as_flattened_mut());
    read.refusal.into_result()?;
    Ok(givens[..read.length / 3].to_vec())
}

impl Session {
    /// Opens a board on givens (row, column, digit), which stand in ascending order, with the puzzle's solution.
    ///
    /// # Errors
    ///
    /// Refused by 19, 22 to 27.
    pub fn open(givens: &[[u8; 3]], solution: &[u8; 81]) -> Refused<Self> {
        Self::made_by(|journal, checks| sys::open(givens.as_flattened(), solution, journal, checks))
    }

    /// Reopens a record with the puzzle's solution.
    ///
    /// # Errors
    ///
    /// Refused by 17 to 33.
    pub fn reopen(record: &[u8], solution: &[u8; 81]) -> Refused<Self> {
        Self::made_by(|journal, checks| sys::reopen(record, solution, journal, checks))
    }

    fn made_by(call: impl FnOnce(&mut [u8], &mut [u8]) -> Answer) -> Refused<Self> {
        let mut journal = Box::new([0; JOURNAL_BYTES]);
        let mut checks = Box::new([0; CHECK_MEMORY]);
        let answer = call(journal.as_mut_slice(), checks.as_mut_slice());
        answer.refusal.into_result()?;
        Ok(Self { answer, journal, checks })
    }

    /// Sets a digit and strikes it from the note of every peer.
    ///
    /// # Errors
    ///
    /// Refused by 3, 4, 5, 8, 9, 15.
    pub fn place(&mut self, row: u8, column: u8, digit: u8) -> Refused<()> {
        sys::place_on(&mut self.answer, self.journal.as_mut_slice(), row, column, digit);
        self.answer.refusal.into_result()
    }

    /// Empties a cell of the player's digit.
    ///
    /// # Errors
    ///
    /// Refused by 3, 4, 6, 15.
    pub fn erase(&mut self, row: u8, column: u8) -> Refused<()> {
        sys::erase_on(&mut self.answer, self.journal.as_mut_slice(), row, column);
        self.answer.refusal.into_result()
    }

    /// The pencil key: strikes the mark where it is present, writes it where it is absent.
    ///
    /// No caller needs to know which. Nor is a second press known from a first: a key that bounces turns the mark round
    /// again, and both presses are moves, recorded and undone each by itself. A session goes on with every answer, so
    /// never press once more to be sure, nor to have a mark present that may be: [`Self::cell`] says how it stands.
    ///
    /// # Errors
    ///
    /// Refused by 3, 4, 7, 8, 15.
    pub fn pencil(&mut self, row: u8, column: u8, digit: u8) -> Refused<()> {
        sys::pencil_on(&mut self.answer, self.journal.as_mut_slice(), row, column, digit);
        self.answer.refusal.into_result()
    }

    /// Takes the latest standing move back.
    ///
    /// # Errors
    ///
    /// Refused by 4, 12.
    pub fn undo(&mut self) -> Refused<()> {
        sys::undo_on(&mut self.answer, self.journal.as_slice());
        self.answer.refusal.into_result()
    }

    /// Makes the next undone move again.
    ///
    /// # Errors
    ///
    /// Refused by 4, 13.
    pub fn redo(&mut self) -> Refused<()> {
        sys::redo_on(&mut self.answer, self.journal.as_slice());
        self.answer.refusal.into_result()
    }

    /// Is the player's digit the solution's? The check is stored.
    ///
    /// # Errors
    ///
    /// Refused by 3, 4, 6, 16.
    pub fn check(&mut self, row: u8, column: u8) -> Refused<bool> {
        let checked = sys::check(&self.answer.board, self.checks.as_mut_slice(), row, column);
        self.answer = Answer { refusal: checked.refusal, board: checked.board };
        checked.refusal.into_result().map(|()| checked.right == 1)
    }

    /// Runs encoded calls and writes their answers: see [`sys::play`]. As many are run as both lists have.
    pub fn play(&mut self, calls: &[[u8; 4]], answers: &mut [[u8; 4]]) {
        let (journal, checks) = (self.journal.as_mut_slice(), self.checks.as_mut_slice());
        let (calls, answers) = (calls.as_flattened(), answers.as_flattened_mut());
        self.answer = sys::play(&self.answer.board, journal, checks, calls, answers);
    }

    /// The slot of the latest standing move.
    ///
    /// # Errors
    ///
    /// Refused by 12.
    pub fn latest(&self) -> Refused<[u8; SLOT_BYTES]> {
        let mut slot = [0; SLOT_BYTES];
        let shown = sys::latest(self.board(), self.journal.as_slice(), &mut slot);
        shown.refusal.into_result().map(|()| slot)
    }

    /// The slot of the next move to redo.
    ///
    /// # Errors
    ///
    /// Refused by 13.
    pub fn next(&self) -> Refused<[u8; SLOT_BYTES]> {
        let mut slot = [0; SLOT_BYTES];
        let shown = sys::next(self.board(), self.journal.as_slice(), &mut slot);
        shown.refusal.into_result().map(|()| slot)
    }

    /// The record of this board.
    ///
    /// # Errors
    ///
    /// None occurs on a session.
    pub fn write(&self) -> Refused<Vec<u8>> {
        let mut record = vec![0; MAX_RECORD];
        let (journal, checks) = (self.journal.as_slice(), self.checks.as_slice());
        let written = sys::write(self.board(), journal, checks, &mut record);
        written.refusal.into_result()?;
        record.truncate(written.length);
        Ok(record)
    }

    /// The givens as a puzzle line: 81 characters, a full stop for every other cell, and no line feed.
    ///
    /// # Errors
    ///
    /// None occurs on a session.
    pub fn line(&self) -> Refused<[u8; LINE_BYTES]> {
        let mut line = [0; LINE_BYTES];
        sys::write_line(self.board(), &mut line).refusal.into_result().map(|()| line)
    }

    /// Move k, and digits and notes as they stood after it.
    ///
    /// # Errors
    ///
    /// Refused by 35.
    pub fn reading(&self, k: usize) -> Refused<ReadingAnswer> {
        let answer = sys::reading(self.board(), self.journal.as_slice(), k);
        answer.refusal.into_result().map(|()| answer)
    }

    /// What the board shows of one cell.
    ///
    /// # Errors
    ///
    /// Refused by 3.
    pub fn cell(&self, row: u8, column: u8) -> Refused<CellAnswer> {
        let answer = sys::cell(self.board(), row, column);
        answer.refusal.into_result().map(|()| answer)
    }

    /// How many of a digit are left for its key: nine less the cells that hold it and conflict with no peer. So a digit
    /// that is placed where a peer holds it does not count, and that peer counts no more: the number goes up.
    ///
    /// # Errors
    ///
    /// Refused by 8.
    pub fn digits_left(&self, digit: u8) -> Refused<u8> {
        let answer = sys::digits_left(self.board(), digit);
        answer.refusal.into_result().map(|()| answer.left)
    }

    /// The whole keypad: what is left of each of the digits 1 to 9, as [`Self::digits_left`] says it.
    #[must_use]
    pub fn keypad(&self) -> [u8; 9] {
        sys::keypad(self.board()).left
    }

    /// Is the board solved?
    #[must_use]
    pub fn is_solved(&self) -> bool {
        sys::is_solved(self.board()).holds == 1
    }

    /// Does every cell hold a digit?
    #[must_use]
    pub fn is_full(&self) -> bool {
        sys::is_full(self.board()).holds == 1
    }

    /// Does no cell conflict?
    #[must_use]
    pub fn is_consistent(&self) -> bool {
        sys::is_consistent(self.board()).holds == 1
    }

    /// Is there a move to take back?
    #[must_use]
    pub fn can_undo(&self) -> bool {
        sys::can_undo(self.board()).holds == 1
    }

    /// Is there a move to make again?
    #[must_use]
    pub fn can_redo(&self) -> bool {
        sys::can_redo(self.board()).holds == 1
    }

    /// The board value.
    #[must_use]
    pub const fn board(&self) -> &Board {
        &self.answer.board
    }

    /// The journal memory: move n stands in the nth eight bytes.
    #[must_use]
    pub const fn journal(&self) -> &[u8; JOURNAL_BYTES] {
        &self.journal
    }

    /// The check memory: check n stands in the nth six bytes.
    #[must_use]
    pub const fn checks(&self) -> &[u8; CHECK_MEMORY] {
        &self.checks
    }
}

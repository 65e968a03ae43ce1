//! A board of the original and one of the library, side by side.

use crate::puzzle::{Puzzle, column, position, row};
use original::board::Board as Theirs;
use pawdoku::call;
use pawdoku::sys::{self, Answer, Board, Refusal};

/// A board of the library with its lent memory. The board is that of the latest answer: an answer's board, refused or
/// not, is the one to go on with. The answer of a move, an undo or a redo is laid over the one before; that of an
/// opening or a check is copied.
pub struct Ours {
    answer: Answer,
    pub journal: Vec<u8>,
    pub checks: Vec<u8>,
}

impl Ours {
    pub fn unopened() -> Self {
        Self {
            answer: Answer { refusal: Refusal { number: 0, place: 0, inner: 0 }, board: Board::ZERO },
            journal: vec![0; pawdoku::JOURNAL_BYTES],
            checks: vec![0; pawdoku::CHECK_MEMORY],
        }
    }

    #[inline]
    pub fn board(&self) -> &Board {
        &self.answer.board
    }

    #[inline]
    pub fn open(&mut self, puzzle: &Puzzle) {
        self.answer = sys::open(&puzzle.bytes, &puzzle.solution, &mut self.journal, &mut self.checks);
        assert_eq!(self.answer.refusal.number, 0);
    }

    /// A list of encoded calls, run at once.
    #[inline]
    pub fn run(&mut self, calls: &[u8], answers: &mut [u8]) {
        self.answer = sys::play(&self.answer.board, &mut self.journal, &mut self.checks, calls, answers);
        assert!(answers.chunks(4).all(|answer| answer[0] == 0));
    }

    /// A call that is refused at once: the journal has no bytes.
    #[inline]
    pub fn refused(&mut self) {
        sys::place_on(&mut self.answer, &mut [], 1, 1, 1);
        assert_eq!(self.answer.refusal.number, 1);
    }

    /// The same with the answer returned, and copied over the one before: what a host pays that assigns it.
    #[inline]
    pub fn refused_and_copied(&mut self) {
        self.answer = sys::place(&self.answer.board, &mut [], 1, 1, 1);
        assert_eq!(self.answer.refusal.number, 1);
    }

    /// The line of its givens.
    #[inline]
    pub fn write_line(&self, line: &mut [u8; pawdoku::LINE_BYTES]) {
        let written = sys::write_line(self.board(), line);
        assert_eq!(written.refusal.number, 0);
    }

    /// Undo, its answer returned and copied.
    #[inline]
    pub fn undo_and_copy(&mut self) {
        self.answer = sys::undo(&self.answer.board, &self.journal);
        assert_eq!(self.answer.refusal.number, 0);
    }

    /// Redo, its answer returned and copied.
    #[inline]
    pub fn redo_and_copy(&mut self) {
        self.answer = sys::redo(&self.answer.board, &self.journal);
        assert_eq!(self.answer.refusal.number, 0);
    }

    #[inline]
    pub fn make(&mut self, call: Call) {
        let (answer, journal) = (&mut self.answer, &mut self.journal);
        match call {
            Call::Place(cell, digit) => sys::place_on(answer, journal, row(cell), column(cell), digit),
            Call::Erase(cell) => sys::erase_on(answer, journal, row(cell), column(cell)),
            Call::Write(cell, digit) | Call::Strike(cell, digit) => {
                sys::pencil_on(answer, journal, row(cell), column(cell), digit);
            }
            Call::Undo => sys::undo_on(answer, journal),
            Call::Redo => sys::redo_on(answer, journal),
            Call::Check(cell) => {
                let checked = sys::check(&answer.board, &mut self.checks, row(cell), column(cell));
                *answer = Answer { refusal: checked.refusal, board: checked.board };
            }
        }
        assert_eq!(self.answer.refusal.number, 0);
    }
}

/// A call that both accept.
///
/// The library has one for `Write` and `Strike`, the pencil, which looks itself whether the mark is present. The
/// original has two, and is given the one that fits: the time that its host takes to look is in no table.
#[derive(Clone, Copy)]
pub enum Call {
    Place(usize, u8),
    Erase(usize),
    /// A mark that is absent.
    Write(usize, u8),
    /// A mark that is present.
    Strike(usize, u8),
    Undo,
    Redo,
    Check(usize),
}

impl Call {
    /// The four bytes that encode it in a list.
    pub const fn encoded(self) -> [u8; 4] {
        match self {
            Self::Place(cell, digit) => [call::PLACE, row(cell), column(cell), digit],
            Self::Erase(cell) => [call::ERASE, row(cell), column(cell), 0],
            Self::Write(cell, digit) | Self::Strike(cell, digit) => [call::PENCIL, row(cell), column(cell), digit],
            Self::Undo => [call::UNDO, 0, 0, 0],
            Self::Redo => [call::REDO, 0, 0, 0],
            Self::Check(cell) => [call::CHECK, row(cell), column(cell), 0],
        }
    }
}

#[inline]
pub fn make(board: &mut Theirs, call: Call) {
    let made = match call {
        Call::Place(cell, digit) => board.place(position(cell), digit),
        Call::Erase(cell) => board.erase(position(cell)),
        Call::Write(cell, digit) => board.write_mark(position(cell), digit),
        Call::Strike(cell, digit) => board.strike_mark(position(cell), digit),
        Call::Undo => board.undo(),
        Call::Redo => board.redo(),
        Call::Check(cell) => board.check(position(cell)).map(drop),
    };
    made.expect("the library accepted this call");
}

/// The median and the worst of some times.
pub fn median_and_worst(times: &mut [f64]) -> (f64, f64) {
    times.sort_by(f64::total_cmp);
    (times[times.len() / 2], times[times.len() - 1])
}

pub fn heading(first: &str) {
    println!("| {first} | original | library | original / library |\n|---|---:|---:|---:|");
}

pub fn line(name: &str, theirs: f64, ours: f64) {
    println!("| {name} | {theirs:.0} | {ours:.0} | {:.2} |", theirs / ours);
}

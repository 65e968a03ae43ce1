//! The two puzzles that are timed: no givens, and the original's thirty.

use original::sudoku::{Given, Position};

const SOLUTION: &str = "534678912672195348198342567859761423426853791713924856961537284287419635345286179";
const THIRTY: &str = "53..7....6..195....98....6.8...6...34..8.3..17...2...6.6....28....419..5....8..79";

pub struct Puzzle {
    pub givens: Vec<Given>,
    /// The same as bytes.
    pub bytes: Vec<u8>,
    /// The same as a line.
    pub line: Vec<u8>,
    pub solution: [u8; 81],
    /// The cells that are timed, from 0: those that the thirty givens leave empty, so that both puzzles have the same.
    pub cells: Vec<usize>,
}

impl Puzzle {
    pub fn empty() -> Self {
        Self::with(|_| false)
    }

    pub fn thirty() -> Self {
        Self::with(|given| given)
    }

    fn with(keeps: impl Fn(bool) -> bool) -> Self {
        let mut solution = [0; 81];
        for (digit, letter) in solution.iter_mut().zip(SOLUTION.bytes()) {
            *digit = letter - b'0';
        }
        let given: Vec<bool> = THIRTY.bytes().map(|letter| letter.is_ascii_digit()).collect();
        let letters = THIRTY.bytes().zip(&given);
        let kept: Vec<usize> = (0..81).filter(|&cell| keeps(given[cell])).collect();
        Self {
            givens: kept.iter().map(|&cell| Given::new(position(cell), solution[cell])).collect(),
            bytes: kept.iter().flat_map(|&cell| [row(cell), column(cell), solution[cell]]).collect(),
            line: letters.map(|(letter, &given)| if keeps(given) { letter } else { b'.' }).collect(),
            solution,
            cells: (0..81).filter(|&cell| !given[cell]).collect(),
        }
    }

    pub fn is_given(&self, cell: usize) -> bool {
        self.bytes.chunks(3).any(|given| given[..2] == [row(cell), column(cell)])
    }
}

pub const fn row(cell: usize) -> u8 {
    (cell / 9 + 1) as u8
}

pub const fn column(cell: usize) -> u8 {
    (cell % 9 + 1) as u8
}

pub const fn position(cell: usize) -> Position {
    Position::new(row(cell), column(cell))
}

/// The peers of a cell, from 0.
pub fn peers(cell: usize) -> impl Iterator<Item = usize> {
    pawdoku::sys::peers(cell + 1).cells.into_iter().map(|peer| usize::from(peer) - 1)
}

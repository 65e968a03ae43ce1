//! A sitting that both accept: what a dense penciller does, with undo, redo and checks, the same every time.

use crate::pair::{Call, Ours};
use crate::puzzle::Puzzle;

/// A small generator, so that the sitting is the same on every machine.
pub struct Dice(pub u64);

impl Dice {
    pub fn below(&mut self, n: usize) -> usize {
        self.0 = self.0.wrapping_mul(6_364_136_223_846_793_005).wrapping_add(1_442_695_040_888_963_407);
        (self.0 >> 33) as usize % n
    }
}

/// `moves` calls that make a move, with undo, redo and checks between them. The board is never solved.
pub fn calls(puzzle: &Puzzle, moves: usize) -> Vec<Call> {
    let mut ours = Ours::unopened();
    ours.open(puzzle);
    let mut dice = Dice(2026);
    let mut calls = Vec::new();
    let mut made = 0;
    while made < moves {
        let cell = puzzle.cells[dice.below(puzzle.cells.len())];
        let digit = 1 + dice.below(9) as u8;
        let standing = ours.board().digits[cell];
        let has = ours.board().notes[cell] >> digit & 1 == 1;
        let call = match dice.below(10) {
            0 if ours.board().standing > 0 => Call::Undo,
            1 if ours.board().standing < ours.board().made => Call::Redo,
            2 if standing != 0 && ours.board().checks < 256 => Call::Check(cell),
            3 if standing != 0 => Call::Erase(cell),
            4 | 5 if standing != digit && digit != puzzle.solution[cell] => Call::Place(cell, digit),
            _ if standing != 0 => continue,
            _ if has => Call::Strike(cell, digit),
            _ => Call::Write(cell, digit),
        };
        made += usize::from(!matches!(call, Call::Undo | Call::Redo | Call::Check(_)));
        ours.make(call);
        calls.push(call);
    }
    calls
}

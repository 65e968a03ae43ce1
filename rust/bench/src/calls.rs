//! Each call by itself: one board for each cell that is timed, and the same call made on all of them in turn.

use crate::pair::{Call, Ours, heading, line, make, median_and_worst};
use crate::puzzle::{Puzzle, column, peers, position, row};
use crate::sitting::Dice;
use original::board::Board as Theirs;
use pawdoku::{kind, sys};
use std::cell::Cell;
use std::hint::black_box;
use std::time::Instant;

/// One board for each cell, on both sides.
struct Boards<'a> {
    puzzle: &'a Puzzle,
    theirs: Vec<Theirs>,
    ours: Vec<Ours>,
    /// For each name the time of a call in each round, theirs and ours.
    times: Vec<(&'static str, Vec<f64>, Vec<f64>)>,
    next: usize,
}

impl Boards<'_> {
    fn note(&mut self, name: &'static str, theirs: f64, ours: f64) {
        if self.next == self.times.len() {
            self.times.push((name, Vec::new(), Vec::new()));
        }
        let (_, t, o) = &mut self.times[self.next];
        t.push(theirs);
        o.push(ours);
        self.next += 1;
    }

    fn time(&mut self, name: &'static str, theirs: impl Fn(&mut Theirs, usize), ours: impl Fn(&mut Ours, usize)) {
        let calls = self.puzzle.cells.len() as f64;
        let start = Instant::now();
        for (board, &cell) in self.theirs.iter_mut().zip(&self.puzzle.cells) {
            theirs(board, cell);
        }
        let t = start.elapsed().as_nanos() as f64 / calls;
        let start = Instant::now();
        for (board, &cell) in self.ours.iter_mut().zip(&self.puzzle.cells) {
            ours(board, cell);
        }
        self.note(name, t, start.elapsed().as_nanos() as f64 / calls);
    }

    fn call(&mut self, name: &'static str, call: impl Fn(usize, u8) -> Call) {
        let solution = self.puzzle.solution;
        self.time(
            name,
            |board, cell| make(board, call(cell, solution[cell])),
            |board, cell| board.make(call(cell, solution[cell])),
        );
    }

    fn opened(&mut self) {
        let puzzle = self.puzzle;
        self.ours = puzzle.cells.iter().map(|_| Ours::unopened()).collect();
        self.theirs.clear();
        let calls = puzzle.cells.len() as f64;
        let start = Instant::now();
        for _ in &puzzle.cells {
            self.theirs.push(Theirs::open(puzzle.givens.iter().copied()).expect("the puzzle opens"));
        }
        let t = start.elapsed().as_nanos() as f64 / calls;
        let start = Instant::now();
        for board in &mut self.ours {
            board.open(puzzle);
        }
        self.note("open", t, start.elapsed().as_nanos() as f64 / calls);
    }

    /// Pencils the digit that is placed later into every peer that takes it.
    fn pencil(&mut self) {
        let puzzle = self.puzzle;
        for ((theirs, ours), &cell) in self.theirs.iter_mut().zip(&mut self.ours).zip(&puzzle.cells) {
            for peer in peers(cell).filter(|&peer| !puzzle.is_given(peer)) {
                let call = Call::Write(peer, puzzle.solution[cell]);
                make(theirs, call);
                ours.make(call);
            }
        }
    }

    fn round(&mut self, pencilled: bool) {
        self.next = 0;
        self.opened();
        if pencilled {
            self.pencil();
        }
        self.call("pencil, writes", Call::Write);
        self.call("undo of a mark", |_, _| Call::Undo);
        self.call("redo of a mark", |_, _| Call::Redo);
        self.time("undo of a mark, the answer copied", |b, _| make(b, Call::Undo), |b, _| b.undo_and_copy());
        self.time("redo of a mark, the answer copied", |b, _| make(b, Call::Redo), |b, _| b.redo_and_copy());
        self.call("pencil, strikes", Call::Strike);
        self.call("place", Call::Place);
        self.call("undo of a place", |_, _| Call::Undo);
        self.call("redo of a place", |_, _| Call::Redo);
        self.time("undo of a place, the answer copied", |b, _| make(b, Call::Undo), |b, _| b.undo_and_copy());
        self.time("redo of a place, the answer copied", |b, _| make(b, Call::Redo), |b, _| b.redo_and_copy());
        self.call("check", |cell, _| Call::Check(cell));
        self.time(
            "cell question",
            |board, cell| {
                black_box(board.cell(position(cell)));
            },
            |board, cell| {
                black_box(sys::cell(board.board(), row(cell), column(cell)));
            },
        );
        self.time(
            "is it consistent",
            |board, _| {
                black_box(board.is_consistent());
            },
            |board, _| {
                black_box(sys::is_consistent(board.board()));
            },
        );
        self.call("erase", |cell, _| Call::Erase(cell));
        self.call("undo of an erase", |_, _| Call::Undo);
        self.made_what_they_say();
    }

    /// The pencil is accepted whatever it does, so what it did is seen here, behind all that is timed: the last four
    /// moves of each board are those of the rows.
    fn made_what_they_say(&self) {
        for ours in &self.ours {
            let slots = ours.journal[..8 * ours.board().made].rchunks(8);
            let kinds = slots.map(|slot| slot[0]).take(4);
            assert!(kinds.eq([kind::ERASE, kind::PLACE, kind::STRIKE_MARK, kind::WRITE_MARK]));
        }
    }
}

/// Runs `f` 272 bytes of stack deeper for each level.
///
/// Where the stack lies is the system's choice at each start, and at some three depths of sixteen a call of the library
/// takes up to 10 ns more, it seems where a board that is passed by value crosses the border of a page. So the rounds
/// of a table go through sixteen depths, a page in all, and its medians do not hang on that choice; they are what a
/// call takes at most depths.
#[inline(never)]
fn deeper(levels: usize, f: &mut dyn FnMut()) {
    let pad = [0u8; 240];
    black_box(&pad);
    if levels == 0 {
        f();
    } else {
        deeper(levels - 1, f);
    }
    black_box(&pad);
}

/// The median of a call that is timed on the library alone.
fn alone(puzzle: &Puzzle, rounds: usize, call: impl Fn(&mut Ours)) -> f64 {
    let mut boards: Vec<Ours> = puzzle.cells.iter().map(|_| Ours::unopened()).collect();
    boards.iter_mut().for_each(|board| board.open(puzzle));
    let mut times: Vec<f64> = (0..rounds)
        .map(|round| {
            let mut time = 0.0;
            deeper(round % 16, &mut || {
                let start = Instant::now();
                boards.iter_mut().for_each(&call);
                time = start.elapsed().as_nanos() as f64 / boards.len() as f64;
            });
            time
        })
        .collect();
    median_and_worst(&mut times).0
}

pub fn table(puzzle: &Puzzle, rounds: usize) {
    original::solver::load(&puzzle.solution);
    for pencilled in [false, true] {
        let mut boards = Boards { puzzle, theirs: Vec::new(), ours: Vec::new(), times: Vec::new(), next: 0 };
        for round in 0..rounds {
            deeper(round % 16, &mut || boards.round(pencilled));
        }
        let marks = if pencilled { "the digit pencilled into every peer" } else { "no marks" };
        heading(&format!("call, {marks}"));
        for (name, mut theirs, mut ours) in boards.times {
            line(name, median_and_worst(&mut theirs).0, median_and_worst(&mut ours).0);
        }
        println!();
    }
    // What the boundary itself costs: such a call hands the board over and back and does nothing else.
    println!(
        "A place that is refused at once, by number 1, takes the library {:.0} ns, and {:.0} ns where the answer is copied.\n",
        alone(puzzle, rounds, Ours::refused),
        alone(puzzle, rounds, Ours::refused_and_copied),
    );
    lines(puzzle, rounds);
}

/// So many lines with the characters of the puzzle's, in any order.
fn shuffled(puzzle: &Puzzle, count: usize) -> Vec<Vec<u8>> {
    let mut dice = Dice(2026);
    let mut line = puzzle.line.clone();
    let mut next = || {
        for at in (1..line.len()).rev() {
            line.swap(at, dice.below(at + 1));
        }
        line.clone()
    };
    (0..count).map(|_| next()).collect()
}

/// Reads one line after the other, and from the last on the first again.
fn reading(puzzle: &Puzzle, rounds: usize, lines: &[Vec<u8>]) -> f64 {
    let next = Cell::new(0);
    alone(puzzle, rounds, |_| {
        let mut givens = [0; pawdoku::LINE_GIVENS];
        let read = sys::read_line(&lines[next.get()], &mut givens);
        assert_eq!(read.length, puzzle.bytes.len());
        black_box(&givens);
        next.set((next.get() + 1) % lines.len());
    })
}

/// A puzzle line, read and written; the original does neither. The same line again and again is what a processor learns
/// to foresee, so other lines, which it has not seen before, have a row of their own.
fn lines(puzzle: &Puzzle, rounds: usize) {
    println!("| a puzzle line | library |\n|---|---:|");
    println!("| read the puzzle's line | {:.0} |", reading(puzzle, rounds, &[puzzle.line.clone()]));
    let others = shuffled(puzzle, 4096);
    println!("| read a line, each time another | {:.0} |", reading(puzzle, rounds, &others));
    let written = alone(puzzle, rounds, |board| {
        let mut line = [0; pawdoku::LINE_BYTES];
        board.write_line(&mut line);
        assert_eq!(line[..], puzzle.line);
    });
    println!("| write the puzzle's line | {written:.0} |\n");
}

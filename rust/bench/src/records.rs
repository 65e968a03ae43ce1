//! A whole sitting, writing its record and reopening it; and the largest record there is.

use crate::pair::{Call, Ours, heading, line, make, median_and_worst};
use crate::puzzle::Puzzle;
use crate::sitting;
use original::board::{Board as Theirs, Record};
use pawdoku::sys;
use std::hint::black_box;
use std::time::Instant;

/// The median time of each of two things, made in turn.
fn medians(rounds: usize, mut theirs: impl FnMut(), mut ours: impl FnMut()) -> (f64, f64) {
    let (mut t, mut o) = (Vec::new(), Vec::new());
    for _ in 0..rounds {
        let start = Instant::now();
        theirs();
        t.push(start.elapsed().as_nanos() as f64);
        let start = Instant::now();
        ours();
        o.push(start.elapsed().as_nanos() as f64);
    }
    (median_and_worst(&mut t).0, median_and_worst(&mut o).0)
}

fn timed(name: &str, rounds: usize, theirs: impl FnMut(), ours: impl FnMut()) {
    let (t, o) = medians(rounds, theirs, ours);
    line(name, t, o);
}

/// 1,024 moves, `undone` of them undone, and 256 checks.
pub fn largest(puzzle: &Puzzle, undone: usize) -> Vec<Call> {
    let cell = puzzle.cells[0];
    let mut calls = vec![Call::Place(cell, puzzle.solution[cell])];
    calls.extend([Call::Check(cell); 256]);
    for n in 1..1024 {
        calls.push(if n % 2 == 1 { Call::Erase(cell) } else { Call::Place(cell, puzzle.solution[cell]) });
    }
    calls.extend((0..undone).map(|_| Call::Undo));
    calls
}

/// The board of both after some calls.
fn played(puzzle: &Puzzle, calls: &[Call]) -> (Theirs, Ours) {
    let mut theirs = Theirs::open(puzzle.givens.iter().copied()).expect("the puzzle opens");
    let mut ours = Ours::unopened();
    ours.open(puzzle);
    for &call in calls {
        make(&mut theirs, call);
        ours.make(call);
    }
    (theirs, ours)
}

pub fn written(ours: &Ours) -> Vec<u8> {
    let mut output = vec![0; pawdoku::MAX_RECORD];
    let written = sys::write(ours.board(), &ours.journal, &ours.checks, &mut output);
    assert_eq!(written.refusal.number, 0);
    output.truncate(written.length);
    output
}

fn reopening(puzzle: &Puzzle, name: &str, calls: &[Call], rounds: usize) {
    let (theirs, ours) = played(puzzle, calls);
    let record = theirs.write();
    let json = serde_json::to_vec(&record).expect("a record serialises");
    let bytes = written(&ours);
    let mut output = vec![0; pawdoku::MAX_RECORD];
    timed(
        &format!("write: {name}"),
        rounds,
        || {
            black_box(theirs.write());
        },
        || {
            black_box(sys::write(ours.board(), &ours.journal, &ours.checks, &mut output));
        },
    );
    let mut fresh = Ours::unopened();
    let reopen = |fresh: &mut Ours| {
        let answer = sys::reopen(&bytes, &puzzle.solution, &mut fresh.journal, &mut fresh.checks);
        assert_eq!(answer.refusal.number, 0);
        black_box(answer);
    };
    timed(
        &format!("reopen: {name}; the original's from a record value, ours from bytes"),
        rounds,
        || {
            black_box(Theirs::reopen(&record).expect("it reopens"));
        },
        || reopen(&mut fresh),
    );
    timed(
        &format!("reopen: {name}; from bytes, the original's being JSON"),
        rounds,
        || {
            let record: Record = serde_json::from_slice(&json).expect("it reads");
            black_box(Theirs::reopen(&record).expect("it reopens"));
        },
        || reopen(&mut fresh),
    );
}

pub fn table(puzzle: &Puzzle, rounds: usize) {
    let sitting = sitting::calls(puzzle, 300);
    heading("whole things");
    let theirs = || {
        let mut board = Theirs::open(puzzle.givens.iter().copied()).expect("the puzzle opens");
        for &call in &sitting {
            make(&mut board, call);
        }
        black_box(board);
    };
    timed(&format!("a sitting: opening, 300 moves, {} calls in all", sitting.len()), rounds, theirs, || {
        let mut board = Ours::unopened();
        board.open(puzzle);
        for &call in &sitting {
            board.make(call);
        }
        black_box(*board.board());
    });
    let list: Vec<u8> = sitting.iter().flat_map(|call| call.encoded()).collect();
    let mut answers = vec![0; list.len()];
    timed("the same sitting, its calls run as one list", rounds, theirs, || {
        let mut board = Ours::unopened();
        board.open(puzzle);
        board.run(&list, &mut answers);
        black_box(*board.board());
    });
    reopening(puzzle, "the sitting", &sitting, rounds);
    let few = rounds.div_ceil(10);
    reopening(puzzle, "1,024 moves and 256 checks, none undone", &largest(puzzle, 0), few);
    reopening(puzzle, "1,024 moves and 256 checks, all undone", &largest(puzzle, 1024), few);
    println!();
}

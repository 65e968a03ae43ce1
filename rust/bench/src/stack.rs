//! The stack that reopening 1,024 moves needs that are all undone, in threads of ever smaller stacks. How many bytes
//! each call takes is measured by tests/c/stack.c.

use crate::pair::Ours;
use crate::puzzle::Puzzle;
use crate::records::{largest, written};
use std::process::Command;

/// Whether a process of its own reopens the largest record in a thread with `kilobytes` of stack.
fn fits(kilobytes: usize) -> bool {
    let program = std::env::current_exe().expect("the program has a path");
    Command::new(program)
        .args(["--reopen-with", &kilobytes.to_string()])
        .stderr(std::process::Stdio::null())
        .status()
        .is_ok_and(|status| status.success())
}

/// What the process of `fits` does. All but the reopening itself is done before, and so with another stack.
pub fn reopen_with(kilobytes: usize) {
    let puzzle = Puzzle::thirty();
    let mut ours = Ours::unopened();
    ours.open(&puzzle);
    for call in largest(&puzzle, 1024) {
        ours.make(call);
    }
    let record = written(&ours);
    let reopening = std::thread::Builder::new().stack_size(kilobytes * 1024).spawn(move || {
        let answer = pawdoku::sys::reopen(&record, &puzzle.solution, &mut ours.journal, &mut ours.checks);
        assert_eq!((answer.refusal.number, answer.board.made, answer.board.standing), (0, 1024, 0));
    });
    reopening.expect("the thread starts").join().expect("it reopens");
}

/// No thread has a smaller stack: what asks for less gets this.
const SMALLEST: usize = 16;

pub fn table() {
    println!("## Stack\n");
    if fits(SMALLEST) {
        println!(
            "Reopening 1,024 moves that are all undone needs no more than a thread's smallest stack, {SMALLEST} kB."
        );
        return;
    }
    let (mut low, mut high) = (SMALLEST, 8192);
    assert!(fits(high), "8 MB of stack are enough");
    while high - low > 4 {
        let middle = (low + high) / 2;
        if fits(middle) { high = middle } else { low = middle }
    }
    println!(
        "Reopening 1,024 moves that are all undone needs a thread with {high} kB of stack, and fails with {low} kB."
    );
}

//! A key press: one call, and then everything that a screen needs, drawn into a buffer.

use crate::pair::{Call, Ours, heading, line, make, median_and_worst};
use crate::puzzle::{Puzzle, column, position, row};
use crate::sitting;
use original::board::Board as Theirs;
use pawdoku::sys;
use std::time::Instant;

const PRESSES: usize = 100_000;
/// For each cell its digit, given, conflicting, and nine marks; for each key nine less the cells that hold its digit
/// and conflict with no peer.
type Screen = [u8; 81 * 12 + 9];

fn draw_theirs(board: &Theirs, screen: &mut Screen) {
    let mut clear = [0u8; 10];
    for cell in 0..81 {
        let shown = board.cell(position(cell)).expect("the cell is on the grid");
        let digit = shown.digit().unwrap_or(0);
        clear[usize::from(digit)] += u8::from(!shown.is_conflicting());
        let out = &mut screen[cell * 12..cell * 12 + 12];
        out[..3].copy_from_slice(&[digit, u8::from(shown.is_given()), u8::from(shown.is_conflicting())]);
        let note = if shown.shows_note() { shown.note() } else { None };
        for mark in 1..=9 {
            out[usize::from(mark) + 2] = u8::from(note.is_some_and(|note| note.contains(mark)));
        }
    }
    for (out, clear) in screen[81 * 12..].iter_mut().zip(&clear[1..]) {
        *out = 9 - clear;
    }
}

fn draw_ours(ours: &Ours, screen: &mut Screen) {
    for cell in 0..81 {
        let shown = sys::cell(ours.board(), row(cell), column(cell));
        let out = &mut screen[cell * 12..cell * 12 + 12];
        out[..3].copy_from_slice(&[shown.digit, shown.given, shown.conflicting]);
        for mark in 1..=9 {
            out[mark + 2] = shown.shown & u8::from(shown.note >> mark & 1 == 1);
        }
    }
    screen[81 * 12..].copy_from_slice(&sys::keypad(ours.board()).left);
}

/// The times of some presses of a sitting that is played again and again, and the screens compared.
fn presses(puzzle: &Puzzle, calls: &[Call]) -> (Vec<f64>, Vec<f64>) {
    let (mut t, mut o) = (Vec::new(), Vec::new());
    let mut ours = Ours::unopened();
    let (mut theirs_screen, mut ours_screen): (Screen, Screen) = ([0; _], [0; _]);
    while t.len() < PRESSES {
        let mut theirs = Theirs::open(puzzle.givens.iter().copied()).expect("the puzzle opens");
        ours.open(puzzle);
        for &call in calls.iter().take(PRESSES - t.len()) {
            let start = Instant::now();
            make(&mut theirs, call);
            draw_theirs(&theirs, &mut theirs_screen);
            t.push(start.elapsed().as_nanos() as f64);
            let start = Instant::now();
            ours.make(call);
            draw_ours(&ours, &mut ours_screen);
            o.push(start.elapsed().as_nanos() as f64);
            assert_eq!(theirs_screen, ours_screen, "both draw the same");
        }
    }
    (t, o)
}

/// The times of the nine keys after each call of a sitting: asked one by one, and in one call.
fn keys(puzzle: &Puzzle, calls: &[Call]) -> (Vec<f64>, Vec<f64>) {
    let (mut singly, mut whole) = (Vec::new(), Vec::new());
    let mut ours = Ours::unopened();
    while whole.len() < PRESSES {
        ours.open(puzzle);
        for &call in calls.iter().take(PRESSES - whole.len()) {
            ours.make(call);
            let start = Instant::now();
            let left: [u8; 9] = std::array::from_fn(|at| sys::digits_left(ours.board(), at as u8 + 1).left);
            singly.push(start.elapsed().as_nanos() as f64);
            let start = Instant::now();
            let keypad = sys::keypad(ours.board());
            whole.push(start.elapsed().as_nanos() as f64);
            assert_eq!(keypad.left, left, "both ways say the same");
        }
    }
    (singly, whole)
}

pub fn table(puzzle: &Puzzle) {
    let calls = sitting::calls(puzzle, 300);
    let (mut theirs, mut ours) = presses(puzzle, &calls);
    let ((t, t_worst), (o, o_worst)) = (median_and_worst(&mut theirs), median_and_worst(&mut ours));
    heading(&format!("a key press, drawn ({PRESSES} presses)"));
    line("median", t, o);
    line("worst", t_worst, o_worst);
    let (mut singly, mut whole) = keys(puzzle, &calls);
    let (singly, whole) = (median_and_worst(&mut singly).0, median_and_worst(&mut whole).0);
    println!("\nThe nine keys of it, in the median: {singly:.0} ns asked one by one, {whole:.0} ns in one call.");
    println!("The worst press of the library is {:.0} times shorter than 40 ms.\n", 40e6 / o_worst);
}

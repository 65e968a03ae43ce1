//! Directed sessions and records: the twelve positions of document 01, the ends a board can come to, the limits, and
//! two faults at once. What document 01 says of each stands here too, so that both sides are held to it.

use crate::bytes::{ACCEPTED, Check, Items, Move, refusal};
use crate::call::Call;
use crate::grid::{Grid, cell_of, g, givens_of, peers, position_of};
use crate::pair::{self, Compared, Pair};
use crate::plant::Plant;
use crate::report::{Counts, same, same_bytes};
use crate::script::Step;
use pawdoku::{Refusal, call, kind};

/// A directed session: what it is, and its run.
pub type Case = (&'static str, fn(&mut Stage) -> Compared);

/// Where directed sessions run.
pub struct Stage<'a> {
    plant: Plant,
    counts: &'a mut Counts,
}

impl<'a> Stage<'a> {
    /// A stage.
    pub fn new(plant: Plant, counts: &'a mut Counts) -> Self {
        Self { plant, counts }
    }

    fn open(&mut self, givens: &[[u8; 3]], solution: &Grid) -> Compared<Pair> {
        let opened = pair::open(givens, solution, self.plant, self.counts)?;
        opened.map_err(|refused| format!("opening is refused: {refused}"))
    }

    /// E: no givens.
    fn e(&mut self) -> Compared<Pair> {
        self.open(&[], &g())
    }

    /// L: all of G but (9,9).
    fn l(&mut self) -> Compared<Pair> {
        self.open(&all_but_the_last(), &g())
    }

    /// Makes a call, which is answered by this number.
    fn call(&mut self, pair: &mut Pair, call: Call, number: u8) -> Compared {
        pair.step(Step::Call(call), self.counts)?;
        same(&call.to_string(), &number, &pair.last.0.number)
    }

    fn finish(&mut self, mut pair: Pair) -> Compared {
        pair.finish(self.counts)?;
        pair.step(Step::Reopen, self.counts)
    }

    /// Opening is refused so.
    fn not_opened(&mut self, givens: &[[u8; 3]], solution: &Grid, expected: Refusal) -> Compared {
        let opened = pair::open(givens, solution, self.plant, self.counts)?;
        same("opening", &Some(expected), &opened.err())
    }

    fn reopen(&mut self, record: &[u8], solution: &Grid) -> Compared<Pair> {
        let reopened = pair::reopen(record, solution, self.plant, self.counts)?;
        reopened.map_err(|refused| format!("reopening is refused: {refused}"))
    }

    /// Reopening is refused so.
    fn not_reopened(&mut self, record: &[u8], solution: &Grid, expected: Refusal) -> Compared {
        let reopened = pair::reopen(record, solution, self.plant, self.counts)?;
        same("reopening", &Some(expected), &reopened.err())
    }
}

/// All directed sessions.
pub const CASES: &[Case] = &[
    ("a: solved is final", a),
    ("b: a wrong last digit", b),
    ("c: a digit placed twice", c),
    ("d: digits out of range", d),
    ("e: twenty marks come back", e),
    ("f: a record", f),
    ("g: the smallest record", g_records),
    ("h: standing of a check", h),
    ("i: a check that would solve", i),
    ("j: undone and moves behind a solved board", j),
    ("k: 1,024 moves", k),
    ("l: 80 and 81 givens", l),
    ("another valid grid than the solution", another_grid),
    ("a full conflicting board mended by its last placement", mended),
    ("a full conflicting board undone and redone", full_and_back),
    ("1,024 moves and 256 checks on 80 givens", the_longest_record),
    ("1,024 moves and 256 checks without givens", the_longest_session),
    ("everything on a solved board", all_on_solved),
    ("two reasons for one call", two_reasons),
    ("notes under digits", notes_under_digits),
    ("a new move drops the undone ones", dropped_moves),
    ("the pencil pressed again", pressed_again),
    ("the first byte of an encoded call", first_bytes),
    ("a record's marks keep their rules", marks_of_a_record),
    ("inner numbers of a refused move", inner_of_moves),
    ("inner numbers of a refused check", inner_of_checks),
    ("two faults in one record", two_faults),
    ("two faults in one opening", two_faults_in_opening),
    ("records of many items", many_items),
    ("checks on undone lines of play", checks_of_undone_lines),
];

/// All of G but (9,9).
fn all_but_the_last() -> Vec<[u8; 3]> {
    givens_of(&g(), 1..=80)
}

const fn made(kind: u8, row: u8, column: u8, digit: u8) -> Move {
    Move { kind, row, column, digit }
}

const fn placed(row: u8, column: u8, digit: u8) -> Move {
    made(kind::PLACE, row, column, digit)
}

const fn asked(standing: u16, row: u8, column: u8, digit: u8) -> Check {
    Check { standing, row, column, digit }
}

fn record(givens: &[[u8; 3]], moves: &[Move], undone: u16, checks: &[Check]) -> Vec<u8> {
    Items { givens: givens.to_vec(), moves: moves.to_vec(), undone, checks: checks.to_vec() }.write()
}

// The twelve positions.

fn a(stage: &mut Stage) -> Compared {
    let mut pair = stage.l()?;
    stage.call(&mut pair, Call::Place(9, 9, 8), 0)?;
    same("solved", &1, &pair.ours.board.solved)?;
    stage.call(&mut pair, Call::Undo, 4)?;
    stage.call(&mut pair, Call::Place(0, 1, 5), 3)?;
    stage.finish(pair)
}

fn b(stage: &mut Stage) -> Compared {
    let mut pair = stage.l()?;
    stage.call(&mut pair, Call::Place(9, 9, 7), 0)?;
    same("solved", &0, &pair.ours.board.solved)?;
    same("conflicting", &true, &pair.state.conflicting[80])?;
    stage.call(&mut pair, Call::Check(9, 9), 0)?;
    same("verdict", &0, &pair.last.1)?;
    stage.finish(pair)
}

fn c(stage: &mut Stage) -> Compared {
    let mut pair = stage.e()?;
    stage.call(&mut pair, Call::Place(1, 1, 5), 0)?;
    stage.call(&mut pair, Call::Place(1, 1, 5), 9)?;
    stage.call(&mut pair, Call::Place(1, 1, 6), 0)?;
    same_bytes("slot 2", &[2, 1, 1, 6, 5, 0, 0, 0], &pair.ours.memory.journal[8..16])?;
    stage.finish(pair)
}

fn d(stage: &mut Stage) -> Compared {
    let mut pair = stage.e()?;
    stage.call(&mut pair, Call::Place(5, 5, 10), 8)?;
    stage.call(&mut pair, Call::Pencil(5, 5, 10), 8)?;
    stage.finish(pair)
}

fn e(stage: &mut Stage) -> Compared {
    let mut pair = stage.e()?;
    for &peer in peers(cell_of(5, 5)) {
        let (row, column) = position_of(peer);
        stage.call(&mut pair, Call::Pencil(row, column, 5), 0)?;
    }
    let notes = pair.ours.board.notes;
    stage.call(&mut pair, Call::Place(5, 5, 5), 0)?;
    same_bytes("slot 21", &[2, 5, 5, 5, 0, 255, 255, 15], &pair.ours.memory.journal[160..168])?;
    stage.call(&mut pair, Call::Undo, 0)?;
    same("twenty marks back", &notes, &pair.ours.board.notes)?;
    stage.finish(pair)
}

fn f(stage: &mut Stage) -> Compared {
    let mut pair = stage.e()?;
    stage.call(&mut pair, Call::Place(1, 1, 5), 0)?;
    stage.call(&mut pair, Call::Pencil(1, 2, 3), 0)?;
    stage.call(&mut pair, Call::Undo, 0)?;
    stage.call(&mut pair, Call::Check(1, 1), 0)?;
    let record = pair.ours.write().map_err(|refused| refused.to_string())?;
    same_bytes("the record", &[2, 1, 1, 5, 4, 1, 2, 3, 6, 1, 0, 7, 1, 0, 1, 1, 5], &record)?;
    stage.finish(pair)
}

fn g_records(stage: &mut Stage) -> Compared {
    let fresh = stage.e()?;
    let pair = stage.reopen(&[6, 0, 0], &g())?;
    same("the fresh board", &fresh.ours.board, &pair.ours.board)?;
    stage.not_reopened(&[], &g(), refusal(17, 1, 0))
}

fn h(stage: &mut Stage) -> Compared {
    let with = |standing| record(&[], &[placed(1, 1, 5)], 0, &[asked(standing, 1, 1, 5)]);
    stage.not_reopened(&with(0), &g(), refusal(32, 1, 0))?;
    let pair = stage.reopen(&with(1024), &g())?;
    same_bytes("the check", &[0, 4, 1, 1, 5, 0], &pair.ours.memory.checks[..6])?;
    stage.not_reopened(&with(1025), &g(), refusal(18, 0, 0))
}

fn i(stage: &mut Stage) -> Compared {
    let with = |digit, standing| record(&all_but_the_last(), &[placed(9, 9, 7)], 0, &[asked(standing, 9, 9, digit)]);
    stage.not_reopened(&with(8, 1), &g(), refusal(33, 1, 0))?;
    stage.not_reopened(&with(8, 0), &g(), refusal(32, 1, 0))?;
    let pair = stage.reopen(&with(7, 1), &g())?;
    same_bytes("the check", &[1, 0, 9, 9, 7, 0], &pair.ours.memory.checks[..6])
}

fn j(stage: &mut Stage) -> Compared {
    let solved = record(&all_but_the_last(), &[placed(9, 9, 8)], 1, &[]);
    stage.not_reopened(&solved, &g(), refusal(30, 0, 0))?;
    let behind = record(&all_but_the_last(), &[placed(9, 9, 8), placed(9, 9, 7)], 0, &[]);
    stage.not_reopened(&behind, &g(), refusal(28, 2, 0))
}

fn k(stage: &mut Stage) -> Compared {
    let mut pair = stage.e()?;
    // Odd presses write the mark, even ones strike it.
    for press in 1..=1024 {
        stage.call(&mut pair, Call::Pencil(1, 1, 1), 0)?;
        same("the note", &((press % 2) << 1), &pair.ours.board.notes[0])?;
    }
    stage.call(&mut pair, Call::Pencil(1, 1, 1), 15)?;
    stage.call(&mut pair, Call::Undo, 0)?;
    stage.call(&mut pair, Call::Pencil(1, 1, 1), 0)?;
    same_bytes("slot 1,024", &[5, 1, 1, 1, 0, 0, 0, 0], &pair.ours.memory.journal[8184..])?;
    // With the mark present the journal is full too, and 8 comes first.
    stage.call(&mut pair, Call::Undo, 0)?;
    stage.call(&mut pair, Call::Pencil(1, 1, 2), 0)?;
    stage.call(&mut pair, Call::Pencil(1, 1, 2), 15)?;
    stage.call(&mut pair, Call::Pencil(1, 1, 10), 8)?;
    stage.finish(pair)
}

fn l(stage: &mut Stage) -> Compared {
    let pair = stage.l()?;
    stage.finish(pair)?;
    stage.not_opened(&givens_of(&g(), 1..=81), &[0; 81], refusal(22, 0, 0))
}

// The ends that a board can come to.

/// G with two digits exchanged.
fn other() -> Grid {
    g().map(|digit| match digit {
        1 => 2,
        2 => 1,
        digit => digit,
    })
}

fn another_grid(stage: &mut Stage) -> Compared {
    let (other, mut pair) = (other(), stage.e()?);
    for cell in 1..=81 {
        let (row, column) = position_of(cell);
        stage.call(&mut pair, Call::Place(row, column, other[cell - 1]), 0)?;
        if cell < 81 {
            stage.call(&mut pair, Call::Check(row, column), 0)?;
            same("verdict", &u8::from(other[cell - 1] == g()[cell - 1]), &pair.last.1)?;
        }
    }
    same("solved", &1, &pair.ours.board.solved)?;
    stage.call(&mut pair, Call::Check(1, 1), 4)?;
    stage.finish(pair)
}

/// E filled with G, but for a wrong digit at (5,5).
fn filled_but_one(stage: &mut Stage) -> Compared<Pair> {
    let mut pair = stage.e()?;
    for cell in 1..=81 {
        let (row, column) = position_of(cell);
        let digit = if cell == cell_of(5, 5) { g()[cell - 1] % 9 + 1 } else { g()[cell - 1] };
        stage.call(&mut pair, Call::Place(row, column, digit), 0)?;
    }
    same("solved", &0, &pair.ours.board.solved)?;
    Ok(pair)
}

fn mended(stage: &mut Stage) -> Compared {
    let mut pair = filled_but_one(stage)?;
    pair.step(Step::All, stage.counts)?;
    stage.call(&mut pair, Call::Place(5, 5, g()[cell_of(5, 5) - 1]), 0)?;
    same("solved", &1, &pair.ours.board.solved)?;
    stage.finish(pair)
}

fn full_and_back(stage: &mut Stage) -> Compared {
    let mut pair = filled_but_one(stage)?;
    for _ in 0..81 {
        stage.call(&mut pair, Call::Undo, 0)?;
    }
    stage.call(&mut pair, Call::Undo, 12)?;
    for _ in 0..81 {
        stage.call(&mut pair, Call::Redo, 0)?;
    }
    stage.call(&mut pair, Call::Redo, 13)?;
    stage.call(&mut pair, Call::Erase(5, 5), 0)?;
    stage.call(&mut pair, Call::Undo, 0)?;
    stage.call(&mut pair, Call::Redo, 0)?;
    stage.call(&mut pair, Call::Place(5, 5, g()[cell_of(5, 5) - 1]), 0)?;
    same("solved", &1, &pair.ours.board.solved)?;
    stage.finish(pair)
}

fn the_longest_record(stage: &mut Stage) -> Compared {
    let mut pair = stage.l()?;
    for _ in 0..512 {
        stage.call(&mut pair, Call::Place(9, 9, 1), 0)?;
        stage.call(&mut pair, Call::Place(9, 9, 2), 0)?;
    }
    for _ in 0..256 {
        stage.call(&mut pair, Call::Check(9, 9), 0)?;
    }
    at_the_limits(stage, &mut pair)?;
    let record = pair.ours.write().map_err(|refused| refused.to_string())?;
    same("the longest record", &pawdoku::MAX_RECORD, &record.len())?;
    all_the_way_back(stage, pair)
}

/// Everything that comes before 15 and 16, and these.
fn at_the_limits(stage: &mut Stage, pair: &mut Pair) -> Compared {
    stage.call(pair, Call::Place(9, 9, 3), 15)?;
    stage.call(pair, Call::Place(9, 9, 8), 15)?;
    stage.call(pair, Call::Erase(9, 9), 15)?;
    stage.call(pair, Call::Place(9, 9, 2), 9)?;
    stage.call(pair, Call::Place(9, 9, 10), 8)?;
    stage.call(pair, Call::Place(1, 1, 2), 5)?;
    stage.call(pair, Call::Place(10, 1, 2), 3)?;
    stage.call(pair, Call::Erase(1, 1), 6)?;
    stage.call(pair, Call::Pencil(9, 9, 2), 7)?;
    stage.call(pair, Call::Pencil(9, 9, 10), 7)?;
    stage.call(pair, Call::Pencil(9, 10, 2), 3)?;
    stage.call(pair, Call::Check(9, 9), 16)?;
    stage.call(pair, Call::Check(1, 1), 6)?;
    stage.call(pair, Call::Check(0, 0), 3)?;
    stage.call(pair, Call::Redo, 13)
}

fn all_the_way_back(stage: &mut Stage, mut pair: Pair) -> Compared {
    pair.step(Step::Reopen, stage.counts)?;
    for _ in 0..1024 {
        stage.call(&mut pair, Call::Undo, 0)?;
    }
    stage.call(&mut pair, Call::Undo, 12)?;
    pair.step(Step::Reopen, stage.counts)?;
    for _ in 0..1024 {
        stage.call(&mut pair, Call::Redo, 0)?;
    }
    stage.call(&mut pair, Call::Redo, 13)?;
    stage.finish(pair)
}

fn the_longest_session(stage: &mut Stage) -> Compared {
    let mut pair = stage.e()?;
    for n in 0..729 {
        let (row, column) = position_of(n / 9 + 1);
        stage.call(&mut pair, Call::Pencil(row, column, u8::try_from(n % 9 + 1).unwrap_or(1)), 0)?;
    }
    for n in 0..295 {
        let (row, column) = position_of(n % 80 + 1);
        let digit = u8::try_from(n / 80).unwrap_or(0) + g()[n % 80];
        stage.call(&mut pair, Call::Place(row, column, (digit - 1) % 9 + 1), 0)?;
    }
    for n in 0..256 {
        let (row, column) = position_of(n % 80 + 1);
        stage.call(&mut pair, Call::Check(row, column), 0)?;
    }
    stage.call(&mut pair, Call::Check(1, 1), 16)?;
    stage.call(&mut pair, Call::Pencil(9, 9, 10), 8)?;
    stage.call(&mut pair, Call::Pencil(9, 9, 1), 15)?;
    stage.call(&mut pair, Call::Place(9, 9, 1), 15)?;
    pair.step(Step::All, stage.counts)?;
    all_the_way_back(stage, pair)
}

// Refusals where several apply.

fn all_on_solved(stage: &mut Stage) -> Compared {
    let mut pair = stage.l()?;
    stage.call(&mut pair, Call::Check(9, 9), 6)?;
    stage.call(&mut pair, Call::Pencil(9, 9, 1), 0)?;
    stage.call(&mut pair, Call::Undo, 0)?;
    stage.call(&mut pair, Call::Place(9, 9, 8), 0)?;
    for (row, column) in [(9, 9), (1, 1)] {
        for digit in [0, 1, 8, 10] {
            stage.call(&mut pair, Call::Place(row, column, digit), 4)?;
            stage.call(&mut pair, Call::Pencil(row, column, digit), 4)?;
        }
        stage.call(&mut pair, Call::Erase(row, column), 4)?;
        stage.call(&mut pair, Call::Check(row, column), 4)?;
    }
    for (row, column) in [(0, 1), (1, 0), (10, 9), (9, 10), (255, 255)] {
        stage.call(&mut pair, Call::Place(row, column, 0), 3)?;
        stage.call(&mut pair, Call::Erase(row, column), 3)?;
        stage.call(&mut pair, Call::Pencil(row, column, 1), 3)?;
        stage.call(&mut pair, Call::Pencil(row, column, 10), 3)?;
        stage.call(&mut pair, Call::Check(row, column), 3)?;
        pair.step(Step::Cell(row, column), stage.counts)?;
    }
    stage.call(&mut pair, Call::Undo, 4)?;
    stage.call(&mut pair, Call::Redo, 4)?;
    stage.finish(pair)
}

fn two_reasons(stage: &mut Stage) -> Compared {
    let mut pair = stage.open(&givens_of(&g(), 1..=40), &g())?;
    stage.call(&mut pair, Call::Place(1, 1, 10), 5)?;
    stage.call(&mut pair, Call::Place(1, 1, g()[0]), 5)?;
    stage.call(&mut pair, Call::Pencil(1, 1, 10), 7)?;
    stage.call(&mut pair, Call::Pencil(1, 1, 0), 7)?;
    stage.call(&mut pair, Call::Erase(1, 1), 6)?;
    stage.call(&mut pair, Call::Erase(9, 9), 6)?;
    stage.call(&mut pair, Call::Check(1, 1), 6)?;
    stage.call(&mut pair, Call::Check(9, 9), 6)?;
    stage.call(&mut pair, Call::Pencil(9, 9, 0), 8)?;
    stage.call(&mut pair, Call::Pencil(9, 9, 10), 8)?;
    stage.call(&mut pair, Call::Pencil(9, 9, 9), 0)?;
    stage.call(&mut pair, Call::Pencil(9, 9, 10), 8)?;
    stage.call(&mut pair, Call::Place(9, 9, 9), 0)?;
    // Under the digit one mark is kept and the others are absent: 7 all the same, and before 8.
    for digit in [0, 8, 9, 10, 255] {
        stage.call(&mut pair, Call::Pencil(9, 9, digit), 7)?;
    }
    stage.finish(pair)
}

fn notes_under_digits(stage: &mut Stage) -> Compared {
    let mut pair = stage.e()?;
    for digit in 1..=9 {
        stage.call(&mut pair, Call::Pencil(5, 5, digit), 0)?;
        stage.call(&mut pair, Call::Pencil(5, 6, digit), 0)?;
    }
    stage.call(&mut pair, Call::Place(5, 5, 3), 0)?;
    same("the target keeps its own note", &0b11_1111_1110, &pair.ours.board.notes[cell_of(5, 5) - 1])?;
    stage.call(&mut pair, Call::Place(5, 6, 4), 0)?;
    same("filled peers lose the mark too", &0b11_1110_1110, &pair.ours.board.notes[cell_of(5, 5) - 1])?;
    stage.call(&mut pair, Call::Place(5, 6, 3), 0)?;
    stage.call(&mut pair, Call::Place(5, 5, 4), 0)?;
    pair.step(Step::All, stage.counts)?;
    stage.call(&mut pair, Call::Erase(5, 5), 0)?;
    for _ in 0..5 {
        stage.call(&mut pair, Call::Undo, 0)?;
    }
    same("all marks are back", &0b11_1111_1110, &pair.ours.board.notes[cell_of(5, 5) - 1])?;
    stage.finish(pair)
}

fn dropped_moves(stage: &mut Stage) -> Compared {
    let mut pair = stage.e()?;
    for digit in 1..=9 {
        stage.call(&mut pair, Call::Pencil(1, digit, digit), 0)?;
    }
    for _ in 0..6 {
        stage.call(&mut pair, Call::Undo, 0)?;
    }
    stage.call(&mut pair, Call::Place(1, 1, 2), 0)?;
    same("made", &4, &pair.ours.board.made)?;
    stage.call(&mut pair, Call::Redo, 13)?;
    pair.step(Step::All, stage.counts)?;
    pair.step(Step::Reopen, stage.counts)?;
    stage.call(&mut pair, Call::Undo, 0)?;
    stage.call(&mut pair, Call::Undo, 0)?;
    stage.call(&mut pair, Call::Redo, 0)?;
    stage.finish(pair)
}

// The pencil.

/// A key that bounces: the second press strikes what the first wrote, the third writes it again. Each is a move.
fn pressed_again(stage: &mut Stage) -> Compared {
    let mut pair = stage.e()?;
    let cell = cell_of(5, 5) - 1;
    for (press, note) in [(1, 0b1000), (2, 0), (3, 0b1000)] {
        stage.call(&mut pair, Call::Pencil(5, 5, 3), 0)?;
        same("made and the note", &(press, note), &(pair.ours.board.made, pair.ours.board.notes[cell]))?;
    }
    let slots = [4, 5, 5, 3, 0, 0, 0, 0, 5, 5, 5, 3, 0, 0, 0, 0, 4, 5, 5, 3, 0, 0, 0, 0];
    same_bytes("the slots", &slots, &pair.ours.memory.journal[..24])?;
    pair.step(Step::All, stage.counts)?;
    pair.step(Step::Reopen, stage.counts)?;
    for note in [0, 0b1000, 0] {
        stage.call(&mut pair, Call::Undo, 0)?;
        same("the note after undo", &note, &pair.ours.board.notes[cell])?;
    }
    stage.call(&mut pair, Call::Undo, 12)?;
    stage.call(&mut pair, Call::Redo, 0)?;
    // The other marks of the note stay, and an undone press is gone with the next one.
    stage.call(&mut pair, Call::Pencil(5, 5, 9), 0)?;
    stage.call(&mut pair, Call::Pencil(5, 5, 3), 0)?;
    let board = &pair.ours.board;
    same("made and the note", &(3, 1 << 9), &(board.made, board.notes[cell]))?;
    stage.call(&mut pair, Call::Redo, 13)?;
    stage.finish(pair)
}

/// The six first bytes that encode a call, and what each answers for (1,1), which holds a 5, and then for (1,2), which
/// is empty; all others answer 255 and change nothing, the kinds of a move among them.
const FIRST_BYTES: [(u8, [u8; 2]); 6] = [
    (call::PLACE, [0, 0]),
    (call::ERASE, [0, 6]),
    (call::PENCIL, [7, 0]),
    (call::UNDO, [0, 12]),
    (call::REDO, [0, 13]),
    (call::CHECK, [0, 6]),
];

fn first_bytes(stage: &mut Stage) -> Compared {
    let mut pair = stage.e()?;
    for call in [Call::Place(1, 1, 5), Call::Pencil(1, 2, 3), Call::Undo] {
        stage.call(&mut pair, call, 0)?;
    }
    for first in 0..=255 {
        let known = FIRST_BYTES.iter().find(|(byte, _)| *byte == first);
        let [one, two] = known.map_or([255; 2], |(_, numbers)| *numbers);
        let mut ours = pair.ours.clone();
        let mut answers = [0x5a; 8];
        let said = ours.play(&[first, 1, 1, 3, first, 1, 2, 3], &mut answers);
        stage.counts.refused(refusal(one, 0, 0));
        stage.counts.beyond += 2;
        same("the list", &ACCEPTED, &said)?;
        same_bytes(&format!("answers of first byte {first}"), &[one, 0, 0, 0, two, 0, 0, 0], &answers)?;
        let stays = (&ours.board, &ours.memory) == (&pair.ours.board, &pair.ours.memory);
        same(&format!("first byte {first} changes nothing"), &known.is_none(), &stays)?;
    }
    stage.finish(pair)
}

// Records.

/// What the pencil wrote and struck, and the same with one kind exchanged: replay asks each kind its own rule.
fn marks_of_a_record(stage: &mut Stage) -> Compared {
    let (write, strike) = (made(kind::WRITE_MARK, 5, 5, 3), made(kind::STRIKE_MARK, 5, 5, 3));
    let no_digit = |kind| made(kind, 5, 5, 10);
    let pair = stage.reopen(&record(&[], &[write, strike, write], 0, &[]), &g())?;
    same("the note", &0b1000, &pair.ours.board.notes[cell_of(5, 5) - 1])?;
    let faults: [(&[Move], usize, u8); 8] = [
        (&[strike, strike, write], 1, 11),
        (&[write, write, write], 2, 10),
        (&[write, strike, strike], 3, 11),
        (&[no_digit(kind::STRIKE_MARK)], 1, 11),
        (&[no_digit(kind::WRITE_MARK)], 1, 8),
        (&[write, placed(5, 5, 9), strike], 3, 7),
        (&[write, placed(5, 5, 9), write], 3, 7),
        (&[placed(5, 5, 9), no_digit(kind::STRIKE_MARK)], 2, 7),
    ];
    for (moves, place, inner) in faults {
        stage.not_reopened(&record(&[], moves, 0, &[]), &g(), refusal(29, place, inner))?;
    }
    Ok(())
}

fn inner_of_moves(stage: &mut Stage) -> Compared {
    let givens = givens_of(&g(), 1..=40);
    let first = [placed(9, 9, 1), made(kind::WRITE_MARK, 9, 1, 5)];
    let faults = [
        (3, placed(0, 1, 1)),
        (3, made(kind::ERASE, 9, 10, 0)),
        (5, placed(1, 1, 10)),
        (6, made(kind::ERASE, 1, 1, 0)),
        (6, made(kind::ERASE, 9, 8, 0)),
        (7, made(kind::WRITE_MARK, 9, 9, 10)),
        (7, made(kind::STRIKE_MARK, 1, 1, 1)),
        (7, made(kind::STRIKE_MARK, 9, 9, 10)),
        (8, placed(9, 9, 0)),
        (8, made(kind::WRITE_MARK, 9, 1, 10)),
        (8, made(kind::WRITE_MARK, 9, 1, 255)),
        (9, placed(9, 9, 1)),
        (10, made(kind::WRITE_MARK, 9, 1, 5)),
        (11, made(kind::STRIKE_MARK, 9, 1, 6)),
        (11, made(kind::STRIKE_MARK, 9, 1, 0)),
        (11, made(kind::STRIKE_MARK, 9, 1, 10)),
    ];
    for (inner, fault) in faults {
        let moves = [first[0], first[1], fault, placed(0, 0, 0)];
        stage.not_reopened(&record(&givens, &moves, 0, &[]), &g(), refusal(29, 3, inner))?;
    }
    Ok(())
}

fn inner_of_checks(stage: &mut Stage) -> Compared {
    let givens = givens_of(&g(), 1..=40);
    let faults = [
        (31, 3, asked(0, 10, 1, 0)),
        (31, 5, asked(0, 1, 1, 10)),
        (31, 8, asked(0, 9, 9, 10)),
        (31, 8, asked(1, 9, 9, 0)),
        (32, 0, asked(0, 9, 9, 1)),
    ];
    for (number, inner, fault) in faults {
        let checks = [asked(7, 9, 8, 1), fault, asked(0, 0, 0, 0)];
        let bytes = record(&givens, &[placed(9, 9, 1)], 1, &checks);
        stage.not_reopened(&bytes, &g(), refusal(number, 2, inner))?;
    }
    Ok(())
}

/// G with these cells changed.
fn g_with(changes: &[(usize, u8)]) -> Grid {
    let mut grid = g();
    for &(cell, digit) in changes {
        grid[cell - 1] = digit;
    }
    grid
}

/// Each pair of neighbouring numbers from 17 to 33: two faults, and the one that decides.
fn two_faults(stage: &mut Stage) -> Compared {
    let all = all_but_the_last();
    let everything = givens_of(&g(), 1..=81);
    let falling = [[1, 2, g()[1]], [1, 1, g()[0]]];
    let (seven, eight) = (placed(9, 9, 7), placed(9, 9, 8));
    let check = asked(1, 9, 9, 7);
    let conflict = g_with(&[(2, g()[0])]);
    let mut cut_and_large = record(&[], &[made(kind::WRITE_MARK, 1, 1, 1); 1025], 0, &[]);
    cut_and_large.push(9);
    let mut cut_and_late = record(&[], &[seven], 0, &[asked(1025, 9, 9, 7)]);
    cut_and_late.extend([7, 1]);
    let mut wrong_given = all.clone();
    wrong_given[40][2] = wrong_given[40][2] % 9 + 1;
    let l = |moves: &[Move], undone, checks: &[Check]| record(&all, moves, undone, checks);
    let faults = [
        (cut_and_large, g(), refusal(17, 1027, 0)),
        (cut_and_late, g(), refusal(17, 4, 0)),
        (record(&falling, &[seven], 0, &[asked(1025, 9, 9, 7)]), g(), refusal(18, 0, 0)),
        (record(&falling, &[], 1, &[]), g(), refusal(19, 0, 0)),
        (record(&[], &[], 1, &[check]), g(), refusal(20, 0, 0)),
        (record(&everything, &[], 0, &[check]), g(), refusal(21, 0, 0)),
        (record(&everything, &[seven], 0, &[]), [0; 81], refusal(22, 0, 0)),
        (record(&[], &[], 0, &[]), g_with(&[(2, 0), (3, 10)]), refusal(23, 2, 0)),
        (record(&[], &[], 0, &[]), g_with(&[(2, 10), (3, 0)]), refusal(24, 2, 0)),
        (record(&[], &[], 0, &[]), g_with(&[(1, g()[1]), (81, 10)]), refusal(24, 81, 0)),
        (record(&[[10, 1, 1]], &[], 0, &[]), conflict, refusal(25, 1, 2)),
        (record(&[[0, 1, 1], [1, 1, 9]], &[], 0, &[]), g(), refusal(26, 1, 0)),
        (record(&[[1, 1, 9], [10, 1, 1]], &[], 0, &[]), g(), refusal(27, 1, 0)),
        (record(&wrong_given, &[eight, seven], 0, &[]), g(), refusal(27, 41, 0)),
        (l(&[eight, placed(0, 0, 5)], 0, &[]), g(), refusal(28, 2, 0)),
        (l(&[placed(0, 0, 5), eight, seven], 0, &[]), g(), refusal(29, 1, 3)),
        (l(&[placed(1, 1, 5), eight], 1, &[]), g(), refusal(29, 1, 5)),
        (l(&[eight, seven], 2, &[]), g(), refusal(28, 2, 0)),
        (l(&[eight], 1, &[asked(1, 0, 0, 5)]), g(), refusal(30, 0, 0)),
        (l(&[seven], 0, &[asked(0, 0, 0, 5)]), g(), refusal(31, 1, 3)),
        (l(&[seven], 0, &[asked(0, 9, 9, 7), asked(1, 0, 0, 5)]), g(), refusal(32, 1, 0)),
        (l(&[seven], 0, &[asked(0, 9, 9, 8)]), g(), refusal(32, 1, 0)),
        (l(&[seven], 0, &[asked(1, 9, 9, 8), asked(0, 9, 9, 8)]), g(), refusal(33, 1, 0)),
        (l(&[seven], 0, &[check, asked(1, 9, 9, 8), asked(1, 9, 9, 10)]), g(), refusal(33, 2, 0)),
    ];
    for (bytes, solution, expected) in faults {
        stage.not_reopened(&bytes, &solution, expected)?;
    }
    Ok(())
}

fn two_faults_in_opening(stage: &mut Stage) -> Compared {
    let mut falling = givens_of(&g(), 1..=81);
    falling.push([1, 1, 1]);
    let everything = givens_of(&g(), 1..=81);
    stage.not_opened(&falling, &[0; 81], refusal(19, 0, 0))?;
    stage.not_opened(&[[1, 1, 1], [1, 1, 1]], &g(), refusal(19, 0, 0))?;
    stage.not_opened(&everything, &[0; 81], refusal(22, 0, 0))?;
    stage.not_opened(&everything, &g(), refusal(22, 0, 0))?;
    stage.not_opened(&[[0, 0, 0]], &g_with(&[(80, 0), (81, 10)]), refusal(23, 80, 0))?;
    stage.not_opened(&[[0, 0, 0]], &g_with(&[(80, 10), (81, 0)]), refusal(24, 80, 0))?;
    stage.not_opened(&[[0, 0, 0]], &g_with(&[(80, 255), (1, 2)]), refusal(24, 80, 0))?;
    stage.not_opened(&[[0, 0, 0]], &g_with(&[(81, 9)]), refusal(25, 9, 81))?;
    stage.not_opened(&[[1, 1, 1], [1, 1, 2], [10, 10, 1]], &g(), refusal(27, 2, 0))?;
    stage.not_opened(&[[1, 1, 1], [1, 2, 2], [1, 10, 1], [2, 1, 1]], &g(), refusal(26, 3, 0))?;
    let off_grid: Vec<[u8; 3]> = (0..=255).map(|column| [0, column, 1]).collect();
    stage.not_opened(&off_grid, &g(), refusal(22, 0, 0))?;
    stage.not_opened(&off_grid[..80], &g(), refusal(26, 1, 0))
}

fn many_items(stage: &mut Stage) -> Compared {
    let mark = made(kind::WRITE_MARK, 1, 1, 1);
    let toggled = |count: usize| {
        let toggle = |n| if n % 2 == 0 { mark } else { made(kind::STRIKE_MARK, 1, 1, 1) };
        (0..count).map(toggle).collect::<Vec<Move>>()
    };
    let check = asked(1024, 9, 9, 7);
    stage.reopen(&record(&[], &toggled(1024), 1024, &[check; 256]), &g())?;
    stage.reopen(&record(&[], &toggled(1024), 0, &[check; 256]), &g())?;
    stage.not_reopened(&record(&[], &toggled(1025), 0, &[]), &g(), refusal(18, 0, 0))?;
    stage.not_reopened(&record(&[], &toggled(1), 0, &[check; 257]), &g(), refusal(18, 0, 0))?;
    stage.not_reopened(&record(&[], &toggled(1024), 1025, &[]), &g(), refusal(20, 0, 0))?;
    let far = record(&[], &[mark; 70_000], 0, &[]);
    stage.not_reopened(&far, &g(), refusal(18, 0, 0))?;
    stage.not_reopened(&far[..far.len() - 1], &g(), refusal(17, 70_001, 0))?;
    let many: Vec<[u8; 3]> = (0..=255).flat_map(|row| (0..=255).map(move |column| [row, column, 1])).collect();
    stage.not_reopened(&record(&many, &[], 0, &[]), &g(), refusal(22, 0, 0))?;
    let mut falling = many;
    falling.push([255, 255, 1]);
    stage.not_reopened(&record(&falling, &[], 0, &[]), &g(), refusal(19, 0, 0))
}

fn checks_of_undone_lines(stage: &mut Stage) -> Compared {
    let mut pair = stage.e()?;
    for n in 1..=9 {
        stage.call(&mut pair, Call::Place(n, n, n), 0)?;
    }
    stage.call(&mut pair, Call::Check(9, 9), 0)?;
    for _ in 0..9 {
        stage.call(&mut pair, Call::Undo, 0)?;
    }
    stage.call(&mut pair, Call::Pencil(1, 1, 1), 0)?;
    same("one move, and a check with standing 9", &(1, 1), &(pair.ours.board.made, pair.ours.board.checks))?;
    pair.step(Step::Reopen, stage.counts)?;
    same_bytes("the check", &[9, 0, 9, 9, 9, 0], &pair.ours.memory.checks[..6])?;
    stage.finish(pair)
}

//! The calls of a session once more, as one list of bytes through the library's own run.

use crate::bytes::{ACCEPTED, refusal};
use crate::call::Call;
use crate::ours::Ours;
use crate::pair::Compared;
use crate::report::{Counts, same, same_bytes};
use crate::rng::Rng;
use crate::stored;
use crate::theirs::{State, Theirs};
use pawdoku::{Refusal, call};

/// The calls since a board was opened or reopened, with what each was answered.
#[derive(Debug, Clone)]
pub struct List {
    start: Ours,
    calls: Vec<[u8; 4]>,
    answers: Vec<[u8; 4]>,
}

impl List {
    /// No calls yet.
    pub fn new(start: &Ours) -> Self {
        Self { start: start.clone(), calls: Vec::new(), answers: Vec::new() }
    }

    /// How many calls.
    pub fn len(&self) -> usize {
        self.calls.len()
    }

    /// Keeps the session for the stored answers, with the original's board at its end.
    pub fn keep(&self, theirs: &Theirs, state: &State) {
        stored::session(&self.start.board, &self.calls, &self.answers, theirs, state);
    }

    /// One more call, and its answer.
    pub fn add(&mut self, call: Call, said: Refusal, verdict: u8) {
        let [low, high, ..] = said.place.to_le_bytes();
        self.calls.push(call.encoded());
        self.answers.push([said.number, low, high, verdict]);
    }

    /// Runs the list from its start, in pieces, with groups among them that encode no call, and compares answers,
    /// board and memory with what the single calls left.
    pub fn replay(&self, end: &Ours, counts: &mut Counts) -> Compared {
        let mut rng = Rng::new(self.calls.len() as u64);
        let mut ours = self.start.clone();
        let (mut calls, mut answers) = (self.calls.as_slice(), self.answers.as_slice());
        while !calls.is_empty() {
            let count = rng.within(1, calls.len().min(400));
            run_piece(&mut ours, &calls[..count], &answers[..count], &mut rng, counts)?;
            (calls, answers) = (&calls[count..], &answers[count..]);
        }
        same("the board after a list of calls", &end.board, &ours.board)?;
        same_bytes("the journal after a list of calls", &end.memory.journal, &ours.memory.journal)?;
        same_bytes("the checks after a list of calls", &end.memory.checks, &ours.memory.checks)
    }
}

fn run_piece(ours: &mut Ours, calls: &[[u8; 4]], answers: &[[u8; 4]], rng: &mut Rng, counts: &mut Counts) -> Compared {
    let (mut bytes, mut expected) = (Vec::new(), Vec::new());
    for (call, answer) in calls.iter().zip(answers) {
        if rng.percent(5) {
            bytes.extend(no_call(*call, rng));
            expected.extend([255, 0, 0, 0]);
            counts.refused(refusal(255, 0, 0));
        }
        bytes.extend(unused_bytes_filled(*call, rng));
        expected.extend(answer);
    }
    // An incomplete group at the end is no call, and bytes behind the answers stay.
    bytes.extend([call::UNDO, 0, 0].iter().take(rng.below(4)));
    let (run, behind) = (expected.len(), rng.below(8));
    expected.resize(run + behind, 0x5a);
    let mut found = vec![0x5a; run + behind];
    let said = ours.play(&bytes, &mut found);
    counts.listed += calls.len() as u64;
    same("the list of calls", &ACCEPTED, &said)?;
    same_bytes("answers of the list of calls", &expected, &found)
}

/// A group that encodes no call: often by 2 to 8, the numbers of versions 1 to 3, four of them the kinds of a move. In
/// half of them the rest is that of the next call, so that a number taken for a call after all does something.
fn no_call([_, row, column, digit]: [u8; 4], rng: &mut Rng) -> [u8; 4] {
    let any = rng.byte();
    let other = if (call::PLACE..=call::CHECK).contains(&any) { 0 } else { any };
    let first = rng.pick(&[2, 3, 4, 5, 6, 7, 8, call::PLACE - 1, call::CHECK + 1, other, other, other]);
    if rng.percent(50) { [first, row, column, digit] } else { [first, rng.byte(), rng.byte(), rng.byte()] }
}

/// A call's bytes, with anything in those that it does not use.
fn unused_bytes_filled([which, row, column, digit]: [u8; 4], rng: &mut Rng) -> [u8; 4] {
    match which {
        call::UNDO | call::REDO => [which, rng.byte(), rng.byte(), rng.byte()],
        call::ERASE | call::CHECK => [which, row, column, rng.byte()],
        _ => [which, row, column, digit],
    }
}

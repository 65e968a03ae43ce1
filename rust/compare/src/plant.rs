//! Errors planted into the library's answers, to see that the comparison finds them. None is planted in an ordinary
//! run. The first ones are those that document 01 says the board invites.

use crate::bytes::refusal;
use crate::call::Call;
use crate::grid::{cell_of, peers};
use crate::ours::Ours;
use pawdoku::sys::Written;
use pawdoku::{Board, Refusal};

/// A planted error.
#[derive(Debug, Clone, Copy, PartialEq, Eq)]
pub enum Plant {
    /// None: the library as it is.
    Nothing,
    /// Placing clears the target's own note.
    OwnNoteCleared,
    /// Placing strikes only peers that are empty.
    FilledPeersKeepMarks,
    /// Undoing a placement writes the mark into all twenty peers.
    UndoMarksAllPeers,
    /// Solved is when the digits are the solution's.
    SolvedBySolution,
    /// Undo leaves the digit before out.
    UndoForgetsDigitBefore,
    /// The last peer is left out of the mask.
    MaskMissesLastPeer,
    /// Redo writes its slot once more, behind the others.
    RedoWritesSlot,
    /// A check always says right.
    AlwaysRight,
    /// A check stores made in place of standing.
    CheckStoresMade,
    /// Undo is refused with one move left.
    UndoTooEarly,
    /// The 1,024th move is refused.
    FullTooEarly,
    /// A refusal 9 says 8.
    WrongNumber,
    /// Refused openings leave the memory as it was lent.
    MemoryNotCleared,
    /// A move refused on reopening is counted from 0.
    PlaceFromZero,
    /// The undone count is written as 0.
    NothingUndoneWritten,
    /// Check standing 1,024 is refused on reopening.
    LateCheckRefused,
    /// Reopening drops the notes.
    NotesLostOnReopening,
    /// An answer in a list of calls has another verdict.
    VerdictInList,
    /// The character that is no line's is counted from 0.
    CharacterFromZero,
    /// A line has the player's digits too.
    PlayersDigitInLine,
    /// A key counts cells that conflict.
    ClashesCount,
    /// The whole keypad counts them.
    ClashesCountOnKeypad,
    /// The pencil leaves a mark that is present: it only writes.
    PencilNeverStrikes,
}

impl Plant {
    /// All errors, by name.
    pub const ALL: [(&'static str, Self); 23] = [
        ("own-note-cleared", Self::OwnNoteCleared),
        ("filled-peers-keep-marks", Self::FilledPeersKeepMarks),
        ("undo-marks-all-peers", Self::UndoMarksAllPeers),
        ("solved-by-solution", Self::SolvedBySolution),
        ("undo-forgets-digit-before", Self::UndoForgetsDigitBefore),
        ("mask-misses-last-peer", Self::MaskMissesLastPeer),
        ("redo-writes-slot", Self::RedoWritesSlot),
        ("always-right", Self::AlwaysRight),
        ("check-stores-made", Self::CheckStoresMade),
        ("undo-too-early", Self::UndoTooEarly),
        ("full-too-early", Self::FullTooEarly),
        ("wrong-number", Self::WrongNumber),
        ("memory-not-cleared", Self::MemoryNotCleared),
        ("place-from-zero", Self::PlaceFromZero),
        ("nothing-undone-written", Self::NothingUndoneWritten),
        ("late-check-refused", Self::LateCheckRefused),
        ("notes-lost-on-reopening", Self::NotesLostOnReopening),
        ("verdict-in-list", Self::VerdictInList),
        ("character-from-zero", Self::CharacterFromZero),
        ("players-digit-in-line", Self::PlayersDigitInLine),
        ("clashes-count", Self::ClashesCount),
        ("clashes-count-on-keypad", Self::ClashesCountOnKeypad),
        ("pencil-never-strikes", Self::PencilNeverStrikes),
    ];

    /// The error of this name.
    pub fn named(name: &str) -> Option<Self> {
        Self::ALL.iter().find(|(other, _)| *other == name).map(|(_, plant)| *plant)
    }

    /// What becomes of an opening or a reopening.
    pub fn opened(self, said: Refusal, ours: &mut Ours) -> Refusal {
        match self {
            Self::MemoryNotCleared if said.number > 19 => ours.memory.journal[0] = 1,
            Self::PlaceFromZero if said.number == 29 => return refusal(29, said.place - 1, said.inner),
            Self::NotesLostOnReopening if said.number == 0 => ours.board.notes = [0; 81],
            Self::LateCheckRefused if said.number == 0 => {
                let stored = ours.memory.checks.chunks_exact(6).take(ours.board.checks);
                if stored.into_iter().any(|check| check[..2] == [0, 4]) {
                    return refusal(18, 0, 0);
                }
            }
            _ => {}
        }
        said
    }

    /// What becomes of a play call that was made on `before`.
    pub fn called(self, call: Call, before: &Board, said: (Refusal, u8), ours: &mut Ours) -> (Refusal, u8) {
        if said.0.number != 0 {
            return match self {
                Self::WrongNumber if said.0.number == 9 => (refusal(8, 0, 0), said.1),
                _ => said,
            };
        }
        match (self, call) {
            (Self::AlwaysRight, Call::Check(..)) => return (said.0, 1),
            (Self::UndoTooEarly, Call::Undo) if before.standing == 1 => {
                ours.board = *before;
                return (refusal(12, 0, 0), 0);
            }
            (Self::FullTooEarly, call) if call.is_move() && before.standing == 1023 => {
                ours.board = *before;
                return (refusal(15, 0, 0), 0);
            }
            _ => {
                self.noted(call, before, ours);
                self.kept(call, before, ours);
            }
        }
        said
    }

    /// What becomes of the notes.
    fn noted(self, call: Call, before: &Board, ours: &mut Ours) {
        match (self, call) {
            (Self::OwnNoteCleared, Call::Place(row, column, _)) => {
                ours.board.notes[cell_of(row, column) - 1] = 0;
            }
            (Self::PencilNeverStrikes, Call::Pencil(row, column, digit)) => {
                ours.board.notes[cell_of(row, column) - 1] |= 1 << digit;
            }
            (Self::FilledPeersKeepMarks, Call::Place(row, column, _)) => {
                for &peer in peers(cell_of(row, column)) {
                    if before.digits[peer - 1] != 0 {
                        ours.board.notes[peer - 1] = before.notes[peer - 1];
                    }
                }
            }
            (Self::UndoMarksAllPeers, Call::Undo) => {
                let slot = slot(ours, before.standing);
                if slot[0] == pawdoku::kind::PLACE {
                    for &peer in peers(cell_of(slot[1], slot[2])) {
                        ours.board.notes[peer - 1] |= 1 << slot[3];
                    }
                }
            }
            _ => {}
        }
    }

    /// What becomes of digits, of solved, and of the lent memory.
    fn kept(self, call: Call, before: &Board, ours: &mut Ours) {
        match (self, call) {
            (Self::SolvedBySolution, Call::Place(..)) => {
                ours.board.solved = u8::from(ours.board.digits == ours.board.solution);
            }
            (Self::UndoForgetsDigitBefore, Call::Undo) => {
                let slot = slot(ours, before.standing);
                if slot[0] == pawdoku::kind::PLACE {
                    ours.board.digits[cell_of(slot[1], slot[2]) - 1] = 0;
                }
            }
            (Self::MaskMissesLastPeer, Call::Place(..)) => {
                ours.memory.journal[8 * ours.board.standing - 1] &= 7;
            }
            (Self::RedoWritesSlot, Call::Redo) if ours.board.standing < 1024 => {
                ours.memory.journal[8 * ours.board.standing] ^= 1;
            }
            (Self::CheckStoresMade, Call::Check(..)) => {
                let [low, high, ..] = ours.board.made.to_le_bytes();
                let at = 6 * (ours.board.checks - 1);
                ours.memory.checks[at..at + 2].copy_from_slice(&[low, high]);
            }
            _ => {}
        }
    }

    /// What becomes of a written record.
    pub fn written(self, record: &mut [u8]) {
        let Ok(mut items) = crate::bytes::Items::read(record) else {
            return;
        };
        if self == Self::NothingUndoneWritten {
            items.undone = 0;
            record.copy_from_slice(&items.write());
        }
    }

    /// What becomes of the answers of a list.
    pub fn listed(self, answers: &mut [u8]) {
        if self == Self::VerdictInList && answers.len() >= 4 {
            answers[3] ^= 1;
        }
    }

    /// What becomes of the answer to a line that is read.
    pub fn line_read(self, written: &mut Written) {
        if self == Self::CharacterFromZero && written.refusal.number == 37 {
            written.refusal.place -= 1;
        }
    }

    /// What becomes of the digits left for a key.
    pub fn left(self, board: &Board, digit: u8, left: u8) -> u8 {
        if self == Self::ClashesCount && (1..=9).contains(&digit) { not_held(board, digit) } else { left }
    }

    /// What becomes of the whole keypad.
    pub fn keypad(self, board: &Board, left: [u8; 9]) -> [u8; 9] {
        let wrong = self == Self::ClashesCountOnKeypad;
        if wrong { std::array::from_fn(|at| not_held(board, at as u8 + 1)) } else { left }
    }

    /// What becomes of a line that is written, none of it where that was refused.
    pub fn line_written(self, board: &Board, line: &mut [u8]) {
        if self == Self::PlayersDigitInLine {
            for (character, digit) in line.iter_mut().zip(board.digits).filter(|(_, digit)| *digit != 0) {
                *character = b'0' + digit;
            }
        }
    }
}

/// Nine less the cells that hold the digit, never below 0: the keypad before document 02.
fn not_held(board: &Board, digit: u8) -> u8 {
    let held = board.digits.iter().filter(|&&held| held == digit).count();
    u8::try_from(9_usize.saturating_sub(held)).unwrap_or(0)
}

fn slot(ours: &Ours, move_number: usize) -> [u8; 8] {
    core::array::from_fn(|at| ours.memory.journal[8 * (move_number - 1) + at])
}

//! The Rust original, asked through its public functions, its `serde` feature and, for what is private, its `Debug`
//! text. Its errors become the numbers of document 01.

use crate::bytes::{ACCEPTED, Check, Items, Move, refusal};
use crate::call::Call;
use crate::grid::{Grid, cell_of, peers, position_of};
use original::board::{Board, BoardCell, Move as Made, MoveKind, Note, PlayError, Record, ReopenError};
use original::solver::{SolveError, load};
use original::sudoku::{Given, Position, Status, WellPosedError};
use pawdoku::{Refusal, kind};
use serde::{Deserialize, Serialize};

/// What a board shows and keeps.
#[derive(Debug, Clone, PartialEq, Eq)]
pub struct State {
    /// The digits, 0 for none.
    pub digits: Grid,
    /// 1 for a given.
    pub given: [u8; 81],
    /// Does the cell conflict?
    pub conflicting: [bool; 81],
    /// The notes that are shown.
    pub shown: [Option<u16>; 81],
    /// All kept notes, as the reading of the latest standing move has them.
    pub notes: [u16; 81],
    /// Is the board solved?
    pub solved: bool,
    /// Moves made.
    pub made: usize,
    /// Moves that stand.
    pub standing: usize,
    /// The latest of them, as the original keeps it.
    pub latest: Option<Move>,
    /// Checks.
    pub checks: usize,
}

impl State {
    /// Digits left for a key, which the original does not say: documents 01 and 02 add the keypad. Nine less the cells
    /// that hold the digit and of which the original says that they do not conflict.
    pub fn left(&self, digit: u8) -> u8 {
        let cells = self.digits.iter().zip(&self.conflicting);
        9 - cells.map(|(&held, &conflicting)| u8::from(held == digit && !conflicting)).sum::<u8>()
    }

    /// The same for each key from 1 to 9.
    pub fn keypad(&self) -> [u8; 9] {
        std::array::from_fn(|at| self.left(at as u8 + 1))
    }
}

/// The reading of one move.
#[derive(Debug, Clone, PartialEq, Eq)]
pub struct Reading {
    /// Its kind, row, column and digit.
    pub made: Move,
    /// Counted from 1.
    pub index: usize,
    /// Is it undone?
    pub undone: bool,
    /// The digits after it.
    pub digits: Grid,
    /// The notes after it.
    pub notes: [u16; 81],
}

/// A board of the original.
#[derive(Debug, Clone)]
pub struct Theirs {
    board: Board,
}

const fn at(row: u8, column: u8) -> Position {
    Position::new(row, column)
}

fn cell_at(position: Position) -> usize {
    cell_of(position.row(), position.column())
}

/// A note as bits.
pub fn bits(note: Note) -> u16 {
    note.digits().fold(0, |bits, digit| bits | 1 << digit)
}

fn number_of(error: &PlayError) -> u8 {
    match error {
        PlayError::NoSuchCell { .. } => 3,
        PlayError::Solved => 4,
        PlayError::GivenCell { .. } => 5,
        PlayError::NoPlayersDigit { .. } => 6,
        PlayError::MarksNotAccepted { .. } => 7,
        PlayError::DigitOutOfRange { .. } => 8,
        PlayError::DigitAlreadyStands { .. } => 9,
        PlayError::MarkAlreadyWritten { .. } => 10,
        PlayError::MarkNotThere { .. } => 11,
        PlayError::NothingToUndo => 12,
        PlayError::NothingToRedo => 13,
        other => panic!("the original refuses by {other:?}, which has no number"),
    }
}

fn posed(error: &SolveError, givens: &[[u8; 3]]) -> Refusal {
    let index = |given: &Given| {
        let bytes = [given.position().row(), given.position().column(), given.digit()];
        givens.iter().position(|other| *other == bytes).map_or(0, |at| at + 1)
    };
    let SolveError::NotPosed(error) = error;
    match error {
        WellPosedError::NothingLeftToPlay { .. } => refusal(22, 0, 0),
        WellPosedError::SolutionNotFull { position } => refusal(23, cell_at(*position), 0),
        WellPosedError::SolutionDigitOutOfRange { position, .. } => refusal(24, cell_at(*position), 0),
        WellPosedError::SolutionConflict { first, second, .. } => {
            refusal(25, cell_at(*first), u8::try_from(cell_at(*second)).unwrap_or(0))
        }
        WellPosedError::GivenOffGrid { given } => refusal(26, index(given), 0),
        WellPosedError::GivenMismatch { given, .. } => refusal(27, index(given), 0),
        other => panic!("the original refuses by {other:?}, which has no number"),
    }
}

fn reopened(error: &ReopenError, givens: &[[u8; 3]]) -> Refusal {
    match error {
        ReopenError::TooManyUndone { .. } => refusal(20, 0, 0),
        ReopenError::ChecksWithoutMoves { .. } => refusal(21, 0, 0),
        ReopenError::Givens { source } => posed(source, givens),
        ReopenError::MoveAfterSolved { index } => refusal(28, *index, 0),
        ReopenError::Move { index, source } => refusal(29, *index, number_of(source)),
        ReopenError::UndoneWhenSolved { .. } => refusal(30, 0, 0),
        ReopenError::Check { index, source: PlayError::Solved } => refusal(33, *index, 0),
        ReopenError::Check { index, source } => refusal(31, *index, number_of(source)),
        ReopenError::CheckAfterNoMove { index } => refusal(32, *index, 0),
        other => panic!("the original refuses by {other:?}, which has no number"),
    }
}

/// The pencil, which the original does not have: of its two mark calls the one that fits the mark's presence. A digit
/// out of range is never present, so writing is asked, which says 8 where striking would say 11. A cell that holds a
/// digit shows no note: either call refuses it by 7, as both say 3 and 4.
fn pencil(board: &mut Board, position: Position, digit: u8) -> Result<(), PlayError> {
    let note = board.cell(position).and_then(BoardCell::note);
    if note.is_some_and(|note| note.contains(digit)) {
        board.strike_mark(position, digit)
    } else {
        board.write_mark(position, digit)
    }
}

impl Theirs {
    /// Opens; the givens ascend.
    pub fn open(givens: &[[u8; 3]], solution: &Grid) -> Result<Self, Refusal> {
        load(solution);
        let given = |&[row, column, digit]: &[u8; 3]| Given::new(at(row, column), digit);
        match Board::open(givens.iter().map(given)) {
            Ok(board) => Ok(Self { board }),
            Err(error) => Err(posed(&error, givens)),
        }
    }

    /// Reopens; the givens ascend.
    pub fn reopen(items: &Items, solution: &Grid) -> Result<Self, Refusal> {
        load(solution);
        match Board::reopen(&record_of(items)) {
            Ok(board) => Ok(Self { board }),
            Err(error) => Err(reopened(&error, &items.givens)),
        }
    }

    /// Makes a call: the refusal, and a check's verdict.
    pub fn call(&mut self, call: Call) -> (Refusal, bool) {
        let board = &mut self.board;
        let answer = match call {
            Call::Place(row, column, digit) => board.place(at(row, column), digit).map(|()| false),
            Call::Erase(row, column) => board.erase(at(row, column)).map(|()| false),
            Call::Pencil(row, column, digit) => pencil(board, at(row, column), digit).map(|()| false),
            Call::Undo => board.undo().map(|()| false),
            Call::Redo => board.redo().map(|()| false),
            Call::Check(row, column) => board.check(at(row, column)).map(original::board::Check::is_right),
        };
        match answer {
            Ok(verdict) => (ACCEPTED, verdict),
            Err(error) => (refusal(number_of(&error), 0, 0), false),
        }
    }

    /// What the board shows and keeps now.
    pub fn state(&self) -> State {
        let mut state = State {
            digits: [0; 81],
            given: [0; 81],
            conflicting: [false; 81],
            shown: [None; 81],
            notes: [0; 81],
            solved: self.board.status() == Status::Solved,
            made: 0,
            standing: 0,
            latest: None,
            checks: self.board.checks().count(),
        };
        for (cell, n) in self.board.cells().zip(0..) {
            state.digits[n] = cell.digit().unwrap_or(0);
            state.given[n] = u8::from(cell.is_given());
            state.conflicting[n] = cell.is_conflicting();
            state.shown[n] = cell.note().map(bits);
        }
        let mut latest = None;
        for made in self.board.moves() {
            state.made += 1;
            if !made.is_undone() {
                latest = Some(made);
            }
        }
        if let Some(made) = latest {
            state.standing = made.index();
            state.latest = Some(move_of(&made));
            state.notes = notes_after(&made);
        }
        state
    }

    /// The readings of all moves.
    pub fn readings(&self) -> Vec<Reading> {
        self.board.moves().map(|made| reading_of(&made)).collect()
    }

    /// The reading of move k, if there is one.
    pub fn reading(&self, k: usize) -> Option<Reading> {
        let made = self.board.moves().nth(k.checked_sub(1)?)?;
        Some(reading_of(&made))
    }

    /// The slots of all moves: what each displaced is seen from the reading before it and its own.
    pub fn slots(&self) -> Vec<[u8; 8]> {
        let mut digits = [0; 81];
        for (cell, digit) in self.board.cells().zip(&mut digits) {
            *digit = if cell.is_given() { cell.digit().unwrap_or(0) } else { 0 };
        }
        let mut notes = [0; 81];
        let mut slots = Vec::new();
        for reading in self.readings() {
            slots.push(slot_of(reading.made, (&digits, &notes), &reading.notes));
            (digits, notes) = (reading.digits, reading.notes);
        }
        slots
    }

    /// Check n as it is stored, for each.
    pub fn checks(&self) -> Vec<[u8; 6]> {
        let stored = |check: original::board::Check| {
            let standing = u16::try_from(check.after_move()).unwrap_or(u16::MAX).to_le_bytes();
            let target = check.target();
            [standing[0], standing[1], target.row(), target.column(), check.digit(), u8::from(check.is_right())]
        };
        self.board.checks().map(stored).collect()
    }

    /// What the record of the board says.
    pub fn write(&self) -> Items {
        items_of(&self.board.write())
    }

    /// The question for a cell: accepts marks, holds a player's digit.
    pub fn cell(&self, row: u8, column: u8) -> Option<(bool, bool)> {
        let cell = self.board.cell(at(row, column))?;
        Some((cell.accepts_marks(), cell.holds_players_digit()))
    }

    /// Is full, is consistent, can undo, can redo.
    pub fn flags(&self) -> [bool; 4] {
        let board = &self.board;
        [board.is_full(), board.is_consistent(), board.can_undo(), board.can_redo()]
    }

    /// Notes as they are shown, with their length and whether they are empty.
    pub fn shown_notes(&self) -> Vec<(u16, usize, bool)> {
        let notes = self.board.cells().filter_map(BoardCell::note);
        notes.map(|note| (bits(note), note.len(), note.is_empty())).collect()
    }

    /// What is private, from the `Debug` text: the kept notes, and the slots with what each move struck.
    pub fn private(&self) -> Option<([u16; 81], Vec<[u8; 8]>)> {
        let text = format!("{:?}", self.board);
        let (_, text) = text.split_once("notes: Notes { notes: [")?;
        let (notes, text) = text.split_once("journal: Journal { made: [")?;
        let (moves, _) = text.split_once("], standing: ")?;
        Some((private_notes(notes)?, private_slots(moves)?))
    }
}

fn notes_after(made: &Made) -> [u16; 81] {
    core::array::from_fn(|n| {
        let (row, column) = position_of(n + 1);
        bits(made.note_after(at(row, column)))
    })
}

fn kind_of(made: MoveKind) -> u8 {
    match made {
        MoveKind::Place => kind::PLACE,
        MoveKind::Erase => kind::ERASE,
        MoveKind::WriteMark => kind::WRITE_MARK,
        MoveKind::StrikeMark => kind::STRIKE_MARK,
        other => panic!("the original has a move of kind {other:?}"),
    }
}

fn move_of(made: &Made) -> Move {
    Move {
        kind: kind_of(made.kind()),
        row: made.target().row(),
        column: made.target().column(),
        digit: made.digit().unwrap_or(0),
    }
}

fn reading_of(made: &Made) -> Reading {
    let digits = core::array::from_fn(|n| {
        let (row, column) = position_of(n + 1);
        made.digit_after(at(row, column)).unwrap_or(0)
    });
    let (index, undone) = (made.index(), made.is_undone());
    Reading { made: move_of(made), index, undone, digits, notes: notes_after(made) }
}

/// The slot of a move, from digits and notes before it and notes after it.
pub fn slot_of(made: Move, before: (&Grid, &[u16; 81]), notes_after: &[u16; 81]) -> [u8; 8] {
    let cell = cell_of(made.row, made.column);
    let displaced = if matches!(made.kind, kind::PLACE | kind::ERASE) { before.0[cell - 1] } else { 0 };
    let mut mask = 0_u32;
    if made.kind == kind::PLACE {
        for (peer, bit) in peers(cell).iter().zip(0..) {
            let struck = before.1[peer - 1] & !notes_after[peer - 1];
            mask |= u32::from(struck >> made.digit & 1) << bit;
        }
    }
    let [low, middle, high, _] = mask.to_le_bytes();
    [made.kind, made.row, made.column, made.digit, displaced, low, middle, high]
}

/// The numbers in a text, in order.
fn numbers(text: &str) -> Vec<u8> {
    let words = text.split(|c: char| !c.is_ascii_digit());
    words.filter_map(|word| word.parse().ok()).collect()
}

fn private_notes(text: &str) -> Option<[u16; 81]> {
    let mut notes = [0; 81];
    let mut sets = text.split('{').skip(1);
    for note in &mut notes {
        let (set, _) = sets.next()?.split_once('}')?;
        *note = numbers(set).into_iter().fold(0, |bits, digit| bits | 1_u16 << digit);
    }
    Some(notes)
}

fn private_slots(text: &str) -> Option<Vec<[u8; 8]>> {
    // Each move begins by its name and "target: "; the name stands at the end of the part before.
    let parts: Vec<&str> = text.split(" { target: ").collect();
    parts.windows(2).map(|two| private_slot(two[0].rsplit(", ").next()?, two[1])).collect()
}

fn private_slot(name: &str, fields: &str) -> Option<[u8; 8]> {
    let kind = match name {
        "Place" => kind::PLACE,
        "Erase" => kind::ERASE,
        "WriteMark" => kind::WRITE_MARK,
        "StrikeMark" => kind::STRIKE_MARK,
        _ => return None,
    };
    let after = |field: &str| fields.split_once(field).and_then(|(_, rest)| numbers(rest).first().copied());
    let target = numbers(fields);
    let (row, column) = (*target.first()?, *target.get(1)?);
    let digit = after("digit: ").unwrap_or(0);
    let before = if fields.contains("before: None") { 0 } else { after("before: ").unwrap_or(0) };
    let struck = fields.split_once("struck: [").and_then(|(_, rest)| rest.split_once(']'));
    let struck = struck.map(|(list, _)| numbers(list)).unwrap_or_default();
    let struck: Vec<usize> = struck.chunks(2).map(|two| cell_of(two[0], two[1])).collect();
    let all = peers(cell_of(row, column));
    let mask = all.iter().zip(0..).fold(0_u32, |mask, (peer, bit)| mask | u32::from(struck.contains(peer)) << bit);
    // A cell struck that is no peer, or struck twice, would be lost in the mask.
    if usize::try_from(mask.count_ones()) != Ok(struck.len()) {
        return None;
    }
    let [low, middle, high, _] = mask.to_le_bytes();
    Some([kind, row, column, digit, before, low, middle, high])
}

// The shape in which the original's record goes through serde.

#[derive(Serialize, Deserialize, Clone, Copy)]
struct SerdePosition {
    row: u8,
    column: u8,
}

#[derive(Serialize, Deserialize)]
struct SerdeGiven {
    position: SerdePosition,
    digit: u8,
}

#[derive(Serialize, Deserialize)]
enum SerdeMove {
    Place { target: SerdePosition, digit: u8 },
    Erase { target: SerdePosition },
    WriteMark { target: SerdePosition, digit: u8 },
    StrikeMark { target: SerdePosition, digit: u8 },
}

#[derive(Serialize, Deserialize)]
struct SerdeCheck {
    after_move: usize,
    target: SerdePosition,
    digit: u8,
}

#[derive(Serialize, Deserialize)]
struct SerdeRecord {
    givens: Vec<SerdeGiven>,
    moves: Vec<SerdeMove>,
    undone: usize,
    checks: Vec<SerdeCheck>,
}

fn serde_move(made: &Move) -> SerdeMove {
    let target = SerdePosition { row: made.row, column: made.column };
    let digit = made.digit;
    match made.kind {
        kind::PLACE => SerdeMove::Place { target, digit },
        kind::ERASE => SerdeMove::Erase { target },
        kind::WRITE_MARK => SerdeMove::WriteMark { target, digit },
        _ => SerdeMove::StrikeMark { target, digit },
    }
}

fn plain_move(made: &SerdeMove) -> Move {
    let (kind, target, digit) = match *made {
        SerdeMove::Place { target, digit } => (kind::PLACE, target, digit),
        SerdeMove::Erase { target } => (kind::ERASE, target, 0),
        SerdeMove::WriteMark { target, digit } => (kind::WRITE_MARK, target, digit),
        SerdeMove::StrikeMark { target, digit } => (kind::STRIKE_MARK, target, digit),
    };
    Move { kind, row: target.row, column: target.column, digit }
}

fn record_of(items: &Items) -> Record {
    let given = |&[row, column, digit]: &[u8; 3]| SerdeGiven { position: SerdePosition { row, column }, digit };
    let check = |check: &Check| SerdeCheck {
        after_move: usize::from(check.standing),
        target: SerdePosition { row: check.row, column: check.column },
        digit: check.digit,
    };
    let shape = SerdeRecord {
        givens: items.givens.iter().map(given).collect(),
        moves: items.moves.iter().map(serde_move).collect(),
        undone: usize::from(items.undone),
        checks: items.checks.iter().map(check).collect(),
    };
    let text = serde_json::to_string(&shape).expect("a record is text");
    serde_json::from_str(&text).expect("the original reads its own shape")
}

fn items_of(record: &Record) -> Items {
    let text = serde_json::to_string(record).expect("a record is text");
    let shape: SerdeRecord = serde_json::from_str(&text).expect("the shape is the original's");
    let check = |check: &SerdeCheck| Check {
        standing: u16::try_from(check.after_move).unwrap_or(u16::MAX),
        row: check.target.row,
        column: check.target.column,
        digit: check.digit,
    };
    Items {
        givens: shape.givens.iter().map(|given| [given.position.row, given.position.column, given.digit]).collect(),
        moves: shape.moves.iter().map(plain_move).collect(),
        undone: u16::try_from(shape.undone).unwrap_or(u16::MAX),
        checks: shape.checks.iter().map(check).collect(),
    }
}

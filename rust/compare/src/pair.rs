//! The library and the original side by side: each step is made on both, and everything that can be seen afterwards
//! is compared.

use crate::bytes::{ACCEPTED, Items, ascend, refusal};
use crate::call::Call;
use crate::grid::{Grid, cell_of, position_of};
use crate::list::List;
use crate::ours::{Memory, Ours};
use crate::plant::Plant;
use crate::report::{Counts, same, same_bytes, same_cells};
use crate::script::Step;
use crate::stored;
use crate::theirs::{Reading, State, Theirs, slot_of};
use pawdoku::sys::{self, CellAnswer, KeypadAnswer, ReadingAnswer, Shown, YesNo};
use pawdoku::{Board, MAX_CHECKS, MAX_MOVES, Refusal, kind};

/// What differs, in words.
pub type Compared<T = ()> = Result<T, String>;

/// Both boards.
#[derive(Debug, Clone)]
pub struct Pair {
    /// The library's.
    pub ours: Ours,
    /// The original's.
    pub theirs: Theirs,
    /// What the original's board shows and keeps.
    pub state: State,
    /// The solution that both were opened with.
    pub solution: Grid,
    /// What the library answered to the last play call.
    pub last: (Refusal, u8),
    list: List,
}

/// Opens on both: a pair, or how both refuse.
pub fn open(givens: &[[u8; 3]], solution: &Grid, plant: Plant, counts: &mut Counts) -> Compared<Result<Pair, Refusal>> {
    counts.openings += 1;
    let expected = if ascend(givens) { Theirs::open(givens, solution) } else { Err(refusal(19, 0, 0)) };
    let (said, ours) = Ours::open(givens.as_flattened(), solution, plant);
    if expected.is_err() {
        stored::refused_opening(givens, solution, said);
    }
    paired("opening", expected, said, ours, solution, counts)
}

/// Reopens on both: a pair, or how both refuse.
pub fn reopen(record: &[u8], solution: &Grid, plant: Plant, counts: &mut Counts) -> Compared<Result<Pair, Refusal>> {
    counts.reopenings += 1;
    let expected = Items::read(record).and_then(|items| match items.refused_before_the_rest() {
        Some(refused) => Err(refused),
        None => Theirs::reopen(&items, solution),
    });
    let (said, ours) = Ours::reopen(record, solution, plant);
    let pair = paired("reopening", expected, said, ours, solution, counts)?;
    stored::reopening(record, solution, said);
    if let Ok(pair) = &pair {
        counts.reopened += 1;
        pair.memory_is_theirs()?;
        pair.compare_cells(counts)?;
        same_bytes("the record written again", record, &pair.written(counts)?)?;
    }
    Ok(pair)
}

fn paired(
    what: &str,
    expected: Result<Theirs, Refusal>,
    said: Refusal,
    ours: Ours,
    solution: &Grid,
    counts: &mut Counts,
) -> Compared<Result<Pair, Refusal>> {
    counts.refused(said);
    same(what, expected.as_ref().map_or_else(|refused| refused, |_| &ACCEPTED), &said)?;
    let theirs = match expected {
        Ok(theirs) => theirs,
        Err(refused) => {
            same("the board beside a refused opening", &Board::ZERO, &ours.board)?;
            same("memory is zero after a refused opening", &true, &ours.memory.is_zero())?;
            return Ok(Err(refused));
        }
    };
    let state = theirs.state();
    let list = List::new(&ours);
    let pair = Pair { ours, theirs, state, solution: *solution, last: (ACCEPTED, 0), list };
    pair.compare_board()?;
    if what == "opening" {
        same("memory is zero after an opening", &true, &pair.ours.memory.is_zero())?;
    }
    Ok(Ok(pair))
}

impl Pair {
    /// Makes one step on both.
    pub fn step(&mut self, step: Step, counts: &mut Counts) -> Compared {
        match step {
            Step::Call(call) => self.call(call, counts),
            Step::Write => self.written(counts).map(|_| ()),
            Step::Reopen => self.go_on_from_the_record(counts),
            Step::Reading(k) => self.compare_reading(k, self.theirs.reading(k).as_ref(), counts),
            Step::Cell(row, column) => self.compare_questions(row, column, counts),
            Step::Flags => self.compare_flags(counts),
            Step::Key(digit) => self.compare_key(digit, counts),
            Step::Shown => self.compare_shown(counts),
            Step::All => self.compare_all(counts),
        }
    }

    /// Ends a session: everything is compared, and its calls once more as a list.
    pub fn finish(&mut self, counts: &mut Counts) -> Compared {
        self.compare_all(counts)?;
        self.list.keep(&self.theirs, &self.state);
        self.list.replay(&self.ours, counts)
    }

    // Play calls.

    fn call(&mut self, call: Call, counts: &mut Counts) -> Compared {
        counts.calls += 1;
        let was = self.state.clone();
        let mut memory = self.ours.memory.clone();
        let board = self.ours.board;
        let expected = self.their_answer(call);
        let (said, verdict) = self.ours.call(call);
        counts.refused(said);
        same("refusal", &expected.0, &said)?;
        same("verdict", &u8::from(expected.1), &verdict)?;
        self.last = (said, verdict);
        self.list.add(call, said, verdict);
        if said == ACCEPTED {
            counts.accepted += 1;
            self.state = self.theirs.state();
            self.note_in(&mut memory, call, &was, verdict);
            self.count_marks(call, counts);
        } else {
            same("the board after a refused call", &board, &self.ours.board)?;
        }
        same_bytes("journal memory", &memory.journal, &self.ours.memory.journal)?;
        same_bytes("check memory", &memory.checks, &self.ours.memory.checks)?;
        self.compare_board()?;
        if was.digits == self.state.digits {
            self.compare_cell(1 + self.list.len() % 81, counts)?;
        } else {
            self.compare_cells(counts)?;
            self.count_ends(&was, counts);
        }
        Ok(())
    }

    /// What the original answers; where a limit of the lent memory is reached that it does not have, 15 or 16 come
    /// behind its own refusals.
    fn their_answer(&mut self, call: Call) -> (Refusal, bool) {
        let full = match call {
            Call::Check(..) => (self.state.checks == MAX_CHECKS).then_some(16),
            _ if call.is_move() => (self.state.standing == MAX_MOVES).then_some(15),
            _ => None,
        };
        let Some(number) = full else {
            return self.theirs.call(call);
        };
        match self.theirs.clone().call(call) {
            (ACCEPTED, _) => (refusal(number, 0, 0), false),
            refused => refused,
        }
    }

    /// Puts what an accepted call stores into what the memory was.
    fn note_in(&self, memory: &mut Memory, call: Call, was: &State, verdict: u8) {
        match (call, self.state.latest) {
            (Call::Check(row, column), _) => {
                let [low, high, ..] = was.standing.to_le_bytes();
                let digit = was.digits[cell_of(row, column) - 1];
                let check = [low, high, row, column, digit, verdict];
                memory.checks[6 * was.checks..6 * was.checks + 6].copy_from_slice(&check);
            }
            (call, Some(made)) if call.is_move() => {
                let slot = slot_of(made, (&was.digits, &was.notes), &self.state.notes);
                memory.journal[8 * was.standing..8 * was.standing + 8].copy_from_slice(&slot);
            }
            _ => {}
        }
    }

    /// Which of the two the pencil did, as the original keeps it.
    fn count_marks(&self, call: Call, counts: &mut Counts) {
        if let (Call::Pencil(..), Some(made)) = (call, self.state.latest) {
            counts.marks_written += u64::from(made.kind == kind::WRITE_MARK);
            counts.marks_struck += u64::from(made.kind == kind::STRIKE_MARK);
        }
    }

    fn count_ends(&self, was: &State, counts: &mut Counts) {
        if self.state.solved && !was.solved {
            counts.solved += 1;
            counts.solved_otherwise += u64::from(self.state.digits != self.solution);
        }
        let full = self.state.digits.iter().all(|&digit| digit != 0);
        counts.full_conflicting += u64::from(full && !self.state.solved);
    }

    // Board and memory.

    fn compare_board(&self) -> Compared {
        let (state, board) = (&self.state, &self.ours.board);
        same_cells("digits", &state.digits, &board.digits)?;
        same_cells("givens", &state.given, &board.given)?;
        same_cells("kept notes", &state.notes, &board.notes)?;
        let shown = |(shown, note): (&Option<u16>, &u16)| shown.is_none_or(|bits| bits == *note);
        same("shown notes", &true, &state.shown.iter().zip(&board.notes).all(shown))?;
        same_cells("solution", &self.solution, &board.solution)?;
        same("solved", &u8::from(state.solved), &board.solved)?;
        same("made", &state.made, &board.made)?;
        same("standing", &state.standing, &board.standing)?;
        same("checks", &state.checks, &board.checks)
    }

    /// Slots 1 to made and all checks are the original's, and zeros stand behind them.
    fn memory_is_theirs(&self) -> Compared {
        let mut memory = Memory::filled(0);
        for (slot, at) in self.theirs.slots().iter().zip(memory.journal.chunks_exact_mut(8)) {
            at.copy_from_slice(slot);
        }
        for (check, at) in self.theirs.checks().iter().zip(memory.checks.chunks_exact_mut(6)) {
            at.copy_from_slice(check);
        }
        same_bytes("journal memory", &memory.journal, &self.ours.memory.journal)?;
        same_bytes("check memory", &memory.checks, &self.ours.memory.checks)
    }

    /// Slots 1 to made and all checks are the original's; bytes behind them may be stale.
    fn stored_are_theirs(&self) -> Compared {
        let (slots, checks) = (self.theirs.slots(), self.theirs.checks());
        let memory = &self.ours.memory;
        same_bytes("slots", slots.as_flattened(), &memory.journal[..8 * slots.len()])?;
        same_bytes("stored checks", checks.as_flattened(), &memory.checks[..6 * checks.len()])?;
        let (notes, private) = self.theirs.private().ok_or("the original's private text is not understood")?;
        same_cells("kept notes, as the original holds them", &notes, &self.ours.board.notes)?;
        same_bytes("slots, as the original holds them", private.as_flattened(), &memory.journal[..8 * private.len()])
    }

    // Records.

    fn written(&self, counts: &mut Counts) -> Compared<Vec<u8>> {
        counts.writings += 1;
        let expected = self.theirs.write().write();
        let record = self.ours.write().map_err(|refused| format!("writing is refused: {refused}"))?;
        same_bytes("record", &expected, &record)?;
        let (board, memory) = (&self.ours.board, &self.ours.memory);
        let mut output = vec![0x5a; record.len() + 3];
        let written = sys::write(board, &memory.journal, &memory.checks, &mut output);
        same("the record's length", &record.len(), &written.length)?;
        same("bytes behind the record", &[0x5a; 3].as_slice(), &&output[record.len()..])?;
        output.truncate(record.len() - 1);
        output.fill(0x5a);
        let written = sys::write(board, &memory.journal, &memory.checks, &mut output);
        counts.refused(written.refusal);
        same("writing into too few bytes", &(refusal(34, 0, 0), 0), &(written.refusal, written.length))?;
        same("the output of a refused writing", &true, &output.iter().all(|&byte| byte == 0x5a))?;
        Ok(record)
    }

    fn go_on_from_the_record(&mut self, counts: &mut Counts) -> Compared {
        self.list.replay(&self.ours, counts)?;
        let record = self.written(counts)?;
        let reopened = reopen(&record, &self.solution, self.ours.plant, counts)?;
        let pair = reopened.map_err(|refused| format!("both refuse a written record: {refused}"))?;
        same("the board that was written, reopened", &self.ours.board, &pair.ours.board)?;
        same("the original's board, reopened", &self.state, &pair.state)?;
        // A stored session goes on with the board that was played: it is stored from its opening.
        if !stored::keeps() {
            *self = pair;
        }
        Ok(())
    }

    // Readings.

    fn compare_reading(&self, k: usize, expected: Option<&Reading>, counts: &mut Counts) -> Compared {
        counts.readings += 1;
        let answer = sys::reading(&self.ours.board, &self.ours.memory.journal, k);
        counts.refused(answer.refusal);
        let expected = reading_answer(expected);
        same_cells("digits of a reading", &expected.digits, &answer.digits)?;
        same_cells("notes of a reading", &expected.notes, &answer.notes)?;
        same("reading", &expected, &answer)
    }

    fn compare_readings(&self, counts: &mut Counts) -> Compared {
        let readings = self.theirs.readings();
        // Long journals are read at some of their moves: each of our readings walks all slots.
        let every = 1 + readings.len() / 64;
        for (reading, k) in readings.iter().zip(1..) {
            if k % every == 0 || k == readings.len() || k == self.state.standing {
                self.compare_reading(k, Some(reading), counts)?;
            }
        }
        self.compare_reading(0, None, counts)?;
        self.compare_reading(readings.len() + 1, None, counts)
    }

    fn compare_shown(&self, counts: &mut Counts) -> Compared {
        let (board, journal) = (&self.ours.board, &self.ours.memory.journal);
        let slots = self.theirs.slots();
        let shown = [
            (sys::latest as fn(&Board, &[u8], &mut [u8]) -> Shown, 12, self.state.standing.checked_sub(1)),
            (sys::next, 13, Some(self.state.standing).filter(|&at| at < self.state.made)),
        ];
        for (call, number, at) in shown {
            for room in [8, 11, 7] {
                counts.shown += 1;
                let mut output = vec![0x5a; room];
                let answer = call(board, journal, &mut output);
                counts.refused(answer.refusal);
                let mut expected = vec![0x5a; room];
                let refused = match at {
                    None => refusal(number, 0, 0),
                    Some(_) if room < 8 => refusal(34, 0, 0),
                    Some(at) => {
                        expected[..8].copy_from_slice(&slots[at]);
                        ACCEPTED
                    }
                };
                let found = (refused == ACCEPTED).then_some(()).and(at);
                let (offset, length) = found.map_or((0, 0), |at| (8 * at, 8));
                same("the move shown", &Shown { refusal: refused, offset, length }, &answer)?;
                same_bytes("the slot shown", &expected, &output)?;
            }
        }
        Ok(())
    }

    // Questions.

    fn expected_cell(&self, row: u8, column: u8) -> CellAnswer {
        let (mut refused, cell) = (refusal(3, 0, 0), cell_of(row, column));
        let none = CellAnswer { refusal: refused, digit: 0, given: 0, conflicting: 0, note: 0, shown: 0 };
        if cell == 0 {
            return none;
        }
        refused.number = 0;
        let state = &self.state;
        CellAnswer {
            refusal: refused,
            digit: state.digits[cell - 1],
            given: state.given[cell - 1],
            conflicting: u8::from(state.conflicting[cell - 1]),
            note: state.notes[cell - 1],
            shown: u8::from(state.shown[cell - 1].is_some()),
        }
    }

    fn compare_cell(&self, cell: usize, counts: &mut Counts) -> Compared {
        counts.questions += 1;
        let (row, column) = position_of(cell);
        same("the question for a cell", &self.expected_cell(row, column), &sys::cell(&self.ours.board, row, column))
    }

    fn compare_cells(&self, counts: &mut Counts) -> Compared {
        (1..=81).try_for_each(|cell| self.compare_cell(cell, counts))
    }

    fn compare_questions(&self, row: u8, column: u8, counts: &mut Counts) -> Compared {
        counts.questions += 4;
        let board = &self.ours.board;
        let cell = self.expected_cell(row, column);
        counts.refused(cell.refusal);
        let (accepts, holds) = self.theirs.cell(row, column).unwrap_or_default();
        let yes_no = |holds: u8| YesNo { refusal: cell.refusal, holds };
        same("the question for a cell", &cell, &sys::cell(board, row, column))?;
        same("conflicts", &yes_no(cell.conflicting), &sys::conflicts(board, row, column))?;
        same("accepts marks", &yes_no(u8::from(accepts)), &sys::accepts_marks(board, row, column))?;
        same("holds a player's digit", &yes_no(u8::from(holds)), &sys::holds_players_digit(board, row, column))
    }

    fn compare_flags(&self, counts: &mut Counts) -> Compared {
        counts.questions += 5;
        let board = &self.ours.board;
        let [full, consistent, can_undo, can_redo] = self.theirs.flags();
        let yes_no = |holds: bool| YesNo { refusal: ACCEPTED, holds: u8::from(holds) };
        same("is full", &yes_no(full), &sys::is_full(board))?;
        same("is consistent", &yes_no(consistent), &sys::is_consistent(board))?;
        same("can undo", &yes_no(can_undo), &sys::can_undo(board))?;
        same("can redo", &yes_no(can_redo), &sys::can_redo(board))?;
        same("is solved", &yes_no(self.state.solved), &sys::is_solved(board))
    }

    fn compare_key(&self, digit: u8, counts: &mut Counts) -> Compared {
        counts.questions += 1;
        let answer = sys::digits_left(&self.ours.board, digit);
        let answer = (answer.refusal, self.ours.plant.left(&self.ours.board, digit, answer.left));
        counts.refused(answer.0);
        let in_range = (1..=9).contains(&digit);
        let expected = if in_range { (ACCEPTED, self.state.left(digit)) } else { (refusal(8, 0, 0), 0) };
        same("digits left", &expected, &answer)
    }

    fn compare_keypad(&self, counts: &mut Counts) -> Compared {
        counts.questions += 1;
        let expected = KeypadAnswer { refusal: ACCEPTED, left: self.state.keypad() };
        let mut answer = sys::keypad(&self.ours.board);
        answer.left = self.ours.plant.keypad(&self.ours.board, answer.left);
        same("the keypad", &expected, &answer)
    }

    fn compare_notes(&self, counts: &mut Counts) -> Compared {
        for (note, length, empty) in self.theirs.shown_notes() {
            counts.questions += 2;
            same("a note's length", &length, &sys::note_len(note))?;
            same("a note is empty", &u8::from(empty), &sys::note_is_empty(note))?;
        }
        Ok(())
    }

    fn compare_all(&self, counts: &mut Counts) -> Compared {
        self.compare_board()?;
        self.stored_are_theirs()?;
        self.compare_readings(counts)?;
        self.compare_shown(counts)?;
        self.compare_flags(counts)?;
        self.compare_notes(counts)?;
        for cell in 1..=81 {
            let (row, column) = position_of(cell);
            self.compare_questions(row, column, counts)?;
        }
        (0..=10).try_for_each(|digit| self.compare_key(digit, counts))?;
        self.compare_keypad(counts)?;
        self.written(counts).map(|_| ())
    }
}

fn reading_answer(reading: Option<&Reading>) -> ReadingAnswer {
    let mut answer = ReadingAnswer {
        refusal: refusal(35, 0, 0),
        kind: 0,
        row: 0,
        column: 0,
        digit: 0,
        undone: 0,
        index: 0,
        digits: [0; 81],
        notes: [0; 81],
    };
    if let Some(reading) = reading {
        answer.refusal = ACCEPTED;
        (answer.kind, answer.row, answer.column) = (reading.made.kind, reading.made.row, reading.made.column);
        (answer.digit, answer.undone) = (reading.made.digit, u8::from(reading.undone));
        (answer.index, answer.digits, answer.notes) = (reading.index, reading.digits, reading.notes);
    }
    answer
}

//! The library: a board with the memory lent to its calls, and an error planted on request.

use crate::call::Call;
use crate::plant::Plant;
use pawdoku::sys::{self, Answer};
use pawdoku::{Board, CHECK_MEMORY, JOURNAL_BYTES, MAX_RECORD, Refusal};

/// Journal and check memory.
#[derive(Debug, Clone, PartialEq, Eq)]
pub struct Memory {
    /// 8,192 bytes.
    pub journal: Vec<u8>,
    /// 1,536 bytes.
    pub checks: Vec<u8>,
}

impl Memory {
    /// Memory where each byte is this.
    pub fn filled(byte: u8) -> Self {
        Self { journal: vec![byte; JOURNAL_BYTES], checks: vec![byte; CHECK_MEMORY] }
    }

    /// Is every byte 0?
    pub fn is_zero(&self) -> bool {
        self.journal.iter().chain(&self.checks).all(|&byte| byte == 0)
    }
}

/// A board of the library.
#[derive(Debug, Clone)]
pub struct Ours {
    /// The board.
    pub board: Board,
    /// Its memory.
    pub memory: Memory,
    /// The error that is planted, if any.
    pub plant: Plant,
}

/// Memory that is lent to an opening, so that it shows whether it was made zero.
const USED: u8 = 0xa5;

/// The refusal that stands where an answer is laid, so that it shows whether one was.
const STALE: Refusal = Refusal { number: USED, place: USED as usize, inner: USED };

impl Ours {
    /// Opens with givens as bytes. The board and memory come back for a refusal too.
    pub fn open(givens: &[u8], solution: &[u8], plant: Plant) -> (Refusal, Self) {
        let mut memory = Memory::filled(USED);
        let answer = sys::open(givens, solution, &mut memory.journal, &mut memory.checks);
        Self::made(answer, memory, plant)
    }

    /// Reopens. The board and memory come back for a refusal too.
    pub fn reopen(record: &[u8], solution: &[u8], plant: Plant) -> (Refusal, Self) {
        let mut memory = Memory::filled(USED);
        let answer = sys::reopen(record, solution, &mut memory.journal, &mut memory.checks);
        Self::made(answer, memory, plant)
    }

    fn made(answer: Answer, memory: Memory, plant: Plant) -> (Refusal, Self) {
        let mut ours = Self { board: answer.board, memory, plant };
        let refusal = plant.opened(answer.refusal, &mut ours);
        (refusal, ours)
    }

    /// Makes a call: the refusal, and a check's verdict.
    pub fn call(&mut self, call: Call) -> (Refusal, u8) {
        let before = self.board;
        let mut answer = Answer { refusal: STALE, board: before };
        let (laid, memory) = (&mut answer, &mut self.memory);
        match call {
            Call::Place(row, column, digit) => sys::place_on(laid, &mut memory.journal, row, column, digit),
            Call::Erase(row, column) => sys::erase_on(laid, &mut memory.journal, row, column),
            Call::Pencil(row, column, digit) => sys::pencil_on(laid, &mut memory.journal, row, column, digit),
            Call::Undo => sys::undo_on(laid, &memory.journal),
            Call::Redo => sys::redo_on(laid, &memory.journal),
            Call::Check(row, column) => {
                let checked = sys::check(&before, &mut memory.checks, row, column);
                self.board = checked.board;
                return self.plant.called(call, &before, (checked.refusal, checked.right), self);
            }
        }
        self.board = answer.board;
        self.plant.called(call, &before, (answer.refusal, 0), self)
    }

    /// Writes the record.
    pub fn write(&self) -> Result<Vec<u8>, Refusal> {
        let mut record = vec![0; MAX_RECORD];
        let written = sys::write(&self.board, &self.memory.journal, &self.memory.checks, &mut record);
        written.refusal.into_result()?;
        record.truncate(written.length);
        self.plant.written(&mut record);
        Ok(record)
    }

    /// Makes a list of encoded calls: their answers.
    pub fn play(&mut self, calls: &[u8], answers: &mut [u8]) -> Refusal {
        let memory = &mut self.memory;
        let answer = sys::play(&self.board, &mut memory.journal, &mut memory.checks, calls, answers);
        self.board = answer.board;
        self.plant.listed(answers);
        answer.refusal
    }
}

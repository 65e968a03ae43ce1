//! Stored answers: sessions and reopenings with what the original answered, as blocks that the Rattle program
//! `vectors` replays without any Rust at hand. docs/VECTORS.md has the layout.

use crate::grid::{Grid, givens_of};
use crate::theirs::{Reading, State, Theirs};
use core::cell::RefCell;
use pawdoku::{Board, Refusal};

std::thread_local! {
    static KEPT: RefCell<Option<Vec<Vec<u8>>>> = const { RefCell::new(None) };
}

/// Longer records are kept only in sessions.
const LONG_RECORD: usize = 400;

/// From now on what is compared is kept too.
pub fn keep() {
    KEPT.set(Some(Vec::new()));
}

/// Is anything kept?
pub fn keeps() -> bool {
    KEPT.with_borrow(Option::is_some)
}

/// All that was kept: each block with two bytes of length before it.
pub fn kept() -> Vec<u8> {
    let blocks = KEPT.take().unwrap_or_default();
    let mut bytes = Vec::new();
    for block in blocks {
        let Ok(length) = u16::try_from(block.len()) else { continue };
        bytes.extend(length.to_le_bytes());
        bytes.extend(block);
    }
    bytes
}

fn add(block: impl FnOnce() -> Option<Vec<u8>>) {
    KEPT.with_borrow_mut(|kept| {
        if let Some(kept) = kept
            && let Some(block) = block()
        {
            kept.push(block);
        }
    });
}

fn two(number: usize) -> Option<[u8; 2]> {
    u16::try_from(number).ok().map(u16::to_le_bytes)
}

fn answer(said: Refusal) -> Option<[u8; 4]> {
    let [low, high] = two(said.place)?;
    Some([said.number, low, high, said.inner])
}

/// Tag, solution, how many givens, the givens, and the answer.
fn opened(givens: &[[u8; 3]], solution: &Grid, said: Refusal) -> Option<Vec<u8>> {
    let mut block = vec![1];
    block.extend(solution);
    block.push(u8::try_from(givens.len()).ok()?);
    block.extend(givens.as_flattened());
    block.extend(answer(said)?);
    Some(block)
}

/// An opening that is refused.
pub fn refused_opening(givens: &[[u8; 3]], solution: &Grid, said: Refusal) {
    add(|| opened(givens, solution, said));
}

/// A reopening, whatever its answer.
pub fn reopening(record: &[u8], solution: &Grid, said: Refusal) {
    add(|| {
        if record.len() > LONG_RECORD {
            return None;
        }
        let mut block = vec![2];
        block.extend(solution);
        block.extend(answer(said)?);
        block.extend(two(record.len())?);
        block.extend(record);
        Some(block)
    });
}

/// A session from its opening: the fresh board, the calls and their answers, and the original's board at the end.
pub fn session(fresh: &Board, calls: &[[u8; 4]], answers: &[[u8; 4]], theirs: &Theirs, state: &State) {
    if fresh.made != 0 || fresh.checks != 0 || calls.len() > 4096 {
        return;
    }
    add(|| {
        let given = (1..=81).filter(|cell| fresh.given[cell - 1] == 1);
        let mut block = opened(&givens_of(&fresh.solution, given), &fresh.solution, Refusal::default())?;
        block.extend(two(calls.len())?);
        block.extend(calls.as_flattened());
        block.extend(answers.as_flattened());
        block.extend(seen(theirs, state)?);
        let record = theirs.write().write();
        block.extend(two(record.len())?);
        block.extend(record);
        let readings = some_readings(theirs, state.made);
        block.push(u8::try_from(readings.len()).ok()?);
        for reading in readings {
            block.extend(read(&reading)?);
        }
        Some(block)
    });
}

/// All that can be seen of the board.
fn seen(theirs: &Theirs, state: &State) -> Option<Vec<u8>> {
    let mut bytes = state.digits.to_vec();
    bytes.extend(state.notes.iter().flat_map(|note| note.to_le_bytes()));
    let [full, consistent, undo, redo] = theirs.flags();
    bytes.push(bits(&[state.solved, full, consistent, undo, redo]));
    for count in [state.made, state.standing, state.checks] {
        bytes.extend(two(count)?);
    }
    for cell in 0..81 {
        bytes.push(bits(&[state.conflicting[cell], state.given[cell] == 1, state.digits[cell] == 0]));
    }
    bytes.extend(state.keypad());
    Some(bytes)
}

fn bits(flags: &[bool]) -> u8 {
    flags.iter().rev().fold(0, |bits, &flag| bits << 1 | u8::from(flag))
}

/// The first, the middle and the last move.
fn some_readings(theirs: &Theirs, made: usize) -> Vec<Reading> {
    let mut numbers = vec![1, made.div_ceil(2), made];
    numbers.dedup();
    numbers.into_iter().filter_map(|k| theirs.reading(k)).collect()
}

fn read(reading: &Reading) -> Option<Vec<u8>> {
    let made = reading.made;
    let mut bytes = two(reading.index)?.to_vec();
    bytes.extend([made.kind, made.row, made.column, made.digit, u8::from(reading.undone)]);
    bytes.extend(reading.digits);
    bytes.extend(reading.notes.iter().flat_map(|note| note.to_le_bytes()));
    Some(bytes)
}

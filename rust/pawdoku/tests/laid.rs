//! An answer that is laid over the one before is the answer that the call returns, and the journal is the same.

use pawdoku::sys::{self, Answer, Refusal};
use pawdoku::{Board, CHECK_MEMORY, JOURNAL_BYTES, call, example_solution, kind};

/// Which call it is, row, column, digit, as a list has them.
type Call = [u8; 4];

const CALLS: [u8; 5] = [call::PLACE, call::ERASE, call::PENCIL, call::UNDO, call::REDO];

fn returned(board: &Board, journal: &mut [u8], [which, row, column, digit]: Call) -> Answer {
    match which {
        call::PLACE => sys::place(board, journal, row, column, digit),
        call::ERASE => sys::erase(board, journal, row, column),
        call::PENCIL => sys::pencil(board, journal, row, column, digit),
        call::UNDO => sys::undo(board, journal),
        _ => sys::redo(board, journal),
    }
}

fn lay(answer: &mut Answer, journal: &mut [u8], [which, row, column, digit]: Call) {
    match which {
        call::PLACE => sys::place_on(answer, journal, row, column, digit),
        call::ERASE => sys::erase_on(answer, journal, row, column),
        call::PENCIL => sys::pencil_on(answer, journal, row, column, digit),
        call::UNDO => sys::undo_on(answer, journal),
        _ => sys::redo_on(answer, journal),
    }
}

/// Makes the call in both forms, on journals of their own: the number, where they leave the same.
fn number(answer: &mut Answer, journal: &mut [u8], call: Call) -> u8 {
    let mut other = journal.to_vec();
    let expected = returned(&answer.board, &mut other, call);
    lay(answer, journal, call);
    assert_eq!(*answer, expected, "{call:?}");
    assert_eq!(journal, other, "{call:?}");
    answer.refusal.number
}

/// A board with one given and its journal.
fn opened() -> (Answer, Vec<u8>) {
    let mut journal = vec![0; JOURNAL_BYTES];
    let answer = sys::open(&[1, 1, 1], &example_solution(), &mut journal, &mut [0; CHECK_MEMORY]);
    assert_eq!(answer.refusal.number, 0);
    (answer, journal)
}

#[test]
fn a_session_is_the_same() {
    let (mut answer, mut journal) = opened();
    let calls = [
        ([call::UNDO, 0, 0, 0], 12),
        ([call::PENCIL, 1, 2, 5], 0),
        ([call::PENCIL, 1, 2, 10], 8),
        ([call::PENCIL, 1, 1, 5], 7),
        ([call::PENCIL, 1, 10, 5], 3),
        ([call::PLACE, 1, 3, 5], 0),
        ([call::PLACE, 1, 1, 5], 5),
        ([call::PLACE, 0, 1, 5], 3),
        ([call::UNDO, 0, 0, 0], 0),
        ([call::REDO, 0, 0, 0], 0),
        ([call::REDO, 0, 0, 0], 13),
        ([call::UNDO, 0, 0, 0], 0),
        ([call::PENCIL, 1, 2, 5], 0),
        ([call::PLACE, 9, 8, 5], 0),
        ([call::ERASE, 9, 8, 0], 0),
        ([call::ERASE, 9, 8, 0], 6),
        ([call::UNDO, 0, 0, 0], 0),
    ];
    for (call, expected) in calls {
        assert_eq!(number(&mut answer, &mut journal, call), expected, "{call:?}");
    }
    assert_eq!((answer.board.made, answer.board.standing, answer.board.digits[79]), (4, 3, 5));
    assert_eq!((answer.board.notes[1], journal[0], journal[8]), (0, kind::WRITE_MARK, kind::STRIKE_MARK));
}

#[test]
fn foreign_boards_and_memory_are_refused_the_same() {
    let (Answer { board, .. }, journal) = opened();
    let mut digit_10 = board;
    digit_10.digits[40] = 10;
    let mut note_bit_0 = board;
    note_bit_0.notes[80] = 1;
    let no_flag = Board { solved: 255, ..board };
    let solved = Board { solved: 1, ..board };
    let cases = [
        (Board::ZERO, JOURNAL_BYTES, 2),
        (digit_10, JOURNAL_BYTES, 2),
        (note_bit_0, JOURNAL_BYTES, 2),
        (no_flag, JOURNAL_BYTES, 2),
        (solved, JOURNAL_BYTES, 4),
        (board, 0, 1),
        (board, JOURNAL_BYTES - 1, 1),
        (digit_10, JOURNAL_BYTES - 8, 1),
    ];
    for (board, length, expected) in cases {
        for which in CALLS {
            // What stood there before the call says nothing of it.
            let mut answer = Answer { refusal: Refusal { number: 99, place: 99, inner: 99 }, board };
            let mut journal = journal[..length].to_vec();
            assert_eq!(number(&mut answer, &mut journal, [which, 1, 2, 5]), expected, "{which}");
        }
    }
}

#[test]
fn a_damaged_slot_is_named_the_same() {
    let (mut answer, mut journal) = opened();
    assert_eq!(number(&mut answer, &mut journal, [call::PLACE, 1, 2, 5]), 0);
    journal[0] = 9;
    assert_eq!(number(&mut answer, &mut journal, [call::UNDO, 0, 0, 0]), 14);
    assert_eq!(answer.refusal.place, 1);
    answer.board.standing = 0;
    assert_eq!(number(&mut answer, &mut journal, [call::REDO, 0, 0, 0]), 14);
    assert_eq!(answer.refusal.place, 1);
}

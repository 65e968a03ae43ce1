//! The wrapper on the library: positions of the requirement's table through sessions, the leaves, and refused input.

use pawdoku::{
    Board, CHECK_MEMORY, JOURNAL_BYTES, LINE_BYTES, LINE_GIVENS, Reason, Refusal, Session, VERSION, call,
    example_solution, givens_of_line, kind, sys,
};

/// All of the solution but (9, 9).
fn all_but_the_last() -> Vec<[u8; 3]> {
    let digits = example_solution();
    let cell = |at: u8| [at / 9 + 1, at % 9 + 1, digits[usize::from(at)]];
    (0..80).map(cell).collect()
}

fn empty() -> Session {
    Session::open(&[], &example_solution()).expect("no givens open")
}

#[test]
fn the_library_has_the_wrappers_version() {
    assert_eq!(sys::version(), VERSION);
}

#[test]
fn opens_plays_writes_and_reopens() {
    let solution = example_solution();
    let mut session = empty();
    session.place(1, 1, 5).expect("placed");
    session.pencil(1, 2, 3).expect("written");
    session.undo().expect("undone");
    assert_eq!(session.check(1, 1), Ok(false));
    let record = session.write().expect("written down");
    assert_eq!(record, [2, 1, 1, 5, 4, 1, 2, 3, 6, 1, 0, 7, 1, 0, 1, 1, 5]);

    let mut reopened = Session::reopen(&record, &solution).expect("reopened");
    assert_eq!(reopened.board(), session.board());
    assert_eq!(reopened.journal(), session.journal());
    assert_eq!(reopened.checks(), session.checks());
    reopened.redo().expect("redone");
    assert_eq!(reopened.cell(1, 2).expect("a cell").note, 1 << 3);
    assert_eq!(reopened.reading(1).expect("a reading").digits[0], 5);
}

#[test]
fn twenty_marks_come_back() {
    let mut session = empty();
    let peers = sys::peers(sys::cell_of(5, 5)).cells;
    for peer in peers {
        session.pencil((peer - 1) / 9 + 1, (peer - 1) % 9 + 1, 5).expect("written");
    }
    let before = *session.board();
    session.place(5, 5, 5).expect("placed");
    assert_eq!(session.latest(), Ok([kind::PLACE, 5, 5, 5, 0, 255, 255, 15]));
    assert!(session.board().notes.iter().all(|&note| note == 0));
    session.undo().expect("undone");
    assert_eq!(session.next(), Ok([kind::PLACE, 5, 5, 5, 0, 255, 255, 15]));
    assert_eq!((before.digits, before.notes), (session.board().digits, session.board().notes));
}

#[test]
fn the_pencil_pressed_again_turns_the_mark_round() {
    let mut session = empty();
    let note = |session: &Session| session.cell(5, 5).expect("a cell").note;
    session.pencil(5, 5, 3).expect("written");
    assert_eq!((note(&session), session.latest()), (1 << 3, Ok([kind::WRITE_MARK, 5, 5, 3, 0, 0, 0, 0])));
    session.pencil(5, 5, 3).expect("struck");
    assert_eq!((note(&session), session.latest()), (0, Ok([kind::STRIKE_MARK, 5, 5, 3, 0, 0, 0, 0])));
    session.pencil(5, 5, 3).expect("written again");
    assert_eq!((note(&session), session.board().made), (1 << 3, 3));
    let record = session.write().expect("written down");
    assert_eq!(record, [4, 5, 5, 3, 5, 5, 5, 3, 4, 5, 5, 3, 6, 0, 0]);
    // Each press is taken back by itself.
    for left in [0, 1 << 3, 0] {
        session.undo().expect("undone");
        assert_eq!(note(&session), left);
    }
    assert_eq!((session.can_undo(), session.can_redo()), (false, true));
    session.redo().expect("redone");
    session.pencil(5, 5, 3).expect("struck, and the undone presses are gone");
    assert_eq!((note(&session), session.board().made), (0, 2));
}

#[test]
fn the_pencil_is_refused_by_7_before_8() {
    let mut session = Session::open(&[[1, 1, 1]], &example_solution()).expect("opens");
    session.place(5, 5, 5).expect("placed");
    let before = *session.board();
    let mut refused = |row, column, digit| session.pencil(row, column, digit).expect_err("refused");
    for digit in [0, 10, 255] {
        assert_eq!(refused(9, 9, digit).reason(), Some(Reason::DigitOutOfRange));
        assert_eq!(refused(5, 5, digit).reason(), Some(Reason::MarksNotAccepted));
        assert_eq!(refused(1, 1, digit).reason(), Some(Reason::MarksNotAccepted));
        assert_eq!(refused(9, 10, digit).reason(), Some(Reason::NoSuchCell));
    }
    assert_eq!(refused(5, 5, 3).reason(), Some(Reason::MarksNotAccepted));
    assert_eq!(*session.board(), before);
}

#[test]
fn a_records_marks_keep_their_rules() {
    let solution = example_solution();
    let refused = |record: &[u8]| {
        let refusal = Session::reopen(record, &solution).map(|_| ()).expect_err("refused");
        (refusal.number, refusal.place, Reason::from_number(refusal.inner))
    };
    let (there, absent) = (Some(Reason::MarkAlreadyWritten), Some(Reason::MarkNotThere));
    assert_eq!(refused(&[4, 5, 5, 3, 4, 5, 5, 3, 6, 0, 0]), (29, 2, there));
    assert_eq!(refused(&[5, 5, 5, 3, 6, 0, 0]), (29, 1, absent));
    assert_eq!(refused(&[5, 5, 5, 10, 6, 0, 0]), (29, 1, absent));
    assert_eq!(refused(&[4, 5, 5, 10, 6, 0, 0]), (29, 1, Some(Reason::DigitOutOfRange)));
    assert_eq!(refused(&[2, 5, 5, 3, 5, 5, 5, 10, 6, 0, 0]), (29, 2, Some(Reason::MarksNotAccepted)));
}

#[test]
fn solved_is_final() {
    let mut session = Session::open(&all_but_the_last(), &example_solution()).expect("opens");
    assert_eq!(session.digits_left(8), Ok(1));
    assert_eq!(session.keypad(), [0, 0, 0, 0, 0, 0, 0, 1, 0]);
    session.place(9, 9, 8).expect("placed");
    assert_eq!(session.keypad(), [0; 9]);
    assert!(session.is_solved() && session.is_full() && session.is_consistent());
    assert_eq!(session.undo().map_err(Refusal::reason), Err(Some(Reason::Solved)));
    let off_grid = session.place(0, 1, 5).map_err(Refusal::reason);
    assert_eq!(off_grid, Err(Some(Reason::NoSuchCell)));
}

#[test]
fn a_clash_makes_the_number_go_up() {
    let mut session = empty();
    session.place(1, 1, 5).expect("placed");
    assert_eq!((session.digits_left(5), session.keypad()), (Ok(8), [9, 9, 9, 9, 8, 9, 9, 9, 9]));
    session.place(1, 9, 5).expect("placed");
    assert_eq!((session.digits_left(5), session.keypad()), (Ok(9), [9; 9]));
    session.undo().expect("undone");
    assert_eq!(session.digits_left(5), Ok(8));
    let no_key = session.digits_left(0);
    assert_eq!(no_key.map_err(Refusal::reason), Err(Some(Reason::DigitOutOfRange)));
}

#[test]
fn a_list_of_calls_is_run() {
    let mut session = empty();
    let (undo, redo) = ([call::UNDO, 0, 0, 0], [call::REDO, 0, 0, 0]);
    let calls = [[call::PLACE, 1, 1, 1], [call::CHECK, 1, 1, 0], undo, undo, redo, [99, 1, 1, 1]];
    let mut answers = [[9; 4]; 6];
    session.play(&calls, &mut answers);
    let expected = [[0, 0, 0, 0], [0, 0, 0, 1], [0; 4], [12, 0, 0, 0], [0; 4], [255, 0, 0, 0]];
    assert_eq!(answers, expected);
    assert_eq!((session.board().made, session.board().standing), (1, 1));
    let press = [call::PENCIL, 1, 2, 3];
    session.play(&[press, press, [call::PENCIL, 1, 2, 10], [call::PENCIL, 1, 1, 10]], &mut answers);
    assert_eq!(answers[..4], [[0; 4], [0; 4], [8, 0, 0, 0], [7, 0, 0, 0]]);
    assert_eq!(session.latest(), Ok([kind::STRIKE_MARK, 1, 2, 3, 0, 0, 0, 0]));
}

/// Six first bytes encode a call. The kinds of a move, which the calls of versions 1 to 3 had too, are among the rest.
#[test]
fn other_first_bytes_encode_no_call() {
    let mut session = empty();
    session.place(1, 1, 1).expect("placed");
    session.pencil(1, 2, 3).expect("written");
    session.undo().expect("undone");
    let before = session.clone();
    let six = [call::PLACE, call::ERASE, call::PENCIL, call::UNDO, call::REDO, call::CHECK];
    assert_eq!(six, [16, 17, 18, 19, 20, 21]);
    for first in (0..=255).filter(|first| !six.contains(first)) {
        for (row, column) in [(1, 1), (1, 2)] {
            let mut answers = [[9; 4]];
            session.play(&[[first, row, column, 3]], &mut answers);
            assert_eq!(answers, [[255, 0, 0, 0]], "{first}");
        }
    }
    assert_eq!(session.board(), before.board());
    assert_eq!((session.journal(), session.checks()), (before.journal(), before.checks()));
}

#[test]
fn a_list_on_a_foreign_board_is_answered_by_2_call_by_call() {
    let mut session = empty();
    session.place(1, 1, 1).expect("placed");
    let calls = [
        [call::ERASE, 1, 1, 0],
        [call::PENCIL, 1, 2, 3],
        [call::CHECK, 1, 1, 0],
        [call::UNDO, 0, 0, 0],
        [kind::ERASE, 1, 1, 0],
    ];
    let (mut given, mut solved) = (*session.board(), *session.board());
    given.given[80] = 2;
    solved.solved = 255;
    for board in [Board::ZERO, given, solved] {
        let (mut journal, mut checks) = (*session.journal(), *session.checks());
        let mut answers = [[9; 4]; 5];
        let list = sys::play(&board, &mut journal, &mut checks, calls.as_flattened(), answers.as_flattened_mut());
        assert_eq!((list.refusal.number, list.board), (0, board));
        assert_eq!(answers[..4], [[2, 0, 0, 0]; 4]);
        assert_eq!(answers[4], [255, 0, 0, 0]);
        assert_eq!((&journal, &checks), (session.journal(), session.checks()));
    }
}

#[test]
fn refusals_have_number_place_and_inner() {
    let solution = example_solution();
    let refused = |record: &[u8]| Session::reopen(record, &solution).map(|_| ()).unwrap_err();
    let as_numbers = |refusal: Refusal| (refusal.number, refusal.place, refusal.inner);
    assert_eq!(as_numbers(refused(&[])), (17, 1, 0));
    assert_eq!(as_numbers(refused(&[2, 1, 1, 5, 2, 1, 1, 5, 6, 0, 0])), (29, 2, 9));
    let mut conflicting = solution;
    conflicting.swap(0, 1);
    let refusal = Session::open(&[], &conflicting).map(|_| ()).unwrap_err();
    assert_eq!(refusal.number, 25);
    assert!(refusal.to_string().starts_with("refused by 25: "));
}

#[test]
fn any_board_and_any_memory_are_answered() {
    let mut journal = vec![0; JOURNAL_BYTES];
    assert_eq!(sys::place(&Board::ZERO, &mut journal, 1, 1, 1).refusal.number, 2);
    assert_eq!(sys::place(&Board::ZERO, &mut [], 1, 1, 1).refusal.number, 1);
    let mut checks = vec![1; CHECK_MEMORY];
    let answer = sys::open(&[1], &example_solution(), &mut journal, &mut checks);
    assert_eq!((answer.refusal.number, answer.board), (1, Board::ZERO));
    assert!(checks.iter().all(|&byte| byte == 1));
}

/// The example's first `count` cells as a line, the others blank.
fn line_of(count: usize, blank: char) -> String {
    let cell = |(at, digit): (usize, u8)| if at < count { char::from(b'0' + digit) } else { blank };
    example_solution().into_iter().enumerate().map(cell).collect()
}

#[test]
fn a_mailed_line_opens_and_is_written_again() {
    let mailed = format!("{}\n", line_of(80, '0'));
    let givens = givens_of_line(mailed.as_bytes()).expect("a line");
    assert_eq!(givens, all_but_the_last());
    let mut session = Session::open(&givens, &example_solution()).expect("opens");
    assert_eq!(session.line().expect("written"), line_of(80, '.').as_bytes());
    session.place(9, 9, 8).expect("placed");
    assert_eq!(session.line().expect("written"), line_of(80, '.').as_bytes());
    let full = givens_of_line(line_of(81, '.').as_bytes()).expect("a line");
    let opened = Session::open(&full, &example_solution()).map(|_| ()).map_err(Refusal::reason);
    assert_eq!(opened, Err(Some(Reason::NothingLeftToPlay)));
}

#[test]
fn what_is_no_line_is_refused() {
    let refused = |line: &str| {
        let refusal = givens_of_line(line.as_bytes()).expect_err("no line");
        (refusal.number, refusal.place)
    };
    let sound = line_of(30, '.');
    for line in ["", &sound[..80], &format!("{sound}."), &format!("{sound}\r"), &format!("{sound}\r\n")] {
        assert_eq!(refused(line), (36, 0), "{line:?}");
    }
    for (place, other) in [(1, " "), (40, "x"), (81, "\n"), (81, "/")] {
        let line = format!("{}{other}{}", &sound[..place - 1], &sound[place..]);
        assert_eq!(refused(&line), (37, place), "{line:?}");
    }
    let mut output = [7; LINE_GIVENS];
    assert_eq!(sys::read_line(b"x", &mut output[1..]).refusal.number, 34);
    assert_eq!(sys::write_line(&Board::ZERO, &mut []).refusal.number, 2);
    assert_eq!(sys::write_line(empty().board(), &mut output[..LINE_BYTES - 1]).refusal.number, 34);
    assert_eq!(output, [7; LINE_GIVENS]);
}

#[test]
fn leaves() {
    assert_eq!((sys::cell_of(1, 1), sys::cell_of(9, 9), sys::cell_of(0, 1)), (1, 81, 0));
    assert_eq!((sys::band(0), sys::band(9), sys::stack(255)), (1, 3, 85));
    assert_eq!((sys::is_peer_of(1, 1, 3, 3), sys::is_peer_of(1, 1, 1, 1)), (1, 0));
    assert_eq!(sys::peers(82).cells, [0; 20]);
    assert_eq!(sys::note_digits(0b10_0000_0010).digits, [1, 9, 0, 0, 0, 0, 0, 0, 0]);
    assert_eq!((sys::note_len(0xffff), sys::note_is_empty(1), sys::note_contains(2, 1)), (9, 1, 1));
}

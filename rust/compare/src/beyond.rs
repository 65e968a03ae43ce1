//! What the original does not have: wrong lengths (1), foreign board values (2), damaged memory (14), and the leaves
//! for every byte. These are held to document 01 alone, by tests that are written here once more from its words.

use crate::bytes::{ACCEPTED, refusal};
use crate::call::Call;
use crate::grid::{Grid, are_peers, box_index, cell_of, conflicts, g, peers, peers_of};
use crate::ours::{Memory, Ours};
use crate::pair::Compared;
use crate::plant::Plant;
use crate::report::{Counts, same, same_bytes};
use crate::rng::Rng;
use original::solver::{load, vouched};
use original::sudoku::Puzzle;
use pawdoku::{Board, MAX_RECORD, Refusal, call, kind, sys};

/// The leaves, for every byte and every note.
pub fn leaves(counts: &mut Counts) -> Compared {
    for line in 0..=255 {
        counts.beyond += 2;
        same("band", &box_index(line), &sys::band(line))?;
        same("stack", &box_index(line), &sys::stack(line))?;
    }
    for (row, column) in (0..=255).flat_map(|row| [0, 1, 5, 9, 10, 255].map(|column| (row, column))) {
        counts.beyond += 2;
        same("cell", &cell_of(row, column), &sys::cell_of(row, column))?;
        same("cell", &cell_of(column, row), &sys::cell_of(column, row))?;
    }
    for cell in 0..=300 {
        counts.beyond += 1;
        let mut expected = [0; 20];
        if (1..=81).contains(&cell) {
            for (at, peer) in expected.iter_mut().zip(peers_of(cell)) {
                *at = u8::try_from(peer).unwrap_or(0);
            }
        }
        same("peers", &expected, &sys::peers(cell).cells)?;
    }
    same("peers", &[0; 20], &sys::peers(usize::MAX).cells)?;
    pairs_of_positions(counts)?;
    notes(counts)?;
    bands_of_the_original(counts)
}

fn pairs_of_positions(counts: &mut Counts) -> Compared {
    let lines = [0, 1, 2, 3, 4, 5, 6, 7, 8, 9, 10, 12, 13, 254, 255];
    let all: Vec<(u8, u8)> = lines.iter().flat_map(|&row| lines.map(|column| (row, column))).collect();
    for &one in &all {
        for &two in &all {
            counts.beyond += 1;
            let found = sys::is_peer_of(one.0, one.1, two.0, two.1);
            same("peer", &u8::from(are_peers(one, two)), &found)?;
        }
    }
    Ok(())
}

fn notes(counts: &mut Counts) -> Compared {
    for note in 0..=u16::MAX {
        counts.beyond += 3;
        let marks: Vec<u8> = (1..=9).filter(|digit| note >> digit & 1 == 1).collect();
        let mut expected = [0; 9];
        expected[..marks.len()].copy_from_slice(&marks);
        same("a note's digits", &expected, &sys::note_digits(note).digits)?;
        same("a note's length", &marks.len(), &sys::note_len(note))?;
        same("a note is empty", &u8::from(marks.is_empty()), &sys::note_is_empty(note))?;
        for digit in [0, 1, 2, 3, 4, 5, 6, 7, 8, 9, 10, 15, 16, 17, 255] {
            counts.beyond += 1;
            same("a note's mark", &u8::from(marks.contains(&digit)), &sys::note_contains(note, digit))?;
        }
    }
    Ok(())
}

/// Bands and stacks of the 81 cells, as the original has them.
fn bands_of_the_original(counts: &mut Counts) -> Compared {
    load(&g());
    let puzzle = Puzzle::set(vouched([]).map_err(|error| error.to_string())?);
    for cell in puzzle.cells() {
        counts.questions += 2;
        same("band", &cell.band(), &sys::band(cell.row()))?;
        same("stack", &cell.stack(), &sys::stack(cell.column()))?;
    }
    Ok(())
}

/// A board with its memory, and what is done to it.
struct Bench<'a> {
    board: Board,
    memory: Memory,
    rng: &'a mut Rng,
    counts: &'a mut Counts,
}

/// Tries one board, as it came out of a reopened record, with wrong lengths, damaged fields and damaged memory.
pub fn damage(record: &[u8], solution: &Grid, rng: &mut Rng, counts: &mut Counts) -> Compared {
    let (said, ours) = Ours::reopen(record, solution, Plant::Nothing);
    if said != ACCEPTED {
        return Ok(());
    }
    let mut bench = Bench { board: ours.board, memory: ours.memory, rng, counts };
    bench.wrong_lengths(record, solution)?;
    bench.foreign_board()?;
    bench.damaged_memory()
}

/// The calls with this number as their answer, or the first that has another.
fn all_answer(number: u8, bench: &mut Bench, lengths: [usize; 3]) -> Compared {
    let [journal, checks, output] = lengths;
    let journal = &mut bench.memory.journal[..journal];
    let checks = &mut bench.memory.checks[..checks];
    let board = &bench.board;
    let mut out = vec![0x5a; output];
    let answers = [
        sys::place(board, journal, 1, 1, 1),
        sys::erase(board, journal, 0, 1),
        sys::pencil(board, journal, 1, 1, 1),
        sys::pencil(board, journal, 1, 1, 10),
        sys::undo(board, journal),
        sys::redo(board, journal),
    ];
    for answer in answers {
        bench.counts.beyond += 1;
        bench.counts.refused(answer.refusal);
        same("refusal", &refusal(number, 0, 0), &answer.refusal)?;
        same("the board after a refused call", board, &answer.board)?;
    }
    let reading = sys::reading(board, journal, 1);
    let empty = (reading.kind, reading.index, reading.digits, reading.notes) == (0, 0, [0; 81], [0; 81]);
    same("a refused reading is empty", &true, &empty)?;
    let mut others = vec![reading.refusal];
    others.push(sys::latest(board, journal, &mut out).refusal);
    others.push(sys::next(board, journal, &mut out).refusal);
    others.push(sys::write(board, journal, checks, &mut out).refusal);
    if number == 2 || checks.len() != pawdoku::CHECK_MEMORY {
        let checked = sys::check(board, checks, 0, 1);
        same("the board after a refused check", board, &checked.board)?;
        others.push(checked.refusal);
    }
    for said in others {
        bench.counts.beyond += 1;
        bench.counts.refused(said);
        same("refusal", &refusal(number, 0, 0), &said)?;
    }
    same("the output after refused calls", &true, &out.iter().all(|&byte| byte == 0x5a))
}

impl Bench<'_> {
    fn refused(&mut self, said: Refusal, number: u8) -> Compared {
        self.counts.beyond += 1;
        self.counts.refused(said);
        same("refusal", &refusal(number, 0, 0), &said)
    }

    // Number 1.

    fn wrong_lengths(&mut self, record: &[u8], solution: &Grid) -> Compared {
        let before = self.memory.clone();
        let journal = self.rng.pick(&[0, 1, 8, 8184, 8191]);
        all_answer(1, self, [journal, 1536, 7])?;
        // A board that is foreign too: 1 comes first.
        self.board.made += 5000;
        all_answer(1, self, [journal, 1535, 7])?;
        self.board.made -= 5000;
        let checks = self.rng.pick(&[0, 6, 1530, 1535]);
        let said = sys::check(&self.board, &mut self.memory.checks[..checks], 0, 0).refusal;
        self.refused(said, 1)?;
        let mut out = [0; MAX_RECORD];
        let said = sys::write(&self.board, &self.memory.journal, &self.memory.checks[..checks], &mut out).refusal;
        self.refused(said, 1)?;
        self.wrong_openings(record, solution, journal, checks)?;
        same("memory after refused calls", &before, &self.memory)
    }

    fn wrong_openings(&mut self, record: &[u8], solution: &Grid, journal: usize, checks: usize) -> Compared {
        let long = vec![1; 82];
        let given = [1, 1, solution[0]];
        let solutions = [&solution[..80], &long, &[]];
        for wrong in 0..6 {
            let memory = &mut self.memory;
            let journal = if wrong == 0 { &mut memory.journal[..journal] } else { &mut memory.journal };
            let checks = if wrong == 1 { &mut memory.checks[..checks] } else { &mut memory.checks };
            let lent = if (2..5).contains(&wrong) { solutions[wrong - 2] } else { solution.as_slice() };
            let givens = if wrong == 5 { &given[..2] } else { &given };
            let opened = sys::open(givens, lent, journal, checks);
            let mut answers = vec![opened];
            if wrong < 5 {
                answers.push(sys::reopen(record, lent, journal, checks));
            }
            for answer in answers {
                same("the board beside a refused opening", &Board::ZERO, &answer.board)?;
                self.refused(answer.refusal, 1)?;
            }
        }
        Ok(())
    }

    // Number 2.

    fn foreign_board(&mut self) -> Compared {
        let (sound, before) = (self.board, self.memory.clone());
        let cell = self.rng.below(81);
        for damage in 0..11 {
            self.board = sound;
            let board = &mut self.board;
            match damage {
                0 => board.made = 1025,
                1 => board.standing = board.made + 1,
                2 => board.checks = 257,
                3 => board.digits[cell] = 10,
                4 => (board.given[cell], board.digits[cell]) = (1, 0),
                5 => board.notes[cell] |= 1,
                6 => board.notes[cell] |= 1 << 10,
                7 => board.solution[cell] = 0,
                8 => board.solution[cell] = 10,
                9 => board.given[cell] = 2,
                _ => board.solved = 255,
            }
            all_answer(2, self, [8192, 1536, 7])?;
            self.questions_of_a_foreign_board()?;
            self.list_on_a_foreign_board()?;
        }
        self.board = sound;
        same("memory after refused calls", &before, &self.memory)
    }

    fn questions_of_a_foreign_board(&mut self) -> Compared {
        let board = self.board;
        let cell = sys::cell(&board, 0, 0);
        same("a refused answer is empty", &(0, 0, 0), &(cell.digit, cell.note, cell.shown))?;
        same("a refused keypad is empty", &[0; 9], &sys::keypad(&board).left)?;
        let said = [
            cell.refusal,
            sys::conflicts(&board, 0, 0).refusal,
            sys::accepts_marks(&board, 0, 0).refusal,
            sys::holds_players_digit(&board, 0, 0).refusal,
            sys::is_solved(&board).refusal,
            sys::is_full(&board).refusal,
            sys::is_consistent(&board).refusal,
            sys::can_undo(&board).refusal,
            sys::can_redo(&board).refusal,
            sys::digits_left(&board, 0).refusal,
            sys::keypad(&board).refusal,
        ];
        said.into_iter().try_for_each(|said| self.refused(said, 2))
    }

    /// A list is run: each of its calls is refused by 2, and bytes that are no call by 255.
    fn list_on_a_foreign_board(&mut self) -> Compared {
        let mut answers = [0x5a; 24];
        let memory = &mut self.memory;
        let known = [[call::PLACE, 1, 1, 1], [call::PENCIL, 1, 1, 10], [call::UNDO, 0, 0, 0], [call::CHECK, 0, 1, 0]];
        let calls = [known.as_flattened(), &[9, 1, 1, 1], &[kind::WRITE_MARK, 1, 1, 1]].concat();
        let answer = sys::play(&self.board, &mut memory.journal, &mut memory.checks, &calls, &mut answers);
        same("the board after a list on a foreign board", &self.board, &answer.board)?;
        let expected = [[2, 0, 0, 0], [2, 0, 0, 0], [2, 0, 0, 0], [2, 0, 0, 0], [255, 0, 0, 0], [255, 0, 0, 0]];
        same_bytes("answers of a list on a foreign board", expected.as_flattened(), &answers)?;
        self.refused(answer.refusal, 0)
    }

    // Number 14.

    fn damaged_memory(&mut self) -> Compared {
        let (sound, board) = (self.memory.clone(), self.board);
        for _ in 0..6 {
            self.memory = sound.clone();
            self.board = board;
            self.board.standing = self.rng.within(0, board.made);
            if board.made > 0 {
                let slot = self.slot_near_standing();
                let at = 8 * (slot - 1) + self.rng.below(8);
                self.memory.journal[at] = self.other_byte(self.memory.journal[at]);
            }
            if board.checks > 0 && self.rng.percent(50) {
                let at = self.rng.below(6 * board.checks);
                self.memory.checks[at] = self.other_byte(self.memory.checks[at]);
            }
            self.compare_undo_and_redo()?;
            self.compare_write_and_readings()?;
        }
        Ok(())
    }

    fn slot_near_standing(&mut self) -> usize {
        let (standing, made) = (self.board.standing, self.board.made);
        let any = self.rng.within(1, made);
        self.rng.pick(&[standing.max(1), (standing + 1).min(made), any])
    }

    fn other_byte(&mut self, byte: u8) -> u8 {
        let (any, bit) = (self.rng.byte(), 1 << self.rng.below(8));
        self.rng.pick(&[byte ^ bit, byte.wrapping_add(1), byte.wrapping_sub(1), 0, any, any % 11])
    }

    fn compare_undo_and_redo(&mut self) -> Compared {
        let board = self.board;
        for (back, call) in [(true, Call::Undo), (false, Call::Redo)] {
            self.counts.beyond += 1;
            let answer = match call {
                Call::Undo => sys::undo(&board, &self.memory.journal),
                _ => sys::redo(&board, &self.memory.journal),
            };
            self.counts.refused(answer.refusal);
            let (said, expected) = stepped(&board, &self.memory.journal, back);
            same(&call.to_string(), &said, &answer.refusal)?;
            same("the board after it", &expected, &answer.board)?;
        }
        Ok(())
    }

    fn compare_write_and_readings(&mut self) -> Compared {
        let (board, memory) = (&self.board, &self.memory);
        let slots = memory.journal.chunks_exact(8).take(board.made);
        let unsound = slots.into_iter().position(|slot| !slot_is_sound(slot, board)).map(|at| refusal(14, at + 1, 0));
        let stored = memory.checks.chunks_exact(6).take(board.checks);
        let check = stored.into_iter().position(|check| !check_is_sound(check, board));
        let expected = unsound.or(check.map(|at| refusal(14, at + 1, 1))).unwrap_or(ACCEPTED);
        let mut output = vec![0x5a; MAX_RECORD];
        let written = sys::write(board, &memory.journal, &memory.checks, &mut output);
        self.counts.beyond += 2;
        self.counts.refused(written.refusal);
        same("writing from damaged memory", &expected, &written.refusal)?;
        if expected != ACCEPTED {
            same_bytes("the output of a refused writing", &vec![0x5a; MAX_RECORD], &output)?;
        }
        let k = self.rng.within(0, board.made + 1);
        let reading = sys::reading(board, &memory.journal, k);
        self.counts.refused(reading.refusal);
        let beyond = if k == 0 || k > board.made { refusal(35, 0, 0) } else { ACCEPTED };
        same("a reading of damaged memory", &unsound.unwrap_or(beyond), &reading.refusal)
    }
}

/// A slot whose fields lie in their ranges, on a cell of the grid that is no given.
fn slot_is_sound(slot: &[u8], board: &Board) -> bool {
    let [kind, row, column, digit, before, low, middle, high] = slot else {
        return false;
    };
    let mask = (*low, *middle, *high);
    let ranges = match *kind {
        kind::PLACE => (1..=9).contains(digit) && *before <= 9 && *high < 16,
        kind::ERASE => *digit == 0 && (1..=9).contains(before) && mask == (0, 0, 0),
        kind::WRITE_MARK | kind::STRIKE_MARK => (1..=9).contains(digit) && *before == 0 && mask == (0, 0, 0),
        _ => false,
    };
    ranges && is_players(*row, *column, board)
}

fn check_is_sound(check: &[u8], board: &Board) -> bool {
    let standing = u16::from_le_bytes([check[0], check[1]]);
    let in_range = (1..=1024).contains(&standing) && (1..=9).contains(&check[4]) && check[5] <= 1;
    in_range && is_players(check[2], check[3], board)
}

fn is_players(row: u8, column: u8, board: &Board) -> bool {
    let cell = cell_of(row, column);
    cell != 0 && board.given[cell - 1] == 0
}

/// Undo or redo by document 01's words, on any memory: the refusal and the board afterwards.
fn stepped(board: &Board, journal: &[u8], back: bool) -> (Refusal, Board) {
    if board.solved == 1 {
        return (refusal(4, 0, 0), *board);
    }
    let number = if back { board.standing } else { board.standing + 1 };
    if number == 0 || number > board.made {
        return (refusal(if back { 12 } else { 13 }, 0, 0), *board);
    }
    let unsound = (refusal(14, number, 0), *board);
    let slot = &journal[8 * (number - 1)..8 * number];
    if !slot_is_sound(slot, board) {
        return unsound;
    }
    let mut after = *board;
    after.standing = if back { number - 1 } else { number };
    let cell = cell_of(slot[1], slot[2]) - 1;
    let mark = 1_u16 << slot[3];
    let (left, found) = if slot[0] == kind::PLACE { (slot[3], slot[4]) } else { (0, slot[4]) };
    if matches!(slot[0], kind::PLACE | kind::ERASE) {
        let (now, then) = if back { (left, found) } else { (found, left) };
        if board.digits[cell] != now {
            return unsound;
        }
        after.digits[cell] = then;
        let full = after.digits.iter().all(|&digit| digit != 0);
        if then != 0 && full && (1..=81).all(|cell| !conflicts(&after.digits, cell)) {
            after.solved = 1;
        }
    }
    // Every mark that the move changed, and whether the move leaves it written.
    let mut marks = Vec::new();
    match slot[0] {
        kind::PLACE => {
            let mask = u32::from_le_bytes([slot[5], slot[6], slot[7], 0]);
            let struck = peers(cell + 1).iter().zip(0..).filter(|(_, bit)| mask >> bit & 1 == 1);
            marks.extend(struck.map(|(peer, _)| (peer - 1, false)));
        }
        kind::WRITE_MARK => marks.push((cell, true)),
        kind::STRIKE_MARK => marks.push((cell, false)),
        _ => {}
    }
    for (cell, left) in marks {
        let stands = board.notes[cell] & mark != 0;
        if stands != (left == back) {
            return unsound;
        }
        after.notes[cell] ^= mark;
    }
    (ACCEPTED, after)
}

//! Puzzle lines, which the original does not have. Reading and writing one are held to document 02 alone, by a model
//! that is written here apart from the library, and to each other: what one call makes, the other brings back.

use crate::bytes::{ACCEPTED, Items, refusal};
use crate::grid::{Grid, cell_of, g, givens_of, position_of};
use crate::ours::Ours;
use crate::pair::Compared;
use crate::plant::Plant;
use crate::report::{Counts, same, same_bytes};
use crate::rng::Rng;
use pawdoku::sys::{self, Written};
use pawdoku::{Board, LINE_BYTES, LINE_GIVENS, call};

/// What a call has to answer, and every byte of the output afterwards.
type Expected = (Written, Vec<u8>);

/// The digit that a character stands for, 0 for a blank; none for a character of another sort.
const fn value_of(character: u8) -> Option<u8> {
    match character {
        b'.' => Some(0),
        b'0'..=b'9' => Some(character - b'0'),
        _ => None,
    }
}

fn refused(number: u8, place: usize, output: &[u8]) -> Expected {
    (Written { refusal: refusal(number, place, 0), length: 0 }, output.to_vec())
}

/// These bytes at the output's start, the rest as it was.
fn laid(bytes: &[u8], output: &[u8]) -> Expected {
    let after = bytes.iter().chain(&output[bytes.len()..]).copied().collect();
    (Written { refusal: ACCEPTED, length: bytes.len() }, after)
}

/// The bytes of the givens of a grid with empty cells.
fn bytes_of(digits: &Grid) -> Vec<u8> {
    givens_of(digits, (1..=81).filter(|cell| digits[cell - 1] != 0)).concat()
}

/// Reading, by document 02's words.
fn reading(line: &[u8], output: &[u8]) -> Expected {
    if output.len() < LINE_GIVENS {
        return refused(34, 0, output);
    }
    let without_feed = if line.len() == 82 { line.strip_suffix(b"\n") } else { Some(line) };
    let Some(characters) = without_feed.and_then(|line| <&Grid>::try_from(line).ok()) else {
        return refused(36, 0, output);
    };
    match characters.iter().position(|&character| value_of(character).is_none()) {
        Some(at) => refused(37, at + 1, output),
        None => laid(&bytes_of(&characters.map(|character| value_of(character).unwrap_or(0))), output),
    }
}

/// Number 2, by document 01's words.
fn is_board(board: &Board) -> bool {
    let counts = board.made <= 1024 && board.standing <= board.made && board.checks <= 256 && board.solved <= 1;
    let given = |(given, digit): (&u8, &u8)| *given == 0 || (*given == 1 && *digit != 0);
    counts
        && board.digits.iter().all(|&digit| digit <= 9)
        && board.given.iter().zip(&board.digits).all(given)
        && board.notes.iter().all(|note| note & !0x3fe == 0)
        && board.solution.iter().all(|digit| (1..=9).contains(digit))
}

/// The digits of the givens, 0 for every other cell.
fn given_digits(board: &Board) -> Grid {
    core::array::from_fn(|at| if board.given[at] == 1 { board.digits[at] } else { 0 })
}

/// A grid with empty cells as a line.
fn line_of(digits: &Grid) -> Grid {
    digits.map(|digit| if digit == 0 { b'.' } else { b'0' + digit })
}

/// Writing, by document 02's words.
fn writing(board: &Board, output: &[u8]) -> Expected {
    if !is_board(board) {
        return refused(2, 0, output);
    }
    if output.len() < LINE_BYTES {
        return refused(34, 0, output);
    }
    laid(&line_of(&given_digits(board)), output)
}

/// Where lines are read and written.
struct Mail<'a> {
    plant: Plant,
    rng: Rng,
    counts: &'a mut Counts,
}

/// The board of a reopened record, where the comparison has found nothing to say against it: its line, lines that are
/// mailed of the same puzzle, and damage to both.
pub fn session(record: &[u8], solution: &Grid, rng: &Rng, plant: Plant, counts: &mut Counts) -> Compared {
    let (said, ours) = Ours::reopen(record, solution, Plant::Nothing);
    let Ok(items) = Items::read(record) else { return Ok(()) };
    if said != ACCEPTED {
        return Ok(());
    }
    let mut mail = Mail { plant, rng: rng.branch(2, 0), counts };
    let mut digits = [0; 81];
    for [row, column, digit] in items.givens {
        digits[cell_of(row, column) - 1] = digit;
    }
    mail.written_is_read(&ours.board, &digits)?;
    mail.read_is_written(&digits, solution, record)?;
    for _ in 0..8 {
        mail.any_line()?;
        mail.any_board(&ours.board)?;
    }
    Ok(())
}

/// Every byte in every place, every length, every room, and what is refused for two reasons.
pub fn directed(plant: Plant, counts: &mut Counts) -> Compared {
    let mut mail = Mail { plant, rng: Rng::new(0), counts };
    mail.every_byte()?;
    mail.every_length()?;
    mail.full_lines()?;
    let thirty: Grid = core::array::from_fn(|at| if at % 8 < 3 { g()[at] } else { 0 });
    mail.read_is_written(&thirty, &g(), &[])?;
    mail.player_digits(&thirty)
}

impl Mail<'_> {
    /// An output of this many bytes, whatever they are.
    fn output(&mut self, room: usize) -> Vec<u8> {
        (0..room).map(|_| self.rng.byte()).collect()
    }

    /// What was done is put into words only where something differs: there are many lines.
    fn compare(&mut self, what: impl FnOnce() -> String, expected: &Expected, found: &Expected) -> Compared {
        self.counts.lines += 1;
        self.counts.lines_accepted += u64::from(found.0.refusal == ACCEPTED);
        self.counts.refused(found.0.refusal);
        if expected == found {
            return Ok(());
        }
        let what = what();
        same(&what, &expected.0, &found.0)?;
        same_bytes(&format!("the output of {what}"), &expected.1, &found.1)
    }

    /// Reads a line: the givens' bytes, none where it is refused.
    fn read(&mut self, line: &[u8], room: usize) -> Compared<Vec<u8>> {
        let mut output = self.output(room);
        let expected = reading(line, &output);
        let mut written = sys::read_line(line, &mut output);
        self.plant.line_read(&mut written);
        let found = (written, output);
        let what = || format!("reading the line {:?} into {room} bytes", String::from_utf8_lossy(line));
        self.compare(what, &expected, &found)?;
        Ok(found.1[..found.0.length].to_vec())
    }

    /// Writes a line: its characters, none where it is refused.
    fn write(&mut self, board: &Board, room: usize) -> Compared<Vec<u8>> {
        let mut output = self.output(room);
        let expected = writing(board, &output);
        let written = sys::write_line(board, &mut output);
        if let Some(line) = output.get_mut(..written.length) {
            self.plant.line_written(board, line);
        }
        let found = (written, output);
        self.compare(|| format!("writing a line into {room} bytes"), &expected, &found)?;
        Ok(found.1[..found.0.length].to_vec())
    }

    /// A written line read back gives the givens: here those that the original's record has.
    fn written_is_read(&mut self, board: &Board, digits: &Grid) -> Compared {
        let line = self.write(board, LINE_BYTES)?;
        same_bytes("a written line", &line_of(digits), &line)?;
        let givens = self.read(&line, LINE_GIVENS)?;
        same_bytes("the givens of a written line", &bytes_of(digits), &givens)
    }

    /// A line as somebody may mail it: either blank, with a line feed or without.
    fn mailed(&mut self, digits: &Grid) -> Vec<u8> {
        let letter = |letter: u8| if letter == b'.' { self.rng.pick(b".0") } else { letter };
        let mut line = line_of(digits).map(letter).to_vec();
        line.extend(self.rng.percent(50).then_some(b'\n'));
        line
    }

    /// A read line whose givens open a board is written with full stops and without its line feed: when it is opened,
    /// after any play, and when what was played is reopened.
    fn read_is_written(&mut self, digits: &Grid, solution: &Grid, played: &[u8]) -> Compared {
        let mailed = self.mailed(digits);
        let givens = self.read(&mailed, LINE_GIVENS + 5)?;
        let (said, mut ours) = Ours::open(&givens, solution, Plant::Nothing);
        same("opening the givens of a line", &ACCEPTED, &said)?;
        let dotted: Vec<u8> = mailed[..81].iter().map(|&letter| if letter == b'0' { b'.' } else { letter }).collect();
        same_bytes("the line of an opened board", &dotted, &self.write(&ours.board, LINE_BYTES + 3)?)?;
        self.play(&mut ours, solution);
        same_bytes("the line of a played board", &dotted, &self.write(&ours.board, LINE_BYTES)?)?;
        let record = ours.write().map_err(|refused| format!("writing is refused: {refused}"))?;
        for record in [record.as_slice(), played].into_iter().filter(|record| !record.is_empty()) {
            let (said, ours) = Ours::reopen(record, solution, Plant::Nothing);
            same("reopening what was opened from a line", &ACCEPTED, &said)?;
            same_bytes("the line of a reopened board", &dotted, &self.write(&ours.board, LINE_BYTES)?)?;
        }
        Ok(())
    }

    /// Any calls: right digits and wrong ones, marks, undo, redo and checks.
    fn play(&mut self, ours: &mut Ours, solution: &Grid) {
        let mut calls = Vec::new();
        for _ in 0..self.rng.within(0, 120) {
            let (at, any) = (self.rng.below(81), self.rng.byte() % 11);
            let (row, column) = position_of(at + 1);
            let each = [call::PLACE, call::ERASE, call::PENCIL, call::UNDO, call::REDO, call::CHECK];
            let which = if self.rng.percent(30) { call::PLACE } else { self.rng.pick(&each) };
            calls.extend([which, row, column, self.rng.pick(&[solution[at], any])]);
        }
        let mut answers = vec![0; calls.len()];
        ours.play(&calls, &mut answers);
    }

    /// A line that need not open, as it is or damaged, into enough bytes or too few.
    fn any_line(&mut self) -> Compared {
        let many = self.rng.below(101);
        let digits: Grid = core::array::from_fn(|_| if self.rng.percent(many) { 1 + self.rng.byte() % 9 } else { 0 });
        let mut line = self.mailed(&digits);
        let (at, any) = (self.rng.below(81), self.rng.byte());
        match self.rng.below(8) {
            0 => line[at] = any,
            1 => line[at] = self.rng.pick(b"/:- \t\r\n\0o,*"),
            2 => line.truncate(at),
            3 => line.extend(b"\r\n"),
            4 => line.insert(at, any),
            5 => line.fill_with(|| self.rng.byte()),
            _ => {}
        }
        let fewer = self.rng.below(LINE_GIVENS);
        let room = self.rng.pick(&[LINE_GIVENS, LINE_GIVENS, LINE_GIVENS + 7, LINE_GIVENS - 1, fewer]);
        self.read(&line, room).map(|_| ())
    }

    /// A board value that no call returned: one that number 2 does not speak of, or one that it does.
    fn any_board(&mut self, sound: &Board) -> Compared {
        let mut board = *sound;
        let many = self.rng.below(101);
        for at in 0..81 {
            board.digits[at] = self.rng.byte() % 10;
            board.given[at] = u8::from(board.digits[at] != 0 && self.rng.percent(many));
        }
        let (at, any) = (self.rng.below(81), self.rng.byte());
        match self.rng.below(10) {
            0 => board.digits[at] = any,
            1 => board.given[at] = any,
            2 => board.notes[at] = u16::from_le_bytes([any, any]),
            3 => board.solution[at] = any,
            4 => board.solved = any,
            5 => board.standing = board.made + self.rng.below(2),
            6 => board.checks = self.rng.pick(&[256, 257, usize::MAX]),
            _ => {}
        }
        let fewer = self.rng.below(LINE_BYTES);
        let room = self.rng.pick(&[LINE_BYTES, LINE_BYTES, LINE_BYTES + 9, LINE_BYTES - 1, fewer]);
        let line = self.write(&board, room)?;
        if line.is_empty() {
            return Ok(());
        }
        let givens = self.read(&line, LINE_GIVENS)?;
        same_bytes("the givens of a written line", &bytes_of(&given_digits(&board)), &givens)
    }

    fn every_byte(&mut self) -> Compared {
        let sound = line_of(&core::array::from_fn(|at| if at % 3 == 0 { g()[at] } else { 0 }));
        for byte in 0..=255 {
            for at in 0..81 {
                let mut line = sound;
                line[at] = byte;
                self.read(&line, LINE_GIVENS)?;
            }
            self.read(&[sound.as_slice(), &[byte]].concat(), LINE_GIVENS)?;
            self.read(&[sound.as_slice(), &[byte, b'\n']].concat(), LINE_GIVENS)?;
        }
        Ok(())
    }

    /// Every length of a line and of an output, alone and together with another reason.
    fn every_length(&mut self) -> Compared {
        for length in 0..=170 {
            self.read(&vec![b'.'; length], LINE_GIVENS)?;
            self.read(&[vec![b'5'; length], vec![b'\n']].concat(), LINE_GIVENS)?;
            self.read(&vec![b'x'; length], LINE_GIVENS)?;
        }
        for room in 0..=LINE_GIVENS + 1 {
            for line in [vec![b'.'; 81], vec![b'5'; 81], vec![b'x'; 81], vec![b'.'; 80]] {
                self.read(&line, room)?;
            }
        }
        let (_, ours) = Ours::open(&[], &g(), Plant::Nothing);
        for board in [ours.board, Board { solved: 2, ..ours.board }] {
            (0..=LINE_BYTES + 1).try_for_each(|room| self.write(&board, room).map(|_| ()))?;
        }
        Ok(())
    }

    /// 81 givens: a line that is read and does not open, and a board value that fills all the room there is.
    fn full_lines(&mut self) -> Compared {
        let givens = self.read(&line_of(&g()), LINE_GIVENS)?;
        let (said, _) = Ours::open(&givens, &g(), Plant::Nothing);
        same("opening 81 givens", &refusal(22, 0, 0), &said)?;
        let board = Board { digits: g(), given: [1; 81], solution: g(), ..Board::ZERO };
        self.written_is_read(&board, &g())
    }

    /// A board that is solved: the player's digits are not in its line.
    fn player_digits(&mut self, digits: &Grid) -> Compared {
        let (_, mut ours) = Ours::open(&bytes_of(digits), &g(), Plant::Nothing);
        let cells = (1..=81).filter(|cell| digits[cell - 1] == 0);
        let place = |[row, column, digit]: [u8; 3]| [call::PLACE, row, column, digit];
        let calls: Vec<u8> = givens_of(&g(), cells).into_iter().flat_map(place).collect();
        ours.play(&calls, &mut vec![0; calls.len()]);
        same("solved", &1, &ours.board.solved)?;
        self.written_is_read(&ours.board, digits)
    }
}

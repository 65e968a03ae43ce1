//! Random sessions, in several styles of play. A player sees the board and chooses the next step.

use crate::call::Call;
use crate::grid::{Grid, cell_of, position_of, random_givens, random_grid};
use crate::pair::{self, Pair};
use crate::plant::Plant;
use crate::report::Counts;
use crate::rng::Rng;
use crate::script::{Script, Step};
use pawdoku::MAX_MOVES;

/// How somebody plays.
#[derive(Debug, Clone, Copy, PartialEq, Eq)]
pub enum Style {
    /// Any call with any bytes.
    Chaos,
    /// Marks everywhere, placements among them.
    Penciller,
    /// Places the solution's digits, with some errors.
    Solver,
    /// Fills the board wrongly, changes it while it is full, and mends it.
    WrongFiller,
    /// Fills the board with another valid grid than the solution, which the givens allow too.
    OtherGrid,
    /// Long runs of undo and redo.
    Pendulum,
    /// Checks most of what is placed.
    Checker,
    /// 1,024 moves and more, and back to the beginning.
    Marathon,
}

impl Style {
    /// All styles.
    pub const ALL: [Self; 8] = [
        Self::Chaos,
        Self::Penciller,
        Self::Solver,
        Self::WrongFiller,
        Self::OtherGrid,
        Self::Pendulum,
        Self::Checker,
        Self::Marathon,
    ];

    /// How many givens such a session starts from, and how many steps it has.
    fn sizes(self, rng: &mut Rng) -> (usize, usize) {
        match self {
            Self::Chaos => (rng.pick(&[0, 1, 5, 17, 30, 50, 79, 80]), rng.within(20, 200)),
            Self::Penciller => (rng.pick(&[0, 0, 17, 24, 30]), rng.within(100, 700)),
            Self::Solver => (rng.pick(&[0, 24, 30, 50, 65, 72, 79, 80]), 400),
            Self::WrongFiller => (rng.pick(&[30, 60, 70, 74, 77, 78]), 400),
            Self::OtherGrid => (rng.pick(&[0, 20, 40, 55, 60, 63]), 400),
            Self::Pendulum => (rng.pick(&[0, 5, 24, 30, 60]), rng.within(100, 800)),
            Self::Checker => (rng.pick(&[0, 24, 40, 70, 79]), rng.within(50, 500)),
            Self::Marathon => (rng.pick(&[0, 3, 30, 79]), rng.within(1500, 4500)),
        }
    }
}

/// A session that was played: its record as it stood at the end, and the solution.
pub struct Played {
    /// The record's bytes.
    pub record: Vec<u8>,
    /// The solution.
    pub solution: Grid,
}

/// Plays one session on both sides. A session that differs comes back as a script.
pub fn play(style: Style, rng: &mut Rng, plant: Plant, counts: &mut Counts) -> Result<Played, Box<Script>> {
    let solution = random_grid(rng);
    let (count, limit) = style.sizes(rng);
    let (target, givens) = if style == Style::OtherGrid {
        other_grid(&solution, count, rng)
    } else {
        (solution, random_givens(&solution, count, rng))
    };
    let mut script = Script { solution, givens, steps: Vec::new() };
    let (rng, burst) = (rng.clone(), (0, Call::Undo));
    let mut player = Player { style, rng, target, left: limit, phase: 0, burst, bounced: None, after: 12 };
    match run(&mut script, &mut player, plant, counts) {
        Ok(record) => Ok(Played { record, solution }),
        Err(_) => Err(Box::new(script)),
    }
}

fn run(script: &mut Script, player: &mut Player, plant: Plant, counts: &mut Counts) -> Result<Vec<u8>, String> {
    let opened = pair::open(&script.givens, &script.solution, plant, counts)?;
    let mut pair = opened.map_err(|refused| format!("both refuse a puzzle: {refused}"))?;
    while let Some(step) = player.next(&pair) {
        script.steps.push(step);
        pair.step(step, counts)?;
    }
    pair.finish(counts)?;
    pair.ours.write().map_err(|refused| refused.to_string())
}

/// Two digits exchanged make another valid grid; givens of other digits belong to both.
fn other_grid(solution: &Grid, count: usize, rng: &mut Rng) -> (Grid, Vec<[u8; 3]>) {
    let mut digits = [1, 2, 3, 4, 5, 6, 7, 8, 9];
    rng.shuffle(&mut digits);
    let (a, b) = (digits[0], digits[1]);
    let other = solution.map(|digit| match digit {
        digit if digit == a => b,
        digit if digit == b => a,
        digit => digit,
    });
    let mut givens = random_givens(solution, 81, rng);
    givens.retain(|given| given[2] != a && given[2] != b);
    rng.shuffle(&mut givens);
    givens.truncate(count);
    givens.sort_unstable();
    (other, givens)
}

/// The marks that a cell's note has, or those that it lacks.
fn marks(pair: &Pair, (row, column): (u8, u8), present: bool) -> Vec<u8> {
    let note = pair.state.notes[cell_of(row, column) - 1];
    (1..=9).filter(|digit| (note >> digit & 1 == 1) == present).collect()
}

struct Player {
    style: Style,
    rng: Rng,
    /// The grid that is aimed at.
    target: Grid,
    /// Steps left.
    left: usize,
    /// Where in its plan the player is.
    phase: usize,
    /// A call to repeat, and how often.
    burst: (usize, Call),
    /// A press of the pencil that comes once more, from a key that bounces.
    bounced: Option<Call>,
    /// Calls made after the board is solved.
    after: usize,
}

impl Player {
    fn next(&mut self, pair: &Pair) -> Option<Step> {
        self.left = self.left.checked_sub(1)?;
        if pair.state.solved {
            self.after = self.after.checked_sub(1)?;
            return Some(if self.rng.percent(80) { Step::Call(self.anything()) } else { self.aside(pair) });
        }
        let bounced = self.bounced.take();
        if bounced.is_none() && self.rng.percent(6) {
            return Some(self.aside(pair));
        }
        let call = bounced.unwrap_or_else(|| self.call(pair));
        let again = matches!(call, Call::Pencil(..)) && self.rng.percent(5);
        self.bounced = again.then_some(call);
        Some(Step::Call(call))
    }

    fn call(&mut self, pair: &Pair) -> Call {
        match self.style {
            Style::Chaos => self.anything(),
            Style::Penciller => self.pencil(pair),
            Style::Solver | Style::OtherGrid => self.solve(pair),
            Style::WrongFiller => self.fill_wrongly(pair),
            Style::Pendulum => self.swing(pair),
            Style::Checker => self.place_and_check(pair),
            Style::Marathon => self.run_far(pair),
        }
    }

    // What every player does at times.

    fn aside(&mut self, pair: &Pair) -> Step {
        match self.rng.below(16) {
            0 | 1 => Step::Reopen,
            2 | 3 => Step::Write,
            4..=8 => Step::Reading(self.rng.within(0, pair.state.made + 1)),
            9..=11 => Step::Cell(self.line(), self.line()),
            12 => Step::Flags,
            13 | 14 => Step::Key(self.digit()),
            _ => Step::Shown,
        }
    }

    fn line(&mut self) -> u8 {
        if self.rng.percent(94) { 1 + self.rng.byte() % 9 } else { self.odd() }
    }

    fn digit(&mut self) -> u8 {
        if self.rng.percent(92) { 1 + self.rng.byte() % 9 } else { self.odd() }
    }

    fn odd(&mut self) -> u8 {
        let any = self.rng.byte();
        self.rng.pick(&[0, 10, 16, 255, any])
    }

    fn anything(&mut self) -> Call {
        let (row, column, digit) = (self.line(), self.line(), self.digit());
        match self.rng.below(16) {
            0..=4 => Call::Place(row, column, digit),
            5 | 6 => Call::Erase(row, column),
            7..=11 => Call::Pencil(row, column, digit),
            12 | 13 => Call::Undo,
            14 => Call::Redo,
            _ => Call::Check(row, column),
        }
    }

    /// A cell like this, or none where there is none after some tries.
    fn cell(&mut self, pair: &Pair, fits: impl Fn(&Pair, usize) -> bool) -> Option<(u8, u8)> {
        let first = self.rng.below(81);
        let cell = (0..81).map(|n| (first + n * 34) % 81 + 1).find(|&cell| fits(pair, cell))?;
        Some(position_of(cell))
    }

    fn empty_cell(&mut self, pair: &Pair) -> Option<(u8, u8)> {
        self.cell(pair, |pair, cell| pair.state.digits[cell - 1] == 0)
    }

    fn filled_cell(&mut self, pair: &Pair) -> Option<(u8, u8)> {
        self.cell(pair, |pair, cell| pair.state.digits[cell - 1] != 0 && pair.state.given[cell - 1] == 0)
    }

    fn wrong_cell(&mut self, pair: &Pair) -> Option<(u8, u8)> {
        let target = self.target;
        self.cell(pair, |pair, cell| pair.state.given[cell - 1] == 0 && pair.state.digits[cell - 1] != target[cell - 1])
    }

    fn right(&mut self, (row, column): (u8, u8)) -> Call {
        Call::Place(row, column, self.target[cell_of(row, column) - 1])
    }

    /// The pencil for a mark that is absent, where the note lacks one; at times for any digit, or for what is none.
    fn press_absent(&mut self, pair: &Pair) -> Call {
        let (row, column) = self.empty_cell(pair).unwrap_or((1, 1));
        let (any, absent) = (self.digit(), marks(pair, (row, column), false));
        let chosen = (1..=9).contains(&any) && !absent.is_empty() && self.rng.percent(85);
        Call::Pencil(row, column, if chosen { self.rng.pick(&absent) } else { any })
    }

    /// The pencil for a mark that is present, where there is one; at times for one that is kept under a digit.
    fn press_present(&mut self, pair: &Pair) -> Call {
        let under = self.rng.percent(5);
        let marked = |pair: &Pair, cell: usize| {
            let (digit, note) = (pair.state.digits[cell - 1], pair.state.notes[cell - 1]);
            (digit != 0) == under && note != 0
        };
        let Some((row, column)) = self.cell(pair, marked) else {
            return self.press_absent(pair);
        };
        let present = marks(pair, (row, column), true);
        Call::Pencil(row, column, self.rng.pick(&present))
    }

    // The styles.

    fn pencil(&mut self, pair: &Pair) -> Call {
        match self.rng.below(100) {
            0..=66 => self.press_absent(pair),
            67..=72 => self.press_present(pair),
            73..=84 => {
                let (row, column) = self.empty_cell(pair).unwrap_or((1, 1));
                Call::Place(row, column, self.digit())
            }
            85..=87 => self.filled_cell(pair).map_or(Call::Redo, |(row, column)| Call::Erase(row, column)),
            88..=93 => Call::Undo,
            94..=97 => Call::Redo,
            _ => self.anything(),
        }
    }

    fn solve(&mut self, pair: &Pair) -> Call {
        match self.rng.below(100) {
            0..=3 => self.press_absent(pair),
            4..=6 => self.filled_cell(pair).map_or(Call::Redo, |(row, column)| Call::Erase(row, column)),
            7..=10 => self.filled_cell(pair).map_or(Call::Undo, |(row, column)| Call::Check(row, column)),
            11..=13 => Call::Undo,
            14 | 15 => Call::Redo,
            16..=20 => {
                let (row, column) = self.empty_cell(pair).unwrap_or((1, 1));
                Call::Place(row, column, self.digit())
            }
            21 => self.anything(),
            _ => self.wrong_cell(pair).map_or(Call::Undo, |cell| self.right(cell)),
        }
    }

    fn fill_wrongly(&mut self, pair: &Pair) -> Call {
        if self.rng.percent(8) {
            return match self.rng.below(4) {
                0 => Call::Undo,
                1 => Call::Redo,
                2 => self.filled_cell(pair).map_or(Call::Undo, |(row, column)| Call::Check(row, column)),
                _ => self.press_absent(pair),
            };
        }
        if self.phase == 0 {
            if let Some((row, column)) = self.empty_cell(pair) {
                return Call::Place(row, column, 1 + self.rng.byte() % 9);
            }
            self.phase = self.rng.within(1, 12);
        }
        if self.phase > 1 {
            self.phase -= 1;
            let (row, column) = self.filled_cell(pair).unwrap_or((1, 1));
            return Call::Place(row, column, 1 + self.rng.byte() % 9);
        }
        self.wrong_cell(pair).map_or(Call::Undo, |cell| self.right(cell))
    }

    fn swing(&mut self, pair: &Pair) -> Call {
        if self.burst.0 == 0 {
            let count = self.rng.within(1, 60);
            let call = self.rng.pick(&[Call::Undo, Call::Redo, Call::Check(0, 0), Call::Check(0, 0)]);
            self.burst = (count, call);
        }
        self.burst.0 -= 1;
        match self.burst.1 {
            Call::Check(..) => match self.rng.below(10) {
                0..=3 => self.press_absent(pair),
                4 => self.press_present(pair),
                5 => self.filled_cell(pair).map_or(Call::Undo, |(row, column)| Call::Erase(row, column)),
                6 => self.filled_cell(pair).map_or(Call::Undo, |(row, column)| Call::Check(row, column)),
                _ => {
                    let (row, column) = self.empty_cell(pair).unwrap_or((1, 1));
                    Call::Place(row, column, self.digit())
                }
            },
            call => call,
        }
    }

    fn place_and_check(&mut self, pair: &Pair) -> Call {
        match self.rng.below(100) {
            0..=59 => self.filled_cell(pair).map_or(Call::Check(1, 1), |(row, column)| Call::Check(row, column)),
            60..=79 => self.wrong_cell(pair).map_or(Call::Undo, |cell| self.right(cell)),
            80..=89 => {
                let (row, column) = self.empty_cell(pair).unwrap_or((1, 1));
                Call::Place(row, column, self.digit())
            }
            90..=95 => Call::Undo,
            _ => self.anything(),
        }
    }

    /// Fills the journal, tries everything at the limit, goes far back and far forth.
    fn run_far(&mut self, pair: &Pair) -> Call {
        if self.burst.0 > 0 {
            self.burst.0 -= 1;
            return self.burst.1;
        }
        if pair.state.standing == MAX_MOVES {
            self.phase += 1;
            if self.phase % 40 == 0 {
                self.burst = (self.rng.within(1, 1100), Call::Undo);
            }
            return match self.rng.below(5) {
                0 => self.press_absent(pair),
                1 => self.press_present(pair),
                2 => self.filled_cell(pair).map_or(Call::Redo, |(row, column)| Call::Check(row, column)),
                _ => self.anything(),
            };
        }
        if pair.state.standing == 0 && pair.state.made > 0 && self.rng.percent(80) {
            self.burst = (self.rng.within(1, 1100), Call::Redo);
        }
        match self.rng.below(100) {
            0..=49 => self.press_absent(pair),
            50..=84 => self.press_present(pair),
            85..=90 => {
                let (row, column) = self.empty_cell(pair).unwrap_or((1, 1));
                Call::Place(row, column, self.digit())
            }
            91..=95 => self.filled_cell(pair).map_or(Call::Undo, |(row, column)| Call::Erase(row, column)),
            96 => self.filled_cell(pair).map_or(Call::Undo, |(row, column)| Call::Check(row, column)),
            _ => Call::Undo,
        }
    }
}

//! A session as data, so that one that shows a difference can be run again, and made smaller.

use crate::call::Call;
use crate::grid::Grid;
use crate::pair::{self, Compared};
use crate::plant::Plant;
use crate::report::{Counts, Difference};
use core::fmt;

/// One step of a session.
#[derive(Debug, Clone, Copy, PartialEq, Eq)]
pub enum Step {
    /// A play call.
    Call(Call),
    /// Write the record.
    Write,
    /// Write the record, reopen it, and go on with the reopened boards.
    Reopen,
    /// Read move k.
    Reading(usize),
    /// Ask for a cell.
    Cell(u8, u8),
    /// Ask for the board: full, consistent, can undo, can redo, solved.
    Flags,
    /// Ask for a key.
    Key(u8),
    /// Show the latest and the next move.
    Shown,
    /// Compare all there is.
    All,
}

impl fmt::Display for Step {
    fn fmt(&self, to: &mut fmt::Formatter<'_>) -> fmt::Result {
        match self {
            Self::Call(call) => write!(to, "{call}"),
            Self::Write => write!(to, "write"),
            Self::Reopen => write!(to, "write and reopen"),
            Self::Reading(k) => write!(to, "read move {k}"),
            Self::Cell(row, column) => write!(to, "ask for cell {row} {column}"),
            Self::Flags => write!(to, "ask for the board"),
            Self::Key(digit) => write!(to, "ask for key {digit}"),
            Self::Shown => write!(to, "show latest and next"),
            Self::All => write!(to, "compare all"),
        }
    }
}

/// A session.
#[derive(Debug, Clone)]
pub struct Script {
    /// The solution that both boards are opened with.
    pub solution: Grid,
    /// The givens, ascending.
    pub givens: Vec<[u8; 3]>,
    /// The steps.
    pub steps: Vec<Step>,
}

impl Script {
    /// Runs the session: what differs first, if anything does.
    pub fn run(&self, plant: Plant, counts: &mut Counts) -> Compared {
        let Ok(mut pair) = pair::open(&self.givens, &self.solution, plant, counts)? else {
            return Ok(());
        };
        for &step in &self.steps {
            pair.step(step, counts)?;
        }
        pair.finish(counts)
    }

    /// The smallest session found that still differs, as a report.
    pub fn difference(&self, plant: Plant) -> Difference {
        let differs = |script: &Self| script.run(plant, &mut Counts::default()).is_err();
        let mut smallest = self.clone();
        let mut budget = 3000;
        smallest.steps =
            fewer(&self.steps, &mut budget, |steps| differs(&Self { steps: steps.to_vec(), ..smallest.clone() }));
        smallest.givens =
            fewer(&self.givens, &mut budget, |givens| differs(&Self { givens: givens.to_vec(), ..smallest.clone() }));
        let what = smallest.run(plant, &mut Counts::default()).expect_err("it still differs");
        Difference { what, input: smallest.to_string() }
    }
}

impl fmt::Display for Script {
    fn fmt(&self, to: &mut fmt::Formatter<'_>) -> fmt::Result {
        writeln!(to, "solution {:?}", self.solution)?;
        writeln!(to, "givens {:?}", self.givens)?;
        let steps: Vec<String> = self.steps.iter().map(Step::to_string).collect();
        write!(to, "steps: {}", steps.join("; "))
    }
}

/// Leaves out what can be left out, in ever smaller pieces, while the rest still differs.
pub fn fewer<T: Clone>(items: &[T], budget: &mut u32, differs: impl Fn(&[T]) -> bool) -> Vec<T> {
    let mut items = items.to_vec();
    let mut piece = items.len();
    while piece > 0 {
        let mut at = 0;
        while at < items.len() {
            if *budget == 0 {
                return items;
            }
            *budget -= 1;
            let mut rest = items.clone();
            rest.drain(at..(at + piece).min(items.len()));
            if differs(&rest) {
                items = rest;
            } else {
                at += piece;
            }
        }
        piece /= 2;
    }
    items
}

#[cfg(test)]
mod tests {
    use super::fewer;

    #[test]
    fn what_does_not_matter_is_left_out() {
        let items: Vec<u32> = (0..100).collect();
        let needed = |items: &[u32]| [17, 18, 90].iter().all(|item| items.contains(item));
        assert_eq!(fewer(&items, &mut 10_000, needed), [17, 18, 90]);
    }
}

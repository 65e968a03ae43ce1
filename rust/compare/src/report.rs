//! What was compared, how often, and what differed.

use pawdoku::Refusal;
use std::collections::BTreeMap;

/// How often each thing was compared.
#[derive(Debug, Clone, Default)]
pub struct Counts {
    /// Play calls on both sides.
    pub calls: u64,
    /// Of these, accepted.
    pub accepted: u64,
    /// Marks that the pencil wrote, with the original's call for it.
    pub marks_written: u64,
    /// Marks that it struck.
    pub marks_struck: u64,
    /// The same play calls once more, in lists.
    pub listed: u64,
    /// Openings.
    pub openings: u64,
    /// Reopenings.
    pub reopenings: u64,
    /// Of these, accepted.
    pub reopened: u64,
    /// Records written.
    pub writings: u64,
    /// Readings of one move.
    pub readings: u64,
    /// Questions: for a cell, for the board, for a key.
    pub questions: u64,
    /// Latest and next moves shown.
    pub shown: u64,
    /// Calls with wrong lengths, foreign boards and damaged memory, held to document 01 alone.
    pub beyond: u64,
    /// Puzzle lines read and written, held to document 02 alone.
    pub lines: u64,
    /// Of these, accepted.
    pub lines_accepted: u64,
    /// Boards solved by the solution's grid, and by another.
    pub solved: u64,
    /// Boards solved by a grid that is not the solution.
    pub solved_otherwise: u64,
    /// Boards that were full and conflicting.
    pub full_conflicting: u64,
    /// How often each number occurred, by what asked for it.
    pub refusals: BTreeMap<(u8, u8), u64>,
}

impl Counts {
    /// Counts a refusal, with its inner number where that is a refusal's number too.
    pub fn refused(&mut self, refusal: Refusal) {
        if refusal.number != 0 {
            let inner = if matches!(refusal.number, 29 | 31) { refusal.inner } else { 0 };
            *self.refusals.entry((refusal.number, inner)).or_default() += 1;
        }
    }

    /// The numbers, and for 29 and 31 the inner ones, that should occur and did not. No call answers 10 or 11.
    pub fn missing(&self) -> Vec<(u8, u8)> {
        let plain = (1..=37).filter(|number| !matches!(number, 10 | 11 | 29 | 31)).map(|number| (number, 0));
        let moves = [3, 5, 6, 7, 8, 9, 10, 11].map(|inner| (29, inner));
        let checks = [3, 5, 8].map(|inner| (31, inner));
        let wanted = plain.chain(moves).chain(checks).chain([(255, 0)]);
        wanted.filter(|key| !self.refusals.contains_key(key)).collect()
    }

    /// The counts as lines.
    pub fn lines(&self) -> Vec<String> {
        let mut lines = vec![
            format!("calls compared          {:>9}  ({} accepted)", self.calls, self.accepted),
            format!("marks of the pencil     {:>9}  written, {} struck", self.marks_written, self.marks_struck),
            format!("the same in lists       {:>9}", self.listed),
            format!("openings                {:>9}", self.openings),
            format!("reopenings              {:>9}  ({} accepted)", self.reopenings, self.reopened),
            format!("records written         {:>9}", self.writings),
            format!("readings                {:>9}", self.readings),
            format!("questions               {:>9}", self.questions),
            format!("latest and next moves   {:>9}", self.shown),
            format!(
                "boards solved           {:>9}  ({} by another grid than the solution)",
                self.solved, self.solved_otherwise
            ),
            format!("full and conflicting    {:>9}", self.full_conflicting),
            format!(
                "beyond the original     {:>9}  (lengths, foreign boards, damaged memory; held to document 01)",
                self.beyond
            ),
            format!(
                "lines read and written  {:>9}  ({} accepted; held to document 02)",
                self.lines, self.lines_accepted
            ),
            "refusals, number (inner): how often".to_owned(),
        ];
        let each = |(&(number, inner), count): (&(u8, u8), &u64)| match inner {
            0 => format!("{number}: {count}"),
            _ => format!("{number} ({inner}): {count}"),
        };
        let all: Vec<String> = self.refusals.iter().map(each).collect();
        lines.extend(all.chunks(8).map(|row| format!("    {}", row.join("   "))));
        lines
    }
}

/// One difference, with the smallest input that shows it.
#[derive(Debug, Clone)]
pub struct Difference {
    /// What was compared, and both values.
    pub what: String,
    /// The input.
    pub input: String,
}

/// Passes where both are equal; else says what differs.
pub fn same<T: PartialEq + core::fmt::Debug>(what: &str, theirs: &T, ours: &T) -> Result<(), String> {
    if theirs == ours { Ok(()) } else { Err(format!("{what}: expected {theirs:?}, the library has {ours:?}")) }
}

/// Passes where both have the same in every cell; else says what differs in which cells.
pub fn same_cells<T: PartialEq + core::fmt::Debug>(what: &str, theirs: &[T; 81], ours: &[T; 81]) -> Result<(), String> {
    if theirs == ours {
        return Ok(());
    }
    let cells = (1..=81).zip(theirs.iter().zip(ours)).filter(|(_, (a, b))| a != b);
    let each = cells.map(|(cell, (a, b))| format!("cell {cell}: expected {a:?}, the library has {b:?}"));
    Err(format!("{what}: {}", each.take(6).collect::<Vec<_>>().join("; ")))
}

/// Passes where both lists of bytes are equal; else says where they first differ.
pub fn same_bytes(what: &str, theirs: &[u8], ours: &[u8]) -> Result<(), String> {
    if theirs == ours {
        return Ok(());
    }
    let at = theirs.iter().zip(ours).position(|(a, b)| a != b).unwrap_or(theirs.len().min(ours.len()));
    let near = |bytes: &[u8]| format!("{:?}", &bytes[at.min(bytes.len())..(at + 8).min(bytes.len())]);
    Err(format!(
        "{what}: first differs at byte {at} (of {} and {}): expected {}, the library has {}",
        theirs.len(),
        ours.len(),
        near(theirs),
        near(ours)
    ))
}

//! Reopenings: records of played sessions, whole and damaged, and records made up of anything.

use crate::bytes::{Check, Items, Move, body_length};
use crate::grid::{Grid, cell_of, position_of, random_givens, random_grid};
use crate::pair::{self, Compared};
use crate::plant::Plant;
use crate::report::{Counts, Difference};
use crate::rng::Rng;
use crate::script::{Script, fewer};
use pawdoku::kind;

/// A record with the solution it is reopened with.
#[derive(Debug, Clone)]
pub struct Reopening {
    /// The record's bytes.
    pub record: Vec<u8>,
    /// The solution.
    pub solution: Grid,
}

impl Reopening {
    /// Reopens on both sides.
    pub fn run(&self, plant: Plant, counts: &mut Counts) -> Compared {
        pair::reopen(&self.record, &self.solution, plant, counts).map(|_| ())
    }

    /// The smallest record found that still differs, as a report.
    pub fn difference(&self, plant: Plant) -> Difference {
        let with = |items: &[Vec<u8>]| Self { record: items.concat(), solution: self.solution };
        let differs = |items: &[Vec<u8>]| with(items).run(plant, &mut Counts::default()).is_err();
        let smallest = with(&fewer(&items(&self.record), &mut 3000, differs));
        let what = smallest.run(plant, &mut Counts::default()).expect_err("it still differs");
        Difference { what, input: format!("solution {:?}\nrecord {:?}", smallest.solution, smallest.record) }
    }
}

/// The items of a record as pieces of its bytes; what is no item is one piece.
fn items(record: &[u8]) -> Vec<Vec<u8>> {
    let mut rest = record;
    let mut items = Vec::new();
    while let Some(length) = rest.first().and_then(|&kind| body_length(kind)) {
        let (item, behind) = rest.split_at((length + 1).min(rest.len()));
        items.push(item.to_vec());
        rest = behind;
    }
    if !rest.is_empty() {
        items.push(rest.to_vec());
    }
    items
}

/// A record with one to three damages.
pub fn damaged(record: &[u8], solution: &Grid, rng: &mut Rng) -> Reopening {
    let mut reopening = Reopening { record: record.to_vec(), solution: *solution };
    for _ in 0..rng.pick(&[1, 1, 1, 2, 2, 3]) {
        match rng.below(10) {
            0 => damage_bytes(&mut reopening.record, rng),
            1 | 2 => damage_items(&mut reopening.record, rng),
            3 if rng.percent(40) => damage_solution(&mut reopening.solution, rng),
            _ => damage_meaning(&mut reopening.record, rng),
        }
    }
    reopening
}

/// Bits, cuts, bytes put in and taken out.
fn damage_bytes(record: &mut Vec<u8>, rng: &mut Rng) {
    let at = rng.below(record.len() + 1);
    match rng.below(5) {
        0 | 1 if at < record.len() => record[at] ^= 1 << rng.below(8),
        2 => record.truncate(at),
        3 => record.insert(at, rng.byte()),
        4 if at < record.len() => {
            record.remove(at);
        }
        _ => record.push(rng.byte()),
    }
}

/// Items swapped, doubled, put in, taken out.
fn damage_items(record: &mut Vec<u8>, rng: &mut Rng) {
    let mut items = items(record);
    if items.is_empty() {
        return;
    }
    let (a, b) = (rng.below(items.len()), rng.below(items.len()));
    match rng.below(6) {
        0 => items.swap(a, b),
        1 => {
            let next = (a + 1) % items.len();
            items.swap(a, next);
        }
        2 => items.insert(b, items[a].clone()),
        3 => items.insert(a, items[a].clone()),
        4 => {
            items.remove(a);
        }
        _ => items.insert(a, any_item(rng)),
    }
    *record = items.concat();
}

fn any_item(rng: &mut Rng) -> Vec<u8> {
    let kind = rng.pick(&[1, 2, 3, 4, 5, 6, 7, 7, 8, 0]);
    let body = (0..body_length(kind).unwrap_or(3)).map(|_| rng.byte() % 11);
    core::iter::once(kind).chain(body).collect()
}

fn damage_solution(solution: &mut Grid, rng: &mut Rng) {
    let (a, b) = (rng.below(81), rng.below(81));
    match rng.below(4) {
        0 => solution.swap(a, b),
        1 => solution[a] = 0,
        2 => solution[a] = rng.pick(&[10, 11, 255]),
        _ => *solution = random_grid(rng),
    }
}

/// A record that still reads, and says something else.
fn damage_meaning(record: &mut Vec<u8>, rng: &mut Rng) {
    let Ok(mut items) = Items::read(record) else {
        return damage_bytes(record, rng);
    };
    match rng.below(20) {
        0..=7 if !items.moves.is_empty() => damage_move(&mut items.moves, rng),
        8..=10 => items.undone = any_count(items.moves.len(), rng),
        11..=15 => damage_checks(&mut items, rng),
        16 | 17 if !items.givens.is_empty() => damage_given(&mut items.givens, rng),
        18 => items.moves.clear(),
        _ => {
            let at = rng.below(items.moves.len() + 1);
            items.moves.insert(at, any_move(rng));
        }
    }
    *record = items.write();
}

fn any_count(near: usize, rng: &mut Rng) -> u16 {
    let any = u16::from_le_bytes([rng.byte(), rng.byte()]);
    let near = u16::try_from(near).unwrap_or(u16::MAX);
    rng.pick(&[0, 1, near / 2, near, near.saturating_add(1), near.saturating_sub(1), 1024, 1025, any])
}

fn any_line(rng: &mut Rng) -> u8 {
    if rng.percent(95) { 1 + rng.byte() % 9 } else { rng.pick(&[0, 10, 255]) }
}

fn any_move(rng: &mut Rng) -> Move {
    let kind = rng.pick(&[2, 2, 2, 3, 4, 4, 5]);
    let digit = if kind == kind::ERASE { 0 } else { any_line(rng) };
    Move { kind, row: any_line(rng), column: any_line(rng), digit }
}

fn damage_move(moves: &mut Vec<Move>, rng: &mut Rng) {
    // A move near the end leaves more of the record to be replayed.
    let from = moves.len() * rng.pick(&[0, 1, 3]) / 4;
    let at = rng.within(from, moves.len() - 1);
    let made = &mut moves[at];
    match rng.below(8) {
        0 => made.digit = any_line(rng),
        1 => made.row = any_line(rng),
        2 => made.column = any_line(rng),
        3 => made.kind = rng.pick(&[2, 3, 4, 5]),
        4 => {
            moves.remove(at);
        }
        5 => moves.truncate(at),
        6 => {
            let next = (at + 1).min(moves.len() - 1);
            moves.swap(at, next);
        }
        _ => *made = any_move(rng),
    }
    if let Some(made) = moves.get_mut(at) {
        made.digit = if made.kind == kind::ERASE { 0 } else { made.digit };
    }
}

fn damage_checks(items: &mut Items, rng: &mut Rng) {
    let standing = any_count(items.moves.len(), rng);
    let check = Check { standing, row: any_line(rng), column: any_line(rng), digit: any_line(rng) };
    if items.checks.is_empty() || rng.percent(40) {
        let at = rng.below(items.checks.len() + 1);
        items.checks.insert(at, check);
        return;
    }
    let at = rng.below(items.checks.len());
    match rng.below(4) {
        0 => items.checks[at].standing = standing,
        1 => items.checks[at].digit = check.digit,
        2 => items.checks[at] = check,
        _ => {
            items.checks.remove(at);
        }
    }
}

fn damage_given(givens: &mut Vec<[u8; 3]>, rng: &mut Rng) {
    let at = rng.below(givens.len());
    match rng.below(5) {
        0 => givens[at][rng.below(2)] = rng.pick(&[0, 10, 255]),
        1 => {
            givens.remove(at);
        }
        2 => givens.insert(at, givens[at]),
        3 => givens[at][2] = any_line(rng),
        _ => {
            let other = rng.below(givens.len());
            givens.swap(at, other);
        }
    }
}

/// An opening of some givens of a grid, with up to three faults in givens and solution.
pub fn any_opening(rng: &mut Rng) -> Script {
    let mut solution = random_grid(rng);
    let mut givens = random_givens(&solution, rng.pick(&[0, 1, 2, 30, 79, 80, 80, 81]), rng);
    for _ in 0..rng.below(4) {
        if rng.percent(40) {
            damage_solution(&mut solution, rng);
        } else if !givens.is_empty() {
            damage_given(&mut givens, rng);
        }
        if rng.percent(60) {
            givens.sort_unstable();
        }
    }
    Script { solution, givens, steps: Vec::new() }
}

/// A short record that nobody played: some givens of a grid, any moves, any checks.
pub fn made_up(rng: &mut Rng) -> Reopening {
    let solution = random_grid(rng);
    let count = rng.pick(&[0, 0, 1, 10, 30, 70, 79, 80, 80, 80, 81]);
    let mut items = Items { givens: random_givens(&solution, count, rng), ..Items::default() };
    let open: Vec<usize> = (1..=81).filter(|&cell| !items.givens.iter().any(|g| cell_at(g) == cell)).collect();
    for _ in 0..rng.below(8) {
        let mut made = any_move(rng);
        if !open.is_empty() && rng.percent(90) {
            (made.row, made.column) = position_of(rng.pick(&open));
        }
        items.moves.push(made);
    }
    items.undone = if rng.percent(60) { 0 } else { any_count(items.moves.len(), rng) };
    for _ in 0..rng.pick(&[0, 0, 1, 2, 3]) {
        let mut check = Check { standing: 1, row: any_line(rng), column: any_line(rng), digit: any_line(rng) };
        if !open.is_empty() && rng.percent(85) {
            (check.row, check.column) = position_of(rng.pick(&open));
        }
        if rng.percent(30) && cell_of(check.row, check.column) != 0 {
            check.digit = solution[cell_of(check.row, check.column) - 1];
        }
        check.standing = if rng.percent(70) { 1 } else { any_count(items.moves.len(), rng) };
        items.checks.push(check);
    }
    let record = items.write();
    if rng.percent(25) { damaged(&record, &solution, rng) } else { Reopening { record, solution } }
}

fn cell_at(given: &[u8; 3]) -> usize {
    cell_of(given[0], given[1])
}

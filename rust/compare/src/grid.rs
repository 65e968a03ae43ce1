//! The grid by its rules, written apart from the library and the original: cells, peers, grids and givens.

use crate::rng::Rng;

/// A digit for each cell, row by row.
pub type Grid = [u8; 81];

/// The number of a cell, 1 to 81; 0 off the grid.
pub fn cell_of(row: u8, column: u8) -> usize {
    if (1..=9).contains(&row) && (1..=9).contains(&column) {
        9 * (usize::from(row) - 1) + usize::from(column)
    } else {
        0
    }
}

/// Row and column of cell n, 1 to 81.
pub fn position_of(cell: usize) -> (u8, u8) {
    let at = u8::try_from(cell - 1).unwrap_or(0);
    (at / 9 + 1, at % 9 + 1)
}

/// The band of a row byte, the stack of a column byte.
pub fn box_index(line: u8) -> u8 {
    line.saturating_sub(1) / 3 + 1
}

/// Do two positions share a row, a column or a box, and are two?
pub fn are_peers(a: (u8, u8), b: (u8, u8)) -> bool {
    let one_box = box_index(a.0) == box_index(b.0) && box_index(a.1) == box_index(b.1);
    a != b && (a.0 == b.0 || a.1 == b.1 || one_box)
}

/// The peers of a cell, ascending: twenty cell numbers.
pub fn peers_of(cell: usize) -> Vec<usize> {
    (1..=81).filter(|&other| are_peers(position_of(cell), position_of(other))).collect()
}

/// The peers of every cell, counted once: entry n - 1 has those of cell n.
pub fn peers(cell: usize) -> &'static [usize] {
    static PEERS: std::sync::OnceLock<Vec<Vec<usize>>> = std::sync::OnceLock::new();
    &PEERS.get_or_init(|| (1..=81).map(peers_of).collect())[cell - 1]
}

/// Does this cell hold a digit that a peer also holds?
pub fn conflicts(digits: &Grid, cell: usize) -> bool {
    let digit = digits[cell - 1];
    digit != 0 && peers(cell).iter().any(|&peer| digits[peer - 1] == digit)
}

/// Full, and without a conflict?
#[cfg(test)]
fn is_valid(digits: &Grid) -> bool {
    digits.iter().all(|digit| (1..=9).contains(digit)) && (1..=81).all(|cell| !conflicts(digits, cell))
}

/// The requirement's grid G.
pub fn g() -> Grid {
    pawdoku::example_solution()
}

/// A grid without conflicts, at random: by search, or from G by exchanges that keep it valid.
pub fn random_grid(rng: &mut Rng) -> Grid {
    if rng.percent(50) { searched(rng) } else { exchanged(rng) }
}

fn exchanged(rng: &mut Rng) -> Grid {
    let lines = |rng: &mut Rng| {
        let mut bands = [0, 1, 2];
        rng.shuffle(&mut bands);
        let mut lines = [0; 9];
        for (three, band) in lines.chunks_mut(3).zip(bands) {
            three.copy_from_slice(&[3 * band, 3 * band + 1, 3 * band + 2]);
            rng.shuffle(three);
        }
        lines
    };
    let (rows, columns) = (lines(rng), lines(rng));
    let mut digits = [1, 2, 3, 4, 5, 6, 7, 8, 9];
    rng.shuffle(&mut digits);
    let turned = rng.percent(50);
    let from = g();
    core::array::from_fn(|at| {
        let (row, column) = (rows[at / 9], columns[at % 9]);
        let old = if turned { from[9 * column + row] } else { from[9 * row + column] };
        digits[usize::from(old) - 1]
    })
}

fn searched(rng: &mut Rng) -> Grid {
    loop {
        let mut grid = [0; 81];
        let mut budget = 2000;
        if fill(&mut grid, rng, &mut budget) {
            return grid;
        }
    }
}

/// The digits that no peer of this cell holds, as bits.
fn free(grid: &Grid, cell: usize) -> u16 {
    let taken = peers(cell).iter().fold(0, |bits, &peer| bits | 1_u16 << grid[peer - 1]);
    !taken & 0b11_1111_1110
}

fn fill(grid: &mut Grid, rng: &mut Rng, budget: &mut u32) -> bool {
    let open = (1..=81).filter(|&cell| grid[cell - 1] == 0);
    let Some(cell) = open.min_by_key(|&cell| free(grid, cell).count_ones()) else {
        return true;
    };
    let mut digits: Vec<u8> = (1..=9).filter(|digit| free(grid, cell) & 1 << digit != 0).collect();
    rng.shuffle(&mut digits);
    for digit in digits {
        if *budget == 0 {
            return false;
        }
        *budget -= 1;
        grid[cell - 1] = digit;
        if fill(grid, rng, budget) {
            return true;
        }
    }
    grid[cell - 1] = 0;
    false
}

/// The givens of a grid in these cells: triples in ascending order.
pub fn givens_of(grid: &Grid, cells: impl IntoIterator<Item = usize>) -> Vec<[u8; 3]> {
    let mut cells: Vec<usize> = cells.into_iter().collect();
    cells.sort_unstable();
    let given = |cell: usize| {
        let (row, column) = position_of(cell);
        [row, column, grid[cell - 1]]
    };
    cells.into_iter().map(given).collect()
}

/// So many givens of a grid, at random.
pub fn random_givens(grid: &Grid, count: usize, rng: &mut Rng) -> Vec<[u8; 3]> {
    let mut cells: Vec<usize> = (1..=81).collect();
    rng.shuffle(&mut cells);
    givens_of(grid, cells.into_iter().take(count))
}

#[cfg(test)]
mod tests {
    use super::{cell_of, is_valid, peers, position_of, random_grid};
    use crate::rng::Rng;

    #[test]
    fn every_cell_has_twenty_peers() {
        assert!((1..=81).all(|cell| peers(cell).len() == 20));
        assert!((1..=81).all(|cell| cell_of(position_of(cell).0, position_of(cell).1) == cell));
    }

    #[test]
    fn random_grids_are_valid() {
        let rng = Rng::new(1);
        assert!((0..200).all(|n| is_valid(&random_grid(&mut rng.branch(0, n)))));
    }
}

//! Stands where the original's solver stood: no search is made, the solution is the one that was loaded.

use crate::sudoku::{Given, Grid, WellPosed, WellPosedError};
use alloc::collections::BTreeSet;
use core::cell::Cell;

/// Why givens open no board with the loaded solution.
#[derive(Debug, Clone, PartialEq, Eq, thiserror::Error)]
pub enum SolveError {
    /// The givens or the solution pose no puzzle.
    #[error(transparent)]
    NotPosed(#[from] WellPosedError),
}

std::thread_local! {
    static LOADED: Cell<Grid<Option<u8>>> = const { Cell::new([[None; 9]; 9]) };
}

/// Loads the solution that boards of this thread are opened with from now on: 81 digits row by row, 0 for none.
pub fn load(solution: &[u8; 81]) {
    let mut grid = [[None; 9]; 9];
    for (cell, &digit) in grid.iter_mut().flatten().zip(solution) {
        *cell = (digit != 0).then_some(digit);
    }
    LOADED.set(grid);
}

/// What opening a board asks in place of a search: are these givens well posed with the loaded solution?
pub fn vouched(givens: impl IntoIterator<Item = Given>) -> Result<WellPosed, SolveError> {
    let givens: BTreeSet<Given> = givens.into_iter().collect();
    Ok(WellPosed::vouch(givens, LOADED.get())?)
}

//! The play calls.

use core::fmt;
use pawdoku::call;

/// A play call.
#[derive(Debug, Clone, Copy, PartialEq, Eq)]
pub enum Call {
    /// Place a digit: row, column, digit.
    Place(u8, u8, u8),
    /// Erase: row, column.
    Erase(u8, u8),
    /// The pencil, which strikes a mark that is present and writes one that is absent: row, column, digit.
    Pencil(u8, u8, u8),
    /// Undo.
    Undo,
    /// Redo.
    Redo,
    /// Check: row, column.
    Check(u8, u8),
}

impl Call {
    /// The four bytes that encode it.
    pub const fn encoded(self) -> [u8; 4] {
        match self {
            Self::Place(row, column, digit) => [call::PLACE, row, column, digit],
            Self::Erase(row, column) => [call::ERASE, row, column, 0],
            Self::Pencil(row, column, digit) => [call::PENCIL, row, column, digit],
            Self::Undo => [call::UNDO, 0, 0, 0],
            Self::Redo => [call::REDO, 0, 0, 0],
            Self::Check(row, column) => [call::CHECK, row, column, 0],
        }
    }

    /// Is it one of the three that are recorded?
    pub const fn is_move(self) -> bool {
        matches!(self, Self::Place(..) | Self::Erase(..) | Self::Pencil(..))
    }
}

impl fmt::Display for Call {
    fn fmt(&self, to: &mut fmt::Formatter<'_>) -> fmt::Result {
        match self {
            Self::Place(row, column, digit) => write!(to, "place {row} {column} {digit}"),
            Self::Erase(row, column) => write!(to, "erase {row} {column}"),
            Self::Pencil(row, column, digit) => write!(to, "pencil {row} {column} {digit}"),
            Self::Undo => write!(to, "undo"),
            Self::Redo => write!(to, "redo"),
            Self::Check(row, column) => write!(to, "check {row} {column}"),
        }
    }
}

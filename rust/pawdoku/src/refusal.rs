//! The refusals by name.

use crate::sys::Refusal;
use core::fmt;

/// Declares the reasons once: name, number and what it says of the call.
macro_rules! reasons {
    ($($name:ident = $number:literal, $says:literal;)*) => {
        /// Why a call is refused, by name. The numbers are those of the requirement and of include/pawdoku.h.
        /// Numbers 10 and 11 answer no call: they say of a record's move, as `inner` of 29, why it is refused.
        #[derive(Debug, Clone, Copy, PartialEq, Eq, PartialOrd, Ord, Hash)]
        #[repr(u8)]
        #[non_exhaustive]
        pub enum Reason {
            $(
                #[doc = $says]
                $name = $number,
            )*
        }

        impl Reason {
            /// The reason with this number, if there is one.
            #[must_use]
            pub const fn from_number(number: u8) -> Option<Self> {
                match number {
                    $($number => Some(Self::$name),)*
                    _ => None,
                }
            }

            /// What it says, in a few words.
            #[must_use]
            pub const fn says(self) -> &'static str {
                match self {
                    $(Self::$name => $says,)*
                }
            }
        }
    };
}

reasons! {
    WrongLength = 1, "lent memory has a wrong length";
    NotABoard = 2, "no call returns such a board value";
    NoSuchCell = 3, "the position is off the grid";
    Solved = 4, "the board is solved";
    GivenCell = 5, "the cell is a given";
    NoPlayersDigit = 6, "the player has no digit there";
    MarksNotAccepted = 7, "the cell has a digit, so marks are not accepted";
    DigitOutOfRange = 8, "digits run from 1 to 9";
    DigitAlreadyStands = 9, "that digit stands there already";
    MarkAlreadyWritten = 10, "that mark is written there already";
    MarkNotThere = 11, "that mark is not there";
    NothingToUndo = 12, "there is nothing to undo";
    NothingToRedo = 13, "there is nothing to redo";
    UnsoundMemory = 14, "the lent memory holds what no call left there";
    TooManyMoves = 15, "the journal is full";
    TooManyChecks = 16, "the check memory is full";
    RecordMalformed = 17, "the record is malformed";
    RecordTooLarge = 18, "the record holds more than a board can";
    GivensNotAscending = 19, "the givens do not ascend";
    TooManyUndone = 20, "more moves are undone than were made";
    ChecksWithoutMoves = 21, "there are checks and no moves";
    NothingLeftToPlay = 22, "the givens leave no cell to play";
    SolutionNotFull = 23, "the solution has an empty cell";
    SolutionDigitOutOfRange = 24, "the solution has a digit above 9";
    SolutionConflict = 25, "two peers of the solution are equal";
    GivenOffGrid = 26, "a given is off the grid";
    GivenMismatch = 27, "a given is not the solution's digit";
    MoveAfterSolved = 28, "a move comes after the board is solved";
    MoveRefused = 29, "a move of the record is refused";
    UndoneWhenSolved = 30, "moves of a solved board are undone";
    CheckRefused = 31, "a check of the record is refused";
    CheckAfterNoMove = 32, "a check comes after no move";
    CheckWouldSolve = 33, "a check of a digit that would have solved the board";
    OutputTooShort = 34, "the output is too short";
    NoSuchMove = 35, "there is no such move";
    NotALine = 36, "a puzzle line has 81 characters, with at most one line feed behind them";
    NoLineCharacter = 37, "a puzzle line has only the digits, and a full stop or 0 for a blank";
}

impl Refusal {
    /// Accepted is an `Ok`, a refusal an `Err`.
    ///
    /// # Errors
    ///
    /// This refusal, where its number is not 0.
    pub const fn into_result(self) -> Result<(), Self> {
        if self.number == 0 { Ok(()) } else { Err(self) }
    }

    /// The reason by name, where the number has one.
    #[must_use]
    pub const fn reason(self) -> Option<Reason> {
        Reason::from_number(self.number)
    }
}

impl fmt::Display for Refusal {
    fn fmt(&self, to: &mut fmt::Formatter<'_>) -> fmt::Result {
        let says = self.reason().map_or("no reason has this number", Reason::says);
        write!(to, "refused by {}: {says}", self.number)?;
        if self.place != 0 {
            write!(to, " (at {})", self.place)?;
        }
        if self.inner != 0 {
            write!(to, " (inner {})", self.inner)?;
        }
        Ok(())
    }
}

impl core::error::Error for Refusal {}

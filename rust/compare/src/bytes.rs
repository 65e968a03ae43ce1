//! Record bytes by document 01, written apart from the library: items to bytes and back, and refusals 17 to 19.

use pawdoku::{MAX_CHECKS, MAX_MOVES, Refusal, kind, record};

/// A refusal, shortly.
pub const fn refusal(number: u8, place: usize, inner: u8) -> Refusal {
    Refusal { number, place, inner }
}

/// The answer to an accepted call.
pub const ACCEPTED: Refusal = refusal(0, 0, 0);

/// A move of a record: its kind, row, column and digit (0 for erase).
#[derive(Debug, Clone, Copy, PartialEq, Eq)]
pub struct Move {
    /// 2 to 5.
    pub kind: u8,
    /// The target's row.
    pub row: u8,
    /// The target's column.
    pub column: u8,
    /// The digit, 0 for erase.
    pub digit: u8,
}

/// A check of a record.
#[derive(Debug, Clone, Copy, PartialEq, Eq)]
pub struct Check {
    /// How many moves stood.
    pub standing: u16,
    /// The cell's row.
    pub row: u8,
    /// The cell's column.
    pub column: u8,
    /// The digit that stood there.
    pub digit: u8,
}

/// What a record that is not malformed says.
#[derive(Debug, Clone, PartialEq, Eq, Default)]
pub struct Items {
    /// The givens as they stand in the record, in any order.
    pub givens: Vec<[u8; 3]>,
    /// The moves.
    pub moves: Vec<Move>,
    /// How many of them are undone.
    pub undone: u16,
    /// The checks.
    pub checks: Vec<Check>,
}

/// Bytes of an item's body, by its kind; none for a kind that is malformed.
pub const fn body_length(kind: u8) -> Option<usize> {
    match kind {
        1 | 2 | 4 | 5 => Some(3),
        3 | 6 => Some(2),
        7 => Some(5),
        0 | 8..=255 => None,
    }
}

/// The groups in their order: givens, moves, the one count of undone moves, checks.
const fn group(kind: u8) -> u8 {
    match kind {
        1 => 1,
        2..=5 => 2,
        6 => 3,
        _ => 4,
    }
}

impl Items {
    /// Reads bytes. Refused by 17 with its place.
    pub fn read(bytes: &[u8]) -> Result<Self, Refusal> {
        let mut items = Self::default();
        let (mut rest, mut place, mut reached) = (bytes, 1, 1);
        while let Some((&kind, body)) = rest.split_first() {
            let malformed = refusal(17, place, 0);
            let length = body_length(kind).ok_or(malformed)?;
            let in_turn = match group(kind) {
                3 => reached < 3,
                4 => reached >= 3,
                other => other >= reached,
            };
            if !in_turn || body.len() < length {
                return Err(malformed);
            }
            reached = group(kind);
            items.take(kind, &body[..length]);
            (rest, place) = (&body[length..], place + 1);
        }
        if reached < 3 { Err(refusal(17, place, 0)) } else { Ok(items) }
    }

    fn take(&mut self, kind: u8, body: &[u8]) {
        let number = u16::from_le_bytes([body[0], body[1]]);
        match kind {
            record::GIVEN => self.givens.push([body[0], body[1], body[2]]),
            record::UNDONE => self.undone = number,
            record::CHECK => {
                self.checks.push(Check { standing: number, row: body[2], column: body[3], digit: body[4] });
            }
            _ => {
                let digit = body.get(2).copied().unwrap_or(0);
                self.moves.push(Move { kind, row: body[0], column: body[1], digit });
            }
        }
    }

    /// Refusals 18 and 19, which the original does not have.
    pub fn refused_before_the_rest(&self) -> Option<Refusal> {
        let late = self.checks.iter().any(|check| usize::from(check.standing) > MAX_MOVES);
        if self.moves.len() > MAX_MOVES || self.checks.len() > MAX_CHECKS || late {
            return Some(refusal(18, 0, 0));
        }
        (!ascend(&self.givens)).then_some(refusal(19, 0, 0))
    }

    /// The bytes.
    pub fn write(&self) -> Vec<u8> {
        let mut bytes = Vec::new();
        for given in &self.givens {
            bytes.push(record::GIVEN);
            bytes.extend(given);
        }
        for made in &self.moves {
            bytes.extend([made.kind, made.row, made.column]);
            if made.kind != kind::ERASE {
                bytes.push(made.digit);
            }
        }
        bytes.push(record::UNDONE);
        bytes.extend(self.undone.to_le_bytes());
        for check in &self.checks {
            bytes.push(record::CHECK);
            bytes.extend(check.standing.to_le_bytes());
            bytes.extend([check.row, check.column, check.digit]);
        }
        bytes
    }
}

/// Are the givens strictly ascending?
pub fn ascend(givens: &[[u8; 3]]) -> bool {
    givens.windows(2).all(|two| two[0] < two[1])
}

#[cfg(test)]
mod tests {
    use super::{Items, refusal};

    #[test]
    fn case_f_reads_and_writes_back() {
        let bytes = [2, 1, 1, 5, 4, 1, 2, 3, 6, 1, 0, 7, 1, 0, 1, 1, 5];
        let items = Items::read(&bytes).expect("reads");
        assert_eq!((items.moves.len(), items.undone, items.checks.len()), (2, 1, 1));
        assert_eq!(items.write(), bytes);
    }

    #[test]
    fn malformed_records_have_a_place() {
        let place = |bytes: &[u8]| Items::read(bytes).expect_err("malformed").place;
        assert_eq!(place(&[]), 1);
        assert_eq!(place(&[2, 1, 1, 5]), 2);
        assert_eq!(place(&[6, 0]), 1);
        assert_eq!(place(&[6, 0, 0, 6, 0, 0]), 2);
        assert_eq!(place(&[6, 0, 0, 2, 1, 1, 1]), 2);
        assert_eq!(place(&[2, 1, 1, 5, 1, 1, 1, 1, 6, 0, 0]), 2);
        assert_eq!(place(&[7, 0, 0, 1, 1, 1, 6, 0, 0]), 1);
        assert_eq!(Items::read(&[8]), Err(refusal(17, 1, 0)));
    }
}

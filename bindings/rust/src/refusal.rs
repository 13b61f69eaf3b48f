//! A refusal: its number, what it names, and its sentence.
use std::error::Error;
use std::fmt;

/// Why a call was turned down, and where.
#[derive(Clone, Copy, Debug, PartialEq, Eq)]
pub struct Refusal {
    /// 1 to 14.
    pub number: u32,
    /// 1 is A, 2 is B, 3 is the result, 0 is none of them; in a train it is the sheet's position, 1 to 8, or 9 for a product or the
    /// writing.
    pub matrix: u32,
    /// From 0; the place of a cell for numbers 3, 4, 5, 10 and 14, but 0 where 3 is about a load, and 0 for the other numbers. A
    /// running entry, a conversion and an operation name no place: matrix, row and column are 0.
    pub row: u32,
    /// As `row`.
    pub column: u32,
}

impl Refusal {
    /// The refusal that a number returned to C stands for; `None` where that number is no refusal.
    pub fn from_code(code: u32) -> Option<Refusal> {
        (code >= 1_000_000).then_some(Refusal {
            number: code / 1_000_000,
            matrix: code / 10_000 % 100,
            row: code / 100 % 100,
            column: code % 100,
        })
    }

    /// What was returned to C, or the refusal that it stands for.
    pub(crate) fn unless(code: u32) -> Result<u32, Refusal> {
        Refusal::from_code(code).map_or(Ok(code), Err)
    }

    /// The number that is returned to C.
    pub fn code(&self) -> u32 {
        1_000_000 * self.number + 10_000 * self.matrix + 100 * self.row + self.column
    }

    /// The refusal in plain English, without the place.
    pub fn sentence(&self) -> &'static str {
        match self.number {
            1 => "a size is not from 1 to 32, the left factor's columns are not the right one's rows, or 32 pairs are taken already",
            2 => "a slice is shorter than its cells or than a running entry",
            3 => "a bound or a wear amount is not a finite number",
            4 => "a lower bound is above the upper bound",
            5 => "a result is too large for binary32",
            6 => "a length, the record count or the kind is wrong, or a byte that must be zero is not",
            7 => "an index is not below the record count, or a cell is outside the matrix",
            8 => "the cells of the chain do not rise by row, then column",
            9 => "the method is not 1, 3, 4, 5 or 7",
            10 => "a wear class is above 7",
            11 => "the out buffer is shorter than the sheet to be written",
            12 => "the number of sheets is not from 1 to 8",
            13 => "the first wear amount is not zero, or an amount is below the one before it",
            14 => "a wear amount is below zero",
            _ => "no refusal has this number",
        }
    }
}

impl fmt::Display for Refusal {
    fn fmt(&self, f: &mut fmt::Formatter<'_>) -> fmt::Result {
        write!(f, "refusal {}: {}", self.number, self.sentence())?;
        write!(f, " (matrix {}, row {}, column {})", self.matrix, self.row, self.column)
    }
}

impl Error for Refusal {}

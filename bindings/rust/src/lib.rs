//! Safe Rust wrapper of the coupling library: the sheet job, trains of sheets, sheets, products of interval matrices, one entry of
//! a product taken pair by pair, and single operations in rounded binary32. Not proved; what the library itself promises is, and
//! `include/coupling.h` has the contract of each call.
//!
//! A binary32 number is passed as its pattern, a `u32` with the bits of the float (`f32::to_bits`, `f32::from_bits`). A pattern
//! with exponent field 255, an infinity or no number, is refused. A refusal leaves what is lent as it was, but for number 5 of
//! [`product`]; what lies beyond the cells or bytes that a call writes stays as it was.
#![warn(missing_docs)]

mod calls;
mod intervals;
mod matrices;
mod operations;
mod refusal;
mod running;

pub use intervals::{to_bounds, to_midrad};
pub use matrices::{multiply, product, read, read_with, train, write, Matrix, Method, Work};
pub use operations::{add_down, add_near, add_up, midpoint_down, midpoint_near, midpoint_up};
pub use operations::{mul_down, mul_near, mul_up, sub_down, sub_near, sub_up};
pub use refusal::Refusal;
pub use running::{Gauged, Running};

/// Rows or columns of the largest matrix.
pub const SIZE_MAX: usize = 32;

/// Cells of the largest matrix.
pub const CELLS_MAX: usize = 1_024;

/// Bytes of the longest sheet; an out buffer of this length is never too short.
pub const SHEET_MAX: usize = 16_400;

/// Sheets of the longest train.
pub const SHEETS_MAX: u32 = 8;

/// Bytes of a load of eight wear amounts, for [`read_with`] and [`Running::exchange`].
pub const LOAD_BYTES: usize = 32;

/// Pairs that a [`Running`] takes.
pub const PAIRS_MAX: u32 = 32;

/// The kind, byte 6 of the head, of a class sheet: byte 12 of each cell is its wear class, and bytes 13 to 15 are zero.
pub const KIND_CLASS: u8 = 0;

/// The kind of an amount sheet: bytes 12 to 15 of each cell are its wear amount, a pattern, little-endian.
pub const KIND_AMOUNT: u8 = 1;

/// The pattern of the largest number.
pub const LARGEST: u32 = 0x7F7F_FFFF;

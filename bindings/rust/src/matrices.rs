//! The sheet job, the train, reader and writer of sheets, and the product of two matrices.
use crate::calls::{coupling_multiply, coupling_product, coupling_read, coupling_read_with, coupling_train, coupling_write};
use crate::Refusal;

/// How to multiply.
#[derive(Clone, Copy, Debug, PartialEq, Eq)]
pub enum Method {
    /// Method 1: sums of the least and the greatest corner products.
    Classical = 1,
    /// Method 3: products of midpoints rounded to nearest, and a bound on the error.
    Three = 3,
    /// Method 4: midpoints and radii.
    Four = 4,
    /// Method 5: the corrected midpoint of method 7 rounded to nearest, and a bound on the error.
    Five = 5,
    /// Method 7: midpoints and radii with a correction of the midpoint.
    Seven = 7,
}

/// An interval matrix: its bounds by rows, as patterns. The slices may be longer than its cells.
#[derive(Clone, Copy, Debug)]
pub struct Matrix<'a> {
    /// 1 to 32.
    pub rows: usize,
    /// 1 to 32.
    pub columns: usize,
    /// The lower bounds.
    pub lowers: &'a [u32],
    /// The upper bounds.
    pub uppers: &'a [u32],
}

/// What a product by method 3, 4, 5 or 7 converts its matrices into; method 1 leaves it as it was, but its lengths are checked too.
#[derive(Debug)]
pub struct Work<'a> {
    /// The midpoints of A's cells.
    pub a_mids: &'a mut [u32],
    /// The radii of A's cells.
    pub a_rads: &'a mut [u32],
    /// The midpoints of B's cells.
    pub b_mids: &'a mut [u32],
    /// The radii of B's cells.
    pub b_rads: &'a mut [u32],
}

// SAFETY, of all six calls: slices are never null and valid for their lengths, those for writing are borrowed alone, and no
// pointer is kept.

/// Multiplies sheet `a` by sheet `b` and writes the product's sheet to the front of `out`, as [`write`] does: the length written,
/// or the first refusal.
pub fn multiply(method: Method, a: &[u8], b: &[u8], out: &mut [u8]) -> Result<usize, Refusal> {
    let code = unsafe { coupling_multiply(method as u32, a.as_ptr(), a.len(), b.as_ptr(), b.len(), out.as_mut_ptr(), out.len()) };
    Refusal::unless(code).map(|length| length as usize)
}

/// Multiplies the `count` sheets, 1 to [`SHEETS_MAX`](crate::SHEETS_MAX), that stand back to back in `sheets`, from the left, and
/// writes the last product's sheet to the front of `out`, as [`write`] does: the length written, or the first refusal. One sheet
/// alone is written as it was read.
pub fn train(method: Method, count: u32, sheets: &[u8], out: &mut [u8]) -> Result<usize, Refusal> {
    let code = unsafe { coupling_train(method as u32, count, sheets.as_ptr(), sheets.len(), out.as_mut_ptr(), out.len()) };
    Refusal::unless(code).map(|length| length as usize)
}

/// Rows and columns from what a read returned to C, or the refusal.
fn sizes(code: u32) -> Result<(usize, usize), Refusal> {
    Refusal::unless(code).map(|sizes| (sizes as usize / 100, sizes as usize % 100))
}

/// Reads a sheet's matrix, each cell widened by its wear amount or by that of its wear class, into the front of `lowers` and
/// `uppers`: rows and columns, or the first refusal.
pub fn read(sheet: &[u8], lowers: &mut [u32], uppers: &mut [u32]) -> Result<(usize, usize), Refusal> {
    let (l, u) = (lowers.len(), uppers.len());
    sizes(unsafe { coupling_read(sheet.as_ptr(), sheet.len(), lowers.as_mut_ptr(), l, uppers.as_mut_ptr(), u) })
}

/// Reads a sheet as [`read`] does, with eight wear amounts of the caller's own: class c widens its cell by the number whose pattern
/// is in bytes 4c to 4c + 3 of `amounts`, little-endian. An amount sheet is widened by its own amounts all the same. Before the sheet
/// is looked at, the load is refused with 6 where it has not [`LOAD_BYTES`](crate::LOAD_BYTES) bytes, 3 where an amount has exponent
/// field 255, and 13 where the first is not zero or one is below the one before it; minus zero counts as zero, and equal amounts pass.
pub fn read_with(amounts: &[u8], sheet: &[u8], lowers: &mut [u32], uppers: &mut [u32]) -> Result<(usize, usize), Refusal> {
    let (l, u) = (lowers.len(), uppers.len());
    let (load, n) = (amounts.as_ptr(), amounts.len());
    sizes(unsafe { coupling_read_with(load, n, sheet.as_ptr(), sheet.len(), lowers.as_mut_ptr(), l, uppers.as_mut_ptr(), u) })
}

/// Writes a matrix's sheet, an amount sheet with amount zero in each cell, to the front of `out`: the length written, or the first
/// refusal.
pub fn write(matrix: Matrix, out: &mut [u8]) -> Result<usize, Refusal> {
    let Matrix { rows, columns, lowers, uppers } = matrix;
    let (l, u) = (lowers.len(), uppers.len());
    let code = unsafe { coupling_write(rows, columns, lowers.as_ptr(), l, uppers.as_ptr(), u, out.as_mut_ptr(), out.len()) };
    Refusal::unless(code).map(|length| length as usize)
}

/// Multiplies `a` by `b`: the product's bounds in the front of `lowers` and `uppers`, or the first refusal. After number 5 the
/// result's cells are 0, and the work slices hold midpoints and radii.
pub fn product(method: Method, a: Matrix, b: Matrix, work: Work, lowers: &mut [u32], uppers: &mut [u32]) -> Result<(), Refusal> {
    let code = unsafe {
        coupling_product(
            method as u32, a.rows, a.columns, b.rows, b.columns,
            a.lowers.as_ptr(), a.lowers.len(), a.uppers.as_ptr(), a.uppers.len(),
            b.lowers.as_ptr(), b.lowers.len(), b.uppers.as_ptr(), b.uppers.len(),
            work.a_mids.as_mut_ptr(), work.a_mids.len(), work.a_rads.as_mut_ptr(), work.a_rads.len(),
            work.b_mids.as_mut_ptr(), work.b_mids.len(), work.b_rads.as_mut_ptr(), work.b_rads.len(),
            lowers.as_mut_ptr(), lowers.len(), uppers.as_mut_ptr(), uppers.len(),
        )
    };
    Refusal::unless(code).map(|_| ())
}

//! The twelve operations: sum, difference, product and midpoint, each exact value rounded once.
use crate::calls::*;
use crate::Refusal;

/// The pattern of infinity; a refused operation answers this plus the refusal's number.
const INFINITY: u32 = 0x7F80_0000;

fn answer(pattern: u32) -> Result<u32, Refusal> {
    if pattern & INFINITY != INFINITY {
        return Ok(pattern);
    }
    Err(Refusal { number: pattern - INFINITY, matrix: 0, row: 0, column: 0 })
}

macro_rules! operations {
    ($($(#[$doc:meta])* $name:ident, $call:ident;)*) => {$(
        $(#[$doc])*
        ///
        /// Refusal 3 where an operand has exponent field 255, 5 where the result is too large.
        pub fn $name(a: u32, b: u32) -> Result<u32, Refusal> {
            // SAFETY: the call takes and returns numbers alone.
            answer(unsafe { $call(a, b) })
        }
    )*};
}

operations! {
    /// `a + b`, rounded down: the greatest number not above it.
    add_down, coupling_add_down;
    /// `a + b`, rounded up: the least number not below it.
    add_up, coupling_add_up;
    /// `a + b`, rounded to nearest, ties to even.
    add_near, coupling_add_near;
    /// `a - b`, rounded down.
    sub_down, coupling_sub_down;
    /// `a - b`, rounded up.
    sub_up, coupling_sub_up;
    /// `a - b`, rounded to nearest, ties to even.
    sub_near, coupling_sub_near;
    /// `a × b`, rounded down.
    mul_down, coupling_mul_down;
    /// `a × b`, rounded up.
    mul_up, coupling_mul_up;
    /// `a × b`, rounded to nearest, ties to even.
    mul_near, coupling_mul_near;
    /// `(a + b) / 2`, rounded down; it is never too large.
    midpoint_down, coupling_midpoint_down;
    /// `(a + b) / 2`, rounded up; it is never too large.
    midpoint_up, coupling_midpoint_up;
    /// `(a + b) / 2`, rounded to nearest, ties to even; it is never too large.
    midpoint_near, coupling_midpoint_near;
}

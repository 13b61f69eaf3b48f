//! The two conversions of an interval: bounds to midpoint and radius, and back.
use crate::calls::{coupling_to_bounds, coupling_to_midrad};
use crate::Refusal;

/// From bounds to midpoint and radius: the exact midpoint to nearest, ties to even, and the larger of its distances from the two
/// bounds, rounded up. No pair of binary32 numbers that encloses `[lower, upper]` has a smaller radius. Refusal 3 or 4 (`lower` is
/// above `upper`), never 5.
pub fn to_midrad(lower: u32, upper: u32) -> Result<(u32, u32), Refusal> {
    let (mut mid, mut rad) = (0, 0);
    // SAFETY: both words are locals, and no pointer is kept.
    let code = unsafe { coupling_to_midrad(lower, upper, &mut mid, &mut rad) };
    Refusal::unless(code).map(|_| (mid, rad))
}

/// From midpoint and radius to bounds: `mid - rad` rounded down, `mid + rad` rounded up. Refusal 3, 4 (the radius is below zero)
/// or 5. The bounds of a pair that [`to_midrad`] gave enclose those that it was given; close to the largest number they may be
/// refused with 5.
pub fn to_bounds(mid: u32, rad: u32) -> Result<(u32, u32), Refusal> {
    let (mut lower, mut upper) = (0, 0);
    // SAFETY: both words are locals, and no pointer is kept.
    let code = unsafe { coupling_to_bounds(mid, rad, &mut lower, &mut upper) };
    Refusal::unless(code).map(|_| (lower, upper))
}

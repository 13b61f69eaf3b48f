//! Tests of the two conversions in the Rust wrapper, not proved: bounds to midpoint and radius, and back, with each refusal.
use coupling::*;

const HALF: u32 = 0x3F00_0000;
const ONE: u32 = 0x3F80_0000;
const TWO: u32 = 0x4000_0000;
const THREE: u32 = 0x4040_0000;
const ULP: u32 = 0x3400_0000; // 2^-23, the distance from 1 to the next number
const MINUS: u32 = 0x8000_0000;
const INFINITE: u32 = 0x7F80_0000;

fn refused(number: u32) -> Result<(u32, u32), Refusal> {
    Err(Refusal { number, matrix: 0, row: 0, column: 0 })
}

#[test]
fn results() {
    assert_eq!(to_midrad(MINUS | ONE, THREE), Ok((ONE, TWO)));
    assert_eq!(to_midrad(ONE - 1, ONE + 1), Ok((ONE, ULP))); // the upper bound is farther from the midpoint
    assert_eq!(to_midrad((MINUS | ONE) + 1, (MINUS | ONE) - 1), Ok((MINUS | ONE, ULP))); // the lower bound is
    assert_eq!((to_midrad(ONE, ONE + 1), to_midrad(ONE + 1, ONE + 2)), (Ok((ONE, ULP)), Ok((ONE + 2, ULP)))); // ties
    assert_eq!(to_midrad(MINUS | 1, ONE), Ok((HALF, HALF + 1))); // 1/2 + 2^-149, rounded up
    assert_eq!((to_midrad(MINUS | LARGEST, LARGEST), to_midrad(LARGEST, LARGEST)), (Ok((0, LARGEST)), Ok((LARGEST, 0))));
    assert_eq!(to_bounds(ONE, TWO), Ok((MINUS | ONE, THREE)));
    assert_eq!(to_bounds(ONE, 1), Ok((ONE - 1, ONE + 1)));
}

#[test]
fn there_and_back_encloses() {
    let narrow = [(ONE - 1, ONE + 1), ((MINUS | ONE) + 1, (MINUS | ONE) - 1), (ONE, ONE + 1), (LARGEST - 1, LARGEST)];
    let wide = [(1, ONE), (MINUS | THREE, 1), (MINUS | 1, ULP), (1, LARGEST), (MINUS | LARGEST, LARGEST)];
    for (lower, upper) in narrow.into_iter().chain(wide) {
        let (low, high) = to_midrad(lower, upper).and_then(|(mid, rad)| to_bounds(mid, rad)).expect("not refused");
        assert!(f32::from_bits(low) <= f32::from_bits(lower) && f32::from_bits(upper) <= f32::from_bits(high));
    }
}

#[test]
fn refusals() {
    assert_eq!(to_midrad(ONE, INFINITE), refused(3));
    assert_eq!(to_midrad(TWO, ONE), refused(4));
    assert_eq!(to_bounds(INFINITE, ONE), refused(3));
    assert_eq!(to_bounds(ONE, MINUS | ONE), refused(4));
    assert_eq!(to_bounds(LARGEST, LARGEST), refused(5));
}

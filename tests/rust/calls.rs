//! Tests of the Rust wrapper beside job, train, loaded amounts, kinds of sheets, running entry and conversions, not proved: sheets,
//! product, operations, each refusal.
use coupling::*;

const HALF: u32 = 0x3F00_0000;
const ONE: u32 = 0x3F80_0000;
const TWO: u32 = 0x4000_0000;
const THREE: u32 = 0x4040_0000;
const FOUR: u32 = 0x4080_0000;
const SIX: u32 = 0x40C0_0000;
const MINUS: u32 = 0x8000_0000;
const INFINITE: u32 = 0x7F80_0000;
const GUARD: u32 = 0xA5A5_A5A5;

fn refused<T>(number: u32, matrix: u32, row: u32, column: u32) -> Result<T, Refusal> {
    Err(Refusal { number, matrix, row, column })
}

fn matrix<'a>(rows: usize, columns: usize, lowers: &'a [u32], uppers: &'a [u32]) -> Matrix<'a> {
    Matrix { rows, columns, lowers, uppers }
}

#[test]
fn a_sheet_is_written_and_read() {
    let (lowers, uppers) = ([MINUS | ONE, MINUS, 0, ONE], [ONE, 0, 0, TWO]);
    let mut sheet = [0xA5; 64];
    assert_eq!(write(matrix(2, 2, &lowers, &uppers), &mut sheet), Ok(48));
    assert_eq!(sheet[48..], [0xA5; 16]);
    let (mut low, mut high) = ([GUARD; 5], [GUARD; 6]);
    assert_eq!(read(&sheet[..48], &mut low, &mut high), Ok((2, 2)));
    assert_eq!((low, high), ([MINUS | ONE, 0, 0, ONE, GUARD], [ONE, 0, 0, TWO, GUARD, GUARD]));
}

#[test]
fn refusals_of_a_write() {
    let (ones, twos) = ([ONE; 32], [TWO; 32]);
    let written = |m: Matrix| {
        let mut sheet = [0xA5; 48];
        let answer = write(m, &mut sheet);
        assert!(answer.is_ok() || sheet == [0xA5; 48]);
        answer
    };
    assert_eq!(written(matrix(1, 2, &ones, &twos)), Ok(48));
    assert_eq!(written(matrix(0, 2, &ones, &twos)), refused(1, 0, 0, 0));
    assert_eq!(written(matrix(2, SIZE_MAX + 1, &ones, &twos)), refused(1, 0, 0, 0));
    assert_eq!(written(matrix(2, 2, &ones[..3], &twos)), refused(2, 0, 0, 0));
    assert_eq!(written(matrix(2, 2, &ones, &[])), refused(2, 0, 0, 0));
    assert_eq!(written(matrix(2, 1, &ones, &[ONE, INFINITE])), refused(3, 0, 1, 0));
    assert_eq!(written(matrix(1, 2, &ones, &[ONE, HALF])), refused(4, 0, 0, 1));
    assert_eq!(written(matrix(1, 3, &ones, &twos)), refused(11, 0, 0, 0));
}

#[test]
fn refusals_of_a_read() {
    let mut sheet = [0; 32];
    write(matrix(1, 1, &[ONE], &[LARGEST]), &mut sheet).expect("not refused");
    sheet[6] = KIND_CLASS;
    let answer = |at: usize, byte: u8, room: usize| {
        let (mut damaged, mut low, mut high) = (sheet, [GUARD; 1], [GUARD; 1]);
        damaged[at] = byte;
        let answer = read(&damaged, &mut low[..room], &mut high);
        assert!(answer.is_ok() || (low, high) == ([GUARD], [GUARD]));
        answer
    };
    assert_eq!(answer(28, 0, 1), Ok((1, 1)));
    assert_eq!(answer(2, 33, 1), refused(1, 0, 0, 0));
    assert_eq!(answer(28, 0, 0), refused(2, 0, 0, 0));
    assert_eq!(answer(26, 0x80, 1), refused(3, 0, 0, 0));
    assert_eq!(answer(27, 0, 1), refused(4, 0, 0, 0));
    assert_eq!(answer(28, 1, 1), refused(5, 0, 0, 0));
    assert_eq!(answer(29, 1, 1), refused(6, 0, 0, 0));
    assert_eq!(answer(18, 1, 1), refused(7, 0, 0, 0));
    assert_eq!(answer(16, 1, 1), refused(8, 0, 0, 0));
    assert_eq!(answer(28, 8, 1), refused(10, 0, 0, 0));
    assert_eq!(read(&[], &mut [], &mut []), refused(6, 0, 0, 0));
}

/// The product of 1 by 1 matrices with these slices: the answer, the work slices and the result.
fn multiplied(method: Method, a: Matrix, b: Matrix, room: usize) -> (Result<(), Refusal>, [u32; 4], [u32; 2]) {
    let (mut words, mut bounds) = ([GUARD; 4], [GUARD; 2]);
    let [am, ar, bm, br] = &mut words;
    let [lower, upper] = &mut bounds;
    let slice = std::slice::from_mut::<u32>;
    let work = Work { a_mids: slice(am), a_rads: slice(ar), b_mids: slice(bm), b_rads: &mut slice(br)[..room] };
    (product(method, a, b, work, slice(lower), slice(upper)), words, bounds)
}

#[test]
fn products() {
    let (a, b) = (matrix(1, 1, &[ONE], &[TWO]), matrix(1, 1, &[MINUS | ONE], &[THREE]));
    let converted = [0x3FC0_0000, HALF, ONE, TWO];
    assert_eq!(multiplied(Method::Classical, a, b, 1), (Ok(()), [GUARD; 4], [MINUS | TWO, SIX]));
    assert_eq!(multiplied(Method::Seven, a, b, 1), (Ok(()), converted, [MINUS | TWO, SIX]));
    assert_eq!(multiplied(Method::Four, a, b, 1), (Ok(()), converted, [MINUS | THREE, SIX]));
    assert_eq!(multiplied(Method::Three, a, b, 1), (Ok(()), converted, [0xC040_0004, 0x40C0_0002]));
    assert_eq!(multiplied(Method::Five, a, b, 1), (Ok(()), converted, [0xC000_0006, 0x40C0_0003]));
}

#[test]
fn refusals_of_a_product() {
    let (a, large) = (matrix(1, 1, &[ONE], &[TWO]), matrix(1, 1, &[LARGEST], &[LARGEST]));
    let cases = [
        (matrix(0, 1, &[ONE], &[TWO]), a, refused(1, 1, 0, 0)),
        (a, matrix(2, 1, &[ONE; 2], &[TWO; 2]), refused(1, 2, 0, 0)),
        (matrix(1, 1, &[], &[TWO]), a, refused(2, 1, 0, 0)),
        (a, matrix(1, 1, &[ONE], &[]), refused(2, 2, 0, 0)),
        (a, matrix(1, 1, &[ONE], &[INFINITE]), refused(3, 2, 0, 0)),
        (matrix(1, 1, &[TWO], &[ONE]), a, refused(4, 1, 0, 0)),
    ];
    for (a, b, expected) in cases {
        assert_eq!(multiplied(Method::Four, a, b, 1), (expected, [GUARD; 4], [GUARD; 2]));
    }
    assert_eq!(multiplied(Method::Classical, a, a, 0), (refused(2, 0, 0, 0), [GUARD; 4], [GUARD; 2]));
    assert_eq!(multiplied(Method::Classical, a, large, 1), (refused(5, 3, 0, 0), [GUARD; 4], [0; 2]));
    for method in [Method::Four, Method::Five] {
        assert_eq!(multiplied(method, large, large, 1), (refused(5, 3, 0, 0), [LARGEST, 0, LARGEST, 0], [0; 2]));
    }
}

type Operation = fn(u32, u32) -> Result<u32, Refusal>;

#[test]
fn operations() {
    let tiny = 0x3380_0000; // 2^-24
    let down: [Operation; 4] = [add_down, sub_down, mul_down, midpoint_down];
    let up: [Operation; 4] = [add_up, sub_up, mul_up, midpoint_up];
    let near: [Operation; 4] = [add_near, sub_near, mul_near, midpoint_near];
    let pairs = [(ONE, tiny), (ONE, MINUS | tiny), (ONE + 1, ONE + 1), (ONE, ONE + 1)];
    for (i, (a, b)) in pairs.into_iter().enumerate() {
        let below = if i == 2 { ONE + 2 } else { ONE };
        assert_eq!((down[i](a, b), up[i](a, b), near[i](a, b)), (Ok(below), Ok(below + 1), Ok(below)));
    }
    for operation in down.into_iter().chain(up).chain(near) {
        assert_eq!(operation(INFINITE, ONE), refused(3, 0, 0, 0));
        assert_eq!(operation(ONE, MINUS | INFINITE), refused(3, 0, 0, 0));
    }
    for (i, (a, b)) in [(LARGEST, LARGEST), (LARGEST, MINUS | LARGEST), (LARGEST, FOUR)].into_iter().enumerate() {
        assert_eq!((down[i](a, b), up[i](a, b), near[i](a, b)), (Ok(LARGEST), refused(5, 0, 0, 0), refused(5, 0, 0, 0)));
    }
    assert_eq!(midpoint_up(LARGEST, LARGEST), Ok(LARGEST));
}

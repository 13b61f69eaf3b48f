//! Tests of the sheet job in the Rust wrapper, not proved: a success by each method, each refusal, and the codes.
use coupling::{multiply, Method, Refusal, KIND_AMOUNT, SHEET_MAX};

const METHODS: [Method; 5] = [Method::Classical, Method::Three, Method::Four, Method::Five, Method::Seven];
const LENGTH: usize = 48;

/// A class sheet, 2 by 2 with cells (0, 0) and (1, 1), both [-1, 2].
fn sheet() -> [u8; LENGTH] {
    let mut s = [0; LENGTH];
    s[..6].copy_from_slice(&[1, 0, 2, 2, 3, 0]);
    s[16..28].copy_from_slice(&[2, 0, 0, 0, 0, 0, 0x80, 0xBF, 0, 0, 0, 0x40]);
    s[32..44].copy_from_slice(&[0, 0, 1, 1, 0, 0, 0x80, 0xBF, 0, 0, 0, 0x40]);
    s
}

/// A sheet with these bytes from a place on.
fn with(at: usize, bytes: &[u8]) -> [u8; LENGTH] {
    let mut s = sheet();
    s[at..at + bytes.len()].copy_from_slice(bytes);
    s
}

/// Multiplies, and sees to it that only what was returned as written was written.
fn guarded(a: &[u8], b: &[u8], room: usize) -> Result<usize, Refusal> {
    let mut out = vec![0xA5; room];
    let answer = multiply(Method::Classical, a, b, &mut out);
    let written = answer.unwrap_or(0);
    assert!(out[written..].iter().all(|&byte| byte == 0xA5));
    answer
}

fn refused(number: u32, matrix: u32, row: u32, column: u32) -> Result<usize, Refusal> {
    Err(Refusal { number, matrix, row, column })
}

#[test]
fn products() {
    for method in METHODS {
        let mut out = [0; SHEET_MAX];
        let length = multiply(method, &sheet(), &sheet(), &mut out).expect("not refused");
        let zeros_widened = matches!(method, Method::Three | Method::Five);
        assert_eq!(length, if zeros_widened { 80 } else { LENGTH });
        assert_eq!(out[2..7], [2, 2, (length / 16) as u8, 0, KIND_AMOUNT]);
    }
    let mut out = [0; LENGTH];
    assert_eq!(multiply(Method::Classical, &sheet(), &sheet(), &mut out), Ok(LENGTH));
    assert_eq!(out, {
        let mut product = with(20, &[0, 0, 0, 0xC0, 0, 0, 0x80, 0x40]);
        product[6] = KIND_AMOUNT;
        product[36..44].copy_from_slice(&[0, 0, 0, 0xC0, 0, 0, 0x80, 0x40]);
        product
    });
}

#[test]
fn refusals_of_a_sheet() {
    let infinite = [0, 0, 0x80, 0x7F];
    let largest = [0xFF, 0xFF, 0x7F, 0x7F];
    let cases: [(usize, &[u8], [u32; 3]); 9] = [
        (2, &[33], [1, 0, 0]),
        (36, &infinite, [3, 1, 1]),
        (20, &largest, [4, 0, 0]),
        (40, &[0xFF, 0xFF, 0x7F, 0x7F, 1], [5, 1, 1]),
        (6, &[2], [6, 0, 0]),
        (45, &[1], [6, 0, 0]),
        (34, &[2], [7, 0, 0]),
        (32, &[1], [8, 0, 0]),
        (44, &[8], [10, 1, 1]),
    ];
    for (at, bytes, [number, row, column]) in cases {
        assert_eq!(guarded(&with(at, bytes), &sheet(), SHEET_MAX), refused(number, 1, row, column));
        assert_eq!(guarded(&sheet(), &with(at, bytes), SHEET_MAX), refused(number, 2, row, column));
    }
}

#[test]
fn other_refusals() {
    let large = with(36, &[0xFF, 0xFF, 0x7F, 0x7F, 0xFF, 0xFF, 0x7F, 0x7F]);
    assert_eq!(guarded(&large, &large, SHEET_MAX), refused(5, 3, 1, 1));
    assert_eq!(guarded(&sheet(), &with(2, &[3]), SHEET_MAX), refused(1, 2, 0, 0));
    assert_eq!(guarded(&sheet(), &sheet(), LENGTH - 1), refused(11, 3, 0, 0));
    assert_eq!(guarded(&sheet(), &sheet(), 0), refused(11, 3, 0, 0));
    assert_eq!(guarded(&[], &[], 0), refused(6, 1, 0, 0));
}

#[test]
fn codes() {
    for code in [1_000_000, 3_023_107, 9_000_000, 10_010_031, 11_030_000] {
        assert_eq!(Refusal::from_code(code).map(|r| r.code()), Some(code));
    }
    assert_eq!(Refusal::from_code(SHEET_MAX as u32), None);
    assert_eq!(Refusal::from_code(999_999), None);
}

#[test]
fn sentences() {
    let refusal: Box<dyn std::error::Error> = Box::new(Refusal { number: 10, matrix: 2, row: 1, column: 0 });
    assert_eq!(refusal.to_string(), "refusal 10: a wear class is above 7 (matrix 2, row 1, column 0)");
}

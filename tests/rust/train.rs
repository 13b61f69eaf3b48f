//! Tests of the train in the Rust wrapper, not proved: a success by each method and count, and each refusal at each position.
use coupling::{train, Method, Refusal, KIND_AMOUNT, SHEETS_MAX, SHEET_MAX};

const METHODS: [Method; 5] = [Method::Classical, Method::Three, Method::Four, Method::Five, Method::Seven];
const LENGTH: usize = 32;
const ONE: u32 = 0x3F80_0000;
const TWO: u32 = 0x4000_0000;
const LARGEST: u32 = coupling::LARGEST;

/// A class sheet, 1 by 1 with this cell.
fn sheet(lower: u32, upper: u32, wear_class: u8) -> [u8; LENGTH] {
    let mut s = [0; LENGTH];
    s[..6].copy_from_slice(&[1, 0, 1, 1, 2, 0]);
    s[20..24].copy_from_slice(&lower.to_le_bytes());
    s[24..28].copy_from_slice(&upper.to_le_bytes());
    s[28] = wear_class;
    s
}

/// What is written for a matrix of 1 by 1: an amount sheet, the amount zero.
fn written(lower: u32, upper: u32) -> [u8; LENGTH] {
    let mut s = sheet(lower, upper, 0);
    s[6] = KIND_AMOUNT;
    s
}

/// So many sheets of [2, 2], back to back.
fn twos(count: u32) -> Vec<u8> {
    sheet(TWO, TWO, 0).repeat(count as usize)
}

/// Eight sheets of [2, 2], with these bytes from a place of the sheet at a position on.
fn with(position: u32, at: usize, bytes: &[u8]) -> Vec<u8> {
    let mut sheets = twos(SHEETS_MAX);
    let from = LENGTH * (position as usize - 1) + at;
    sheets[from..from + bytes.len()].copy_from_slice(bytes);
    sheets
}

/// Multiplies, and sees to it that only what was returned as written was written.
fn guarded(count: u32, sheets: &[u8], room: usize) -> Result<usize, Refusal> {
    let mut out = vec![0xA5; room];
    let answer = train(Method::Classical, count, sheets, &mut out);
    let written = answer.unwrap_or(0);
    assert!(out[written..].iter().all(|&byte| byte == 0xA5));
    answer
}

fn refused(number: u32, matrix: u32) -> Result<usize, Refusal> {
    Err(Refusal { number, matrix, row: 0, column: 0 })
}

#[test]
fn products() {
    for method in METHODS {
        for count in 1..=SHEETS_MAX {
            let mut out = [0xA5; SHEET_MAX];
            assert_eq!(train(method, count, &twos(count), &mut out), Ok(LENGTH));
            assert!(out[LENGTH..].iter().all(|&byte| byte == 0xA5));
            let power = TWO + ((count - 1) << 23);
            let exact = !matches!(method, Method::Three | Method::Five) || count == 1;
            assert_eq!(out[..LENGTH] == written(power, power), exact);
        }
    }
}

#[test]
fn a_sheet_alone_is_written_as_it_was_read() {
    let mut out = [0; LENGTH];
    assert_eq!(train(Method::Seven, 1, &sheet(ONE, ONE, 7), &mut out), Ok(LENGTH));
    assert_eq!(out, written(0x3F70_0000, 0x3F88_0000)); // 1 -+ 1/16
}

#[test]
fn refusals_of_a_sheet() {
    let cases: [(usize, &[u8], u32); 10] = [
        (2, &[33], 1),
        (3, &[0], 1),
        (26, &[0x80, 0x7F], 3),
        (20, &[0xFF, 0xFF, 0x7F, 0x7F], 4),
        (24, &[0xFF, 0xFF, 0x7F, 0x7F, 1], 5),
        (6, &[2], 6),
        (31, &[1], 6),
        (18, &[1], 7),
        (16, &[1], 8),
        (28, &[8], 10),
    ];
    for position in 1..=SHEETS_MAX {
        for (at, bytes, number) in cases {
            assert_eq!(guarded(SHEETS_MAX, &with(position, at, bytes), SHEET_MAX), refused(number, position));
        }
        // Two rows do not fit the sheet before, two columns not the sheet behind: the right one of the two is named.
        let (at, right) = if position == 1 { (3, 2) } else { (2, position) };
        assert_eq!(guarded(SHEETS_MAX, &with(position, at, &[2]), SHEET_MAX), refused(1, right));
    }
}

#[test]
fn counts() {
    for count in [0, SHEETS_MAX + 1, 256 + 1, u32::MAX] {
        assert_eq!(guarded(count, &twos(SHEETS_MAX + 1), SHEET_MAX), refused(12, 0));
        assert_eq!(guarded(count, &[], 0), refused(12, 0));
    }
}

#[test]
fn other_refusals() {
    let large = [sheet(LARGEST, LARGEST, 0), sheet(TWO, TWO, 0), sheet(ONE, ONE, 8)].concat();
    assert_eq!(guarded(3, &large, SHEET_MAX), refused(5, 9));
    assert_eq!(guarded(3, &large[..2 * LENGTH], SHEET_MAX), refused(5, 9));
    assert_eq!(guarded(3, &twos(3), LENGTH - 1), refused(11, 9));
    assert_eq!(guarded(1, &twos(1), 0), refused(11, 9));
}

#[test]
fn lengths() {
    assert_eq!(guarded(1, &[], 0), refused(6, 1));
    assert_eq!(guarded(3, &twos(2), LENGTH), refused(6, 3));
    assert_eq!(guarded(3, &twos(4), LENGTH), refused(6, 3));
    assert_eq!(guarded(3, &twos(3)[..LENGTH + 5], LENGTH), refused(6, 2));
    assert_eq!(guarded(SHEETS_MAX, &with(4, 4, &[0]), LENGTH), refused(6, 4));
    assert_eq!(guarded(SHEETS_MAX, &with(4, 4, &[0xFF, 0xFF]), LENGTH), refused(6, 4));
}

#[test]
fn sentences() {
    let refusal = Refusal { number: 12, matrix: 0, row: 0, column: 0 };
    assert_eq!(refusal.sentence(), "the number of sheets is not from 1 to 8");
    assert_eq!(Refusal::from_code(5_090_031).map(|r| (r.number, r.matrix, r.column)), Some((5, 9, 31)));
}

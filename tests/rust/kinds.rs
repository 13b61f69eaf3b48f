//! Tests of the two kinds of a sheet in the Rust wrapper, not proved: each value of the kind, amounts in cells with each refusal in
//! its order, loads, which an amount sheet does not use, and what is written.
use coupling::{multiply, read, read_with, train, write, Matrix, Method, Refusal, KIND_AMOUNT, KIND_CLASS, LARGEST, LOAD_BYTES};

const ONE: u32 = 0x3F80_0000;
const TWO: u32 = 0x4000_0000;
const THREE: u32 = 0x4040_0000;
const MINUS: u32 = 0x8000_0000;
const INFINITE: u32 = 0x7F80_0000;
const BELOW_ZERO: u32 = MINUS | 1;
const GUARD: u32 = 0xA5A5_A5A5;
const LENGTH: usize = 32;

/// 1 by 2 of this kind with one cell, in column 1; the wear is bytes 12 to 15 as one number.
fn sheet(kind: u8, lower: u32, upper: u32, wear: u32) -> [u8; LENGTH] {
    let mut s = [0; LENGTH];
    s[..7].copy_from_slice(&[1, 0, 1, 2, 2, 0, kind]);
    s[19] = 1;
    s[20..24].copy_from_slice(&lower.to_le_bytes());
    s[24..28].copy_from_slice(&upper.to_le_bytes());
    s[28..].copy_from_slice(&wear.to_le_bytes());
    s
}

fn refused<T>(number: u32, matrix: u32, column: u32) -> Result<T, Refusal> {
    Err(Refusal { number, matrix, row: 0, column })
}

/// Reads a sheet of 1 by 2: the cell in column 1, or the refusal, which leaves all words.
fn cell(sheet: &[u8]) -> Result<(u32, u32), Refusal> {
    let (mut low, mut high) = ([GUARD; 2], [GUARD; 2]);
    let answer = read(sheet, &mut low, &mut high);
    assert!(answer.is_ok() && (low[0], high[0]) == (0, 0) || (low, high) == ([GUARD; 2], [GUARD; 2]));
    answer.map(|sizes| {
        assert_eq!(sizes, (1, 2));
        (low[1], high[1])
    })
}

#[test]
fn kinds() {
    assert_eq!((KIND_CLASS, KIND_AMOUNT), (0, 1));
    for kind in 0..=255 {
        let known = kind == KIND_CLASS || kind == KIND_AMOUNT;
        assert_eq!(cell(&sheet(kind, ONE, ONE, 0)), if known { Ok((ONE, ONE)) } else { refused(6, 0, 0) });
    }
    for at in 7..16 {
        let mut s = sheet(KIND_AMOUNT, ONE, ONE, 0);
        s[at] = 1;
        assert_eq!(cell(&s), refused(6, 0, 0));
    }
    // The same bytes of a cell: class 7, whose amount is 1/16, and an amount of 7 units.
    assert_eq!(cell(&sheet(KIND_CLASS, ONE, ONE, 7)), Ok((0x3F70_0000, 0x3F88_0000)));
    assert_eq!(cell(&sheet(KIND_AMOUNT, ONE, ONE, 7)), Ok((ONE - 1, ONE + 1)));
    assert_eq!(cell(&sheet(KIND_AMOUNT, ONE, ONE, 0x3D80_0000)), Ok((0x3F70_0000, 0x3F88_0000)));
    assert_eq!(cell(&sheet(KIND_CLASS, ONE, ONE, 0x3D80_0000)), refused(6, 0, 0));
}

#[test]
fn amounts_in_cells() {
    for zero in [0, MINUS] {
        assert_eq!(cell(&sheet(KIND_AMOUNT, MINUS | LARGEST, LARGEST, zero)), Ok((MINUS | LARGEST, LARGEST)));
    }
    assert_eq!(cell(&sheet(KIND_AMOUNT, ONE, ONE, TWO)), Ok((MINUS | ONE, THREE)));
    assert_eq!(cell(&sheet(KIND_AMOUNT, 0, 0, LARGEST)), Ok((MINUS | LARGEST, LARGEST)));
}

#[test]
fn refusals_in_their_order() {
    for (lower, upper) in [(ONE, ONE), (INFINITE, ONE), (ONE, MINUS | INFINITE), (TWO, ONE), (ONE, LARGEST)] {
        for amount in [BELOW_ZERO, MINUS | ONE, MINUS | LARGEST] {
            assert_eq!(cell(&sheet(KIND_AMOUNT, lower, upper, amount)), refused(14, 0, 1));
        }
        for amount in [INFINITE, INFINITE + 1, MINUS | INFINITE, u32::MAX] {
            assert_eq!(cell(&sheet(KIND_AMOUNT, lower, upper, amount)), refused(3, 0, 1));
        }
    }
    assert_eq!(cell(&sheet(KIND_AMOUNT, ONE, INFINITE, 0)), refused(3, 0, 1));
    assert_eq!(cell(&sheet(KIND_AMOUNT, TWO, ONE, LARGEST)), refused(4, 0, 1));
    assert_eq!(cell(&sheet(KIND_AMOUNT, ONE, LARGEST, 1)), refused(5, 0, 1));
    assert_eq!(cell(&sheet(KIND_AMOUNT, MINUS | ONE, ONE, LARGEST)), refused(5, 0, 1));
    let mut outside = sheet(KIND_AMOUNT, ONE, ONE, BELOW_ZERO);
    outside[19] = 2;
    assert_eq!(cell(&outside), refused(7, 0, 0));
    let mut its_own_next = sheet(KIND_AMOUNT, ONE, ONE, 0);
    its_own_next[16] = 1;
    assert_eq!(cell(&its_own_next), refused(8, 0, 0));
}

#[test]
fn loads() {
    let (mut low, mut high) = ([GUARD; 2], [GUARD; 2]);
    let mut load = [0; LOAD_BYTES];
    load[30..].copy_from_slice(&[0x80, 0x3F]); // class 7 has the amount 1
    assert_eq!(read_with(&load, &sheet(KIND_CLASS, ONE, ONE, 7), &mut low, &mut high), Ok((1, 2)));
    assert_eq!((low, high), ([0, 0], [0, TWO]));
    assert_eq!(read_with(&load, &sheet(KIND_AMOUNT, ONE, ONE, 7), &mut low, &mut high), Ok((1, 2)));
    assert_eq!((low, high), ([0, ONE - 1], [0, ONE + 1]));
    assert_eq!(read_with(&load, &sheet(KIND_AMOUNT, ONE, ONE, BELOW_ZERO), &mut low, &mut high), refused(14, 0, 1));
    load[31] = 0xBF; // -1, below the amount before it
    assert_eq!(read_with(&load, &sheet(KIND_AMOUNT, ONE, ONE, BELOW_ZERO), &mut low, &mut high), refused(13, 0, 0));
    assert_eq!(read_with(&load[1..], &sheet(KIND_AMOUNT, ONE, ONE, BELOW_ZERO), &mut low, &mut high), refused(6, 0, 0));
}

#[test]
fn what_is_written() {
    let mut out = [0xA5; LENGTH];
    assert_eq!(write(Matrix { rows: 1, columns: 2, lowers: &[0, ONE], uppers: &[MINUS, TWO] }, &mut out), Ok(LENGTH));
    assert_eq!(out, sheet(KIND_AMOUNT, ONE, TWO, 0));
    for worn in [sheet(KIND_CLASS, ONE, ONE, 7), sheet(KIND_AMOUNT, ONE, ONE, 0x3D80_0000)] {
        assert_eq!(train(Method::Four, 1, &worn, &mut out), Ok(LENGTH));
        assert_eq!(out, sheet(KIND_AMOUNT, 0x3F70_0000, 0x3F88_0000, 0));
    }
    assert_eq!(multiply(Method::Classical, &sheet(KIND_AMOUNT, ONE, ONE, BELOW_ZERO), &[], &mut out), refused(14, 1, 1));
}

#[test]
fn sentences() {
    let refusal = Refusal { number: 14, matrix: 2, row: 1, column: 0 };
    assert_eq!(refusal.to_string(), "refusal 14: a wear amount is below zero (matrix 2, row 1, column 0)");
}

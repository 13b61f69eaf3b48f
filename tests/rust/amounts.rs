//! Tests of `read_with` in the Rust wrapper, not proved: each refusal of a load, zeros of both signs, cells widened by loaded
//! amounts, and the fixed amounts as a load.
use coupling::{read, read_with, Refusal, LARGEST, LOAD_BYTES};

const HALF: u32 = 0x3F00_0000;
const ONE: u32 = 0x3F80_0000;
const TWO: u32 = 0x4000_0000;
const THREE: u32 = 0x4040_0000;
const MINUS: u32 = 0x8000_0000;
const INFINITE: u32 = 0x7F80_0000;
const GUARD: u32 = 0xA5A5_A5A5;
const LENGTH: usize = 32;

/// 0 for class 0 and 2^(c - 11) for the others.
const FIXED: [u32; 8] = [0, 0x3A80_0000, 0x3B00_0000, 0x3B80_0000, 0x3C00_0000, 0x3C80_0000, 0x3D00_0000, 0x3D80_0000];

fn load(amounts: [u32; 8]) -> Vec<u8> {
    amounts.iter().flat_map(|amount| amount.to_le_bytes()).collect()
}

/// The fixed amounts with another one in this class.
fn fixed_but(class: usize, amount: u32) -> Vec<u8> {
    let mut amounts = FIXED;
    amounts[class] = amount;
    load(amounts)
}

/// 1 by 1 with the cell [1, 1] of this class.
fn sheet(wear_class: u8) -> [u8; LENGTH] {
    let mut s = [0; LENGTH];
    s[..6].copy_from_slice(&[1, 0, 1, 1, 2, 0]);
    s[22..24].copy_from_slice(&[0x80, 0x3F]);
    s[26..28].copy_from_slice(&[0x80, 0x3F]);
    s[28] = wear_class;
    s
}

type Bounds = Result<(u32, u32), Refusal>;

/// Reads a sheet of 1 by 1: its cell, or the refusal, which leaves all words; a success leaves those behind the cell.
fn cell(amounts: &[u8], sheet: &[u8]) -> Bounds {
    let (mut low, mut high) = ([GUARD; 2], [GUARD; 3]);
    let answer = read_with(amounts, sheet, &mut low, &mut high);
    assert!(answer.is_ok() || (low[0], high[0]) == (GUARD, GUARD));
    assert_eq!((low[1], high[1], high[2]), (GUARD, GUARD, GUARD));
    answer.map(|sizes| {
        assert_eq!(sizes, (1, 1));
        (low[0], high[0])
    })
}

fn refused(number: u32) -> Bounds {
    Err(Refusal { number, matrix: 0, row: 0, column: 0 })
}

#[test]
fn lengths_of_a_load() {
    let longer = [load(FIXED), load(FIXED)].concat();
    for length in (0..LOAD_BYTES).chain(LOAD_BYTES + 1..=2 * LOAD_BYTES) {
        assert_eq!(cell(&longer[..length], &sheet(0)), refused(6));
    }
    assert_eq!(cell(&[0xFF; LOAD_BYTES - 1], &[]), refused(6));
}

#[test]
fn amounts_that_are_not_finite() {
    for class in 0..8 {
        for pattern in [INFINITE, INFINITE + 1, MINUS | INFINITE, u32::MAX] {
            assert_eq!(cell(&fixed_but(class, pattern), &sheet(0)), refused(3));
        }
    }
    // Before 13, and before the sheet is looked at.
    assert_eq!(cell(&load([ONE, HALF, 0, 0, 0, 0, 0, INFINITE]), &[]), refused(3));
}

#[test]
fn amounts_out_of_order() {
    for first in [1, MINUS | 1, ONE, LARGEST, MINUS | LARGEST] {
        assert_eq!(cell(&load([first; 8]), &sheet(0)), refused(13));
    }
    for class in 1..8 {
        assert_eq!(cell(&fixed_but(class, MINUS | 1), &sheet(0)), refused(13));
        assert_eq!(cell(&fixed_but(class - 1, FIXED[class] + 1), &sheet(0)), refused(13));
    }
    assert_eq!(cell(&fixed_but(7, 0), &[]), refused(13));
    assert_eq!(cell(&fixed_but(7, 0), &sheet(8)), refused(13));
}

#[test]
fn zeros_of_both_signs_and_equal_amounts() {
    for amounts in [[0; 8], [MINUS; 8], [0, MINUS, 0, MINUS, 0, 0, MINUS, MINUS], [MINUS, 0, MINUS, 0, 0, MINUS, 0, 0]] {
        for class in 0..8 {
            assert_eq!(cell(&load(amounts), &sheet(class)), Ok((ONE, ONE)));
        }
    }
    assert_eq!(cell(&load([MINUS, TWO, TWO, TWO, TWO, TWO, TWO, TWO]), &sheet(7)), Ok((MINUS | ONE, THREE)));
}

#[test]
fn cells_are_widened_by_the_loaded_amounts() {
    let loaded = load([0, 1, HALF, ONE, TWO, TWO, 0x7F00_0000, LARGEST]);
    let expected = [
        (ONE, ONE),
        (ONE - 1, ONE + 1), // rounded outward
        (HALF, 0x3FC0_0000),
        (0, TWO),
        (MINUS | ONE, THREE),
        (MINUS | ONE, THREE),
        (MINUS | 0x7F00_0000, 0x7F00_0001),
    ];
    for (class, bounds) in expected.into_iter().enumerate() {
        assert_eq!(cell(&loaded, &sheet(class as u8)), Ok(bounds));
    }
    assert_eq!(cell(&loaded, &sheet(7)), refused(5));
}

#[test]
fn the_fixed_amounts_as_a_load() {
    for class in 0..=8 {
        let (mut low, mut high) = ([GUARD; 1], [GUARD; 1]);
        let answer = read(&sheet(class), &mut low, &mut high);
        assert_eq!(cell(&load(FIXED), &sheet(class)), answer.map(|_| (low[0], high[0])));
    }
    assert_eq!(cell(&load(FIXED), &[]), refused(6));
    assert_eq!(read_with(&load(FIXED), &sheet(0), &mut [], &mut [GUARD]), Err(Refusal { number: 2, matrix: 0, row: 0, column: 0 }));
}

#[test]
fn sentences() {
    let refusal = Refusal { number: 13, matrix: 0, row: 0, column: 0 };
    assert_eq!(refusal.sentence(), "the first wear amount is not zero, or an amount is below the one before it");
}

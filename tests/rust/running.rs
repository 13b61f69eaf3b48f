//! Tests of the running entry in the Rust wrapper, not proved: each refusal in its order, which leaves the value as it was; exchanged
//! amounts; the pair that is too many; ranges beside those of products of a row and a column.
use coupling::{add_up, product, sub_down, Gauged, Matrix, Method, Refusal, Running, Work, LARGEST, LOAD_BYTES, PAIRS_MAX};

const HALF: u32 = 0x3F00_0000;
const ONE: u32 = 0x3F80_0000;
const TWO: u32 = 0x4000_0000;
const MINUS: u32 = 0x8000_0000;
const INFINITE: u32 = 0x7F80_0000;

/// 0 for class 0 and 2^(c - 11) for the others.
const FIXED: [u32; 8] = [0, 0x3A80_0000, 0x3B00_0000, 0x3B80_0000, 0x3C00_0000, 0x3C80_0000, 0x3D00_0000, 0x3D80_0000];

fn gauged(lower: u32, upper: u32, class: u32) -> Gauged {
    Gauged { lower, upper, class }
}

fn load(amounts: [u32; 8]) -> Vec<u8> {
    amounts.iter().flat_map(|amount| amount.to_le_bytes()).collect()
}

fn refused(number: u32) -> Result<(), Refusal> {
    Err(Refusal { number, matrix: 0, row: 0, column: 0 })
}

/// What a call answers; a refusal leaves the running entry as it was.
fn kept(running: &mut Running, call: impl FnOnce(&mut Running) -> Result<(), Refusal>) -> Result<(), Refusal> {
    let before = *running;
    let answer = call(running);
    assert!(answer.is_ok() || *running == before);
    answer
}

fn shown(running: &Running) -> (u32, u32, u32) {
    (running.lower(), running.upper(), running.pairs())
}

#[test]
fn pairs_are_widened_and_added() {
    let mut running = Running::new();
    assert_eq!((shown(&running), running.amounts(), running), ((0, 0, 0), FIXED, Running::default()));
    assert_eq!(running.take(gauged(ONE, ONE, 7), gauged(ONE, ONE, 0)), Ok(()));
    assert_eq!(shown(&running), (0x3F70_0000, 0x3F88_0000, 1)); // 1 -+ 1/16
    let earlier = running;
    assert_eq!(running.take(gauged(MINUS | ONE, TWO, 0), gauged(HALF, ONE, 0)), Ok(()));
    assert_eq!(shown(&running), (0xBD80_0000, 0x4044_0000, 2)); // [15/16 - 1, 17/16 + 2]
    assert_eq!(shown(&earlier), (0x3F70_0000, 0x3F88_0000, 1));
}

#[test]
fn refusals_of_a_pair_in_their_order() {
    let good = gauged(ONE, TWO, 3);
    let mut bad = vec![];
    for class in [8, 9, 255, 256, 0x1_0000, MINUS, u32::MAX] {
        bad.extend([(gauged(ONE, ONE, class), 10), (gauged(INFINITE, ONE, class), 10), (gauged(TWO, ONE, class), 10)]);
    }
    for pattern in [INFINITE, MINUS | INFINITE, INFINITE + 1, u32::MAX] {
        bad.extend([(gauged(pattern, ONE, 0), 3), (gauged(TWO, pattern, 7), 3)]);
    }
    bad.extend([(gauged(TWO, ONE, 0), 4), (gauged(LARGEST, ONE, 7), 4), (gauged(ONE, LARGEST, 1), 5), (gauged(MINUS | LARGEST, 0, 7), 5)]);
    let mut running = Running::new();
    assert_eq!(running.take(good, good), Ok(()));
    for &(a, number) in &bad {
        assert_eq!(kept(&mut running, |r| r.take(a, good)), refused(number));
        assert_eq!(kept(&mut running, |r| r.take(good, a)), refused(number));
        for &(b, _) in &bad {
            assert_eq!(kept(&mut running, |r| r.take(a, b)), refused(number));
        }
    }
    assert_eq!((running.take(good, good), running.pairs()), (Ok(()), 2));
}

#[test]
fn sums_that_are_too_large() {
    let (one, two) = (gauged(ONE, ONE, 0), gauged(TWO, TWO, 0));
    let (large, below) = (gauged(LARGEST, LARGEST, 0), gauged(MINUS | LARGEST, MINUS | LARGEST, 0));
    let mut running = Running::new();
    assert_eq!(kept(&mut running, |r| r.take(large, two)), refused(5));
    assert_eq!((running.take(large, one), shown(&running)), (Ok(()), (LARGEST, LARGEST, 1)));
    assert_eq!(kept(&mut running, |r| r.take(one, large)), refused(5));
    assert_eq!((running.take(below, one), shown(&running)), (Ok(()), (0, 0, 2)));
}

#[test]
fn a_pair_too_many() {
    let (one, bad) = (gauged(ONE, ONE, 0), gauged(INFINITE, ONE, 8));
    let mut running = Running::new();
    for _ in 0..PAIRS_MAX {
        assert_eq!(running.take(one, one), Ok(()));
    }
    assert_eq!(shown(&running), (0x4200_0000, 0x4200_0000, 32));
    assert_eq!(kept(&mut running, |r| r.take(one, one)), refused(1));
    assert_eq!(kept(&mut running, |r| r.take(bad, bad)), refused(1));
}

#[test]
fn refusals_of_a_load_in_their_order() {
    let (mut running, longer) = (Running::new(), [0xFF; 2 * LOAD_BYTES]);
    for length in 0..=longer.len() {
        assert_eq!(kept(&mut running, |r| r.exchange(&longer[..length])), refused(if length == LOAD_BYTES { 3 } else { 6 }));
    }
    for class in 0..8 {
        for (amount, number) in [(INFINITE, 3), (u32::MAX, 3), (MINUS | INFINITE, 3), (MINUS | 1, 13), (if class < 7 { ONE } else { 0 }, 13)] {
            let mut amounts = FIXED;
            amounts[class] = amount;
            assert_eq!(kept(&mut running, |r| r.exchange(&load(amounts))), refused(number));
        }
    }
}

#[test]
fn amounts_are_exchanged_between_two_pairs() {
    let (one, worn) = (gauged(ONE, ONE, 0), gauged(ONE, ONE, 7));
    let amounts = [MINUS, 0, MINUS, HALF, HALF, ONE, ONE, TWO];
    let mut running = Running::new();
    assert_eq!(running.take(worn, one), Ok(()));
    assert_eq!(running.exchange(&load(amounts)), Ok(()));
    assert_eq!((shown(&running), running.amounts()), ((0x3F70_0000, 0x3F88_0000, 1), amounts));
    assert_eq!((running.take(one, worn), shown(&running)), (Ok(()), (0xBD80_0000, 0x4082_0000, 2))); // [15/16 - 1, 17/16 + 3]
}

/// A row times a column by method 1, and its pairs. The bounds are the lower and the upper ones of the row, then of the column.
fn classical(bounds: &[Vec<u32>; 4]) -> (u32, u32, u32) {
    let (k, mut work, mut lower, mut upper) = (bounds[0].len(), [[0; PAIRS_MAX as usize]; 4], [0], [0]);
    let row = Matrix { rows: 1, columns: k, lowers: &bounds[0], uppers: &bounds[1] };
    let column = Matrix { rows: k, columns: 1, lowers: &bounds[2], uppers: &bounds[3] };
    let [a_mids, a_rads, b_mids, b_rads] = &mut work;
    product(Method::Classical, row, column, Work { a_mids, a_rads, b_mids, b_rads }, &mut lower, &mut upper).expect("not refused");
    (lower[0], upper[0], k as u32)
}

#[test]
fn the_range_is_that_of_a_product() {
    let (mut running, mut bounds) = (Running::new(), <[Vec<u32>; 4]>::default());
    for pair in 1..=PAIRS_MAX {
        if pair % 8 == 0 {
            let amounts = std::array::from_fn(|class| if class == 0 { 0 } else { 0x3C00_0000 + 977 * pair + 0x12_3456 * class as u32 });
            assert_eq!(running.exchange(&load(amounts)), Ok(()));
        }
        let a = gauged(ONE + 977 * pair, TWO + 1_009 * pair, pair % 8);
        let b = gauged(MINUS | (TWO - 31 * pair), ONE + 7 * pair, pair / 3 % 8);
        for (i, cell) in [a, b].into_iter().enumerate() {
            let amount = running.amounts()[cell.class as usize];
            bounds[2 * i].push(sub_down(cell.lower, amount).expect("not refused"));
            bounds[2 * i + 1].push(add_up(cell.upper, amount).expect("not refused"));
        }
        assert_eq!(running.take(a, b), Ok(()));
        assert_eq!(shown(&running), classical(&bounds));
    }
}

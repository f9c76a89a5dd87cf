//! Columns checked against lists through this crate: what was written is passed, and each reason why another is not.

use hulemartob::{Codec, Column, Date, Error, Kind, Mismatch, Sheet, Value, check, encode, encode_with, raw};

/// 10, 30, 20.
const BITPACKED: [u8; 6] = [0x00, 0x8A, 0x8A, 0x82, 0x83, 0x18];

/// Heads that state less, or more, than the rows hold: 20, 30, 30 above a minimum of 10; 10, 30, 20 by steps of 5; 20, 10, 20 below a maximum of 30.
const LOW_MINIMUM: [u8; 6] = [0x00, 0x8A, 0x8A, 0x82, 0x83, 0x29];
const HALF_GCD: [u8; 7] = [0x00, 0x8A, 0x85, 0x84, 0x83, 0xA0, 0x00];
const HIGH_MAXIMUM: [u8; 6] = [0x00, 0x8A, 0x8A, 0x82, 0x83, 0x11];

/// 10, 30, 20 by Blockwise, with a byte changed: row 1 lies above the maximum.
const DAMAGED: [u8; 17] = [0x02, 0x8A, 0x8A, 0x82, 0x83, 0x0C, 0x00, 0x00, 0x00, 0x00, 0x88, 0x80, 0x02, 0x07, 0x00, 0x00, 0x00];

const LIST: [u64; 3] = [10, 30, 20];

fn unopened(number: u64, value: u64) -> Result<(), Mismatch> {
    Err(Mismatch::Unopened(Error::from_numbers(number, value).unwrap()))
}

#[test]
fn passed() {
    assert_eq!(check(Sheet::One, &BITPACKED, &LIST), Ok(()));
    assert_eq!(check(Sheet::Two, &BITPACKED, &LIST), Ok(()));
    assert_eq!(check::<u64>(Sheet::Two, &encode::<u64>(&[]).unwrap(), &[]), Ok(()));
}

#[test]
fn sheets() {
    assert_eq!(raw::check(Kind::U64, 0, &BITPACKED, &LIST), unopened(18, 0));
    assert_eq!(raw::check(Kind::U64, 3, &[], &LIST), unopened(18, 0));
    let mut more = BITPACKED.to_vec();
    more.push(0);
    assert_eq!(check(Sheet::One, &more, &LIST), Ok(()));
    assert_eq!(check(Sheet::Two, &more, &LIST), unopened(17, 6));
}

#[test]
fn reasons_in_their_order() {
    assert_eq!(check(Sheet::One, &BITPACKED[..5], &LIST[..2]), unopened(10, 0));
    assert_eq!(check(Sheet::One, &BITPACKED, &[9u64; 4]), Err(Mismatch::Counts { column: 3, list: 4 }));
    assert_eq!(check(Sheet::One, &BITPACKED, &[10u64, 30, 10]), Err(Mismatch::Unequal { row: 2 }));
    assert_eq!(check(Sheet::One, &DAMAGED, &LIST), Err(Mismatch::Unequal { row: 1 }));
    assert_eq!(check(Sheet::One, &LOW_MINIMUM, &[20u64, 30, 30]), Err(Mismatch::Minimum));
    assert_eq!(check(Sheet::One, &HALF_GCD, &LIST), Err(Mismatch::Gcd));
    assert_eq!(check(Sheet::One, &HIGH_MAXIMUM, &[20u64, 10, 20]), Err(Mismatch::Maximum));
}

fn written_is_passed<T: Value>(values: &[T], other: T) {
    for codecs in [&[Codec::Bitpacked][..], &[Codec::Blockwise], &Codec::ALL] {
        let bytes = encode_with(values, codecs).unwrap();
        let column = Column::open(&bytes).unwrap().typed::<T>();
        for sheet in Sheet::ALL {
            assert_eq!(check(sheet, &bytes, values), Ok(()));
            assert_eq!(column.window(1..).unwrap().check(sheet, values), Ok(()));
        }
        let mut list = values.to_vec();
        for row in [0, values.len() / 2, values.len() - 1] {
            let right = std::mem::replace(&mut list[row], other);
            assert_eq!(check(Sheet::Two, &bytes, &list), Err(Mismatch::Unequal { row: row as u32 }));
            list[row] = right;
        }
        list.push(other);
        assert_eq!(check(Sheet::Two, &bytes, &list), Err(Mismatch::Counts { column: values.len() as u32, list: list.len() }));
    }
}

#[test]
fn every_kind() {
    let numbers: Vec<u64> = (1..=1700u64).map(|i| i.wrapping_mul(0x9E37_79B9_7F4A_7C15)).collect();
    written_is_passed(&numbers, 1);
    written_is_passed(&numbers.iter().map(|&n| n as i64).collect::<Vec<_>>(), 1);
    written_is_passed(&numbers.iter().map(|&n| Date(n as i64)).collect::<Vec<_>>(), Date(1));
    written_is_passed(&numbers.iter().map(|&n| f64::from_bits(n)).collect::<Vec<_>>(), f64::from_bits(1));
    written_is_passed(&[true; 600], false);
}

#[test]
fn floats_by_their_bits() {
    let bytes = encode(&[0.0, f64::NAN]).unwrap();
    assert_eq!(check(Sheet::Two, &bytes, &[0.0, f64::NAN]), Ok(()));
    assert_eq!(check(Sheet::Two, &bytes, &[-0.0, f64::NAN]), Err(Mismatch::Unequal { row: 0 }));
}

#[test]
fn a_stored_two_is_no_bool() {
    let bytes = encode(&[0u64, 2]).unwrap();
    assert_eq!(check(Sheet::One, &bytes, &[false, true]), Err(Mismatch::Unequal { row: 1 }));
}

#[test]
fn in_words() {
    assert_eq!(unopened(18, 0).unwrap_err().to_string(), "the column does not open: the sheet is neither 1 nor 2 (refusal 18)");
    assert_eq!(Mismatch::Counts { column: 3, list: 4 }.to_string(), "the column has 3 rows for 4 values");
    let source = std::error::Error::source(&unopened(18, 0).unwrap_err()).map(ToString::to_string);
    assert_eq!(source, Some("the sheet is neither 1 nor 2 (refusal 18)".into()));
}

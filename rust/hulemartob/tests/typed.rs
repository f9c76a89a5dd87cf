//! Columns of signed numbers, dates, bools and floats: what is written comes back by its bits, in order, and is found by its value.

use std::ops::Bound::{Excluded, Included};

use hulemartob::{Codec, Column, Date, Error, Kind, Value, encode, encode_into, encode_with, raw, stats};

/// The ends of the signed range, and the neighbours of 0.
const SIGNED: [i64; 7] = [i64::MIN, i64::MIN + 1, -1, 0, 1, i64::MAX - 1, i64::MAX];

/// Floats by their bits, in the order of the numbers that they are stored as: NaNs with the sign bit (the last quiet one, the first, a signalling one),
/// -infinity, a number, the last below 0, -0.0; and the same without the sign bit, the other way round.
const FLOATS: [u64; 14] = [
    0xFFFF_FFFF_FFFF_FFFF,
    0xFFF8_0000_0000_0000,
    0xFFF0_0000_0000_0001,
    0xFFF0_0000_0000_0000,
    0xBFF0_0000_0000_0000,
    0x8000_0000_0000_0001,
    0x8000_0000_0000_0000,
    0x0000_0000_0000_0000,
    0x0000_0000_0000_0001,
    0x3FF0_0000_0000_0000,
    0x7FF0_0000_0000_0000,
    0x7FF0_0000_0000_0001,
    0x7FF8_0000_0000_0000,
    0x7FFF_FFFF_FFFF_FFFF,
];

/// A column whose stored numbers are 0, 1, 2; and one of three rows in which reading refuses row 1.
const UP_TO_TWO: [u8; 6] = [0x00, 0x80, 0x81, 0x82, 0x83, 0x24];
const ROW_1_REFUSED: [u8; 6] = [0x00, 0x80, 0x81, 0x82, 0x83, 0x0C];

fn floats() -> Vec<f64> {
    FLOATS.map(f64::from_bits).to_vec()
}

/// Writes a list by each codec and by all, reads every row, the whole run and all values back, and looks every pair of values up; `bits` tells values apart
/// and `at_most` orders them.
fn comes_back<T: Value, B: PartialEq + std::fmt::Debug>(values: &[T], bits: impl Fn(T) -> B, at_most: impl Fn(T, T) -> bool) {
    let each = Codec::ALL.iter().map(std::slice::from_ref);
    for codecs in each.chain([&Codec::ALL[..]]) {
        let Ok(written) = encode_with(values, codecs) else {
            assert!(codecs == [Codec::Linear] && values.len() < 512);
            continue;
        };
        let column = Column::open(&written).unwrap().typed::<T>();
        let all: Vec<B> = values.iter().map(|&v| bits(v)).collect();
        let rows: Vec<B> = (0..column.len()).map(|row| bits(column.get(row).unwrap())).collect();
        assert_eq!(rows, all);
        assert_eq!(column.iter().map(|value| bits(value.unwrap())).collect::<Vec<_>>(), all);
        assert_eq!(column.to_vec().unwrap().into_iter().map(&bits).collect::<Vec<_>>(), all);
        let mut out = values.to_vec();
        out.reverse();
        assert_eq!(column.read_into(0, &mut out), Ok(()));
        assert_eq!(out.into_iter().map(&bits).collect::<Vec<_>>(), all);
        let below = |v, w| at_most(v, w) && !at_most(w, v);
        for &low in values.iter().take(14) {
            for &high in values.iter().take(14) {
                let expected = |inside: &dyn Fn(T) -> bool| -> Vec<u32> {
                    (0..).zip(values).filter(|&(_, &v)| inside(v)).map(|(row, _)| row).collect()
                };
                let found = column.find(low..=high, ..).unwrap();
                assert_eq!(found, expected(&|v| at_most(low, v) && at_most(v, high)));
                let found = column.find(low..high, ..).unwrap();
                assert_eq!(found, expected(&|v| at_most(low, v) && below(v, high)));
                let found = column.find((Excluded(low), Included(high)), ..).unwrap();
                assert_eq!(found, expected(&|v| below(low, v) && at_most(v, high)));
            }
        }
        for &value in values {
            assert_eq!(bits(T::from_stored(value.to_stored())), bits(value));
        }
    }
}

/// A list, and 600 rows of it: one for Linear.
fn long<T: Copy>(values: &[T]) -> Vec<T> {
    (0..600).map(|i| values[i * i % values.len()]).collect()
}

#[test]
fn signed_numbers() {
    for values in [SIGNED.to_vec(), long(&SIGNED), (-300..300).map(|v| 7 * v).collect()] {
        comes_back(&values, |v| v, |v, w| v <= w);
        comes_back(&values.iter().map(|&v| Date(v)).collect::<Vec<_>>(), |v| v, |v, w| v <= w);
    }
}

#[test]
fn bools() {
    for values in [vec![], vec![true], vec![false, true, true, false], long(&[true, false, false])] {
        comes_back(&values, |v| v, |v, w| v <= w);
    }
}

/// The order of IEEE 754's `totalOrder` is that of the stored numbers.
#[test]
fn floats_by_their_bits() {
    let smooth = (0..600).map(|i| 20.0 + 0.25 * f64::from(i)).collect();
    for values in [floats(), long(&floats()), smooth] {
        comes_back(&values, f64::to_bits, |v, w| v.total_cmp(&w).is_le());
    }
}

#[test]
fn plain_numbers_are_the_same_column() {
    let values = [10u64, 30, 20];
    let mut out = [0; 6];
    assert_eq!(raw::serialize(Kind::U64, &values, &[0, 1, 2], &mut out), Ok(6));
    assert_eq!(encode(&values).unwrap(), out);
    comes_back(&values, |v| v, |v, w| v <= w);
}

#[test]
fn stored_numbers() {
    let stored = |bytes: Vec<u8>| Column::open(bytes).unwrap().to_vec().unwrap();
    let climbing = [0, 1, (1 << 63) - 1, 1 << 63, (1 << 63) + 1, u64::MAX - 1, u64::MAX];
    assert_eq!(stored(encode(&SIGNED).unwrap()), climbing);
    assert_eq!(SIGNED.map(Value::to_stored), climbing);
    assert_eq!(stored(encode(&SIGNED.map(Date)).unwrap()), climbing);
    assert_eq!(SIGNED.map(|v| Date(v).to_stored()), climbing);
    assert_eq!(stored(encode(&[false, true]).unwrap()), [0, 1]);
    assert_eq!([false, true].map(Value::to_stored), [0, 1]);
    let rising = stored(encode(&floats()).unwrap());
    assert_eq!(floats().into_iter().map(Value::to_stored).collect::<Vec<_>>(), rising);
    assert!(rising.is_sorted_by(|a, b| a < b));
    // -0.0 directly under +0.0
    assert_eq!(rising[6..8], [(1 << 63) - 1, 1 << 63]);
    assert_eq!((rising[0], rising[13]), (0, u64::MAX));
}

/// The kind at run time: lists are lent as words.
#[test]
fn words_of_a_kind() {
    fn same<T: Value>(values: &[T], words: &[u64]) {
        let mut out = vec![0; 200];
        let length = raw::serialize(T::KIND, words, &[0, 2], &mut out).unwrap();
        assert_eq!(out[..length], encode_with(values, &[Codec::Bitpacked, Codec::Blockwise]).unwrap());
        assert_eq!(raw::stats(T::KIND, words), stats(values));
        assert_eq!(raw::check(T::KIND, 2, &out[..length], words), Ok(()));
        assert_eq!(raw::check(T::KIND, 2, &out[..length], &words[1..]), raw::check(T::KIND, 2, &encode(values).unwrap(), &words[1..]));
    }
    same(&[10u64, 30, 20], &[10, 30, 20]);
    same(&SIGNED, &SIGNED.map(|v| v as u64));
    same(&SIGNED.map(Date), &SIGNED.map(|v| v as u64));
    same(&[true, false], &[7, 0]);
    same(&floats(), &FLOATS);
}

#[test]
fn readings_of_one_column() {
    let bytes = encode_with(&[-10i64, 10, 0], &[Codec::Bitpacked]).unwrap();
    assert_eq!(bytes, [0x00, 0x76, 0x7F, 0x7F, 0x7F, 0x7F, 0x7F, 0x7F, 0x7F, 0xFF, 0x8A, 0x82, 0x83, 0x18]);
    let column = Column::open(&bytes).unwrap();
    let (signed, dates) = (column.clone().typed::<i64>(), column.clone().typed::<Date>());
    assert_eq!((signed.get(0), dates.get(1)), (Ok(-10), Ok(Date(10))));
    assert_eq!((signed.minimum(), signed.maximum(), column.minimum()), (-10, 10, (1 << 63) - 10));
    assert_eq!(signed.find(-10..=0, 0..3).unwrap(), [0, 2]);
    assert_eq!(dates.find(Date(1).., 0..3).unwrap(), [1]);
    let stats = stats(&[-10i64, 10, 0]).unwrap();
    assert_eq!((stats.minimum, stats.maximum, stats.gcd, stats.rows), ((1 << 63) - 10, (1 << 63) + 10, 10, 3));
}

#[test]
fn a_stored_two_is_true() {
    let stored = Column::open(&UP_TO_TWO).unwrap();
    assert_eq!(stored.to_vec().unwrap(), [0, 1, 2]);
    let column = stored.typed::<bool>();
    assert_eq!(column.to_vec().unwrap(), [false, true, true]);
    assert_eq!(column.find(true..=true, ..).unwrap(), [1, 2]);
    assert_eq!(column.find(false..=false, ..).unwrap(), [0]);
    assert_eq!(column.find(false..true, ..).unwrap(), [0]);
    assert_eq!(column.find((Excluded(false), Included(true)), ..).unwrap(), [1, 2]);
    assert_eq!(column.find(false..=true, ..).unwrap(), [0, 1, 2]);
    #[allow(clippy::reversed_empty_ranges)]
    let none = column.find(true..=false, ..).unwrap();
    assert_eq!(none, []);
}

#[test]
fn zeros_and_nans_are_found_by_their_bits() {
    let bytes = encode(&[-0.0, 0.0, f64::NAN, -f64::NAN, f64::INFINITY]).unwrap();
    let column = Column::open(&bytes).unwrap().typed::<f64>();
    let find = |low, high| column.find(low..=high, ..).unwrap();
    assert_eq!((find(0.0, 0.0), find(-0.0, -0.0), find(-0.0, 0.0)), (vec![1], vec![0], vec![0, 1]));
    assert_eq!(find(0.0, -0.0), []);
    assert_eq!((find(f64::NAN, f64::NAN), find(-f64::NAN, -f64::NAN)), (vec![2], vec![3]));
    assert_eq!((find(f64::INFINITY, f64::NAN), find(-f64::NAN, f64::NAN)), (vec![2, 4], vec![0, 1, 2, 3, 4]));
}

/// A refused row decides before the range does, one of none too.
#[test]
#[allow(clippy::reversed_empty_ranges)]
fn refused_rows_decide() {
    fn decides<T: Value>(none: std::ops::RangeInclusive<T>) {
        let column = Column::open(&ROW_1_REFUSED).unwrap().typed::<T>();
        let refused = Error::OutOfBounds { row: 1 };
        assert_eq!(column.get(1).map(Value::to_stored), Err(refused));
        assert_eq!(column.get(3).map(Value::to_stored), Err(Error::NoSuchRow));
        assert_eq!(column.find(none, 0..3), Err(refused));
        assert_eq!(column.find(.., 2..3).unwrap(), [2]);
        let old = T::from_stored(u64::MAX / 3);
        let mut list = [old; 3];
        assert_eq!(column.read_into(0, &mut list), Err(refused));
        assert!(list.into_iter().all(|value| value.to_stored() == old.to_stored()));
        assert_eq!(column.to_vec().map(drop), Err(refused));
    }
    decides(1u64..=0);
    decides(1i64..=-1);
    decides(Date(1)..=Date(-1));
    decides(true..=false);
    decides(0.0..=-0.0);
}

#[test]
fn writing_refuses() {
    let mut out = [9; 20];
    assert_eq!(raw::serialize(Kind::I64, &[1, 2], &[0, 2, 3, 4], &mut out), Err(Error::UnknownCodec { place: 2 }));
    assert_eq!(encode_into(&[1.5], &[Codec::Linear], &mut out), Err(Error::NoCodecApplies));
    assert_eq!(encode_into(&[true], &[Codec::Bitpacked], &mut out[..4]), Err(Error::OutputShort { needed: 5 }));
    assert_eq!(out, [9; 20]);
    assert_eq!(encode_into(&[true], &[Codec::Bitpacked], &mut out), Ok(5));
}

//! The library through this crate: the format's worked examples, round trips, every refusal, and columns that were damaged or made up.

use hulemartob::raw::{self, Block, Numbers};
use hulemartob::{
    Codec, Column, Error, Kind, Line, Sheet, Stats, encode, encode_into, encode_with, encoded_len, max_encoded_len, sizes, stats,
};

/// The rows 10, 30, 20 as a column, by the codec that is chosen and by Blockwise.
const BITPACKED: [u8; 6] = [0x00, 0x8A, 0x8A, 0x82, 0x83, 0x18];
const BLOCKWISE: [u8; 17] = [0x02, 0x8A, 0x8A, 0x82, 0x83, 0x08, 0x00, 0x00, 0x00, 0x00, 0x88, 0x80, 0x02, 0x07, 0x00, 0x00, 0x00];

fn refused<T>(number: u64, value: u64) -> Result<T, Error> {
    Err(Error::from_numbers(number, value).unwrap())
}

/// A sequence that is the same in every run.
struct Random(u64);

impl Random {
    fn next(&mut self) -> u64 {
        self.0 = self.0.wrapping_mul(6364136223846793005).wrapping_add(1442695040888963407);
        self.0 >> 11 ^ self.0 << 47
    }

    fn below(&mut self, end: usize) -> usize {
        (self.next() % end as u64) as usize
    }
}

/// Lists of many shapes, whose lengths lie on both sides of a block's end.
fn lists() -> Vec<Vec<u64>> {
    let mut numbers = Random(1);
    let mut lists = vec![vec![], vec![7], vec![u64::MAX, 0], vec![5; 600]];
    for rows in [3, 511, 512, 513, 1200] {
        lists.push((0..rows).map(|i| 5 + 2 * i).collect());
        lists.push((0..rows).map(|i| u64::MAX - 3600 * i).collect());
        lists.push((0..rows).map(|i| 1000 * i + numbers.next() % 100).collect());
        for bits in [1, 8, 31, 56, 57, 64] {
            lists.push((0..rows).map(|_| numbers.next() >> (64 - bits)).collect());
        }
    }
    lists
}

/// Reads a column whole: each row's answer.
fn rows(column: &Column<u64, &[u8]>) -> Vec<Result<u64, Error>> {
    (0..column.len()).map(|row| column.get(row)).collect()
}

#[test]
fn statistics() {
    let told = |minimum, maximum, gcd, rows| Ok(Stats { minimum, maximum, gcd, rows });
    assert_eq!(stats::<u64>(&[]), told(0, 0, 1, 0));
    assert_eq!(stats(&[7u64]), told(7, 7, 1, 1));
    assert_eq!(stats(&[10u64, 30, 20]), told(10, 30, 10, 3));
    assert_eq!(stats(&[u64::MAX, 0]), told(0, u64::MAX, u64::MAX, 2));
}

/// Sizes are those of what is written by each codec, but for the code byte; Blockwise's may be nine bytes a block less where the gcd is 1. The least of any
/// listed ones, the earliest of equals, is the codec that is written by.
#[test]
fn sizes_by_codec() {
    let [bitpacked, linear, blockwise] = Codec::ALL;
    let listed = [&Codec::ALL[..], &[blockwise, linear, bitpacked], &[linear, blockwise], &[bitpacked, linear], &[linear], &[]];
    for values in lists() {
        let sizes = sizes(&values).unwrap();
        let written = |codec| encoded_len(&values, &[codec]).map(|length| length as u64 - 1);
        assert_eq!(sizes.by(bitpacked).ok_or(Error::NoCodecApplies), written(bitpacked));
        assert_eq!(sizes.by(linear).ok_or(Error::NoCodecApplies), written(linear));
        assert_eq!(sizes.by(linear).is_some(), values.len() >= 512);
        let (estimate, blocks) = (sizes.by(blockwise).unwrap(), values.len().div_ceil(512) as u64);
        assert!(stats(&values).unwrap().gcd > 1 || written(blockwise).unwrap() <= estimate + 9 * blocks);
        for codecs in listed {
            let codec = encode_with(&values, codecs).map(|bytes| Codec::try_from(bytes[0]).unwrap());
            assert_eq!(sizes.least(codecs).ok_or(Error::NoCodecApplies), codec);
        }
    }
    assert_eq!(sizes::<u64>(&[]).map(|sizes| Codec::ALL.map(|codec| sizes.by(codec))), Ok([Some(4), None, Some(8)]));
    assert_eq!(sizes(&[-10i64, 10, 0]), sizes(&[(1u64 << 63) - 10, (1 << 63) + 10, 1 << 63]));
}

#[test]
fn worked_examples() {
    assert_eq!(encode::<u64>(&[]).unwrap(), [0x00, 0x80, 0x81, 0x80, 0x80]);
    assert_eq!(encode(&[7u64]).unwrap(), [0x00, 0x87, 0x81, 0x80, 0x81]);
    assert_eq!(encode(&[10u64, 30, 20]).unwrap(), BITPACKED);
    assert_eq!(encode_with(&[10u64, 30, 20], &[Codec::Blockwise]).unwrap(), BLOCKWISE);
    let lone = [0x02, 0x87, 0x81, 0x80, 0x81, 0x80, 0x80, 0x00, 0x03, 0x00, 0x00, 0x00];
    assert_eq!(encode_with(&[7u64], &[Codec::Blockwise]).unwrap(), lone);
}

#[test]
fn opened_numbers() {
    let column = Column::open(&BITPACKED).unwrap();
    assert_eq!(<[u64; 12]>::from(*column.raw().numbers), [0, 10, 10, 2, 3, 5, 1, 0, 0, 0, 0, 3]);
    assert_eq!((column.codec(), column.blocks()), (Codec::Bitpacked, &[][..]));
    assert_eq!((column.minimum(), column.maximum(), column.gcd(), column.count(), column.len()), (10, 30, 10, 2, 3));
    assert_eq!((column.area(), column.width(), column.line()), (5..6, Some(2), None));
    let column = Column::open(&BLOCKWISE).unwrap();
    assert_eq!(<[u64; 12]>::from(*column.raw().numbers), [2, 10, 10, 2, 3, 5, 1, 0, 0, 0, 0, 3]);
    assert_eq!(column.blocks(), [Block { slope: 1 << 31, intercept: 0, width: 2, start: 0 }]);
    assert_eq!((column.area(), column.width(), column.line()), (5..6, None, None));
    let values: Vec<u64> = (0..512).map(|i| 5 + 2 * i).collect();
    let bytes = encode_with(&values, &[Codec::Linear]).unwrap();
    let column = Column::open(&bytes).unwrap();
    assert_eq!(<[u64; 12]>::from(*column.raw().numbers), [1, 5, 2, 511, 512, bytes.len() as u64, 0, 2 << 32, 5, 0, 0, 512]);
    assert_eq!((column.width(), column.line()), (Some(0), Some(Line { slope: 2 << 32, intercept: 5 })));
    let numbers = std::array::from_fn(|i| i as u64);
    assert_eq!(<[u64; 12]>::from(Numbers::from(numbers)), numbers);
}

/// Eight rows of w bits are w bytes: the width that a column's count means is the one that the library packs at.
#[test]
fn widths_by_the_count() {
    let counts = (0..64).flat_map(|bits| [1 << bits, (1 << bits) - 1, u64::MAX >> bits]);
    for count in counts {
        let bytes = encode_with(&[0, 1, 0, 0, 0, 0, 0, count], &[Codec::Bitpacked]).unwrap();
        let column = Column::open(&bytes).unwrap();
        let (count, bits) = (column.count(), column.width().unwrap());
        assert_eq!(column.area().len(), bits as usize, "count {count}");
    }
}

#[test]
fn statistics_of_a_column() {
    for values in lists() {
        let column = Column::open(encode(&values).unwrap()).unwrap();
        assert_eq!(Ok(column.stats()), stats(&values));
    }
}

#[test]
fn bytes_of_every_sort() {
    let sound = [Ok(10), Ok(30), Ok(20)];
    let borrowed = Column::open(&BLOCKWISE[..]).unwrap();
    assert!(borrowed.iter().eq(sound));
    let owned: Column<u64, Vec<u8>> = Column::open(BLOCKWISE.to_vec()).unwrap();
    assert!(owned.iter().eq(sound));
    assert!(owned.borrowed().window(1..).unwrap().iter().eq(sound[1..].iter().copied()));
    let shared: Column<u64, std::sync::Arc<[u8]>> = Column::open(BLOCKWISE.as_slice().into()).unwrap();
    let other = std::thread::spawn({
        let shared = shared.clone();
        move || shared.to_vec()
    });
    assert_eq!(other.join().unwrap(), shared.to_vec());
    assert_eq!(owned.into_bytes(), BLOCKWISE);
}

#[test]
fn debugged_in_a_line() {
    let column = Column::open(&BLOCKWISE).unwrap().window(1..).unwrap();
    assert_eq!(format!("{column:?}"), "Column<u64> { Blockwise, rows 1..3 of 3, 17 bytes }");
    assert_eq!(format!("{:?}", column.iter()), "Iter<u64> { rows 0..2 }");
    assert!(format!("{:?}", column.raw()).ends_with(" window_rows: 2 }, 1 blocks, 17 bytes }"));
}

#[test]
fn lookups() {
    for bytes in [&BITPACKED[..], &BLOCKWISE] {
        let column = Column::open(bytes).unwrap();
        assert_eq!(column.find(0..=9, ..).unwrap(), []);
        assert_eq!(column.find(10..=25, 0..3).unwrap(), [0, 2]);
        assert_eq!(column.find(11..=19, 0..3).unwrap(), []);
        assert_eq!(column.find(10..=30, 1..9).unwrap(), [1, 2]);
        assert_eq!(column.find(10..=30, 3..9).unwrap(), []);
        #[allow(clippy::reversed_empty_ranges)]
        let empty = column.find(30..=10, 0..3).unwrap();
        assert_eq!(empty, []);
        let mut found = [77; 4];
        assert_eq!(column.raw().lookup(10, 25, 0..3, &mut found), Ok(2));
        assert_eq!(found, [0, 2, 77, 77]);
        let mut found = [77; 1];
        assert_eq!(column.raw().lookup(10, 25, 0..3, &mut found), refused(15, 2));
        assert_eq!(found, [77]);
    }
}

/// Every form of a range, by values and by rows.
#[test]
fn ranges_of_every_form() {
    use std::ops::Bound::{Excluded, Included, Unbounded};
    let column = Column::open(&BITPACKED).unwrap();
    assert_eq!(column.find(.., ..).unwrap(), [0, 1, 2]);
    assert_eq!(column.find(20.., ..).unwrap(), [1, 2]);
    assert_eq!(column.find(..20, ..).unwrap(), [0]);
    assert_eq!(column.find(..=20, ..).unwrap(), [0, 2]);
    assert_eq!(column.find((Excluded(10), Excluded(30)), ..).unwrap(), [2]);
    assert_eq!(column.find((Excluded(u64::MAX), Unbounded), ..).unwrap(), []);
    assert_eq!(column.find(..0, ..).unwrap(), []);
    assert_eq!(column.find(.., 1..).unwrap(), [1, 2]);
    assert_eq!(column.find(.., ..=1).unwrap(), [0, 1]);
    assert_eq!(column.find(.., (Excluded(0), Included(u32::MAX))).unwrap(), [1, 2]);
    assert_eq!(column.find(.., (Excluded(u32::MAX), Unbounded)).unwrap(), []);
    #[allow(clippy::reversed_empty_ranges)]
    let none = column.find(.., 2..1).unwrap();
    assert_eq!(none, []);
}

#[test]
fn a_row_tells_its_own_bits() {
    let mut bytes = BLOCKWISE;
    bytes[5] = 0x18;
    assert_eq!(rows(&Column::open(&bytes[..]).unwrap()), [Ok(10), Ok(30), Ok(30)]);
    bytes[5] = 0x0C;
    let column = Column::open(&bytes[..]).unwrap();
    assert_eq!(rows(&column), [Ok(10), refused(14, 1), Ok(20)]);
    assert_eq!(column.find(0..=0, 0..3), refused(14, 1));
    assert_eq!(column.find(0..=99, 2..3).unwrap(), [2]);
}

#[test]
fn round_trips() {
    for values in lists() {
        let each = Codec::ALL.iter().map(std::slice::from_ref);
        for codecs in each.chain([&Codec::ALL[..]]) {
            let bytes = match encode_with(&values, codecs) {
                Err(error) => {
                    assert_eq!((error, codecs), (Error::NoCodecApplies, &[Codec::Linear][..]));
                    assert!(values.len() < 512);
                    continue;
                }
                Ok(bytes) => bytes,
            };
            assert_eq!(encoded_len(&values, codecs), Ok(bytes.len()));
            assert!(bytes.len() <= max_encoded_len(values.len()));
            let column = Column::open(&bytes[..]).unwrap();
            assert!(codecs.contains(&column.codec()));
            assert_eq!(rows(&column), values.iter().map(|&v| Ok(v)).collect::<Vec<_>>());
            assert_eq!(column.to_vec().as_ref(), Ok(&values));
            let (low, high) = (values.first().copied().unwrap_or(0) / 2, values.last().copied().unwrap_or(0));
            let expected: Vec<u32> = (0..).zip(&values).filter(|(_, v)| (low..=high).contains(v)).map(|(i, _)| i).collect();
            assert_eq!(column.find(low..=high, ..).unwrap(), expected);
        }
    }
}

/// `reserve` of crates/format/specs/Lengths, of which it is proved that it is enough.
#[test]
fn the_most_bytes() {
    let proved = include_str!("../../../crates/format/specs/Lengths.antt");
    assert!(proved.contains("reserve rows = 45 + 8 * rows + 21 * max 1 (block_count rows)"));
    for rows in [0usize, 1, 511, 512, 513, 1024, 1025, 100_000, (1 << 32) - 1] {
        assert_eq!(max_encoded_len(rows), 45 + 8 * rows + 21 * rows.div_ceil(512).max(1));
    }
    assert_eq!(max_encoded_len(usize::MAX), usize::MAX);
}

#[test]
fn writing_refuses() {
    let mut out = [9; 20];
    assert_eq!(raw::serialize(Kind::U64, &[1, 2], &[0, 2, 3, 4], &mut out), refused(2, 2));
    assert_eq!(encode_into(&[1u64, 2], &[], &mut out), refused(3, 0));
    assert_eq!(encode_into(&[1u64; 511], &[Codec::Linear], &mut out), refused(3, 0));
    assert_eq!(encode_into(&[10u64, 30, 20], &Codec::ALL, &mut out[..5]), refused(4, 6));
    assert_eq!(encode_into(&[10u64, 30, 20], &Codec::ALL, &mut []), refused(4, 6));
    assert_eq!(out, [9; 20]);
    assert_eq!(encode_into(&[10u64, 30, 20], &Codec::ALL, &mut out), Ok(6));
    assert_eq!((&out[..6], &out[6..]), (&BITPACKED[..], &[9; 14][..]));
}

#[test]
fn opening_refuses() {
    let refusal = |bytes: &[u8]| Column::open(bytes).unwrap_err();
    let told = |number, value| Error::from_numbers(number, value).unwrap();
    assert_eq!(refusal(&[]), told(5, 0));
    assert_eq!(refusal(&[3]), told(5, 0));
    assert_eq!(refusal(&[0, 0x8A, 0x0A]), told(6, 2));
    assert_eq!(refusal(&[0, 0x8A, 0x80]), told(7, 0));
    assert_eq!(refusal(&[0, 0x80, 0x00, 0x00, 0x00, 0x00, 0x90, 0x00, 0x00, 0x00, 0x00, 0x90]), told(8, 0));
    assert_eq!(refusal(&[0, 0x8A, 0x8A, 0x82, 0x00, 0x00, 0x00, 0x00, 0x90, 0x18]), told(8, 0));
    assert_eq!(refusal(&[1, 0x80, 0x81, 0x80, 0x81, 0x80, 0x80, 57]), told(9, 7));
    assert_eq!(refusal(&BITPACKED[..5]), told(10, 0));
    assert_eq!(refusal(&BLOCKWISE[..5]), told(10, 0));
    assert_eq!(refusal(&[2, 0x87, 0x81, 0x80, 0x81, 0x80, 0x80, 0x02, 0, 0, 0]), told(6, 7));
    // So many rows in so few bytes: the table is not made real before the footer is found wanting.
    assert_eq!(refusal(&[2, 0x80, 0x81, 0x80, 0x7F, 0x7F, 0x7F, 0x7F, 0x8F, 0, 0, 0, 0]), told(6, 9));
}

#[test]
fn spellings_are_told() {
    assert_eq!(Column::open(&BITPACKED).unwrap().longer_spelling(), None);
    assert_eq!(Column::open(&BLOCKWISE).unwrap().longer_spelling(), None);
    assert_eq!(Column::open(&[0x00, 0x8A, 0x0A, 0x80, 0x82, 0x83, 0x18]).unwrap().longer_spelling(), Some(2));
    assert_eq!(Column::open(&[0x02, 0x87, 0x81, 0x80, 0x81, 0x80, 0x00, 0x80, 0x00, 4, 0, 0, 0]).unwrap().longer_spelling(), Some(6));
}

#[test]
fn sheets_are_kept_apart() {
    let under = |sheet, bytes: &[u8]| Column::open_under(sheet, bytes).map(|column| column.len());
    for sheet in [0, 3, u32::MAX] {
        assert_eq!(Sheet::try_from(sheet), refused(18, 0));
        assert_eq!(raw::open(sheet, &[], &mut []), refused(18, 0));
        assert_eq!(raw::open(sheet, &BITPACKED, &mut []), refused(18, 0));
    }
    for sheet in Sheet::ALL {
        assert_eq!(under(sheet, &[]), refused(5, 0));
        assert_eq!(under(sheet, &BITPACKED), Ok(3));
        assert_eq!(under(sheet, &BLOCKWISE), Ok(3));
    }
    // a byte behind the area, a filling bit, a longer spelling, the last two
    let offending: [(&[u8], u64); 4] = [
        (&[0x00, 0x8A, 0x8A, 0x82, 0x83, 0x18, 0x00], 6),
        (&[0x00, 0x8A, 0x8A, 0x82, 0x83, 0x58], 5),
        (&[0x00, 0x8A, 0x0A, 0x80, 0x82, 0x83, 0x18], 2),
        (&[0x00, 0x8A, 0x0A, 0x80, 0x82, 0x83, 0x58], 2),
    ];
    // a filling bit, a byte before the footer, a longer spelling in it and a byte behind its fields; without the first; the last alone
    let in_blocks: [(&[u8], u64); 3] = [
        (&[0x02, 0x8A, 0x8A, 0x82, 0x83, 0x48, 0, 0, 0, 0, 0, 0x88, 0x00, 0x80, 0x02, 0, 9, 0, 0, 0], 5),
        (&[0x02, 0x8A, 0x8A, 0x82, 0x83, 0x08, 0, 0, 0, 0, 0, 0x88, 0x00, 0x80, 0x02, 0, 9, 0, 0, 0], 6),
        (&[0x02, 0x8A, 0x8A, 0x82, 0x83, 0x08, 0, 0, 0, 0, 0x88, 0x80, 0x02, 0, 8, 0, 0, 0], 13),
    ];
    for (bytes, offset) in offending.into_iter().chain(in_blocks) {
        assert_eq!(under(Sheet::One, bytes), Ok(3));
        assert_eq!(under(Sheet::Two, bytes), refused(17, offset));
    }
    for values in lists() {
        for codec in Codec::ALL {
            if let Ok(bytes) = encode_with(&values, &[codec]) {
                let (strict, plain) = (Column::open_under(Sheet::Two, &bytes).unwrap(), Column::open(&bytes).unwrap());
                assert_eq!((strict.raw().numbers, strict.blocks()), (plain.raw().numbers, plain.blocks()));
            }
        }
    }
}

#[test]
fn parts_that_do_not_fit() {
    let column = Column::open(&BITPACKED).unwrap();
    assert_eq!(column.get(3), refused(12, 0));
    let sound = <[u64; 12]>::from(*column.raw().numbers);
    for (place, number) in
        [(0, 3), (1, u64::MAX - 19), (2, 0), (4, 1 << 32), (10, 1 << 32), (11, 1 << 32), (5, 6), (5, u64::MAX), (6, 2), (6, 0)]
    {
        let mut numbers = sound;
        numbers[place] = number;
        let numbers = Numbers::from(numbers);
        let view = raw::View { numbers: &numbers, table: &[], bytes: &BITPACKED };
        assert_eq!(view.row(0), refused(13, 0), "{place} {number}");
        assert_eq!(view.lookup(0, 99, 0..3, &mut [0; 3]), refused(13, 0));
        // Numbers that are no column are refused at once, others as they are read.
        let made = Column::from_raw(&BITPACKED, numbers, []);
        if [(0, 3), (4, 1 << 32), (10, 1 << 32), (11, 1 << 32)].contains(&(place, number)) {
            assert_eq!(made.unwrap_err(), Error::Unfit);
        } else {
            assert_eq!(made.unwrap().find(0..=99, 0..3), refused(13, 0));
        }
    }
    let column = Column::open(&BLOCKWISE).unwrap();
    assert_eq!(Column::from_raw(&BLOCKWISE, *column.raw().numbers, []).unwrap().get(0), refused(13, 0));
    let linear = [1, 0, 1, 9, 1, 0, 0, 0, 0, 256, 0, 1];
    assert_eq!(Column::from_raw([], linear.into(), []).unwrap_err(), Error::Unfit);
}

#[test]
fn damaged_columns_answer() {
    let mut numbers = Random(2);
    for values in lists().into_iter().filter(|values| values.len() < 600) {
        for codec in Codec::ALL {
            let Ok(sound) = encode_with(&values, &[codec]) else { continue };
            for _ in 0..60 {
                let mut bytes = sound.clone();
                for _ in 0..=numbers.below(2) {
                    let at = numbers.below(bytes.len().min(24));
                    let end = bytes.len() - 1;
                    match numbers.below(4) {
                        0 => bytes[at] = numbers.next() as u8,
                        1 => bytes[end - at] = numbers.next() as u8,
                        2 => bytes.insert(at, numbers.next() as u8),
                        _ => bytes.truncate(1 + numbers.below(end + 1)),
                    }
                }
                let Ok(column) = Column::open(&bytes) else { continue };
                let run = 0..column.len().min(2000);
                let answers: Vec<_> = run.clone().map(|row| column.get(row)).collect();
                for (row, answer) in run.clone().zip(&answers) {
                    assert!(answer.map_or_else(|error| error == Error::OutOfBounds { row }, |value| value <= column.maximum()));
                }
                assert!(column.iter().take(2000).eq(answers.iter().copied()));
                let found = column.find(.., run.clone());
                assert_eq!(found, answers.into_iter().zip(run).map(|(answer, row)| answer.map(|_| row)).collect());
            }
        }
    }
}

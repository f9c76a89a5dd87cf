//! Code written for tantivy-columnar, with another `use`; and what becomes of refusals where that crate's signatures have no error.

use hulemartob::compat as tantivy_columnar;

use std::io;
use std::panic::{AssertUnwindSafe, catch_unwind};
use std::sync::Arc;

use hulemartob::{Codec, Error};
use tantivy_columnar::column_values::{
    ALL_U64_CODEC_TYPES, CodecType, load_u64_based_column_values, serialize_and_load_u64_based_column_values,
    serialize_u64_based_column_values,
};
use tantivy_columnar::{ColumnValues, DateTime, MonotonicallyMappableToU64, OwnedBytes, RowId};

/// 10, 30, 20 with a byte changed: row 1 lies above the maximum.
const DAMAGED: [u8; 6] = [0x00, 0x8A, 0x8A, 0x82, 0x83, 0x0C];

fn values() -> Vec<u64> {
    (1..=1700u64).map(|i| i.wrapping_mul(0x9E37_79B9_7F4A_7C15).rotate_left(23) % 1000).collect()
}

/// What a bench does with a column.
fn column_of(values: &[u64], codec: CodecType) -> Arc<dyn ColumnValues<u64>> {
    let mut buffer = Vec::new();
    serialize_u64_based_column_values(&values, &[codec], &mut buffer).unwrap();
    load_u64_based_column_values(OwnedBytes::new(buffer)).unwrap()
}

#[test]
fn as_a_bench_uses_it() {
    let values = values();
    let (least, greatest) = (*values.iter().min().unwrap(), *values.iter().max().unwrap());
    for codec in ALL_U64_CODEC_TYPES {
        let column = column_of(&values, codec);
        assert_eq!((column.num_vals(), column.min_value(), column.max_value()), (1700, least, greatest));
        assert!((0..).zip(&values).all(|(row, &value)| column.get_val(row) == value));
        assert!(column.iter().eq(values.iter().copied()));
        let mut some = [0; 3];
        column.get_vals(&[1699, 0, 512], &mut some);
        assert_eq!(some, [values[1699], values[0], values[512]]);
        let mut some = [None; 3];
        column.get_vals_opt(&[1699, 0, 512], &mut some);
        assert_eq!(some, [Some(values[1699]), Some(values[0]), Some(values[512])]);
        for (start, end) in [(0, 1700), (511, 513), (100, 1500), (1700, 1700)] {
            let mut output = vec![0; end - start];
            column.get_range(start as u64, &mut output);
            assert_eq!(output, values[start..end]);
            let mut hits = vec![u32::MAX];
            column.get_row_ids_for_value_range(100..=300, start as u32..end as u32, &mut hits);
            let rows = (start as u32..end as u32).filter(|&row| (100..=300).contains(&values[row as usize]));
            assert!(hits.into_iter().eq([u32::MAX].into_iter().chain(rows)));
        }
        let mut hits = Vec::new();
        column.get_row_ids_for_value_range(0..=999, 1690..9999, &mut hits);
        assert!(hits.into_iter().eq(1690..1700));
    }
}

fn comes_back<T: MonotonicallyMappableToU64>(values: &[T]) {
    let mut buffer = Vec::new();
    serialize_u64_based_column_values(&values, &ALL_U64_CODEC_TYPES, &mut buffer).unwrap();
    let column: Arc<dyn ColumnValues<T>> = load_u64_based_column_values(buffer).unwrap();
    let stored = |values: &mut dyn Iterator<Item = T>| values.map(T::to_u64).collect::<Vec<u64>>();
    let all = stored(&mut values.iter().copied());
    assert_eq!(stored(&mut column.iter()), all);
    let mut output = vec![values[0]; values.len()];
    column.get_range(0, &mut output);
    assert_eq!(stored(&mut output.into_iter()), all);
    let (low, high) = (values[0], values[values.len() - 1]);
    let mut hits = Vec::new();
    column.get_row_ids_for_value_range(low..=high, 0..column.num_vals(), &mut hits);
    let between = low.to_u64()..=high.to_u64();
    assert_eq!(hits, (0..).zip(all).filter(|(_, value)| between.contains(value)).map(|(row, _)| row).collect::<Vec<u32>>());
}

#[test]
fn every_type() {
    comes_back(&values());
    comes_back(&values().into_iter().map(|v| v as i64 - 500).collect::<Vec<_>>());
    comes_back(&values().into_iter().map(|v| DateTime::from_timestamp_nanos(v as i64 - 500)).collect::<Vec<_>>());
    comes_back(&values().into_iter().map(|v| v as RowId).collect::<Vec<_>>());
    comes_back(&values().into_iter().map(|v| v as f64 / 8.0 - 50.0).collect::<Vec<_>>());
    comes_back(&[false, true, true, false, true]);
}

/// A column is `Iterable` where the crate's is, a range is, and an `Arc` of a column is one.
#[test]
fn lists_of_every_sort() {
    let column = serialize_and_load_u64_based_column_values::<u64>(&(0..600u64), &[CodecType::Linear]);
    assert!(column.iter().eq(0..600));
    let rows = serialize_and_load_u64_based_column_values::<RowId>(&(0..600u64), &ALL_U64_CODEC_TYPES);
    let again = serialize_and_load_u64_based_column_values::<u64>(&rows, &ALL_U64_CODEC_TYPES);
    assert!(again.iter().eq(0..600));
    fn last<C: ColumnValues<u64>>(column: &C) -> u64 {
        let mut two = [0; 2];
        column.get_range(598, &mut two);
        assert_eq!((column.get_val(599), column.num_vals(), column.min_value()), (two[1], 600, 0));
        column.max_value()
    }
    assert_eq!(last(&again), 599);
}

#[test]
fn codecs_by_the_crates_names() {
    for (codec, theirs) in Codec::ALL.into_iter().zip(ALL_U64_CODEC_TYPES) {
        assert_eq!((CodecType::from(codec), Codec::from(theirs), theirs as u8), (theirs, codec, codec.into()));
    }
}

/// The sentence of a panic.
fn panicked<T>(call: impl FnOnce() -> T) -> String {
    let panic = catch_unwind(AssertUnwindSafe(call)).map(drop).unwrap_err();
    panic.downcast_ref::<String>().expect("a sentence").clone()
}

#[test]
fn reading_panics_with_the_sentence() {
    let column: Arc<dyn ColumnValues<u64>> = load_u64_based_column_values(DAMAGED).unwrap();
    let damaged = Error::OutOfBounds { row: 1 }.to_string();
    assert_eq!(damaged, "the value of row 1 lies outside the column's bounds (refusal 14)");
    assert_eq!(column.get_val(0), 10);
    assert_eq!(panicked(|| column.get_val(1)), damaged);
    assert_eq!(panicked(|| column.get_range(0, &mut [0; 3])), damaged);
    assert_eq!(panicked(|| column.get_row_ids_for_value_range(0..=0, 0..3, &mut Vec::new())), damaged);
    assert_eq!(panicked(|| column.iter().sum::<u64>()), damaged);
    let behind = Error::NoSuchRow.to_string();
    assert_eq!(panicked(|| column.get_val(3)), behind);
    assert_eq!(panicked(|| column.get_range(2, &mut [0; 2])), behind);
    assert_eq!(panicked(|| column.get_range(1 << 32, &mut [0; 1])), behind);
    assert_eq!(panicked(|| column.get_range(u64::MAX, &mut [0; 1])), behind);
    let signed: Arc<dyn ColumnValues<i64>> = load_u64_based_column_values(DAMAGED).unwrap();
    assert_eq!(panicked(|| signed.get_range(0, &mut [0; 3])), damaged);
    let none = panicked(|| serialize_and_load_u64_based_column_values::<u64>(&&[7u64][..], &[CodecType::Linear]));
    assert_eq!(none, Error::NoCodecApplies.to_string());
}

#[test]
fn loading_and_writing_return_errors() {
    let refused = |result: io::Result<()>, error: Error| {
        let failed = result.unwrap_err();
        assert_eq!((failed.kind(), failed.to_string()), (io::ErrorKind::InvalidData, error.to_string()));
        assert_eq!(failed.get_ref().and_then(|inner| inner.downcast_ref()), Some(&error));
    };
    refused(load_u64_based_column_values::<u64>([]).map(drop), Error::NotAColumn);
    refused(load_u64_based_column_values::<u64>(OwnedBytes::new(vec![0, 0x8A, 0x0A])).map(drop), Error::BadField { offset: 2 });
    refused(serialize_u64_based_column_values(&&[7u64][..], &[CodecType::Linear], &mut Vec::new()), Error::NoCodecApplies);
    struct Full;
    impl io::Write for Full {
        fn write(&mut self, _: &[u8]) -> io::Result<usize> {
            Err(io::ErrorKind::StorageFull.into())
        }
        fn flush(&mut self) -> io::Result<()> {
            Ok(())
        }
    }
    let full = serialize_u64_based_column_values(&&[7u64][..], &ALL_U64_CODEC_TYPES, &mut Full);
    assert_eq!(full.unwrap_err().kind(), io::ErrorKind::StorageFull);
}

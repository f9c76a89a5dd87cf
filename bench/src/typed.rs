//! The cases of signed numbers, bools and floats. (Dates are signed numbers on both sides.)

use std::hint::black_box;
use std::sync::Arc;

use columnar::column_values::{load_u64_based_column_values, serialize_u64_based_column_values};
use columnar::{ColumnValues, MonotonicallyMappableToU64, OwnedBytes};
use hulemartob::{Codec, Column, Value, encode_into, encode_with, max_encoded_len};

use crate::cases::{Case, sum, their};
use crate::inputs;

fn writing<T: Value + MonotonicallyMappableToU64>(name: String, values: Arc<Vec<T>>, codec: Codec) -> Case {
    let rows = values.len();
    let (mut out, mut vec) = (vec![0; max_encoded_len(rows)], Vec::with_capacity(max_encoded_len(rows)));
    let theirs = values.clone();
    Case {
        name,
        rows,
        ours: Box::new(move || encode_into(black_box(&values[..]), &[codec], &mut out).unwrap() as u64),
        theirs: Box::new(move || {
            vec.clear();
            serialize_u64_based_column_values(&black_box(&theirs[..]), &[their(codec)], &mut vec).unwrap();
            vec.len() as u64
        }),
    }
}

/// Single rows, all rows, and the rows with the lower half of the values, of a Bitpacked column.
fn reading<T: Value + MonotonicallyMappableToU64>(name: &str, values: &[T], half: T) -> [Case; 3] {
    let rows = values.len();
    let bytes: &'static [u8] = encode_with(values, &[Codec::Bitpacked]).unwrap().leak();
    let column = Arc::new(Column::open(bytes).unwrap().typed::<T>());
    let theirs: Arc<dyn ColumnValues<T>> = load_u64_based_column_values(OwnedBytes::new(bytes.to_vec())).unwrap();
    let list = Arc::new(inputs::some_rows(rows, rows));
    let again = list.clone();
    let (single, get_val) = (column.clone(), theirs.clone());
    let (run, get_range) = (column.clone(), theirs.clone());
    let (mut here, mut there) = (vec![half; rows], vec![half; rows]);
    let low = column.minimum();
    let (mut found, mut hits) = (vec![0; rows], Vec::with_capacity(rows));
    [
        Case {
            name: format!("{name}: single rows"),
            rows,
            ours: Box::new(move || sum(list.iter().map(|&row| single.get(black_box(row)).unwrap().to_u64()))),
            theirs: Box::new(move || sum(again.iter().map(|&row| get_val.get_val(black_box(row)).to_u64()))),
        },
        Case {
            name: format!("{name}: run of all rows"),
            rows,
            ours: Box::new(move || {
                run.read_into(0, &mut here).unwrap();
                sum(here.iter().map(|value| value.to_u64()))
            }),
            theirs: Box::new(move || {
                get_range.get_range(0, &mut there);
                sum(there.iter().map(|value| value.to_u64()))
            }),
        },
        Case {
            name: format!("{name}: lookup"),
            rows,
            ours: Box::new(move || {
                let (low, high) = black_box((low.to_stored(), half.to_stored()));
                column.raw().lookup(low, high, 0..rows as u32, &mut found).unwrap() as u64
            }),
            theirs: Box::new(move || {
                hits.clear();
                theirs.get_row_ids_for_value_range(black_box(low..=half), 0..rows as u32, &mut hits);
                hits.len() as u64
            }),
        },
    ]
}

fn of_a_type<T: Value + MonotonicallyMappableToU64>(name: &str, rows: usize, half: T, value: impl Fn(u64) -> T) -> Vec<Case> {
    let values = |codec| inputs::values(codec, 13, rows).into_iter().map(&value).collect::<Vec<T>>();
    let mut cases: Vec<Case> =
        Codec::ALL.iter().map(|&codec| writing(format!("{codec} 13: writing {name}"), Arc::new(values(codec)), codec)).collect();
    cases.extend(reading(name, &values(Codec::Bitpacked), half));
    cases
}

/// All of them, on columns of so many rows.
pub fn all(rows: usize) -> impl Iterator<Item = Case> {
    let signed = of_a_type("signed numbers", rows, 0, |word| word as i64 - 4096);
    let bools = of_a_type("bools", rows, false, |word| word % 2 == 1);
    let floats = of_a_type("floats", rows, 1000.0, |word| word as f64 / 4.0);
    signed.into_iter().chain(bools).chain(floats)
}

//! The cases: one work done by both sides, whose answers must agree.

use std::hint::black_box;
use std::ops::RangeInclusive;
use std::sync::Arc;

use columnar::column_values::{load_u64_based_column_values, serialize_u64_based_column_values};
use columnar::{CodecType, ColumnValues, OwnedBytes};
use hulemartob::{Codec, Column, encode_into, encode_with, max_encoded_len, stats};

use crate::{inputs, typed};

type Work = Box<dyn FnMut() -> u64>;

/// A work on so many rows. Each side answers with a number that says what it found.
pub struct Case {
    pub name: String,
    pub rows: usize,
    pub ours: Work,
    pub theirs: Work,
}

/// A codec as the Rust names it.
pub fn their(codec: Codec) -> CodecType {
    [CodecType::Bitpacked, CodecType::Linear, CodecType::BlockwiseLinear][codec as usize]
}

pub fn sum(values: impl Iterator<Item = u64>) -> u64 {
    values.fold(0, |sum, value| sum.wrapping_add(value))
}

/// A column that both sides have opened.
struct Both {
    bytes: &'static [u8],
    ours: Arc<Column>,
    theirs: Arc<dyn ColumnValues<u64>>,
}

impl Both {
    fn open(values: &[u64], codec: Codec) -> Both {
        let bytes: &'static [u8] = encode_with(values, &[codec]).unwrap().leak();
        let theirs = load_u64_based_column_values(OwnedBytes::new(bytes.to_vec())).unwrap();
        Both { bytes, ours: Arc::new(Column::open(bytes).unwrap()), theirs }
    }
}

fn writing(name: String, values: Vec<u64>, codecs: &'static [Codec]) -> Case {
    let rows = values.len();
    let values = Arc::new(values);
    let (mut out, mut vec) = (vec![0; max_encoded_len(rows)], Vec::with_capacity(max_encoded_len(rows)));
    let types: Vec<CodecType> = codecs.iter().map(|&codec| their(codec)).collect();
    let theirs = values.clone();
    Case {
        name,
        rows,
        ours: Box::new(move || encode_into(black_box(&values[..]), codecs, &mut out).unwrap() as u64),
        theirs: Box::new(move || {
            vec.clear();
            serialize_u64_based_column_values(&black_box(&theirs[..]), &types, &mut vec).unwrap();
            vec.len() as u64
        }),
    }
}

fn statistics(name: String, values: Vec<u64>) -> Case {
    let rows = values.len();
    let values = Arc::new(values);
    let theirs = values.clone();
    Case {
        name,
        rows,
        ours: Box::new(move || stats(black_box(&values[..])).map(|s| s.minimum ^ s.maximum ^ s.gcd).unwrap()),
        theirs: Box::new(move || {
            let stats = columnar::stats(black_box(&theirs));
            stats.min_value ^ stats.max_value ^ stats.gcd.get()
        }),
    }
}

fn opening(name: String, both: Both, rows: usize) -> Case {
    let owned = OwnedBytes::new(both.bytes.to_vec());
    Case {
        name,
        rows,
        ours: Box::new(move || Column::open(black_box(both.bytes)).unwrap().maximum()),
        theirs: Box::new(move || load_u64_based_column_values::<u64>(black_box(&owned).clone()).unwrap().max_value()),
    }
}

/// Rows in no order, a call for each.
fn single_rows(name: String, both: &Both, rows: usize) -> Case {
    let list = Arc::new(inputs::some_rows(rows, rows));
    let (ours, theirs, again) = (both.ours.clone(), both.theirs.clone(), list.clone());
    Case {
        name,
        rows,
        ours: Box::new(move || sum(list.iter().map(|&row| ours.get(black_box(row)).unwrap()))),
        theirs: Box::new(move || sum(again.iter().map(|&row| theirs.get_val(black_box(row))))),
    }
}

/// All rows in turn, a call for each here, one call for all of them there.
fn all_rows(name: String, both: &Both, rows: usize) -> Case {
    let (ours, theirs) = (both.ours.clone(), both.theirs.clone());
    let (mut here, mut there) = (vec![0; rows], vec![0; rows]);
    Case {
        name,
        rows,
        ours: Box::new(move || {
            for (row, value) in (0..).zip(&mut here) {
                *value = ours.get(row).unwrap();
            }
            sum(here.iter().copied())
        }),
        theirs: Box::new(move || {
            theirs.get_range(0, &mut there);
            sum(there.iter().copied())
        }),
    }
}

/// All rows in runs of so many.
fn runs(name: String, both: &Both, rows: usize, size: usize) -> Case {
    let (ours, theirs) = (both.ours.clone(), both.theirs.clone());
    let (mut here, mut there) = (vec![0; rows], vec![0; rows]);
    Case {
        name,
        rows,
        ours: Box::new(move || {
            for (first, part) in (0..).step_by(size).zip(here.chunks_mut(size)) {
                ours.read_into(black_box(first), part).unwrap();
            }
            sum(here.iter().copied())
        }),
        theirs: Box::new(move || {
            for (first, part) in (0..).step_by(size).zip(there.chunks_mut(size)) {
                theirs.get_range(black_box(first), part);
            }
            sum(there.iter().copied())
        }),
    }
}

/// The lower half of the values that the head allows.
fn lower_half(both: &Both) -> RangeInclusive<u64> {
    let low = both.ours.minimum();
    low..=low + (both.ours.maximum() - low) / 2
}

/// Ranges of values that many rows lie in: all, one in a hundred, and, if two neighbours leave a gap, none.
fn ranges(values: &[u64]) -> Vec<(&'static str, RangeInclusive<u64>)> {
    let mut sorted = values.to_vec();
    sorted.sort_unstable();
    let last = sorted[sorted.len() - 1];
    let gap = sorted.windows(2).find(|pair| 1 < pair[1] - pair[0]).map(|pair| ("none", pair[0] + 1..=pair[1] - 1));
    [("all", sorted[0]..=last), ("1 %", sorted[0]..=sorted[sorted.len() / 100])].into_iter().chain(gap).collect()
}

/// The rows with values of a range.
fn looking_up(name: String, both: &Both, rows: usize, range: RangeInclusive<u64>) -> Case {
    let (ours, theirs) = (both.ours.clone(), both.theirs.clone());
    let (mut found, mut hits, again) = (vec![0; rows], Vec::with_capacity(rows), range.clone());
    Case {
        name,
        rows,
        ours: Box::new(move || {
            let (low, high) = black_box(range.clone()).into_inner();
            ours.raw().lookup(low, high, 0..rows as u32, &mut found).unwrap() as u64
        }),
        theirs: Box::new(move || {
            hits.clear();
            theirs.get_row_ids_for_value_range(black_box(again.clone()), 0..rows as u32, &mut hits);
            hits.len() as u64
        }),
    }
}

/// All cases, on columns of so many rows.
pub fn all(rows: usize) -> Vec<Case> {
    let mut cases = vec![
        statistics("statistics, gcd 1".into(), inputs::values(Codec::Bitpacked, 32, rows)),
        statistics("statistics, gcd 10^9".into(), inputs::times(rows)),
    ];
    for (name, codecs) in Codec::ALL.iter().zip(Codec::ALL.each_ref().map(std::slice::from_ref)) {
        let codec = codecs[0];
        for bits in [4, 13, 20, 32, 64].into_iter().filter(|&bits| codec == Codec::Bitpacked || bits < 64) {
            let values = inputs::values(codec, bits, rows);
            let both = Both::open(&values, codec);
            cases.push(single_rows(format!("{name} {bits}: single rows"), &both, rows));
            cases.push(all_rows(format!("{name} {bits}: all rows, there by get_range"), &both, rows));
            cases.push(looking_up(format!("{name} {bits}: lookup"), &both, rows, lower_half(&both)));
            if [4, 13, 32].contains(&bits) {
                cases.push(runs(format!("{name} {bits}: runs of 512"), &both, rows, 512));
                cases.push(runs(format!("{name} {bits}: run of all rows"), &both, rows, rows));
                for (many, range) in ranges(&values) {
                    cases.push(looking_up(format!("{name} {bits}: lookup, {many} found"), &both, rows, range));
                }
            }
            cases.push(writing(format!("{name} {bits}: writing"), values, codecs));
            cases.push(opening(format!("{name} {bits}: opening"), both, rows));
        }
    }
    cases.push(writing("any codec: writing times".into(), inputs::times(rows), &Codec::ALL));
    cases.push(writing("any codec: writing noise".into(), inputs::values(Codec::Bitpacked, 32, rows), &Codec::ALL));
    cases.extend(typed::all(rows));
    cases
}

/// Writing with a choice of all codecs, and reading every row back.
pub fn growing(rows: usize) -> [Case; 2] {
    let values = inputs::times(rows);
    let both = Both::open(&values, Codec::Blockwise);
    [all_rows("reading".into(), &both, rows), writing("writing".into(), values, &Codec::ALL)]
}

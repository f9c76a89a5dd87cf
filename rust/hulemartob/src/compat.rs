//! The names of tantivy-columnar 0.27.0 over this library, so that code written for that crate's `column_values` runs here with another `use`:
//!
//! ```
//! use hulemartob::compat as tantivy_columnar;
//!
//! use tantivy_columnar::column_values::{CodecType, load_u64_based_column_values, serialize_u64_based_column_values};
//! use tantivy_columnar::{ColumnValues, OwnedBytes};
//!
//! let mut buffer = Vec::new();
//! serialize_u64_based_column_values(&&[10u64, 30, 20][..], &[CodecType::Bitpacked, CodecType::BlockwiseLinear], &mut buffer)?;
//! let column = load_u64_based_column_values::<u64>(OwnedBytes::new(buffer))?;
//! assert_eq!(column.get_val(1), 30);
//! let mut hits = Vec::new();
//! column.get_row_ids_for_value_range(10..=25, 0..column.num_vals(), &mut hits);
//! assert_eq!(hits, [0, 2]);
//! # Ok::<(), std::io::Error>(())
//! ```
//!
//! Names and signatures are that crate's, except that [`load_u64_based_column_values`] takes any bytes, and that columns cannot be downcast. Answers are this
//! library's, also where that crate answers otherwise (docs/DIFFERENCES.md).
//!
//! # Refusals
//!
//! That crate's loading and writing return [`io::Result`]: a refusal is an error of kind [`InvalidData`](io::ErrorKind::InvalidData) there, whose source is the
//! [`Error`]. Its reading returns bare values. Where reading is refused, because a row is not there or a damaged column has a row outside its bounds, the call
//! **panics** with the sentence of the [`Error`].
//!
//! ```should_panic
//! use hulemartob::compat::{ColumnValues, column_values::load_u64_based_column_values};
//!
//! let damaged = vec![0x00, 0x8A, 0x8A, 0x82, 0x83, 0x0C];
//! let column = load_u64_based_column_values::<u64>(damaged).unwrap();
//! column.get_val(1); // the value of row 1 lies outside the column's bounds (refusal 14)
//! ```

use std::fmt::Debug;
use std::io::{self, Write};
use std::marker::PhantomData;
use std::ops::{Deref, Range, RangeInclusive};
use std::sync::Arc;

use crate::column::{chunks, find_stored, read_run};
use crate::raw::View;
use crate::value::sealed::Stored;
use crate::write::BLOCK;
use crate::{Codec, Column, Date, Error, Kind, Value};

/// The names at their place in the crate.
pub mod column_values {
    pub use super::{
        ALL_U64_CODEC_TYPES, CodecType, ColumnValues, MonotonicallyMappableToU64, load_u64_based_column_values,
        serialize_and_load_u64_based_column_values, serialize_u64_based_column_values,
    };
}

/// A row's number.
pub type RowId = u32;

/// A date, by its nanoseconds.
pub type DateTime = Date;

/// How a column's rows are coded: [`Codec`], by the crate's names.
#[derive(Clone, Copy, Debug, PartialEq, Eq, PartialOrd, Ord)]
#[repr(u8)]
pub enum CodecType {
    /// [`Codec::Bitpacked`].
    Bitpacked = 0,
    /// [`Codec::Linear`].
    Linear = 1,
    /// [`Codec::Blockwise`].
    BlockwiseLinear = 2,
}

/// All codecs.
pub const ALL_U64_CODEC_TYPES: [CodecType; 3] = [CodecType::Bitpacked, CodecType::Linear, CodecType::BlockwiseLinear];

impl From<CodecType> for Codec {
    fn from(codec: CodecType) -> Codec {
        Codec::ALL[codec as usize]
    }
}

impl From<Codec> for CodecType {
    fn from(codec: Codec) -> CodecType {
        ALL_U64_CODEC_TYPES[codec as usize]
    }
}

/// Bytes that are shared.
#[derive(Clone)]
pub struct OwnedBytes(Arc<dyn AsRef<[u8]> + Send + Sync>);

impl OwnedBytes {
    /// Takes bytes.
    pub fn new(bytes: impl AsRef<[u8]> + Send + Sync + 'static) -> OwnedBytes {
        OwnedBytes(Arc::new(bytes))
    }
}

impl AsRef<[u8]> for OwnedBytes {
    fn as_ref(&self) -> &[u8] {
        (*self.0).as_ref()
    }
}

impl Deref for OwnedBytes {
    type Target = [u8];

    fn deref(&self) -> &[u8] {
        self.as_ref()
    }
}

impl Debug for OwnedBytes {
    fn fmt(&self, f: &mut std::fmt::Formatter<'_>) -> std::fmt::Result {
        write!(f, "OwnedBytes({} bytes)", self.len())
    }
}

/// A list that can be gone over more than once.
pub trait Iterable<T = u64> {
    /// Its values in turn.
    fn boxed_iter(&self) -> Box<dyn Iterator<Item = T> + '_>;
}

impl<T: Copy> Iterable<T> for &[T] {
    fn boxed_iter(&self) -> Box<dyn Iterator<Item = T> + '_> {
        Box::new(self.iter().copied())
    }
}

impl<T: Copy> Iterable<T> for Range<T>
where
    Range<T>: Iterator<Item = T>,
{
    fn boxed_iter(&self) -> Box<dyn Iterator<Item = T> + '_> {
        Box::new(self.clone())
    }
}

impl Iterable for Arc<dyn ColumnValues<RowId>> {
    fn boxed_iter(&self) -> Box<dyn Iterator<Item = u64> + '_> {
        Box::new(self.iter().map(u64::from))
    }
}

/// Values that are stored as numbers in the same order.
pub trait MonotonicallyMappableToU64: 'static + PartialOrd + Debug + Copy + Send + Sync {
    /// Whether values are stored as they are.
    const IS_IDENTITY: bool = false;

    /// The number that a value is stored as.
    fn to_u64(self) -> u64;

    /// What a stored number reads as.
    fn from_u64(val: u64) -> Self;

    /// Reads the rows of a chunk, from `first` on, as many as there are outputs.
    #[doc(hidden)]
    fn read_chunk(column: View<'_>, first: u32, output: &mut [Self]) -> Result<(), Error> {
        let mut stored = [0; BLOCK as usize];
        let stored = &mut stored[..output.len()];
        column.run(first, stored)?;
        output.iter_mut().zip(stored).for_each(|(value, &mut stored)| *value = Self::from_u64(stored));
        Ok(())
    }

    /// The stored numbers of the values from `low` to `high`.
    #[doc(hidden)]
    fn stored_between(low: Self, high: Self) -> [u64; 2] {
        [low.to_u64(), high.to_u64()]
    }
}

/// The types of [`Value`], by their own calls.
macro_rules! mapped {
    ($($of:ty),*) => {$(
        impl MonotonicallyMappableToU64 for $of {
            const IS_IDENTITY: bool = matches!(<$of>::KIND, Kind::U64);

            #[inline]
            fn to_u64(self) -> u64 {
                self.to_stored()
            }

            #[inline]
            fn from_u64(val: u64) -> $of {
                <$of>::from_stored(val)
            }

            fn read_chunk(column: View<'_>, first: u32, output: &mut [$of]) -> Result<(), Error> {
                read_run(column, first, output)
            }

            fn stored_between(low: $of, high: $of) -> [u64; 2] {
                <$of as Stored>::stored_between(low, high)
            }
        }
    )*};
}

mapped!(u64, i64, Date, bool, f64);

/// Row numbers are stored as they are. A stored number of more than 32 bits is cut to them, as in the crate.
impl MonotonicallyMappableToU64 for RowId {
    #[inline]
    fn to_u64(self) -> u64 {
        u64::from(self)
    }

    #[inline]
    fn from_u64(val: u64) -> RowId {
        val as RowId
    }
}

/// A column of values.
///
/// The calls of a loaded column panic where the library refuses: see the [module](self).
pub trait ColumnValues<T: PartialOrd = u64>: Send + Sync {
    /// The value of a row.
    fn get_val(&self, idx: u32) -> T;

    /// The values of some rows, as many as there are outputs.
    fn get_vals(&self, indexes: &[u32], output: &mut [T]) {
        assert!(indexes.len() == output.len());
        indexes.iter().zip(output).for_each(|(&row, value)| *value = self.get_val(row));
    }

    /// The same into options, none of which is then empty.
    fn get_vals_opt(&self, indexes: &[u32], output: &mut [Option<T>]) {
        assert!(indexes.len() == output.len());
        indexes.iter().zip(output).for_each(|(&row, value)| *value = Some(self.get_val(row)));
    }

    /// The values of the rows from `start` on, as many as there are outputs.
    fn get_range(&self, start: u64, output: &mut [T]) {
        (start..).zip(output).for_each(|(row, value)| *value = self.get_val(row as u32));
    }

    /// Puts the rows of a range, its end cut to the column's rows, whose value lies in a range behind those that `row_id_hits` has.
    fn get_row_ids_for_value_range(&self, value_range: RangeInclusive<T>, row_id_range: Range<RowId>, row_id_hits: &mut Vec<RowId>) {
        let rows = row_id_range.start..row_id_range.end.min(self.num_vals());
        row_id_hits.extend(rows.filter(|&row| value_range.contains(&self.get_val(row))));
    }

    /// A bound below all values.
    fn min_value(&self) -> T;

    /// A bound above all values.
    fn max_value(&self) -> T;

    /// How many rows there are.
    fn num_vals(&self) -> u32;

    /// All values in turn.
    fn iter<'a>(&'a self) -> Box<dyn Iterator<Item = T> + 'a> {
        Box::new((0..self.num_vals()).map(|row| self.get_val(row)))
    }
}

impl<T: Copy + PartialOrd + Debug + 'static> ColumnValues<T> for Arc<dyn ColumnValues<T>> {
    fn get_val(&self, idx: u32) -> T {
        self.as_ref().get_val(idx)
    }

    fn get_vals(&self, indexes: &[u32], output: &mut [T]) {
        self.as_ref().get_vals(indexes, output);
    }

    fn get_vals_opt(&self, indexes: &[u32], output: &mut [Option<T>]) {
        self.as_ref().get_vals_opt(indexes, output);
    }

    fn get_range(&self, start: u64, output: &mut [T]) {
        self.as_ref().get_range(start, output);
    }

    fn get_row_ids_for_value_range(&self, value_range: RangeInclusive<T>, row_id_range: Range<RowId>, row_id_hits: &mut Vec<RowId>) {
        self.as_ref().get_row_ids_for_value_range(value_range, row_id_range, row_id_hits);
    }

    fn min_value(&self) -> T {
        self.as_ref().min_value()
    }

    fn max_value(&self) -> T {
        self.as_ref().max_value()
    }

    fn num_vals(&self) -> u32 {
        self.as_ref().num_vals()
    }

    fn iter<'a>(&'a self) -> Box<dyn Iterator<Item = T> + 'a> {
        self.as_ref().iter()
    }
}

/// A column that was loaded, read as values of a type.
struct Loaded<T, B>(Column<u64, B>, PhantomData<fn() -> T>);

/// A panic with the sentence of the refusal.
#[cold]
#[track_caller]
fn refused(error: Error) -> ! {
    panic!("{error}")
}

impl<T: MonotonicallyMappableToU64, B: AsRef<[u8]> + Send + Sync> ColumnValues<T> for Loaded<T, B> {
    #[inline]
    fn get_val(&self, idx: u32) -> T {
        T::from_u64(self.0.get(idx).unwrap_or_else(|error| refused(error)))
    }

    fn get_range(&self, start: u64, output: &mut [T]) {
        let first = u32::try_from(start).unwrap_or_else(|_| refused(Error::NoSuchRow));
        let end = u32::try_from(start + output.len() as u64).unwrap_or_else(|_| refused(Error::NoSuchRow));
        for rows in chunks(self.0.raw().numbers, first..end) {
            let output = &mut output[(rows.start - first) as usize..(rows.end - first) as usize];
            T::read_chunk(self.0.raw(), rows.start, output).unwrap_or_else(|error| refused(error));
        }
    }

    fn get_row_ids_for_value_range(&self, value_range: RangeInclusive<T>, row_id_range: Range<RowId>, row_id_hits: &mut Vec<RowId>) {
        let stored = T::stored_between(*value_range.start(), *value_range.end());
        find_stored(self.0.raw(), stored, row_id_range, row_id_hits).unwrap_or_else(|error| refused(error));
    }

    fn min_value(&self) -> T {
        T::from_u64(self.0.minimum())
    }

    fn max_value(&self) -> T {
        T::from_u64(self.0.maximum())
    }

    fn num_vals(&self) -> u32 {
        self.0.len()
    }

    fn iter<'a>(&'a self) -> Box<dyn Iterator<Item = T> + 'a> {
        Box::new(self.0.iter().map(|value| T::from_u64(value.unwrap_or_else(|error| refused(error)))))
    }
}

/// Writes values as a column, by that of the listed codecs whose size is least.
///
/// # Errors
///
/// The refusals of [`encode_with`](crate::encode_with), and what writing to `wrt` fails by.
pub fn serialize_u64_based_column_values<T: MonotonicallyMappableToU64>(
    vals: &dyn Iterable<T>,
    codec_types: &[CodecType],
    wrt: &mut dyn Write,
) -> io::Result<()> {
    let stored: Vec<u64> = vals.boxed_iter().map(T::to_u64).collect();
    let codecs: Vec<Codec> = codec_types.iter().map(|&codec| codec.into()).collect();
    wrt.write_all(&crate::encode_with(&stored, &codecs)?)
}

/// Opens a column.
///
/// # Errors
///
/// The refusals of [`Column::open`].
pub fn load_u64_based_column_values<T: MonotonicallyMappableToU64>(
    bytes: impl AsRef<[u8]> + Send + Sync + 'static,
) -> io::Result<Arc<dyn ColumnValues<T>>> {
    Ok(Arc::new(Loaded(Column::open(bytes)?, PhantomData)))
}

/// Writes plain numbers and opens the column.
///
/// # Panics
///
/// Where writing refuses, as in the crate.
#[must_use]
pub fn serialize_and_load_u64_based_column_values<T: MonotonicallyMappableToU64>(
    vals: &dyn Iterable,
    codec_types: &[CodecType],
) -> Arc<dyn ColumnValues<T>> {
    let mut buffer = Vec::new();
    serialize_u64_based_column_values(vals, codec_types, &mut buffer).unwrap_or_else(|error| panic!("{error}"));
    load_u64_based_column_values(buffer).unwrap_or_else(|error| panic!("{error}"))
}

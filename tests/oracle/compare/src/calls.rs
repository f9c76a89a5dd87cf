//! A column by the names of tantivy-columnar, from whichever crate `super::names` is. A panic is an answer too.

use std::ops::{Range, RangeInclusive};
use std::panic::{AssertUnwindSafe, catch_unwind};
use std::sync::Arc;

use super::names::column_values::{load_u64_based_column_values, serialize_u64_based_column_values};
use super::names::{CodecType, ColumnValues, MonotonicallyMappableToU64, OwnedBytes};

/// How a call failed.
#[derive(Clone, Copy, Debug, PartialEq, Eq)]
pub enum Failed {
    Error,
    Panic,
}

fn guarded<T>(call: impl FnOnce() -> T) -> Result<T, Failed> {
    catch_unwind(AssertUnwindSafe(call)).map_err(|_| Failed::Panic)
}

pub fn codec_types(codecs: &[u8]) -> Vec<CodecType> {
    codecs.iter().map(|&code| [CodecType::Bitpacked, CodecType::Linear, CodecType::BlockwiseLinear][code as usize]).collect()
}

pub fn write<T: MonotonicallyMappableToU64>(values: &[T], codecs: &[u8]) -> Result<Vec<u8>, Failed> {
    let mut out = Vec::new();
    guarded(|| serialize_u64_based_column_values(&values, &codec_types(codecs), &mut out))?.map_err(|_| Failed::Error)?;
    Ok(out)
}

pub struct Opened<T = u64>(Arc<dyn ColumnValues<T>>);

pub fn open<T: MonotonicallyMappableToU64>(bytes: &[u8]) -> Result<Opened<T>, Failed> {
    let column = guarded(|| load_u64_based_column_values(OwnedBytes::new(bytes.to_vec())))?.map_err(|_| Failed::Error)?;
    Ok(Opened(column))
}

impl<T: MonotonicallyMappableToU64> Opened<T> {
    /// Least value, greatest value, rows.
    pub fn head(&self) -> (T, T, u32) {
        (self.0.min_value(), self.0.max_value(), self.0.num_vals())
    }

    pub fn row(&self, row: u32) -> Result<T, Failed> {
        guarded(|| self.0.get_val(row))
    }

    pub fn run(&self, first: u32, rows: usize) -> Result<Vec<T>, Failed> {
        let mut out = vec![T::from_u64(0); rows];
        guarded(|| self.0.get_range(u64::from(first), &mut out))?;
        Ok(out)
    }

    pub fn find(&self, values: RangeInclusive<T>, rows: Range<u32>) -> Result<Vec<u32>, Failed> {
        let mut found = Vec::new();
        guarded(|| self.0.get_row_ids_for_value_range(values, rows, &mut found))?;
        Ok(found)
    }
}

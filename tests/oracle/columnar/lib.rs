//! GLUE in place of the crate's lib.rs, which needs modules that are not at hand. `assemble` puts the crate's own files, unchanged, and
//! those of `glue/` beside each other.
#![allow(dead_code, unused_imports, missing_docs)]

#[path = "../target/assembled/column_values/mod.rs"]
pub mod column_values;
#[path = "../target/assembled/iterable.rs"]
pub mod iterable;

/// line.rs once more, because `u64_based` keeps it to itself.
#[path = "../target/assembled/column_values/u64_based/line.rs"]
mod line_again;

pub use column_values::{CodecType, ColumnValues, MonotonicallyMappableToU64, MonotonicallyMappableToU128};
pub use common::{DateTime, OwnedBytes};

pub type RowId = u32;

/// Slope and intercept of `Line::train`.
pub fn train(values: Vec<u64>) -> (u64, u64) {
    let line = line_again::Line::train(&column_values::VecColumn::from(values));
    (line.slope, line.intercept)
}

/// The statistics of a list, by `StatsCollector`.
pub fn stats(values: &[u64]) -> column_values::ColumnStats {
    column_values::MergedColumnValues::stats(values)
}

/// The size of each codec, none where it does not apply.
pub fn sizes(values: &[u64], codecs: &[CodecType]) -> Vec<Option<u64>> {
    codecs.iter().map(|&codec| column_values::MergedColumnValues::size(values, codec)).collect()
}

//! GLUE: the 128-bit codecs are not at hand; only these names are mentioned.
#![allow(missing_docs)]

pub struct CompactHit;
pub struct CompactSpaceU64Accessor;
pub fn open_u128_as_compact_u64() {}
pub fn open_u128_mapped() {}
pub fn serialize_column_values_u128() {}

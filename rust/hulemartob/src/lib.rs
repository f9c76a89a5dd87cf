//! Columns of 64-bit numbers in the format of tantivy-columnar 0.27.0 (`u64_based`), written and read by a library that is proved: every call ends, fails only by
//! a numbered refusal ([`Error`]), and answers exactly what the format says, damaged columns included.
//!
//! ```
//! use hulemartob::{Column, encode};
//!
//! let bytes = encode(&[10u64, 30, 20])?;
//! let column = Column::open(&bytes)?;
//! assert_eq!(column.get(1)?, 30);
//! assert_eq!(column.find(10..=25, ..)?, [0, 2]);
//! # Ok::<(), hulemartob::Error>(())
//! ```
//!
//! A column can also hold signed numbers, dates, bools and floats ([`Value`]). The bytes do not tell which, so who reads says it:
//!
//! ```
//! use hulemartob::{Column, encode};
//!
//! let bytes = encode(&[-10i64, 10, 0])?;
//! let column = Column::open(&bytes)?.typed::<i64>();
//! assert_eq!(column.to_vec()?, [-10, 10, 0]);
//! assert_eq!(column.find(..=0, ..)?, [0, 2]);
//! # Ok::<(), hulemartob::Error>(())
//! ```
//!
//! - Writing: [`encode`], [`encode_with`], [`encode_into`], [`encoded_len`].
//! - Reading: [`Column`], whose bytes are borrowed or owned; its [windows](Column::window).
//! - Where two columns differ: [`Column::differences`].
//! - Columns from other writers: what is accepted ([`Sheet`]), and whether a column holds a list of values ([`check()`]).
//! - What each byte of a column is, and whose: [`Column::parts`], [`Column::rows_of_byte`]. Where opening refuses bytes: [`stop()`].
//! - Lookups that are recorded and rerun: [`RecordingBuilder`], [`Column::replay`].
//! - The names of tantivy-columnar over this library: [`compat`]. The library's calls as they are, for tools: [`raw`].
//!
//! # What is proved
//!
//! The code here passes numbers on to the archive that is proved, and makes room for what it answers. It is Rust, and not proved itself; tests hold it against
//! the archive, the C header and the documents. What it knows of the format by itself is little:
//!
//! - how much room a column takes at most ([`max_encoded_len`]), a number of which that is proved;
//! - that rows are best decoded 512 at a time; [`Column::find`] then compares the numbers that the archive decoded with the range that it made of the bounds;
//! - the greatest value and the width that a head means ([`Column::maximum`], [`Column::width`]);
//! - where the numbers of a recording stand, once the archive has said that it is one ([`Recording`]).
//!
//! # Linking
//!
//! `build.rs` finds the archive by HULEMARTOB_LIB, in the repository, by pkg-config, or has `rt` make it. It is x86-64 code for Linux.
#![deny(missing_docs, unsafe_code)]

mod check;
mod codec;
mod column;
pub mod compat;
mod differences;
mod error;
mod ffi;
mod iter;
mod parts;
pub mod raw;
mod replay;
mod stop;
mod value;
mod write;

pub use check::{Mismatch, check};
pub use codec::{Codec, Sheet};
pub use column::{Column, Line};
pub use differences::{Difference, Differences};
pub use error::{Error, Unknown};
pub use iter::Iter;
pub use parts::{Part, PartName, Parts};
pub use replay::{Recorded, Recording, RecordingBuilder, Replay};
pub use stop::{Stop, stop};
pub use value::{Date, Kind, Value};
pub use write::{Sizes, Stats, encode, encode_into, encode_with, encoded_len, max_encoded_len, sizes, stats};

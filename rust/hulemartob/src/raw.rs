//! The library's calls as they are, for writers of tools: on numbers, words and lent memory, with no unsafe code to write.
//!
//! Here a column is its twelve [`Numbers`], its block table and its bytes, three things that a caller may make up: what does not belong together is
//! [refused 13](Error::Unfit). Kinds are known at run time, lists are lent as 64-bit words, codecs and sheets are bare numbers, and what is found goes into
//! memory that the caller lends. Refusals are told by their [numbers](Error::number).
//!
//! A list of values of a [`Kind`] is lent as words: plain numbers as they are, signed numbers and the nanoseconds of dates by their two's complement bits,
//! bools as 0 or any other word, floats by their bits.
//!
//! ```
//! use hulemartob::{Error, Kind, raw};
//!
//! let mut bytes = [0; 100];
//! let length = raw::serialize(Kind::I64, &[-10i64 as u64, 10, 0], &[0, 2], &mut bytes)?;
//! let (numbers, _) = raw::open(1, &bytes[..length], &mut [])?;
//! let view = raw::View { numbers: &numbers, table: &[], bytes: &bytes[..length] };
//! assert_eq!(view.row(0)?, (1 << 63) - 10);
//! let mut found = [0; 1];
//! assert_eq!(view.lookup(0, u64::MAX, 0..3, &mut found), Err(Error::ListShort { found: 3 }));
//! # Ok::<(), Error>(())
//! ```

use std::fmt;

use crate::{Codec, Column, Error, Kind, Mismatch, ffi, max_encoded_len};

pub use crate::ffi::{open, serialize, sizes, stats};

/// A block of a Blockwise column, as the block table has it. Any numbers may be handed to reading.
#[repr(C)]
#[derive(Clone, Copy, Debug, Default, PartialEq, Eq, Hash)]
pub struct Block {
    /// The slope of the block's line, with 32 bits after the point.
    pub slope: u64,
    /// The line's value at the block's first row.
    pub intercept: u64,
    /// The width of the packed numbers, in bits.
    pub width: u64,
    /// The block's first byte, counted from the start of the packed area.
    pub start: u64,
}

/// A column's twelve numbers, which opening finds and reading takes. Any may be handed to reading; those that are no column are
/// [refused 13](Error::Unfit) before anything else.
#[repr(C)]
#[derive(Clone, Copy, Debug, Default, PartialEq, Eq, Hash)]
pub struct Numbers {
    /// The codec's number, 0 to 2.
    pub codec: u64,
    /// The least value.
    pub minimum: u64,
    /// What all values' distances from the minimum are multiples of.
    pub gcd: u64,
    /// How many times the gcd the greatest value lies above the minimum.
    pub count: u64,
    /// How many rows the column has.
    pub rows: u64,
    /// The offset of the packed area.
    pub area_start: u64,
    /// Its size in bytes.
    pub area_size: u64,
    /// The slope of a Linear column's line; of the others 0, as the two that follow.
    pub slope: u64,
    /// The line's value at row 0.
    pub intercept: u64,
    /// The width of the packed numbers, in bits.
    pub width: u64,
    /// The first row of the window through which the column is seen.
    pub first_row: u64,
    /// How many rows the window has.
    pub window_rows: u64,
}

impl From<[u64; 12]> for Numbers {
    fn from(numbers: [u64; 12]) -> Numbers {
        let [codec, minimum, gcd, count, rows, area_start, area_size, slope, intercept, width, first_row, window_rows] = numbers;
        Numbers { codec, minimum, gcd, count, rows, area_start, area_size, slope, intercept, width, first_row, window_rows }
    }
}

impl From<Numbers> for [u64; 12] {
    fn from(n: Numbers) -> [u64; 12] {
        let area = (n.area_start, n.area_size);
        [n.codec, n.minimum, n.gcd, n.count, n.rows, area.0, area.1, n.slope, n.intercept, n.width, n.first_row, n.window_rows]
    }
}

/// A place between the parts of a column: how many come before it, and the offset behind them. The default is the first place.
#[repr(C)]
#[derive(Clone, Copy, Debug, Default, PartialEq, Eq, Hash)]
pub struct Cursor {
    /// The number of the next part.
    pub number: u64,
    /// The offset where it begins.
    pub offset: u64,
}

/// A column in its three parts. [`Column::raw`] gives those of an opened one. Rows count from the window's start.
#[derive(Clone, Copy)]
pub struct View<'a> {
    /// The twelve numbers.
    pub numbers: &'a Numbers,
    /// The block table, a record for each 512 rows; only Blockwise columns need one.
    pub table: &'a [Block],
    /// The bytes.
    pub bytes: &'a [u8],
}

impl fmt::Debug for View<'_> {
    fn fmt(&self, f: &mut fmt::Formatter<'_>) -> fmt::Result {
        write!(f, "View {{ {:?}, {} blocks, {} bytes }}", self.numbers, self.table.len(), self.bytes.len())
    }
}

impl<B: AsRef<[u8]>> Column<u64, B> {
    /// A column of any numbers and any table. What does not belong together is refused as it is read.
    ///
    /// ```
    /// use hulemartob::{Column, Error, encode};
    ///
    /// let bytes = encode(&[10u64, 30, 20])?;
    /// let mut numbers = *Column::open(&bytes)?.raw().numbers;
    /// numbers.gcd = 0;
    /// let column = Column::from_raw(&bytes, numbers, [])?;
    /// assert_eq!(column.get(0), Err(Error::Unfit));
    /// # Ok::<(), Error>(())
    /// ```
    ///
    /// # Errors
    ///
    /// [`Unfit`](Error::Unfit) if the numbers are no column: a codec above 2, rows or a window of 2^32 or more, a Linear width above 255.
    pub fn from_raw(bytes: B, numbers: Numbers, table: impl AsRef<[Block]>) -> Result<Column<u64, B>, Error> {
        // A lookup over no rows is refused only where the numbers are no column.
        View { numbers: &numbers, table: &[], bytes: &[] }.lookup(0, 0, 0..0, &mut [])?;
        Ok(Column::of(bytes, numbers, table.as_ref().into(), None))
    }
}

/// Writes a list of words of a kind as a column, and returns its bytes: [`encode_with`](crate::encode_with).
///
/// ```
/// use hulemartob::{Codec, Kind, encode, raw};
///
/// let kind: Kind = "f64".parse()?;
/// let words = [20.5, -0.0].map(f64::to_bits);
/// assert_eq!(raw::encode(kind, &words, &Codec::ALL)?, encode(&[20.5, -0.0])?);
/// # Ok::<(), Box<dyn std::error::Error>>(())
/// ```
///
/// # Errors
///
/// 1 and 3.
pub fn encode(kind: Kind, words: &[u64], codecs: &[Codec]) -> Result<Vec<u8>, Error> {
    // Too many values are refused whatever the room is, so none is made for them.
    let room = if u32::try_from(words.len()).is_ok() { max_encoded_len(words.len()) } else { 0 };
    let mut out = vec![0; room];
    let length = serialize(kind, words, &code_bytes(codecs), &mut out)?;
    out.truncate(length);
    out.shrink_to_fit();
    Ok(out)
}

/// The code bytes of some codecs.
pub(crate) fn code_bytes(codecs: &[Codec]) -> Vec<u8> {
    codecs.iter().map(|&codec| codec.into()).collect()
}

/// Opens the column that `bytes` hold under an acceptance sheet, and checks it against a list of words of a kind: [`check`](crate::check()).
///
/// # Errors
///
/// The first reason why the column does not hold the list; 18 is one of opening.
pub fn check(kind: Kind, sheet: u32, bytes: &[u8], words: &[u64]) -> Result<(), Mismatch> {
    let verdict = |table: &mut [Block]| Mismatch::from_numbers(ffi::check(kind, sheet, bytes, words, table));
    match verdict(&mut []) {
        // Room for the blocks of a Blockwise column, which opening asks for.
        Err(Mismatch::Unopened(Error::TableShort { blocks })) => verdict(&mut ffi::zeroed_table(blocks)),
        answer => answer,
    }
}

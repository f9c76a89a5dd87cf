//! Why a call refuses.

use std::{fmt, io};

/// Why a call refuses, with what the refusal also tells. A refused call has changed nothing that was lent to it.
///
/// Each has a [`number`](Error::number), the same in every language and document of this library; the names are those of the format's own definition.
/// Displayed, it is a sentence that says what is wrong and where, with the number behind it:
///
/// ```
/// use hulemartob::{Column, Error};
///
/// let error = Column::open([0, 0x8A, 0x0A]).unwrap_err();
/// assert_eq!(error, Error::BadField { offset: 2 });
/// assert_eq!(error.number(), 6);
/// assert_eq!(error.to_string(), "the field at byte 2 is cut off, or is 2^64 or more (refusal 6)");
/// ```
#[derive(Clone, Copy, Debug, PartialEq, Eq, Hash)]
#[non_exhaustive]
pub enum Error {
    /// 1: there are 2^32 values or more.
    TooManyValues,
    /// 2: a code byte is above 2.
    UnknownCodec {
        /// Its first place in the list of codecs.
        place: usize,
    },
    /// 3: none of the listed codecs applies. Linear asks for 512 values.
    NoCodecApplies,
    /// 4: the output is shorter than the column.
    OutputShort {
        /// The column's length.
        needed: usize,
    },
    /// 5: there are no bytes, or the first is no codec's.
    NotAColumn,
    /// 6: a number or a width byte is cut off, or a number is 2^64 or more.
    BadField {
        /// The offset of its first byte.
        offset: usize,
    },
    /// 7: the head's gcd is 0.
    GcdZero,
    /// 8: minimum + gcd · count is 2^64 or more, or there are 2^32 rows or more.
    OutOfRange,
    /// 9: a width byte is neither 0 to 56 nor 64.
    IllegalWidth {
        /// Its offset.
        offset: usize,
    },
    /// 10: the packed area does not fit into the bytes, or the footer's length is missing or too great.
    AreaShort,
    /// 11: the block table is too short. Only calls of [`raw`](crate::raw) are handed one.
    TableShort {
        /// How many blocks the column has.
        blocks: usize,
    },
    /// 12: there is no such row: it is not below the column's [`len`](crate::Column::len), or the run or window asked for ends behind it.
    NoSuchRow,
    /// 13: numbers, window, table and bytes do not belong together. No column that was opened is refused so; made-up ones are
    /// ([`raw`](crate::raw)), and so is a byte behind the last.
    Unfit,
    /// 14: a row's value lies outside the bounds that the column's head states: the column is damaged there.
    OutOfBounds {
        /// The row, counted from the window's start.
        row: u32,
    },
    /// 15: the list for found rows is too short. Only calls of [`raw`](crate::raw) are handed one.
    ListShort {
        /// How many rows were found.
        found: usize,
    },
    /// 16: more than a program takes. No call of this crate refuses so; programs with a limit of their own do.
    OverLimit,
    /// 17: a byte that [`Sheet::Two`](crate::Sheet::Two) does not accept.
    Offending {
        /// The offset of the first one.
        offset: usize,
    },
    /// 18: a sheet other than 1 and 2.
    UnknownSheet,
    /// 19: the bytes are no recording of lookups.
    BadRecording,
    /// 20: a view of a Blockwise column. No call of this crate refuses so; it is one of the library's own language.
    NotForView,
}

impl Error {
    /// The error of a refusal's number and the value that it also returns; none if no refusal has the number. A value that is not returned is not looked at.
    ///
    /// This is where every error of this crate is made.
    ///
    /// ```
    /// use hulemartob::Error;
    ///
    /// assert_eq!(Error::from_numbers(14, 5), Some(Error::OutOfBounds { row: 5 }));
    /// assert_eq!(Error::from_numbers(21, 0), None);
    /// ```
    #[must_use]
    pub fn from_numbers(number: u64, value: u64) -> Option<Error> {
        let size = value as usize;
        Some(match number {
            1 => Error::TooManyValues,
            2 => Error::UnknownCodec { place: size },
            3 => Error::NoCodecApplies,
            4 => Error::OutputShort { needed: size },
            5 => Error::NotAColumn,
            6 => Error::BadField { offset: size },
            7 => Error::GcdZero,
            8 => Error::OutOfRange,
            9 => Error::IllegalWidth { offset: size },
            10 => Error::AreaShort,
            11 => Error::TableShort { blocks: size },
            12 => Error::NoSuchRow,
            13 => Error::Unfit,
            14 => Error::OutOfBounds { row: value as u32 },
            15 => Error::ListShort { found: size },
            16 => Error::OverLimit,
            17 => Error::Offending { offset: size },
            18 => Error::UnknownSheet,
            19 => Error::BadRecording,
            20 => Error::NotForView,
            _ => return None,
        })
    }

    /// The refusal's number, from 1 to 20.
    #[must_use]
    pub fn number(&self) -> u8 {
        match self {
            Error::TooManyValues => 1,
            Error::UnknownCodec { .. } => 2,
            Error::NoCodecApplies => 3,
            Error::OutputShort { .. } => 4,
            Error::NotAColumn => 5,
            Error::BadField { .. } => 6,
            Error::GcdZero => 7,
            Error::OutOfRange => 8,
            Error::IllegalWidth { .. } => 9,
            Error::AreaShort => 10,
            Error::TableShort { .. } => 11,
            Error::NoSuchRow => 12,
            Error::Unfit => 13,
            Error::OutOfBounds { .. } => 14,
            Error::ListShort { .. } => 15,
            Error::OverLimit => 16,
            Error::Offending { .. } => 17,
            Error::UnknownSheet => 18,
            Error::BadRecording => 19,
            Error::NotForView => 20,
        }
    }

    /// The value that the refusal also returns, whatever it means; none if it returns none.
    #[must_use]
    pub fn value(&self) -> Option<u64> {
        match *self {
            Error::UnknownCodec { place: size }
            | Error::OutputShort { needed: size }
            | Error::BadField { offset: size }
            | Error::IllegalWidth { offset: size }
            | Error::TableShort { blocks: size }
            | Error::ListShort { found: size }
            | Error::Offending { offset: size } => Some(size as u64),
            Error::OutOfBounds { row } => Some(u64::from(row)),
            _ => None,
        }
    }

    /// The offset of the byte that is refused, if the refusal tells one: 6, 9 and 17 do.
    #[must_use]
    pub fn offset(&self) -> Option<usize> {
        match *self {
            Error::BadField { offset } | Error::IllegalWidth { offset } | Error::Offending { offset } => Some(offset),
            _ => None,
        }
    }

    /// The row that is refused, if the refusal tells one: 14 does.
    #[must_use]
    pub fn row(&self) -> Option<u32> {
        match *self {
            Error::OutOfBounds { row } => Some(row),
            _ => None,
        }
    }
}

impl fmt::Display for Error {
    fn fmt(&self, f: &mut fmt::Formatter<'_>) -> fmt::Result {
        match self {
            Error::TooManyValues => write!(f, "there are 2^32 values or more"),
            Error::UnknownCodec { place } => write!(f, "entry {place} of the list of codecs is none"),
            Error::NoCodecApplies => write!(f, "none of the listed codecs applies"),
            Error::OutputShort { needed } => write!(f, "the output is shorter than the column, which has {needed} bytes"),
            Error::NotAColumn => write!(f, "there are no bytes, or the first is no codec's"),
            Error::BadField { offset } => write!(f, "the field at byte {offset} is cut off, or is 2^64 or more"),
            Error::GcdZero => write!(f, "the gcd is 0"),
            Error::OutOfRange => write!(f, "minimum + gcd * count is 2^64 or more, or there are 2^32 rows or more"),
            Error::IllegalWidth { offset } => write!(f, "the width at byte {offset} is neither 0 to 56 nor 64"),
            Error::AreaShort => write!(f, "the packed area does not fit, or the footer's length is missing or too great"),
            Error::TableShort { blocks } => write!(f, "the block table is too short for {blocks} blocks"),
            Error::NoSuchRow => write!(f, "there is no such row"),
            Error::Unfit => write!(f, "column, window, table and bytes do not belong together"),
            Error::OutOfBounds { row } => write!(f, "the value of row {row} lies outside the column's bounds"),
            Error::ListShort { found } => write!(f, "the list is too short for the {found} rows that were found"),
            Error::OverLimit => write!(f, "there are more bytes or rows than the program takes"),
            Error::Offending { offset } => write!(f, "sheet 2 does not accept byte {offset}"),
            Error::UnknownSheet => write!(f, "the sheet is neither 1 nor 2"),
            Error::BadRecording => write!(f, "the bytes are no recording of lookups"),
            Error::NotForView => write!(f, "a Blockwise column has no view"),
        }?;
        write!(f, " (refusal {})", self.number())
    }
}

impl std::error::Error for Error {}

/// As an error of kind [`InvalidData`](io::ErrorKind::InvalidData), for callers that read and write files.
impl From<Error> for io::Error {
    fn from(error: Error) -> io::Error {
        io::Error::new(io::ErrorKind::InvalidData, error)
    }
}

/// A number or a word that is none of those expected: what `try_from` and `parse` of [`Codec`](crate::Codec), [`Kind`](crate::Kind) and
/// [`PartName`](crate::PartName) answer then.
#[derive(Clone, Copy, Debug, PartialEq, Eq, Hash)]
pub struct Unknown {
    pub(crate) expected: &'static str,
}

impl fmt::Display for Unknown {
    fn fmt(&self, f: &mut fmt::Formatter<'_>) -> fmt::Result {
        write!(f, "expected {}", self.expected)
    }
}

impl std::error::Error for Unknown {}

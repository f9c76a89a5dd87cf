//! Codecs, and the sheets under which columns are accepted.

use std::fmt;
use std::str::FromStr;

use crate::{Error, Unknown};

/// How a column's rows are coded. The numbers are those of a column's first byte.
///
/// ```
/// use hulemartob::Codec;
///
/// assert_eq!("blockwise".parse(), Ok(Codec::Blockwise));
/// assert_eq!(Codec::try_from(2), Ok(Codec::Blockwise));
/// assert_eq!(Codec::Blockwise.to_string(), "Blockwise");
/// ```
#[derive(Clone, Copy, Debug, PartialEq, Eq, PartialOrd, Ord, Hash)]
#[repr(u8)]
pub enum Codec {
    /// Multiples of the gcd above the minimum.
    Bitpacked = 0,
    /// What the rows have above one line. It applies from 512 rows on.
    Linear = 1,
    /// What the rows have above a line for each block of 512 rows. The Rust crate's name is `BlockwiseLinear`.
    Blockwise = 2,
}

impl Codec {
    /// All three, in the order of their numbers.
    pub const ALL: [Codec; 3] = [Codec::Bitpacked, Codec::Linear, Codec::Blockwise];

    const EXPECTED: Unknown = Unknown { expected: "Bitpacked (0), Linear (1) or Blockwise (2)" };

    /// Its name: `Bitpacked`, `Linear` or `Blockwise`.
    #[must_use]
    pub const fn name(self) -> &'static str {
        match self {
            Codec::Bitpacked => "Bitpacked",
            Codec::Linear => "Linear",
            Codec::Blockwise => "Blockwise",
        }
    }
}

impl fmt::Display for Codec {
    fn fmt(&self, f: &mut fmt::Formatter<'_>) -> fmt::Result {
        f.pad(self.name())
    }
}

/// By the name, in letters of any case.
impl FromStr for Codec {
    type Err = Unknown;

    fn from_str(word: &str) -> Result<Codec, Unknown> {
        Codec::ALL.into_iter().find(|codec| codec.name().eq_ignore_ascii_case(word)).ok_or(Codec::EXPECTED)
    }
}

impl TryFrom<u8> for Codec {
    type Error = Unknown;

    fn try_from(code: u8) -> Result<Codec, Unknown> {
        Codec::ALL.get(usize::from(code)).copied().ok_or(Codec::EXPECTED)
    }
}

impl From<Codec> for u8 {
    fn from(codec: Codec) -> u8 {
        codec as u8
    }
}

/// What is asked of a column's bytes before it is opened: [`Column::open_under`](crate::Column::open_under). What this library writes passes both.
///
/// ```
/// use hulemartob::{Error, Sheet};
///
/// assert_eq!("2".parse(), Ok(Sheet::Two));
/// assert_eq!(Sheet::try_from(3), Err(Error::UnknownSheet));
/// ```
#[derive(Clone, Copy, Debug, Default, PartialEq, Eq, Hash)]
#[repr(u8)]
pub enum Sheet {
    /// Sheet 1: that the column opens.
    #[default]
    One = 1,
    /// Sheet 2: besides, that every number is spelled as short as can be, that every byte belongs to a part of the column, and that the bits which fill up
    /// the packed area's last byte are 0.
    Two = 2,
}

impl Sheet {
    /// Both.
    pub const ALL: [Sheet; 2] = [Sheet::One, Sheet::Two];
}

impl fmt::Display for Sheet {
    fn fmt(&self, f: &mut fmt::Formatter<'_>) -> fmt::Result {
        (*self as u8).fmt(f)
    }
}

impl TryFrom<u32> for Sheet {
    type Error = Error;

    fn try_from(number: u32) -> Result<Sheet, Error> {
        Sheet::ALL.into_iter().find(|&sheet| sheet as u32 == number).ok_or(Error::UnknownSheet)
    }
}

/// `1` or `2`.
impl FromStr for Sheet {
    type Err = Error;

    fn from_str(word: &str) -> Result<Sheet, Error> {
        Sheet::ALL.into_iter().find(|sheet| sheet.to_string() == word).ok_or(Error::UnknownSheet)
    }
}

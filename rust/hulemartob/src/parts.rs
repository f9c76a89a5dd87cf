//! What each byte of a column is, and which rows own a bit of it.

use std::fmt;
use std::iter::FusedIterator;
use std::ops::Range;
use std::str::FromStr;

use crate::raw::{Cursor, View};
use crate::{Column, Error, Unknown, Value};

/// Which part of a column. Displayed, it is the word by which the programs call it.
///
/// ```
/// use hulemartob::PartName;
///
/// assert_eq!("footer length".parse(), Ok(PartName::FooterLength));
/// assert_eq!(PartName::try_from(8), Ok(PartName::Area));
/// ```
#[derive(Clone, Copy, Debug, PartialEq, Eq, PartialOrd, Ord, Hash)]
#[repr(u8)]
pub enum PartName {
    /// The codec's number.
    Code = 0,
    /// The smallest value.
    Minimum = 1,
    /// The greatest common divisor of the distances from it.
    Gcd = 2,
    /// How many such steps lie between the smallest and the largest value.
    Count = 3,
    /// How many rows there are.
    Rows = 4,
    /// The slope of a Linear column.
    Slope = 5,
    /// Its intercept.
    Intercept = 6,
    /// Its bits a row.
    Width = 7,
    /// The packed area.
    Area = 8,
    /// Bytes behind the area that no rule reads.
    Behind = 9,
    /// The slope of a block.
    BlockSlope = 10,
    /// The intercept of a block.
    BlockIntercept = 11,
    /// The bits a row of a block.
    BlockWidth = 12,
    /// Bytes that are left over in the footer.
    Spare = 13,
    /// The footer's length.
    FooterLength = 14,
}

impl PartName {
    /// All of them, in the order of their numbers.
    pub const ALL: [PartName; 15] = [
        PartName::Code,
        PartName::Minimum,
        PartName::Gcd,
        PartName::Count,
        PartName::Rows,
        PartName::Slope,
        PartName::Intercept,
        PartName::Width,
        PartName::Area,
        PartName::Behind,
        PartName::BlockSlope,
        PartName::BlockIntercept,
        PartName::BlockWidth,
        PartName::Spare,
        PartName::FooterLength,
    ];

    const EXPECTED: Unknown = Unknown { expected: "the name or the number of a column's part, 0 to 14" };

    /// Its name: `code`, `minimum`, .., `block slope`, .., `footer length`.
    #[must_use]
    pub const fn name(self) -> &'static str {
        match self {
            PartName::Code => "code",
            PartName::Minimum => "minimum",
            PartName::Gcd => "gcd",
            PartName::Count => "count",
            PartName::Rows => "rows",
            PartName::Slope => "slope",
            PartName::Intercept => "intercept",
            PartName::Width => "width",
            PartName::Area => "area",
            PartName::Behind => "behind",
            PartName::BlockSlope => "block slope",
            PartName::BlockIntercept => "block intercept",
            PartName::BlockWidth => "block width",
            PartName::Spare => "spare",
            PartName::FooterLength => "footer length",
        }
    }

    /// Whether the part is a field, whose bytes spell a number: any but the area, the bytes behind it and those left over in the footer. A field may concern
    /// every row.
    #[must_use]
    pub const fn is_field(self) -> bool {
        !matches!(self, PartName::Area | PartName::Behind | PartName::Spare)
    }

    /// Whether the part is a block's.
    #[must_use]
    pub const fn is_of_block(self) -> bool {
        matches!(self, PartName::BlockSlope | PartName::BlockIntercept | PartName::BlockWidth)
    }
}

impl fmt::Display for PartName {
    fn fmt(&self, f: &mut fmt::Formatter<'_>) -> fmt::Result {
        f.pad(self.name())
    }
}

impl FromStr for PartName {
    type Err = Unknown;

    fn from_str(word: &str) -> Result<PartName, Unknown> {
        PartName::ALL.into_iter().find(|part| part.name() == word).ok_or(PartName::EXPECTED)
    }
}

impl TryFrom<u8> for PartName {
    type Error = Unknown;

    fn try_from(number: u8) -> Result<PartName, Unknown> {
        PartName::ALL.get(usize::from(number)).copied().ok_or(PartName::EXPECTED)
    }
}

impl From<PartName> for u8 {
    fn from(name: PartName) -> u8 {
        name as u8
    }
}

/// A part of a column's bytes. Displayed, it is its name, with the number of its block: `area`, `block 3 slope`.
#[derive(Clone, Copy, Debug, PartialEq, Eq, Hash)]
pub struct Part {
    /// Which part it is.
    pub name: PartName,
    /// The number of its block, if it is a block's.
    pub block: Option<u32>,
    /// The offset of its first byte.
    pub offset: usize,
    /// How many bytes it has.
    pub len: usize,
    /// The number that they spell, if it is a [field](PartName::is_field).
    pub value: Option<u64>,
}

impl Part {
    /// From the five numbers that the library answers.
    pub(crate) fn from_numbers([which, block, offset, len, value]: [u64; 5]) -> Part {
        let name = PartName::ALL[which as usize];
        let (block, value) = (name.is_of_block().then_some(block as u32), name.is_field().then_some(value));
        Part { name, block, offset: offset as usize, len: len as usize, value }
    }

    /// The offsets of its bytes.
    #[must_use]
    pub fn range(&self) -> Range<usize> {
        self.offset..self.offset + self.len
    }
}

impl fmt::Display for Part {
    fn fmt(&self, f: &mut fmt::Formatter<'_>) -> fmt::Result {
        match (self.block, self.name.name().split_once(' ')) {
            (Some(block), Some((of, field))) => write!(f, "{of} {block} {field}"),
            _ => self.name.fmt(f),
        }
    }
}

/// How many parts are asked for at a time.
const STRETCH: usize = 64;

/// The parts of a column in the order of their bytes: [`Column::parts`].
#[derive(Clone, Debug)]
#[must_use = "iterators do nothing unless they are used"]
pub struct Parts<'a> {
    view: View<'a>,
    cursor: Cursor,
    listed: std::vec::IntoIter<Part>,
    more: bool,
}

impl Iterator for Parts<'_> {
    type Item = Result<Part, Error>;

    fn next(&mut self) -> Option<Self::Item> {
        loop {
            if let Some(part) = self.listed.find(|part| part.len != 0) {
                return Some(Ok(part));
            }
            if !self.more {
                return None;
            }
            let mut stretch = [[0; 5]; STRETCH];
            match self.view.parts(&mut self.cursor, &mut stretch) {
                Ok(many) => {
                    self.more = many == STRETCH;
                    self.listed = stretch[..many].iter().map(|&numbers| Part::from_numbers(numbers)).collect::<Vec<_>>().into_iter();
                }
                Err(error) => {
                    self.more = false;
                    return Some(Err(error));
                }
            }
        }
    }
}

impl FusedIterator for Parts<'_> {}

impl<T: Value, B: AsRef<[u8]>> Column<T, B> {
    /// All parts that have bytes, in their order, each byte of the column in just one. Of a column that was opened none is refused.
    ///
    /// They come of one walk over the bytes, whose parts are proved to be the format's, none left out and none twice.
    ///
    /// ```
    /// use hulemartob::{Column, PartName, encode};
    ///
    /// let column = Column::open(encode(&[10u64, 30, 20])?)?;
    /// let names: Vec<String> = column.parts().map(|part| Ok(part?.to_string())).collect::<Result<_, hulemartob::Error>>()?;
    /// assert_eq!(names, ["code", "minimum", "gcd", "count", "rows", "area"]);
    /// # Ok::<(), hulemartob::Error>(())
    /// ```
    pub fn parts(&self) -> Parts<'_> {
        Parts { view: self.raw(), cursor: Cursor::default(), listed: Vec::new().into_iter(), more: true }
    }

    /// The part that holds the byte at an offset.
    ///
    /// # Errors
    ///
    /// [`Unfit`](Error::Unfit) past the last byte.
    pub fn part_of_byte(&self, at: usize) -> Result<Part, Error> {
        self.raw().part_at(at)
    }

    /// The rows that own a bit of the byte at an offset, of the whole column, whatever its window; `0..0` where none does.
    ///
    /// ```
    /// use hulemartob::{Column, encode};
    ///
    /// let column = Column::open(encode(&[10u64, 30, 20])?)?;
    /// assert_eq!(column.part_of_byte(5)?.to_string(), "area");
    /// assert_eq!(column.rows_of_byte(5)?, 0..3);
    /// # Ok::<(), hulemartob::Error>(())
    /// ```
    ///
    /// # Errors
    ///
    /// [`Unfit`](Error::Unfit) past the last byte.
    pub fn rows_of_byte(&self, at: usize) -> Result<Range<u32>, Error> {
        self.raw().rows_at(at)
    }
}

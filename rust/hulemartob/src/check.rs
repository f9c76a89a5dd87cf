//! Columns from other writers, checked against the list of values that they are to hold.

use std::fmt;

use crate::{Column, Error, Sheet, Value, ffi, raw};

/// Why a column does not hold a list: the first reason, in this order.
#[derive(Clone, Copy, Debug, PartialEq, Eq, Hash)]
#[non_exhaustive]
pub enum Mismatch {
    /// It does not open under the sheet.
    Unopened(Error),
    /// It has another number of rows than the list.
    Counts {
        /// The column's rows.
        column: u32,
        /// The list's values.
        list: usize,
    },
    /// A row does not read as its value. A row that reading refuses does not.
    Unequal {
        /// The first such row.
        row: u32,
    },
    /// The column's minimum is not the list's.
    Minimum,
    /// The gcd is not.
    Gcd,
    /// The maximum is not.
    Maximum,
}

impl Mismatch {
    /// The verdict of three numbers.
    pub(crate) fn from_numbers([reason, first, second]: [u64; 3]) -> Result<(), Mismatch> {
        Err(match reason {
            0 => return Ok(()),
            1 => Mismatch::Unopened(ffi::error([first, second])),
            2 => Mismatch::Counts { column: first as u32, list: second as usize },
            3 => Mismatch::Unequal { row: first as u32 },
            4 => Mismatch::Minimum,
            5 => Mismatch::Gcd,
            _ => Mismatch::Maximum,
        })
    }
}

impl fmt::Display for Mismatch {
    fn fmt(&self, f: &mut fmt::Formatter<'_>) -> fmt::Result {
        match self {
            Mismatch::Unopened(error) => write!(f, "the column does not open: {error}"),
            Mismatch::Counts { column, list } => write!(f, "the column has {column} rows for {list} values"),
            Mismatch::Unequal { row } => write!(f, "row {row} does not read as its value"),
            Mismatch::Minimum => write!(f, "the column states another minimum than the list's"),
            Mismatch::Gcd => write!(f, "the column states another gcd than the list's"),
            Mismatch::Maximum => write!(f, "the column states another maximum than the list's"),
        }
    }
}

impl std::error::Error for Mismatch {
    fn source(&self) -> Option<&(dyn std::error::Error + 'static)> {
        match self {
            Mismatch::Unopened(error) => Some(error),
            _ => None,
        }
    }
}

/// Checks that the column in `bytes` opens under an acceptance sheet ([`Column::open_under`]), has as many rows as the list, reads each row as its value, and
/// states the list's minimum, gcd and maximum. Values are compared by the numbers that they are stored as: floats by their bits, and a stored 2 is no bool.
///
/// ```
/// use hulemartob::{Mismatch, Sheet, check, encode};
///
/// let bytes = encode(&[-10i64, 10, 0])?;
/// assert_eq!(check(Sheet::Two, &bytes, &[-10i64, 10, 0]), Ok(()));
/// assert_eq!(check(Sheet::Two, &bytes, &[-10i64, 10, 5]), Err(Mismatch::Unequal { row: 2 }));
/// assert_eq!(check(Sheet::Two, &bytes, &[-10i64, 10]), Err(Mismatch::Counts { column: 3, list: 2 }));
/// # Ok::<(), hulemartob::Error>(())
/// ```
///
/// # Errors
///
/// The first reason why the column does not hold the list.
pub fn check<T: Value>(sheet: Sheet, bytes: &[u8], values: &[T]) -> Result<(), Mismatch> {
    raw::check(T::KIND, sheet as u32, bytes, &T::words(values))
}

impl<T: Value, B: AsRef<[u8]>> Column<T, B> {
    /// Checks the column's bytes against the list of values that they are to hold, all rows of it whatever the window: [`check`].
    ///
    /// ```
    /// use hulemartob::{Column, Sheet, encode};
    ///
    /// let column = Column::open(encode(&[10u64, 30, 20])?)?;
    /// assert!(column.check(Sheet::Two, &[10, 30, 20]).is_ok());
    /// # Ok::<(), hulemartob::Error>(())
    /// ```
    ///
    /// # Errors
    ///
    /// The first reason why the column does not hold the list.
    pub fn check(&self, sheet: Sheet, values: &[T]) -> Result<(), Mismatch> {
        check(sheet, self.bytes(), values)
    }
}

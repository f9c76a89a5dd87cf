//! What a column holds: plain numbers, signed numbers, dates, bools and floats.

use std::borrow::Cow;
use std::fmt;
use std::ops::{Bound, RangeBounds};
use std::str::FromStr;

use crate::{Unknown, ffi};

/// How the stored numbers of a column read. The bytes do not tell: who writes a column and who reads it must agree on its kind.
///
/// ```
/// use hulemartob::{Kind, Value};
///
/// assert_eq!("date".parse(), Ok(Kind::Date));
/// assert_eq!(Kind::try_from(4), Ok(Kind::F64));
/// assert_eq!(<f64 as Value>::KIND.to_string(), "f64");
/// ```
#[derive(Clone, Copy, Debug, Default, PartialEq, Eq, Hash)]
#[repr(u8)]
pub enum Kind {
    /// Plain numbers, stored as they are.
    #[default]
    U64 = 0,
    /// Signed numbers: v is stored as v + 2^63.
    I64 = 1,
    /// Dates: their signed nanoseconds, stored so.
    Date = 2,
    /// Bools: stored as 0 or 1. Any stored number above 0 reads as true.
    Bool = 3,
    /// Floats: their bits, all inverted if the sign bit is set, else with the sign bit set.
    F64 = 4,
}

impl Kind {
    /// All five, in the order of their numbers.
    pub const ALL: [Kind; 5] = [Kind::U64, Kind::I64, Kind::Date, Kind::Bool, Kind::F64];

    const EXPECTED: Unknown = Unknown { expected: "u64 (0), i64 (1), date (2), bool (3) or f64 (4)" };

    /// Its name: `u64`, `i64`, `date`, `bool` or `f64`.
    #[must_use]
    pub const fn name(self) -> &'static str {
        match self {
            Kind::U64 => "u64",
            Kind::I64 => "i64",
            Kind::Date => "date",
            Kind::Bool => "bool",
            Kind::F64 => "f64",
        }
    }
}

impl fmt::Display for Kind {
    fn fmt(&self, f: &mut fmt::Formatter<'_>) -> fmt::Result {
        f.pad(self.name())
    }
}

/// By the name, in letters of any case.
impl FromStr for Kind {
    type Err = Unknown;

    fn from_str(word: &str) -> Result<Kind, Unknown> {
        Kind::ALL.into_iter().find(|kind| kind.name().eq_ignore_ascii_case(word)).ok_or(Kind::EXPECTED)
    }
}

impl TryFrom<u8> for Kind {
    type Error = Unknown;

    fn try_from(number: u8) -> Result<Kind, Unknown> {
        Kind::ALL.get(usize::from(number)).copied().ok_or(Kind::EXPECTED)
    }
}

impl From<Kind> for u8 {
    fn from(kind: Kind) -> u8 {
        kind as u8
    }
}

/// A date: its nanoseconds since the start of 1970, UTC.
#[derive(Clone, Copy, Debug, Default, PartialEq, Eq, PartialOrd, Ord, Hash)]
#[repr(transparent)]
pub struct Date(pub i64);

impl Date {
    /// The date of so many nanoseconds.
    #[must_use]
    pub const fn from_timestamp_nanos(nanoseconds: i64) -> Date {
        Date(nanoseconds)
    }

    /// Its nanoseconds.
    #[must_use]
    pub const fn into_timestamp_nanos(self) -> i64 {
        self.0
    }
}

pub(crate) mod sealed {
    use std::borrow::Cow;

    /// What the calls need of a type of values, and what keeps [`Value`](super::Value) closed.
    pub trait Stored: Copy {
        /// A list as the words that it is lent as.
        fn words(values: &[Self]) -> Cow<'_, [u64]>;

        /// A list as words to write to, if that is what it is in memory.
        fn words_mut(values: &mut [Self]) -> Option<&mut [u64]>;

        /// The first and the last stored number of the values from `low` to `high`.
        fn stored_between(low: Self, high: Self) -> [u64; 2];
    }
}

/// What a column can hold: `u64`, `i64`, [`Date`], `bool`, `f64`. No other type implements it.
///
/// A value is stored as a number, and the numbers are ordered as the values are: -0.0 directly under +0.0, NaNs beyond the infinity of their sign. All bits
/// of a value return, but of a bool only whether it is true.
///
/// ```
/// use hulemartob::{Date, Value};
///
/// assert_eq!((-1i64).to_stored(), (1 << 63) - 1);
/// assert_eq!(Date::from_stored(1 << 63), Date(0));
/// assert!(bool::from_stored(2));
/// ```
pub trait Value: sealed::Stored + fmt::Debug + Default + PartialOrd + Send + Sync + 'static {
    /// The kind of a column that holds such values.
    const KIND: Kind;

    /// What a stored number reads as.
    #[must_use]
    fn from_stored(stored: u64) -> Self;

    /// The number that a value is stored as.
    #[must_use]
    fn to_stored(self) -> u64;
}

impl sealed::Stored for u64 {
    fn words(values: &[u64]) -> Cow<'_, [u64]> {
        values.into()
    }

    #[inline]
    fn words_mut(values: &mut [u64]) -> Option<&mut [u64]> {
        Some(values)
    }

    fn stored_between(low: u64, high: u64) -> [u64; 2] {
        [low, high]
    }
}

impl Value for u64 {
    const KIND: Kind = Kind::U64;

    #[inline]
    fn from_stored(stored: u64) -> u64 {
        stored
    }

    #[inline]
    fn to_stored(self) -> u64 {
        self
    }
}

impl sealed::Stored for i64 {
    fn words(values: &[i64]) -> Cow<'_, [u64]> {
        ffi::words(values).into()
    }

    fn words_mut(values: &mut [i64]) -> Option<&mut [u64]> {
        Some(ffi::words_mut(values))
    }

    fn stored_between(low: i64, high: i64) -> [u64; 2] {
        ffi::i64_range(low, high)
    }
}

impl Value for i64 {
    const KIND: Kind = Kind::I64;

    #[inline]
    fn from_stored(stored: u64) -> i64 {
        ffi::i64_of(stored)
    }

    fn to_stored(self) -> u64 {
        ffi::i64_range(self, self)[0]
    }
}

impl sealed::Stored for Date {
    fn words(values: &[Date]) -> Cow<'_, [u64]> {
        ffi::words(values).into()
    }

    fn words_mut(values: &mut [Date]) -> Option<&mut [u64]> {
        Some(ffi::words_mut(values))
    }

    fn stored_between(low: Date, high: Date) -> [u64; 2] {
        ffi::i64_range(low.0, high.0)
    }
}

impl Value for Date {
    const KIND: Kind = Kind::Date;

    #[inline]
    fn from_stored(stored: u64) -> Date {
        Date(ffi::i64_of(stored))
    }

    fn to_stored(self) -> u64 {
        self.0.to_stored()
    }
}

impl sealed::Stored for bool {
    fn words(values: &[bool]) -> Cow<'_, [u64]> {
        values.iter().map(|&value| u64::from(value)).collect::<Vec<_>>().into()
    }

    fn words_mut(_: &mut [bool]) -> Option<&mut [u64]> {
        None
    }

    fn stored_between(low: bool, high: bool) -> [u64; 2] {
        ffi::bool_range(low, high)
    }
}

impl Value for bool {
    const KIND: Kind = Kind::Bool;

    #[inline]
    fn from_stored(stored: u64) -> bool {
        ffi::bool_of(stored)
    }

    fn to_stored(self) -> u64 {
        ffi::bool_range(self, self)[0]
    }
}

impl sealed::Stored for f64 {
    fn words(values: &[f64]) -> Cow<'_, [u64]> {
        ffi::words(values).into()
    }

    fn words_mut(values: &mut [f64]) -> Option<&mut [u64]> {
        Some(ffi::words_mut(values))
    }

    fn stored_between(low: f64, high: f64) -> [u64; 2] {
        ffi::f64_range(low.to_bits(), high.to_bits())
    }
}

impl Value for f64 {
    const KIND: Kind = Kind::F64;

    #[inline]
    fn from_stored(stored: u64) -> f64 {
        f64::from_bits(ffi::f64_bits_of(stored))
    }

    fn to_stored(self) -> u64 {
        ffi::f64_range(self.to_bits(), self.to_bits())[0]
    }
}

/// The first and the last stored number of a range of values. Where no value lies in the range, the first is above the last.
pub(crate) fn stored_range<T: Value>(values: &impl RangeBounds<T>) -> [u64; 2] {
    const NONE: [u64; 2] = [1, 0];
    // Many stored numbers may read as one value: all above 0 are true.
    let of = |value: &T| T::stored_between(*value, *value);
    let first = match values.start_bound() {
        Bound::Included(low) => Some(of(low)[0]),
        Bound::Excluded(low) => of(low)[1].checked_add(1),
        Bound::Unbounded => Some(0),
    };
    let last = match values.end_bound() {
        Bound::Included(high) => Some(of(high)[1]),
        Bound::Excluded(high) => of(high)[0].checked_sub(1),
        Bound::Unbounded => Some(u64::MAX),
    };
    first.zip(last).map_or(NONE, |(first, last)| [first, last])
}

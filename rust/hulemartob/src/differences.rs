//! Where two columns differ.

use std::iter::FusedIterator;
use std::marker::PhantomData;

use crate::raw::View;
use crate::{Column, Error, Value};

/// A row at which two columns answer otherwise, with both answers. A row that one of them lacks is refused 12 there.
#[derive(Debug, Clone, Copy, PartialEq)]
pub struct Difference<T = u64> {
    /// The row, counted from the windows' starts.
    pub row: u32,
    /// What the one column answers.
    pub left: Result<T, Error>,
    /// What the other does.
    pub right: Result<T, Error>,
}

/// The rows at which two columns differ, ascending: [`Column::differences`].
#[derive(Debug, Clone)]
#[must_use = "iterators do nothing unless they are used"]
pub struct Differences<'a, T = u64> {
    left: View<'a>,
    right: View<'a>,
    /// The first row that was not looked at, if there is one.
    next: Option<u32>,
    values: PhantomData<T>,
}

impl<T: Value> Iterator for Differences<'_, T> {
    type Item = Difference<T>;

    fn next(&mut self) -> Option<Difference<T>> {
        let from = self.next.take()?;
        let Difference { row, left, right } = self.left.difference(self.right, from).expect("the numbers of two columns")?;
        self.next = row.checked_add(1);
        Some(Difference { row, left: left.map(T::from_stored), right: right.map(T::from_stored) })
    }
}

impl<T: Value> FusedIterator for Differences<'_, T> {}

impl<T: Value, B: AsRef<[u8]>> Column<T, B> {
    /// The rows whose answers differ between this column and another, ascending, with both answers. The codecs do not matter, nor do the heads. Values are compared by
    /// their stored numbers, refused rows by their refusals' numbers, and rows count from the windows' starts. The library looks at chunks of rows: where all
    /// answers are equal nothing is asked row by row.
    ///
    /// ```
    /// use hulemartob::{Codec, Column, Difference, encode_with};
    ///
    /// let left = Column::open(encode_with(&[10u64, 30, 20], &[Codec::Bitpacked])?)?;
    /// let right = Column::open(encode_with(&[10u64, 30, 40], &[Codec::Blockwise])?)?;
    /// let differing: Vec<Difference> = left.differences(&right).collect();
    /// assert_eq!(differing, [Difference { row: 2, left: Ok(20), right: Ok(40) }]);
    /// assert_eq!(left.differences(&left).count(), 0);
    /// # Ok::<(), hulemartob::Error>(())
    /// ```
    pub fn differences<'a, C: AsRef<[u8]>>(&'a self, other: &'a Column<T, C>) -> Differences<'a, T> {
        Differences { left: self.raw(), right: other.raw(), next: Some(0), values: PhantomData }
    }
}

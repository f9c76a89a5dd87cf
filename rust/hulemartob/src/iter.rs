//! The values of a column in turn.

use std::fmt;
use std::iter::FusedIterator;
use std::ops::Range;

use crate::column::{chunks, read_run};
use crate::raw::View;
use crate::write::BLOCK;
use crate::{Error, Value};

/// The values of a column's rows in turn, from either end: [`Column::iter`](crate::Column::iter).
#[derive(Clone)]
#[must_use = "iterators do nothing unless they are used"]
pub struct Iter<'a, T> {
    view: View<'a>,
    /// Those that are still to come.
    rows: Range<u32>,
    front: Chunk<T>,
    back: Chunk<T>,
}

/// Rows that were decoded together.
#[derive(Clone)]
struct Chunk<T> {
    rows: Range<u32>,
    /// Their values; empty if one of them is refused, so that each has to be asked for by itself.
    values: Vec<T>,
}

impl<T: Value> Chunk<T> {
    const NONE: Chunk<T> = Chunk { rows: 0..0, values: Vec::new() };

    fn decode(&mut self, view: View<'_>, rows: Range<u32>) {
        self.values.resize(rows.len(), T::default());
        if read_run(view, rows.start, &mut self.values).is_err() {
            self.values.clear();
        }
        self.rows = rows;
    }

    /// The value of a row, if it was decoded.
    #[inline]
    fn value(&self, row: u32) -> Option<T> {
        self.values.get(row.wrapping_sub(self.rows.start) as usize).copied()
    }
}

impl<'a, T: Value> Iter<'a, T> {
    pub(crate) fn new(view: View<'a>) -> Iter<'a, T> {
        Iter { view, rows: 0..view.numbers.window_rows as u32, front: Chunk::NONE, back: Chunk::NONE }
    }

    /// A row by itself, if it was tried to decode it with others: one of them is refused.
    fn alone(&self, row: u32) -> Option<Result<T, Error>> {
        let tried = self.front.rows.contains(&row) || self.back.rows.contains(&row);
        tried.then(|| self.view.row(row).map(T::from_stored))
    }

    /// The answer of the front row, which the front chunk does not have.
    #[cold]
    fn next_chunk(&mut self, row: u32) -> Result<T, Error> {
        if let Some(answer) = self.back.value(row).map(Ok).or_else(|| self.alone(row)) {
            return answer;
        }
        let rows = chunks(self.view.numbers, row..self.rows.end).next().unwrap_or(row..row + 1);
        self.front.decode(self.view, rows);
        self.front.value(row).map_or_else(|| self.view.row(row).map(T::from_stored), Ok)
    }

    /// The answer of the back row, which the back chunk does not have.
    #[cold]
    fn next_chunk_back(&mut self, row: u32) -> Result<T, Error> {
        if let Some(answer) = self.front.value(row).map(Ok).or_else(|| self.alone(row)) {
            return answer;
        }
        // The rows still to come that lie in one block with the last of them.
        let before = (self.view.numbers.first_row + u64::from(row)) % u64::from(BLOCK);
        let first = self.rows.start.max(row.saturating_sub(before as u32));
        self.back.decode(self.view, first..row + 1);
        self.back.value(row).map_or_else(|| self.view.row(row).map(T::from_stored), Ok)
    }
}

impl<T: Value> Iterator for Iter<'_, T> {
    type Item = Result<T, Error>;

    #[inline]
    fn next(&mut self) -> Option<Self::Item> {
        let row = self.rows.next()?;
        let answer = self.front.value(row);
        Some(answer.map_or_else(|| self.next_chunk(row), Ok))
    }

    #[inline]
    fn size_hint(&self) -> (usize, Option<usize>) {
        (self.rows.len(), Some(self.rows.len()))
    }

    fn nth(&mut self, n: usize) -> Option<Self::Item> {
        self.rows.start = self.rows.end.min(self.rows.start.saturating_add(u32::try_from(n).unwrap_or(u32::MAX)));
        self.next()
    }
}

impl<T: Value> DoubleEndedIterator for Iter<'_, T> {
    #[inline]
    fn next_back(&mut self) -> Option<Self::Item> {
        let row = self.rows.next_back()?;
        let answer = self.back.value(row);
        Some(answer.map_or_else(|| self.next_chunk_back(row), Ok))
    }
}

impl<T: Value> ExactSizeIterator for Iter<'_, T> {}

impl<T: Value> FusedIterator for Iter<'_, T> {}

impl<T: Value> fmt::Debug for Iter<'_, T> {
    fn fmt(&self, f: &mut fmt::Formatter<'_>) -> fmt::Result {
        write!(f, "Iter<{}> {{ rows {:?} }}", T::KIND, self.rows)
    }
}

//! Opened columns: reading rows, looking rows up, windows.

use std::fmt;
use std::marker::PhantomData;
use std::ops::{Bound, Range, RangeBounds};
use std::sync::Arc;

use crate::iter::Iter;
use crate::raw::{self, Block, Numbers, View};
use crate::value::stored_range;
use crate::write::BLOCK;
use crate::{Codec, Error, Sheet, Stats, Value, ffi};

/// An opened column of values of type `T` over bytes `B`, which it borrows (`&[u8]`) or owns (`Vec<u8>`, `Arc<[u8]>`, a memory map). It is seen through a
/// [window](Column::window); opening shows all rows. Its windows and clones share its block table.
///
/// The bytes do not tell the type of the values. [`open`](Column::open) reads plain numbers; [`typed`](Column::typed) makes values of another
/// type of them.
///
/// ```
/// use hulemartob::{Column, Date, encode};
///
/// let bytes = encode(&[Date(0), Date(-86_400_000_000_000)])?;
/// let dates = Column::open(&bytes)?.typed::<Date>();
/// assert_eq!(dates.get(1)?, Date(-86_400_000_000_000));
/// assert_eq!(dates.find(Date(0).., ..)?, [0]);
///
/// // Owned bytes: the column can be kept anywhere.
/// struct Series {
///     times: Column<Date, Vec<u8>>,
/// }
/// let series = Series { times: Column::open(bytes)?.typed() };
/// assert_eq!(series.times.len(), 2);
/// # Ok::<(), hulemartob::Error>(())
/// ```
///
/// Nobody may write to the bytes during a call: a file that is mapped into memory must not be one that others change.
#[derive(Clone)]
#[must_use]
pub struct Column<T = u64, B = &'static [u8]> {
    bytes: B,
    numbers: Numbers,
    longer: Option<usize>,
    table: Arc<[Block]>,
    values: PhantomData<fn() -> T>,
}

/// A line by which rows are coded: at a row, its slope times the row, without the 32 bits after the point, above the intercept.
#[derive(Clone, Copy, Debug, PartialEq, Eq, Hash)]
pub struct Line {
    /// The slope, with 32 bits after the point.
    pub slope: u64,
    /// The line's value at the first row.
    pub intercept: u64,
}

impl<B: AsRef<[u8]>> Column<u64, B> {
    /// Opens the column that `bytes` hold, under sheet 1: bytes behind the column are accepted, and so are numbers in more bytes than they need.
    ///
    /// ```
    /// use hulemartob::{Column, Error, encode};
    ///
    /// let bytes = encode(&[10u64, 30, 20])?;
    /// let column = Column::open(&bytes)?;
    /// assert_eq!(column.get(1), Ok(30));
    /// assert_eq!(column.get(3), Err(Error::NoSuchRow));
    /// assert_eq!(Column::open(&bytes[..5]).unwrap_err(), Error::AreaShort);
    /// # Ok::<(), Error>(())
    /// ```
    ///
    /// # Errors
    ///
    /// Where the bytes are no column, 5 to 10: [`NotAColumn`](Error::NotAColumn), [`BadField`](Error::BadField), [`GcdZero`](Error::GcdZero),
    /// [`OutOfRange`](Error::OutOfRange), [`IllegalWidth`](Error::IllegalWidth), [`AreaShort`](Error::AreaShort).
    pub fn open(bytes: B) -> Result<Column<u64, B>, Error> {
        Column::open_under(Sheet::One, bytes)
    }

    /// Opens the column that `bytes` hold under an acceptance sheet.
    ///
    /// ```
    /// use hulemartob::{Column, Error, Sheet, encode};
    ///
    /// let mut bytes = encode(&[10u64, 30, 20])?;
    /// assert!(Column::open_under(Sheet::Two, &bytes).is_ok());
    /// bytes.push(0);
    /// assert!(Column::open(&bytes).is_ok());
    /// assert_eq!(Column::open_under(Sheet::Two, &bytes).unwrap_err(), Error::Offending { offset: 6 });
    /// # Ok::<(), Error>(())
    /// ```
    ///
    /// # Errors
    ///
    /// Those of [`open`](Column::open), then [`Offending`](Error::Offending).
    pub fn open_under(sheet: Sheet, bytes: B) -> Result<Column<u64, B>, Error> {
        let data = bytes.as_ref();
        let (numbers, longer, table) = match raw::open(sheet as u32, data, &mut []) {
            Ok((numbers, longer)) => (numbers, longer, Arc::default()),
            // Opening touches the table only once the column is known to be sound. So a damaged column of a few bytes that claims 2^32 rows
            // costs nothing here.
            Err(Error::TableShort { blocks }) => {
                let mut table = ffi::zeroed_table(blocks);
                let (numbers, longer) = raw::open(sheet as u32, data, &mut table)?;
                (numbers, longer, table.into())
            }
            Err(error) => return Err(error),
        };
        Ok(Column::of(bytes, numbers, table, longer))
    }

    pub(crate) fn of(bytes: B, numbers: Numbers, table: Arc<[Block]>, longer: Option<usize>) -> Column<u64, B> {
        Column { bytes, numbers, longer, table, values: PhantomData }
    }
}

impl<T: Value, B: AsRef<[u8]>> Column<T, B> {
    /// The same column with its stored numbers read as values of another type.
    ///
    /// ```
    /// use hulemartob::{Column, encode};
    ///
    /// let bytes = encode(&[-1i64, 1])?;
    /// let stored = Column::open(&bytes)?;
    /// assert_eq!(stored.get(0)?, (1 << 63) - 1);
    /// assert_eq!(stored.typed::<i64>().get(0)?, -1);
    /// # Ok::<(), hulemartob::Error>(())
    /// ```
    pub fn typed<U: Value>(self) -> Column<U, B> {
        Column { bytes: self.bytes, numbers: self.numbers, longer: self.longer, table: self.table, values: PhantomData }
    }

    /// The same column over borrowed bytes, for windows of a column that owns its bytes.
    ///
    /// ```
    /// use hulemartob::{Column, encode};
    ///
    /// let column = Column::open(encode(&[10u64, 30, 20])?)?;
    /// assert_eq!(column.borrowed().window(1..)?.to_vec()?, [30, 20]);
    /// # Ok::<(), hulemartob::Error>(())
    /// ```
    pub fn borrowed(&self) -> Column<T, &[u8]> {
        self.with(self.bytes(), self.numbers)
    }

    /// The column's numbers, table and bytes, for the calls of [`raw`].
    #[inline]
    #[must_use]
    pub fn raw(&self) -> View<'_> {
        View { numbers: &self.numbers, table: &self.table, bytes: self.bytes.as_ref() }
    }

    fn with<C>(&self, bytes: C, numbers: Numbers) -> Column<T, C> {
        Column { bytes, numbers, longer: self.longer, table: Arc::clone(&self.table), values: PhantomData }
    }

    /// How many rows are seen: those of the window.
    #[inline]
    #[must_use]
    pub fn len(&self) -> u32 {
        self.numbers.window_rows as u32
    }

    /// Whether none is.
    #[must_use]
    pub fn is_empty(&self) -> bool {
        self.len() == 0
    }

    /// The value of a row.
    ///
    /// # Errors
    ///
    /// [`NoSuchRow`](Error::NoSuchRow) behind the last row, [`OutOfBounds`](Error::OutOfBounds) where the column is damaged. A column that was
    /// [made up](crate::raw), and no other, also [`Unfit`](Error::Unfit); so it is wherever rows are read.
    #[inline]
    pub fn get(&self, row: u32) -> Result<T, Error> {
        self.raw().row(row).map(T::from_stored)
    }

    /// The values of the rows from `first` on, as many as fill the lent list. A refusal leaves the list as it was.
    ///
    /// ```
    /// use hulemartob::{Column, Error, encode};
    ///
    /// let column = Column::open(encode(&[10u64, 30, 20])?)?;
    /// let mut two = [0; 2];
    /// column.read_into(1, &mut two)?;
    /// assert_eq!(two, [30, 20]);
    /// assert_eq!(column.read_into(2, &mut two), Err(Error::NoSuchRow));
    /// assert_eq!(two, [30, 20]);
    /// # Ok::<(), Error>(())
    /// ```
    ///
    /// That a refusal leaves the list as it was may cost a second walk over runs of more than 512 rows, which [`to_vec`](Column::to_vec),
    /// [`read_all`](Column::read_all) and [`iter`](Column::iter) do not take.
    ///
    /// # Errors
    ///
    /// [`NoSuchRow`](Error::NoSuchRow) if the run leaves the rows, then that of the first row that [`get`](Column::get) refuses.
    pub fn read_into(&self, first: u32, out: &mut [T]) -> Result<(), Error> {
        read_run(self.raw(), first, out)
    }

    /// The values of all rows.
    ///
    /// A column of a few bytes may claim 2^32 - 1 rows: where bytes come from elsewhere, look at [`len`](Column::len) first.
    ///
    /// ```
    /// use hulemartob::{Column, encode};
    ///
    /// assert_eq!(Column::open(encode(&[10u64, 30, 20])?)?.to_vec()?, [10, 30, 20]);
    /// # Ok::<(), hulemartob::Error>(())
    /// ```
    ///
    /// # Errors
    ///
    /// That of the first row that [`get`](Column::get) refuses.
    pub fn to_vec(&self) -> Result<Vec<T>, Error> {
        let mut values = vec![T::default(); self.len() as usize];
        self.read_chunks(&mut values)?;
        Ok(values)
    }

    /// The values of all rows in place of those that a list holds, whose memory is used again: [`to_vec`](Column::to_vec). A refusal leaves the list empty.
    ///
    /// ```
    /// use hulemartob::{Column, encode};
    ///
    /// let mut values = vec![7; 1000];
    /// Column::open(encode(&[10u64, 30, 20])?)?.read_all(&mut values)?;
    /// assert_eq!(values, [10, 30, 20]);
    /// # Ok::<(), hulemartob::Error>(())
    /// ```
    ///
    /// # Errors
    ///
    /// That of the first row that [`get`](Column::get) refuses.
    pub fn read_all(&self, values: &mut Vec<T>) -> Result<(), Error> {
        values.resize(self.len() as usize, T::default());
        self.read_chunks(values).inspect_err(|_| values.clear())
    }

    /// All rows into a list of their number, each chunk once.
    fn read_chunks(&self, values: &mut [T]) -> Result<(), Error> {
        let view = self.raw();
        chunks(view.numbers, 0..self.len())
            .try_for_each(|rows| read_run(view, rows.start, &mut values[rows.start as usize..rows.end as usize]))
    }

    /// The values of all rows in turn, from either end, each as [`get`](Column::get) answers it: a refused row does not end it. They are decoded a
    /// chunk at a time.
    ///
    /// ```
    /// use hulemartob::{Column, Error, encode};
    ///
    /// let column = Column::open(encode(&[10u64, 30, 20])?)?;
    /// let sum = column.iter().sum::<Result<u64, Error>>()?;
    /// assert_eq!(sum, 60);
    /// assert_eq!(column.iter().rev().flatten().collect::<Vec<_>>(), [20, 30, 10]);
    /// # Ok::<(), Error>(())
    /// ```
    pub fn iter(&self) -> Iter<'_, T> {
        Iter::new(self.raw())
    }

    /// The rows of a range whose value lies in a range, ascending. The rows' end is cut to the window's.
    ///
    /// Signed numbers and dates go by their order, false comes before true. Floats go by the order of the stored numbers: -0.0 lies directly under +0.0, and
    /// NaNs lie beyond the infinity of their sign.
    ///
    /// ```
    /// use hulemartob::{Column, encode};
    ///
    /// let column = Column::open(encode(&[10u64, 30, 20, 10])?)?;
    /// assert_eq!(column.find(10..=20, ..)?, [0, 2, 3]);
    /// assert_eq!(column.find(10..20, 1..)?, [3]);
    ///
    /// let column = Column::open(encode(&[0.0, -0.0, f64::NAN])?)?.typed::<f64>();
    /// assert_eq!(column.find(0.0..=0.0, ..)?, [0]);
    /// assert_eq!(column.find(f64::NAN.., ..)?, [2]);
    /// # Ok::<(), hulemartob::Error>(())
    /// ```
    ///
    /// # Errors
    ///
    /// That of the first of these rows that [`get`](Column::get) refuses, whatever the values are.
    pub fn find(&self, values: impl RangeBounds<T>, rows: impl RangeBounds<u32>) -> Result<Vec<u32>, Error> {
        let mut found = Vec::new();
        find_stored(self.raw(), stored_range(&values), row_range(&rows), &mut found)?;
        Ok(found)
    }

    /// A window in this column's window: its rows are those of a range, and count from its start. A range that ends before it starts has no rows.
    ///
    /// Bytes that the column owns are cloned: share them as `Arc<[u8]>`, or take windows of [`borrowed`](Column::borrowed).
    ///
    /// ```
    /// use hulemartob::{Column, encode};
    ///
    /// let bytes = encode(&[10u64, 30, 20, 50])?;
    /// let page = Column::open(&bytes)?.window(1..4)?;
    /// assert_eq!(page.len(), 3);
    /// assert_eq!(page.get(0)?, 30);
    /// assert_eq!(page.window(1..)?.to_vec()?, [20, 50]);
    /// # Ok::<(), hulemartob::Error>(())
    /// ```
    ///
    /// # Errors
    ///
    /// [`NoSuchRow`](Error::NoSuchRow) if the range ends behind the rows; then [`Unfit`](Error::Unfit) if this column was [made up](crate::raw) and its own
    /// window leaves it.
    pub fn window(&self, rows: impl RangeBounds<u32>) -> Result<Column<T, B>, Error>
    where
        B: Clone,
    {
        let (first, end) = match (rows.start_bound(), rows.end_bound()) {
            // Behind the last row of any column.
            (Bound::Excluded(&u32::MAX), _) | (_, Bound::Included(&u32::MAX)) => return Err(Error::NoSuchRow),
            (_, Bound::Unbounded) => (row_range(&rows).start, self.len()),
            _ => (row_range(&rows).start, row_range(&rows).end),
        };
        let numbers = self.numbers.narrow(first, end.saturating_sub(first))?;
        Ok(self.with(self.bytes.clone(), numbers))
    }

    /// The bytes that hold the column.
    #[must_use]
    pub fn bytes(&self) -> &[u8] {
        self.bytes.as_ref()
    }

    /// The bytes, back from the column.
    #[must_use]
    pub fn into_bytes(self) -> B {
        self.bytes
    }

    /// The codec.
    #[must_use]
    pub fn codec(&self) -> Codec {
        Codec::ALL[self.numbers.codec as usize]
    }

    /// The least value that the head states, whatever the window.
    #[must_use]
    pub fn minimum(&self) -> T {
        T::from_stored(self.numbers.minimum)
    }

    /// The greatest value that the head states: minimum + gcd · count.
    #[must_use]
    pub fn maximum(&self) -> T {
        T::from_stored(self.stored_maximum())
    }

    /// It fits in every column that was opened; of one that was made up it is taken modulo 2^64.
    fn stored_maximum(&self) -> u64 {
        self.numbers.minimum.wrapping_add(self.numbers.gcd.wrapping_mul(self.numbers.count))
    }

    /// What all stored numbers' distances from the minimum are multiples of.
    #[must_use]
    pub fn gcd(&self) -> u64 {
        self.numbers.gcd
    }

    /// How many times the gcd the maximum lies above the minimum.
    #[must_use]
    pub fn count(&self) -> u64 {
        self.numbers.count
    }

    /// What the head states of the whole column, as [`stats`](crate::stats()) does of a list.
    #[must_use]
    pub fn stats(&self) -> Stats {
        Stats { minimum: self.numbers.minimum, maximum: self.stored_maximum(), gcd: self.numbers.gcd, rows: self.column_len() }
    }

    /// The offsets of the packed area.
    #[must_use]
    pub fn area(&self) -> Range<usize> {
        let start = self.numbers.area_start as usize;
        start..start.saturating_add(self.numbers.area_size as usize)
    }

    /// How many bits each row has in the packed area; none for a Blockwise column, each of whose [blocks](Column::blocks) has a width of its own.
    ///
    /// ```
    /// use hulemartob::{Codec, Column, encode};
    ///
    /// let column = Column::open(encode(&[10u64, 30, 20])?)?;
    /// assert_eq!((column.codec(), column.gcd(), column.count()), (Codec::Bitpacked, 10, 2));
    /// assert_eq!((column.width(), column.area()), (Some(2), 5..6));
    /// # Ok::<(), hulemartob::Error>(())
    /// ```
    #[must_use]
    pub fn width(&self) -> Option<u32> {
        match self.codec() {
            Codec::Bitpacked => Some(packed_width(self.numbers.count)),
            Codec::Linear => Some(self.numbers.width as u32),
            Codec::Blockwise => None,
        }
    }

    /// The line of a Linear column; none for the others.
    #[must_use]
    pub fn line(&self) -> Option<Line> {
        let Numbers { slope, intercept, .. } = self.numbers;
        (self.codec() == Codec::Linear).then_some(Line { slope, intercept })
    }

    /// The blocks of a Blockwise column, one for each 512 rows; of the others none.
    #[must_use]
    pub fn blocks(&self) -> &[Block] {
        &self.table
    }

    /// The column's row that row 0 is: where the window starts.
    #[must_use]
    pub fn first_row(&self) -> u32 {
        self.numbers.first_row as u32
    }

    /// How many rows the whole column has, whatever the window.
    #[must_use]
    pub fn column_len(&self) -> u32 {
        self.numbers.rows as u32
    }

    /// The offset of the first number, in the head, the line or the blocks' fields, that is spelled in more bytes than it need be; none if there is none, or
    /// if the column was made up.
    #[must_use]
    pub fn longer_spelling(&self) -> Option<usize> {
        self.longer
    }
}

impl<T: Value, B: AsRef<[u8]>> fmt::Debug for Column<T, B> {
    fn fmt(&self, f: &mut fmt::Formatter<'_>) -> fmt::Result {
        let (first, end) = (self.numbers.first_row, self.numbers.first_row + self.numbers.window_rows);
        write!(f, "Column<{}> {{ {}, rows {first}..{end} of {}, ", T::KIND, self.codec(), self.column_len())?;
        write!(f, "{} bytes }}", self.bytes().len())
    }
}

impl<'a, T: Value, B: AsRef<[u8]>> IntoIterator for &'a Column<T, B> {
    type Item = Result<T, Error>;
    type IntoIter = Iter<'a, T>;

    fn into_iter(self) -> Iter<'a, T> {
        self.iter()
    }
}

/// The width at which Bitpacked packs numbers up to a count: their bits, 57 to 63 of which go into 64.
fn packed_width(count: u64) -> u32 {
    let bits = u64::BITS - count.leading_zeros();
    if bits > 56 { 64 } else { bits }
}

/// A run of rows as values; a refusal leaves the list as it was.
pub(crate) fn read_run<T: Value>(view: View<'_>, first: u32, out: &mut [T]) -> Result<(), Error> {
    if let Some(words) = T::words_mut(out) {
        view.run(first, words)?;
        ffi::values_as(T::KIND, words);
        return Ok(());
    }
    let (mut few, mut many) = ([0; BLOCK as usize], Vec::new());
    let stored = if out.len() <= few.len() {
        &mut few[..out.len()]
    } else {
        many.resize(out.len(), 0);
        &mut many[..]
    };
    view.run(first, stored)?;
    out.iter_mut().zip(stored).for_each(|(value, stored)| *value = T::from_stored(*stored));
    Ok(())
}

/// Cuts rows of a window into chunks, none with rows of two blocks: the library goes over each of them once.
pub(crate) fn chunks(numbers: &Numbers, rows: Range<u32>) -> impl Iterator<Item = Range<u32>> + use<> {
    let (before, mut next) = (numbers.first_row as u32, rows.start);
    std::iter::from_fn(move || {
        let first = next;
        next = rows.end.min(first.saturating_add(BLOCK - before.wrapping_add(first) % BLOCK));
        (first < next).then_some(first..next)
    })
}

/// Rows of a range, which may end behind all.
pub(crate) fn row_range(rows: &impl RangeBounds<u32>) -> Range<u32> {
    let start = match rows.start_bound() {
        Bound::Included(&first) => first,
        Bound::Excluded(&before) => before.saturating_add(1),
        Bound::Unbounded => 0,
    };
    let end = match rows.end_bound() {
        Bound::Included(&last) => last.saturating_add(1),
        Bound::Excluded(&end) => end,
        Bound::Unbounded => u32::MAX,
    };
    start..end
}

/// Puts the rows with a stored number from `low` to `high` behind those that were found before. They are decoded a chunk at a time and once, where a lookup of
/// the library would go over them twice, to count and to store: it has to leave a list that is too short as it was.
pub(crate) fn find_stored(view: View<'_>, [low, high]: [u64; 2], rows: Range<u32>, found: &mut Vec<u32>) -> Result<(), Error> {
    let end = rows.end.min(view.numbers.window_rows as u32);
    let (mut stored, mut hits) = ([0; BLOCK as usize], [0; BLOCK as usize]);
    for chunk in chunks(view.numbers, rows.start..end) {
        let stored = &mut stored[..chunk.len()];
        view.run(chunk.start, stored)?;
        // A refused row decides also where nothing is looked for.
        if let Some(span) = high.checked_sub(low)
            && !all_outside(stored, low, span)
        {
            let many = gather(stored, low, span, chunk.start, &mut hits);
            found.extend_from_slice(&hits[..many]);
        }
    }
    Ok(())
}

/// Whether all numbers are known to lie outside `low` to `low + span`, by the top bits of how far each lies above the low end and of what is then left of the
/// span, which need no comparison. Of a span of 2^63 or more nothing is known.
fn all_outside(numbers: &[u64], low: u64, span: u64) -> bool {
    let outside = |number: u64| {
        let above = number.wrapping_sub(low);
        (above | span.wrapping_sub(above)) >> 63
    };
    span >> 63 == 0 && numbers.iter().map(|&number| outside(number)).sum::<u64>() == numbers.len() as u64
}

/// Puts the rows whose number lies in `low` to `low + span` to the front of a list: how many they are. Each row is put there, and the next one over it if it is
/// none of them, so that there is no branch to be guessed.
fn gather(numbers: &[u64], low: u64, span: u64, first: u32, hits: &mut [u32; BLOCK as usize]) -> usize {
    let mut many = 0;
    for (row, &number) in (first..).zip(numbers) {
        hits[many % hits.len()] = row;
        many += usize::from(number.wrapping_sub(low) <= span);
    }
    many
}

//! The functions of the archive, each behind a safe one. No other file of this crate has unsafe code.
//!
//! The archive's functions are total: whatever is behind their pointers, they read and write only inside the lengths beside them, end, and keep no pointer.
//! What they ask of a caller is what Rust asks of a reference (include/hulemartob.h): that a pointer leads to as many elements as are said, aligned, and that
//! nothing else reads or writes what is lent to be written. So wherever below every pointer is that of a reference, and every length that of its slice, a
//! call is sound; this is what the comments call *lent*.
#![allow(unsafe_code)]

use std::mem::ManuallyDrop;
use std::ops::Range;
use std::slice;

use crate::raw::{Block, Cursor, Numbers, View};
use crate::{Date, Difference, Error, Kind, Part, Replay, Stats};

/// A refusal's number, 0 for none, and the value that it also returns.
type Refusal = [u64; 2];

#[rustfmt::skip]
unsafe extern "C" {
    fn hulemartob_column_stats(values: *const u64, values_len: usize, stats: &mut [u64; 4], refusal: &mut Refusal);
    fn hulemartob_column_stats_as(kind: u32, values: *const u64, values_len: usize, stats: &mut [u64; 4], refusal: &mut Refusal);
    fn hulemartob_sizes(kind: u32, values: *const u64, values_len: usize, sizes: &mut [u64; 3], refusal: &mut Refusal);

    fn hulemartob_serialize(values: *const u64, values_len: usize, codecs: *const u8, codecs_len: usize,
        out: *mut u8, out_len: usize, refusal: &mut Refusal) -> usize;
    fn hulemartob_serialize_as(kind: u32, values: *const u64, values_len: usize, codecs: *const u8, codecs_len: usize,
        out: *mut u8, out_len: usize, refusal: &mut Refusal) -> usize;

    fn hulemartob_open_under(sheet: u32, bytes: *const u8, bytes_len: usize, table: *mut Block, table_len: usize,
        column: &mut Numbers, refusal: &mut Refusal) -> u64;
    fn hulemartob_narrow(column: &mut Numbers, first: u32, count: u32, refusal: &mut Refusal);

    fn hulemartob_row(column: &Numbers, table: *const Block, table_len: usize, bytes: *const u8, bytes_len: usize,
        row: u32, refusal: &mut Refusal) -> u64;
    fn hulemartob_run(column: &Numbers, table: *const Block, table_len: usize, bytes: *const u8, bytes_len: usize,
        first: u32, out: *mut u64, out_len: usize, refusal: &mut Refusal) -> usize;
    fn hulemartob_lookup(column: &Numbers, table: *const Block, table_len: usize, bytes: *const u8, bytes_len: usize,
        low: u64, high: u64, first: u32, end: u32, found: *mut u32, found_len: usize, refusal: &mut Refusal) -> usize;
    fn hulemartob_replay(column: &Numbers, table: *const Block, table_len: usize, bytes: *const u8, bytes_len: usize,
        recording: *const u8, recording_len: usize, report: &mut [u64; 2], refusal: &mut Refusal);
    fn hulemartob_difference(left: &Numbers, ltable: *const Block, ltable_len: usize, lbytes: *const u8, lbytes_len: usize,
        right: &Numbers, rtable: *const Block, rtable_len: usize, rbytes: *const u8, rbytes_len: usize,
        from: u32, differing: &mut [u64; 7], refusal: &mut Refusal);
    fn hulemartob_part_at(column: &Numbers, bytes: *const u8, bytes_len: usize, offset: usize, part: &mut [u64; 5], refusal: &mut Refusal);
    fn hulemartob_parts(column: &Numbers, bytes: *const u8, bytes_len: usize, cursor: &mut Cursor, numbers: *mut u64, numbers_len: usize,
        refusal: &mut Refusal) -> usize;
    fn hulemartob_rows_at(column: &Numbers, table: *const Block, table_len: usize, bytes: *const u8, bytes_len: usize,
        offset: usize, rows: &mut [u64; 2], refusal: &mut Refusal);

    fn hulemartob_stop(bytes: *const u8, bytes_len: usize, place: &mut [u64; 4]);

    fn hulemartob_check(kind: u32, sheet: u32, bytes: *const u8, bytes_len: usize, values: *const u64, values_len: usize,
        table: *mut Block, table_len: usize, verdict: &mut [u64; 3], refusal: &mut Refusal);

    safe fn hulemartob_i64_of(stored: u64) -> i64;
    safe fn hulemartob_bool_of(stored: u64) -> bool;
    safe fn hulemartob_f64_bits_of(stored: u64) -> u64;
    fn hulemartob_values_as(kind: u32, list: *mut u64, list_len: usize);
    safe fn hulemartob_i64_range(low: i64, high: i64, range: &mut [u64; 2]);
    safe fn hulemartob_bool_range(low: bool, high: bool, range: &mut [u64; 2]);
    safe fn hulemartob_f64_range(low: u64, high: u64, range: &mut [u64; 2]);
}

/// What a call answered.
#[inline]
fn answer<T>(refusal: Refusal, value: T) -> Result<T, Error> {
    if refusal[0] == 0 { Ok(value) } else { Err(error(refusal)) }
}

/// The error of a refusal. It is proved of every call that the number is one of the table.
#[cold]
pub(crate) fn error([number, value]: Refusal) -> Error {
    Error::from_numbers(number, value).expect("a refusal's number")
}

/// The statistics of the numbers that a list of words is stored as.
///
/// # Errors
///
/// 1.
pub fn stats(kind: Kind, words: &[u64]) -> Result<Stats, Error> {
    let (mut stats, mut refusal) = ([0; 4], [0; 2]);
    match kind {
        // SAFETY: lent.
        Kind::U64 => unsafe { hulemartob_column_stats(words.as_ptr(), words.len(), &mut stats, &mut refusal) },
        // SAFETY: lent.
        _ => unsafe { hulemartob_column_stats_as(kind as u32, words.as_ptr(), words.len(), &mut stats, &mut refusal) },
    }
    answer(refusal, Stats::from_numbers(stats))
}

/// What the choice of a codec compares, for a list of words of a kind: the size by each codec in the order of their numbers, [`u64::MAX`] where one does not
/// apply. [`Sizes`](crate::Sizes) says what the sizes are.
///
/// # Errors
///
/// 1.
pub fn sizes(kind: Kind, words: &[u64]) -> Result<[u64; 3], Error> {
    let (mut sizes, mut refusal) = ([0; 3], [0; 2]);
    // SAFETY: lent.
    unsafe { hulemartob_sizes(kind as u32, words.as_ptr(), words.len(), &mut sizes, &mut refusal) };
    answer(refusal, sizes)
}

/// Writes a list of words of a kind as a column into `out`, by that of the listed codecs whose size is least; the codecs are code bytes. Returns the
/// column's length; the bytes behind it stay as they are.
///
/// # Errors
///
/// 1 to 4, in this order. An output of no bytes is refused 4 with the length needed.
pub fn serialize(kind: Kind, words: &[u64], codecs: &[u8], out: &mut [u8]) -> Result<usize, Error> {
    let (values, many, codes, listed) = (words.as_ptr(), words.len(), codecs.as_ptr(), codecs.len());
    let (written, room, mut refusal) = (out.as_mut_ptr(), out.len(), [0; 2]);
    let length = match kind {
        // SAFETY: lent.
        Kind::U64 => unsafe { hulemartob_serialize(values, many, codes, listed, written, room, &mut refusal) },
        // SAFETY: lent.
        _ => unsafe { hulemartob_serialize_as(kind as u32, values, many, codes, listed, written, room, &mut refusal) },
    };
    answer(refusal, length)
}

/// Opens the column that `bytes` hold under an acceptance sheet: its numbers, and the offset of the first number that is spelled in more bytes than it need
/// be, if one is. The blocks of a Blockwise column are then the first records of `table`.
///
/// # Errors
///
/// 18, then 5 to 11, then 17. A table of no records is refused 11 with the blocks needed.
pub fn open(sheet: u32, bytes: &[u8], table: &mut [Block]) -> Result<(Numbers, Option<usize>), Error> {
    let (mut numbers, mut refusal) = (Numbers::default(), [0; 2]);
    let (records, room) = (table.as_mut_ptr(), table.len());
    // SAFETY: lent.
    let longer = unsafe { hulemartob_open_under(sheet, bytes.as_ptr(), bytes.len(), records, room, &mut numbers, &mut refusal) };
    answer(refusal, (numbers, (longer != u64::MAX).then_some(longer as usize)))
}

/// The four numbers of where opening stops: the refusal's, the part, its block, its offset; zeros where it does not.
pub(crate) fn stop(bytes: &[u8]) -> [u64; 4] {
    let mut place = [0; 4];
    // SAFETY: lent.
    unsafe { hulemartob_stop(bytes.as_ptr(), bytes.len(), &mut place) };
    place
}

/// The three numbers of the verdict on a column. No kind that there is makes the call refuse.
pub(crate) fn check(kind: Kind, sheet: u32, bytes: &[u8], words: &[u64], table: &mut [Block]) -> [u64; 3] {
    let (values, many, records, room) = (words.as_ptr(), words.len(), table.as_mut_ptr(), table.len());
    let (mut verdict, mut refusal) = ([0; 3], [0; 2]);
    // SAFETY: lent.
    unsafe { hulemartob_check(kind as u32, sheet, bytes.as_ptr(), bytes.len(), values, many, records, room, &mut verdict, &mut refusal) };
    verdict
}

impl Numbers {
    /// The same with the window narrowed to `count` rows from its row `first` on.
    ///
    /// # Errors
    ///
    /// 12 if these are not in the window, then 13 if the window leaves the column, even for no rows.
    pub fn narrow(mut self, first: u32, count: u32) -> Result<Numbers, Error> {
        let mut refusal = [0; 2];
        // SAFETY: lent.
        unsafe { hulemartob_narrow(&mut self, first, count, &mut refusal) };
        answer(refusal, self)
    }
}

impl View<'_> {
    /// The stored number of a row.
    ///
    /// # Errors
    ///
    /// 12 to 14.
    #[inline]
    pub fn row(self, row: u32) -> Result<u64, Error> {
        let View { numbers, table, bytes } = self;
        let mut refusal = [0; 2];
        // SAFETY: lent.
        let value = unsafe { hulemartob_row(numbers, table.as_ptr(), table.len(), bytes.as_ptr(), bytes.len(), row, &mut refusal) };
        answer(refusal, value)
    }

    /// Decodes the rows from `first` on, as many as `out` has entries, which then hold their stored numbers; a refusal leaves them as they were. A run of
    /// several chunks of 512 rows may be gone over twice.
    ///
    /// # Errors
    ///
    /// 12 if the run leaves the rows, then that of the first row that [`View::row`] refuses.
    #[inline]
    pub fn run(self, first: u32, out: &mut [u64]) -> Result<(), Error> {
        let View { numbers, table, bytes } = self;
        let (values, many, mut refusal) = (out.as_mut_ptr(), out.len(), [0; 2]);
        // SAFETY: lent.
        unsafe { hulemartob_run(numbers, table.as_ptr(), table.len(), bytes.as_ptr(), bytes.len(), first, values, many, &mut refusal) };
        answer(refusal, ())
    }

    /// Looks up the rows of a range, its end cut to the window's rows, whose stored number lies from `low` to `high`. They are then the first entries of
    /// `found`, ascending; returns how many.
    ///
    /// # Errors
    ///
    /// That of the first row of the range that [`View::row`] refuses, then 15 with the rows found.
    #[inline]
    pub fn lookup(self, low: u64, high: u64, rows: Range<u32>, found: &mut [u32]) -> Result<usize, Error> {
        let View { numbers, table, bytes } = self;
        let (Range { start, end }, hits, room) = (rows, found.as_mut_ptr(), found.len());
        let (blocks, held, data, size, mut refusal) = (table.as_ptr(), table.len(), bytes.as_ptr(), bytes.len(), [0; 2]);
        // SAFETY: lent.
        let many = unsafe { hulemartob_lookup(numbers, blocks, held, data, size, low, high, start, end, hits, room, &mut refusal) };
        answer(refusal, many)
    }

    /// Reruns the lookups of a recording: [`Column::replay`](crate::Column::replay).
    ///
    /// # Errors
    ///
    /// 13, then 19.
    pub fn replay(self, recording: &[u8]) -> Result<Replay, Error> {
        let View { numbers, table, bytes } = self;
        let (lookups, length, mut report, mut refusal) = (recording.as_ptr(), recording.len(), [0; 2], [0; 2]);
        let (blocks, held, data, size) = (table.as_ptr(), table.len(), bytes.as_ptr(), bytes.len());
        // SAFETY: lent.
        unsafe { hulemartob_replay(numbers, blocks, held, data, size, lookups, length, &mut report, &mut refusal) };
        answer(refusal, Replay::from_numbers(report))
    }

    /// The part that holds the byte at an offset.
    ///
    /// # Errors
    ///
    /// 13 past the last byte.
    pub fn part_at(self, offset: usize) -> Result<Part, Error> {
        let (mut part, mut refusal) = ([0; 5], [0; 2]);
        // SAFETY: lent.
        unsafe { hulemartob_part_at(self.numbers, self.bytes.as_ptr(), self.bytes.len(), offset, &mut part, &mut refusal) };
        answer(refusal, part).map(Part::from_numbers)
    }

    /// Lists the parts from a place on, those without bytes too, as many as there is room for, five numbers each: which part ([`PartName`](crate::PartName)), its
    /// block, its offset, its length, the number that it spells; what has no block or number has 0. The cursor's place is then behind them. Returns how many they
    /// are; where there was room for more, there are no more.
    ///
    /// ```
    /// use hulemartob::raw::Cursor;
    /// use hulemartob::{Column, encode};
    ///
    /// let column = Column::open(encode(&[10u64, 30, 20])?)?;
    /// let (mut parts, mut cursor) = ([[0; 5]; 4], Cursor::default());
    /// assert_eq!(column.raw().parts(&mut cursor, &mut parts)?, 4);
    /// assert_eq!(parts[1], [1, 0, 1, 1, 10]);
    /// assert_eq!(column.raw().parts(&mut cursor, &mut parts)?, 3);
    /// assert_eq!(cursor, Cursor { number: 7, offset: 6 });
    /// # Ok::<(), hulemartob::Error>(())
    /// ```
    ///
    /// # Errors
    ///
    /// 13 if the numbers are no column, or its area leaves the bytes.
    pub fn parts(self, cursor: &mut Cursor, parts: &mut [[u64; 5]]) -> Result<usize, Error> {
        let (numbers, room, mut refusal) = (parts.as_mut_ptr().cast(), 5 * parts.len(), [0; 2]);
        // SAFETY: lent; an array of five numbers is these, one behind the other.
        let listed = unsafe { hulemartob_parts(self.numbers, self.bytes.as_ptr(), self.bytes.len(), cursor, numbers, room, &mut refusal) };
        answer(refusal, listed)
    }

    /// The rows that own a bit of the byte at an offset, of the whole column, whatever its window; `0..0` where none does.
    ///
    /// # Errors
    ///
    /// 13 past the last byte.
    pub fn rows_at(self, offset: usize) -> Result<Range<u32>, Error> {
        let View { numbers, table, bytes } = self;
        let (mut rows, mut refusal) = ([0; 2], [0; 2]);
        // SAFETY: lent.
        unsafe {
            hulemartob_rows_at(numbers, table.as_ptr(), table.len(), bytes.as_ptr(), bytes.len(), offset, &mut rows, &mut refusal);
        }
        answer(refusal, rows[0] as u32..rows[1] as u32)
    }

    /// The first row from `from` on whose answers differ between this column and another, with both, or none.
    ///
    /// # Errors
    ///
    /// 13 if numbers are no column.
    pub fn difference(self, other: View<'_>, from: u32) -> Result<Option<Difference>, Error> {
        let View { numbers, table, bytes } = self;
        let View { numbers: others, table: blocks, bytes: against } = other;
        let (mut differing, mut refusal) = ([0; 7], [0; 2]);
        // SAFETY: lent.
        unsafe {
            hulemartob_difference(
                numbers,
                table.as_ptr(),
                table.len(),
                bytes.as_ptr(),
                bytes.len(),
                others,
                blocks.as_ptr(),
                blocks.len(),
                against.as_ptr(),
                against.len(),
                from,
                &mut differing,
                &mut refusal,
            );
        }
        let [row, number, also, value, others_number, others_also, others_value] = differing;
        let found = Difference { row: row as u32, left: told(number, also, value), right: told(others_number, others_also, others_value) };
        answer(refusal, (row != u64::MAX).then_some(found))
    }
}

/// What a row answered, by the refusal's two numbers and the value.
fn told(number: u64, also: u64, value: u64) -> Result<u64, Error> {
    answer([number, also], value)
}

/// What a stored number reads as: a signed number.
#[inline]
pub(crate) fn i64_of(stored: u64) -> i64 {
    hulemartob_i64_of(stored)
}

/// A bool.
#[inline]
pub(crate) fn bool_of(stored: u64) -> bool {
    hulemartob_bool_of(stored)
}

/// The bits of a float.
#[inline]
pub(crate) fn f64_bits_of(stored: u64) -> u64 {
    hulemartob_f64_bits_of(stored)
}

/// Makes words of stored numbers, in their place: the words of the values that they read as. Plain numbers are that already.
#[inline]
pub(crate) fn values_as(kind: Kind, list: &mut [u64]) {
    if kind != Kind::U64 {
        // SAFETY: lent.
        unsafe { hulemartob_values_as(kind as u32, list.as_mut_ptr(), list.len()) }
    }
}

/// The first and the last stored number of the signed numbers from low to high.
pub(crate) fn i64_range(low: i64, high: i64) -> [u64; 2] {
    let mut range = [0; 2];
    hulemartob_i64_range(low, high, &mut range);
    range
}

/// Of the bools.
pub(crate) fn bool_range(low: bool, high: bool) -> [u64; 2] {
    let mut range = [0; 2];
    hulemartob_bool_range(low, high, &mut range);
    range
}

/// Of the floats, by their bits.
pub(crate) fn f64_range(low: u64, high: u64) -> [u64; 2] {
    let mut range = [0; 2];
    hulemartob_f64_range(low, high, &mut range);
    range
}

/// A table of so many records of zeros, whose memory is handed out as it is touched.
pub(crate) fn zeroed_table(blocks: usize) -> Vec<Block> {
    let mut zeros = ManuallyDrop::new(vec![[0u64; 4]; blocks]);
    // SAFETY: the vector is not dropped, and a record is four numbers in C's layout: as long as the array, and aligned as it is.
    unsafe { Vec::from_raw_parts(zeros.as_mut_ptr().cast(), zeros.len(), zeros.capacity()) }
}

/// Types that are 64 bits in memory, whichever bits these are.
///
/// # Safety
///
/// The type has the size and the alignment of `u64`, no padding, and every pattern of 64 bits is a value of it.
pub(crate) unsafe trait Bits {}

// SAFETY: an integer of 64 bits.
unsafe impl Bits for i64 {}

// SAFETY: `repr(transparent)` over an `i64`.
unsafe impl Bits for Date {}

// SAFETY: a float of 64 bits, aligned as an integer is on the archive's platform.
unsafe impl Bits for f64 {}

/// A list as its words.
pub(crate) fn words<T: Bits>(values: &[T]) -> &[u64] {
    // SAFETY: `Bits`; the length is the list's own, and the words live and are shared as long as the list is.
    unsafe { slice::from_raw_parts(values.as_ptr().cast(), values.len()) }
}

/// The same, to write to.
pub(crate) fn words_mut<T: Bits>(values: &mut [T]) -> &mut [u64] {
    // SAFETY: as above, and whatever words are written are values of the type.
    unsafe { slice::from_raw_parts_mut(values.as_mut_ptr().cast(), values.len()) }
}

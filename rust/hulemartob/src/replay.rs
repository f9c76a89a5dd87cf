//! Recorded lookups: writing a recording, reading it back, and replaying it over a column.

use std::ops::{Range, RangeBounds, RangeInclusive};

use crate::column::{find_stored, row_range};
use crate::raw::{Numbers, View};
use crate::value::stored_range;
use crate::{Column, Error, Value};

/// The bytes of a header, of a record, and of a row number.
const HEADER: usize = 16;
const RECORD: usize = 32;
const NUMBER: usize = 4;

/// A lookup and the rows that it found when it was recorded.
#[derive(Clone, Debug, PartialEq, Eq, Hash)]
pub struct Recorded {
    /// The stored numbers that were looked for.
    pub values: RangeInclusive<u64>,
    /// The rows that were looked at, before their end is cut to a column's rows.
    pub rows: Range<u32>,
    /// The rows that were found.
    pub found: Vec<u32>,
}

/// What a replay reports: [`Column::replay`].
#[derive(Clone, Copy, Debug, PartialEq, Eq, Hash)]
pub struct Replay {
    /// The index of the first record whose lookup does not find its recorded rows; none if all agree.
    pub differing: Option<u32>,
    /// How many records were run: up to that one, which is counted, or all.
    pub run: u32,
}

impl Replay {
    pub(crate) fn from_numbers([index, run]: [u64; 2]) -> Replay {
        Replay { differing: (index != u64::MAX).then_some(index as u32), run: run as u32 }
    }

    /// Whether every record's lookup found exactly its recorded rows.
    #[must_use]
    pub fn all_agree(&self) -> bool {
        self.differing.is_none()
    }
}

impl<T: Value, B: AsRef<[u8]>> Column<T, B> {
    /// Reruns recorded lookups one after another, up to the first whose rows are not the recorded ones. A lookup that a row refuses differs.
    ///
    /// ```
    /// use hulemartob::{Column, RecordingBuilder, encode};
    ///
    /// let column = Column::open(encode(&[10u64, 30, 20])?)?;
    /// let mut builder = RecordingBuilder::new();
    /// builder.record(&column, 10..=25, ..)?;
    /// builder.push(30..=30, 0..3, &[0])?;
    /// let replay = column.replay(&builder.finish())?;
    /// assert_eq!((replay.differing, replay.run), (Some(1), 2));
    /// # Ok::<(), hulemartob::Error>(())
    /// ```
    ///
    /// # Errors
    ///
    /// [`BadRecording`](Error::BadRecording), before any lookup, if the bytes are no recording.
    pub fn replay(&self, recording: &[u8]) -> Result<Replay, Error> {
        self.raw().replay(recording)
    }
}

/// Writes a recording: the header, the records, and behind them the row numbers.
///
/// ```
/// use hulemartob::{Recording, RecordingBuilder};
///
/// let mut builder = RecordingBuilder::new();
/// builder.push(10..=25, 0..3, &[0, 2])?.push(0..=9, 0..3, &[])?;
/// let bytes = builder.finish();
/// let recording = Recording::read(&bytes)?;
/// assert_eq!(recording.len(), 2);
/// assert_eq!(recording.get(0).unwrap().found, [0, 2]);
/// # Ok::<(), hulemartob::Error>(())
/// ```
#[derive(Clone, Debug, Default, PartialEq, Eq)]
pub struct RecordingBuilder {
    records: Vec<u8>,
    numbers: Vec<u8>,
}

impl RecordingBuilder {
    /// One without records.
    #[must_use]
    pub fn new() -> RecordingBuilder {
        RecordingBuilder::default()
    }

    /// How many records it has.
    #[must_use]
    pub fn len(&self) -> usize {
        self.records.len() / RECORD
    }

    /// Whether it has none.
    #[must_use]
    pub fn is_empty(&self) -> bool {
        self.records.is_empty()
    }

    /// Records a lookup of stored numbers with the rows that it found.
    ///
    /// # Errors
    ///
    /// [`BadRecording`](Error::BadRecording), and nothing is recorded, if the recording would get too long for the 32 bits of its places and offsets: from
    /// 134,217,727 records or 2^32 row numbers on.
    pub fn push(&mut self, values: RangeInclusive<u64>, rows: Range<u32>, found: &[u32]) -> Result<&mut RecordingBuilder, Error> {
        let place = self.numbers.len() / NUMBER;
        // Where the row numbers begin and how many they are, then.
        let (list, listed) = (HEADER + self.records.len() + RECORD, place + found.len());
        if u32::try_from(list).is_err() || u32::try_from(listed).is_err() {
            return Err(Error::BadRecording);
        }
        for bound in [*values.start(), *values.end()] {
            self.records.extend(bound.to_le_bytes());
        }
        for number in [rows.start, rows.end, place as u32, found.len() as u32] {
            self.records.extend(number.to_le_bytes());
        }
        self.numbers.extend(found.iter().flat_map(|row| row.to_le_bytes()));
        Ok(self)
    }

    /// Looks rows up as [`Column::find`] does, and records what is found.
    ///
    /// # Errors
    ///
    /// Those of [`Column::find`] and of [`push`](RecordingBuilder::push); then nothing is recorded.
    pub fn record<T: Value, B: AsRef<[u8]>>(
        &mut self,
        column: &Column<T, B>,
        values: impl RangeBounds<T>,
        rows: impl RangeBounds<u32>,
    ) -> Result<&mut RecordingBuilder, Error> {
        let (stored, rows, mut found) = (stored_range(&values), row_range(&rows), Vec::new());
        find_stored(column.raw(), stored, rows.clone(), &mut found)?;
        self.push(stored[0]..=stored[1], rows, &found)
    }

    /// The recording's bytes.
    #[must_use]
    pub fn finish(&self) -> Vec<u8> {
        let list = HEADER + self.records.len();
        // None of them is cut: `push` has seen to it.
        let header = [self.len(), HEADER, self.numbers.len() / NUMBER, list].map(|number| number as u32);
        let mut bytes = Vec::with_capacity(list + self.numbers.len());
        bytes.extend(header.into_iter().flat_map(u32::to_le_bytes));
        bytes.extend(&self.records);
        bytes.extend(&self.numbers);
        bytes
    }
}

/// The lookups of a recording, read back. [`Column::replay`] does not need it: it takes the bytes.
#[derive(Clone, Copy, Debug, PartialEq, Eq)]
pub struct Recording<'a> {
    records: &'a [u8],
    numbers: &'a [u8],
}

impl<'a> Recording<'a> {
    /// The recording that some bytes hold.
    ///
    /// # Errors
    ///
    /// [`BadRecording`](Error::BadRecording) where they hold none. The library is asked, by a replay over a column of no rows.
    pub fn read(bytes: &'a [u8]) -> Result<Recording<'a>, Error> {
        View { numbers: &Numbers { gcd: 1, ..Numbers::default() }, table: &[], bytes: &[] }.replay(bytes)?;
        let mut header = bytes.chunks_exact(NUMBER).map(|n| number(n) as usize);
        let mut region = |size| {
            let (many, start) = (header.next().unwrap_or(0), header.next().unwrap_or(0));
            // The offset of a region without entries is not looked at.
            if many == 0 { &bytes[..0] } else { &bytes[start..][..many * size] }
        };
        Ok(Recording { records: region(RECORD), numbers: region(NUMBER) })
    }

    /// How many records it has.
    #[must_use]
    pub fn len(&self) -> usize {
        self.records.len() / RECORD
    }

    /// Whether it has none.
    #[must_use]
    pub fn is_empty(&self) -> bool {
        self.records.is_empty()
    }

    /// A record; none behind the last.
    #[must_use]
    pub fn get(&self, k: usize) -> Option<Recorded> {
        let record = self.records.chunks_exact(RECORD).nth(k)?;
        let (place, many) = (number(&record[24..28]) as usize, number(&record[28..]) as usize);
        let found = &self.numbers[NUMBER * place..][..NUMBER * many];
        Some(Recorded {
            values: wide(&record[..8])..=wide(&record[8..16]),
            rows: number(&record[16..20])..number(&record[20..24]),
            found: found.chunks_exact(NUMBER).map(number).collect(),
        })
    }

    /// All records in turn.
    #[must_use]
    #[allow(clippy::missing_panics_doc, reason = "each number asked for is one of a record")]
    pub fn iter(&self) -> impl ExactSizeIterator<Item = Recorded> + use<'a> {
        let recording = *self;
        (0..recording.len()).map(move |k| recording.get(k).expect("a record below their number"))
    }
}

fn number(bytes: &[u8]) -> u32 {
    u32::from_le_bytes(bytes.try_into().expect("four bytes"))
}

fn wide(bytes: &[u8]) -> u64 {
    u64::from_le_bytes(bytes.try_into().expect("eight bytes"))
}

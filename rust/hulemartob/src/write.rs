//! Writing columns, the statistics that their heads state, and the sizes that their codecs are chosen by.

use crate::{Codec, Error, Value, raw};

/// Statistics of a list of values, by the numbers that they are stored as.
#[derive(Clone, Copy, Debug, PartialEq, Eq, Hash)]
pub struct Stats {
    /// The least stored number, 0 where there is none.
    pub minimum: u64,
    /// The greatest stored number, 0 where there is none.
    pub maximum: u64,
    /// The gcd of how far the stored numbers lie from the first, 1 where all are equal.
    pub gcd: u64,
    /// How many values there are.
    pub rows: u32,
}

impl Stats {
    pub(crate) fn from_numbers([minimum, maximum, gcd, rows]: [u64; 4]) -> Stats {
        Stats { minimum, maximum, gcd, rows: rows as u32 }
    }
}

/// The statistics of a list of values.
///
/// ```
/// let stats = hulemartob::stats(&[-10i64, 10, 0])?;
/// assert_eq!((stats.minimum, stats.maximum, stats.gcd), ((1 << 63) - 10, (1 << 63) + 10, 10));
/// # Ok::<(), hulemartob::Error>(())
/// ```
///
/// # Errors
///
/// [`TooManyValues`](Error::TooManyValues).
pub fn stats<T: Value>(values: &[T]) -> Result<Stats, Error> {
    raw::stats(T::KIND, &T::words(values))
}

/// What the choice of a codec compares: for each codec the bytes behind the code byte, none where the codec does not apply.
///
/// Those of [`Bitpacked`](Codec::Bitpacked) and [`Linear`](Codec::Linear) are exact: their columns have one byte more. That of
/// [`Blockwise`](Codec::Blockwise) is an estimate, which takes the lines of the blocks from the values as they are stored, not from their multiples of the
/// gcd, and takes off what the gcd is thought to save, down to 0; its columns may be shorter or longer, and [`encoded_len`] tells how long.
#[derive(Clone, Copy, Debug, PartialEq, Eq, Hash)]
pub struct Sizes([Option<u64>; 3]);

impl Sizes {
    /// The size by a codec, if it applies: Linear asks for 512 values.
    #[must_use]
    pub const fn by(self, codec: Codec) -> Option<u64> {
        self.0[codec as usize]
    }

    /// That of the listed codecs whose size is least, the earliest of equals: the one by which [`encode_with`] writes. None where no listed codec applies.
    #[must_use]
    pub fn least(self, codecs: &[Codec]) -> Option<Codec> {
        let sized = codecs.iter().filter_map(|&codec| Some((self.by(codec)?, codec)));
        sized.min_by_key(|&(size, _)| size).map(|(_, codec)| codec)
    }
}

/// The sizes by which the codec of a list of values is chosen. Every codec is sized, which reads the values several times.
///
/// ```
/// use hulemartob::{Codec, encode, encoded_len, sizes};
///
/// let values: Vec<u64> = (0..600).map(|i| 1000 + 7 * i).collect();
/// let sizes = sizes(&values)?;
/// assert_eq!(sizes.by(Codec::Bitpacked), Some(757));
/// assert_eq!(sizes.by(Codec::Linear), Some(15));
/// // the code byte is not counted
/// assert_eq!(encoded_len(&values, &[Codec::Linear])?, 16);
/// // the column's first byte names the codec
/// assert_eq!(sizes.least(&Codec::ALL), Some(Codec::try_from(encode(&values)?[0])?));
/// # Ok::<(), Box<dyn std::error::Error>>(())
/// ```
///
/// # Errors
///
/// [`TooManyValues`](Error::TooManyValues).
pub fn sizes<T: Value>(values: &[T]) -> Result<Sizes, Error> {
    let sizes = raw::sizes(T::KIND, &T::words(values))?;
    Ok(Sizes(sizes.map(|size| (size != u64::MAX).then_some(size))))
}

/// Rows in a block of a Blockwise column.
pub(crate) const BLOCK: u32 = 512;

/// Enough bytes for any column of so many rows, whatever its codec: code byte, head, a line and a width byte for each block, a footer's length, and at most
/// eight bytes a row. No column is longer, and no output of this length is refused 4: both are proved of this number (`Reserved` and `Roomy` in
/// crates/format/specs/Lengths).
#[must_use]
pub const fn max_encoded_len(rows: usize) -> usize {
    let blocks = rows.div_ceil(BLOCK as usize);
    let blocks = if blocks == 0 { 1 } else { blocks };
    rows.saturating_mul(8).saturating_add(21 * blocks).saturating_add(45)
}

/// Writes a list of values as a column, by the codec whose size is least, and returns its bytes.
///
/// ```
/// use hulemartob::{Column, encode};
///
/// let bytes = encode(&[20.5, -0.0, f64::INFINITY])?;
/// let column = Column::open(&bytes)?.typed::<f64>();
/// assert_eq!(column.get(0)?, 20.5);
/// assert!(column.get(1)?.is_sign_negative());
/// # Ok::<(), hulemartob::Error>(())
/// ```
///
/// # Errors
///
/// [`TooManyValues`](Error::TooManyValues).
pub fn encode<T: Value>(values: &[T]) -> Result<Vec<u8>, Error> {
    encode_with(values, &Codec::ALL)
}

/// Writes a list of values as a column, by that of the listed codecs whose size is least, the earliest of equals, and returns its bytes.
///
/// ```
/// use hulemartob::{Codec, Error, encode_with};
///
/// let bytes = encode_with(&[10u64, 30, 20], &[Codec::Bitpacked])?;
/// assert_eq!(bytes, [0x00, 0x8A, 0x8A, 0x82, 0x83, 0x18]);
/// // Linear asks for 512 values.
/// assert_eq!(encode_with(&[10u64, 30, 20], &[Codec::Linear]), Err(Error::NoCodecApplies));
/// # Ok::<(), Error>(())
/// ```
///
/// # Errors
///
/// [`TooManyValues`](Error::TooManyValues), [`NoCodecApplies`](Error::NoCodecApplies).
pub fn encode_with<T: Value>(values: &[T], codecs: &[Codec]) -> Result<Vec<u8>, Error> {
    raw::encode(T::KIND, &T::words(values), codecs)
}

/// Writes a list of values as a column into `out` and returns the column's length; the bytes behind it stay as they are. [`max_encoded_len`] bytes are always
/// enough. Bools are first copied to words; the other kinds are lent as they lie in memory.
///
/// ```
/// use hulemartob::{Codec, Error, encode_into};
///
/// let mut out = [0xFF; 8];
/// assert_eq!(encode_into(&[10u64, 30, 20], &Codec::ALL, &mut out[..5]), Err(Error::OutputShort { needed: 6 }));
/// assert_eq!(encode_into(&[10u64, 30, 20], &Codec::ALL, &mut out), Ok(6));
/// assert_eq!(out, [0x00, 0x8A, 0x8A, 0x82, 0x83, 0x18, 0xFF, 0xFF]);
/// ```
///
/// # Errors
///
/// [`TooManyValues`](Error::TooManyValues), [`NoCodecApplies`](Error::NoCodecApplies), [`OutputShort`](Error::OutputShort). They leave all of `out` as it was.
pub fn encode_into<T: Value>(values: &[T], codecs: &[Codec], out: &mut [u8]) -> Result<usize, Error> {
    raw::serialize(T::KIND, &T::words(values), &raw::code_bytes(codecs), out)
}

/// How long the column is that [`encode_with`] would write.
///
/// ```
/// use hulemartob::{Codec, encoded_len};
///
/// let values: Vec<u64> = (0..600).map(|i| 1000 + 7 * i).collect();
/// assert_eq!(Codec::ALL.map(|codec| encoded_len(&values, &[codec])), [Ok(758), Ok(16), Ok(27)]);
/// ```
///
/// # Errors
///
/// [`TooManyValues`](Error::TooManyValues), [`NoCodecApplies`](Error::NoCodecApplies).
pub fn encoded_len<T: Value>(values: &[T], codecs: &[Codec]) -> Result<usize, Error> {
    match encode_into(values, codecs, &mut []) {
        Err(Error::OutputShort { needed }) => Ok(needed),
        answer => answer,
    }
}

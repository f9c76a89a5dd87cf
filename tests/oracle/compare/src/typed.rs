//! Columns of signed numbers, dates, bools and floats: the mappings alone, and through columns that both sides write and read.

use columnar::{DateTime, MonotonicallyMappableToU64};
use hulemartob::{Codec, Column, Date, Error, Value, encode_with, stats};

use crate::lists::Random;
use crate::rust;
use crate::tally::{Cause, Tally};

/// A type of values on both sides.
trait Typed: Value + hulemartob::compat::MonotonicallyMappableToU64 {
    const NAME: &'static str;
    type Theirs: MonotonicallyMappableToU64;

    /// A value of 64 bits that were drawn.
    fn of(word: u64) -> Self;

    /// The same value there.
    fn theirs(self) -> Self::Theirs;

    /// All that tells one value from another.
    fn bits(self) -> u64;

    fn their_bits(theirs: Self::Theirs) -> u64;
}

impl Typed for i64 {
    const NAME: &'static str = "signed numbers";
    type Theirs = i64;

    fn of(word: u64) -> i64 {
        word as i64
    }

    fn theirs(self) -> i64 {
        self
    }

    fn bits(self) -> u64 {
        self as u64
    }

    fn their_bits(theirs: i64) -> u64 {
        theirs as u64
    }
}

impl Typed for Date {
    const NAME: &'static str = "dates";
    type Theirs = DateTime;

    fn of(word: u64) -> Date {
        Date(word as i64)
    }

    fn theirs(self) -> DateTime {
        DateTime::from_timestamp_nanos(self.0)
    }

    fn bits(self) -> u64 {
        self.0 as u64
    }

    fn their_bits(theirs: DateTime) -> u64 {
        theirs.into_timestamp_nanos() as u64
    }
}

impl Typed for bool {
    const NAME: &'static str = "bools";
    type Theirs = bool;

    fn of(word: u64) -> bool {
        word % 2 == 1
    }

    fn theirs(self) -> bool {
        self
    }

    fn bits(self) -> u64 {
        u64::from(self)
    }

    fn their_bits(theirs: bool) -> u64 {
        u64::from(theirs)
    }
}

impl Typed for f64 {
    const NAME: &'static str = "floats";
    type Theirs = f64;

    fn of(word: u64) -> f64 {
        f64::from_bits(word)
    }

    fn theirs(self) -> f64 {
        self
    }

    fn bits(self) -> u64 {
        self.to_bits()
    }

    fn their_bits(theirs: f64) -> u64 {
        theirs.to_bits()
    }
}

/// Words at which a mapping may go wrong: the ends and the middle with their neighbours, infinities, quiet and signalling NaNs.
fn word_of_note(random: &mut Random) -> u64 {
    let base = random.pick(&[0, 1 << 63, u64::MAX, 0x7FF0 << 48, 0xFFF0 << 48, 0x7FF8 << 48, 0xFFF8 << 48]);
    base.wrapping_add(random.pick(&[0, 1, 2, u64::MAX, u64::MAX - 1]))
}

/// One value both ways.
fn compare_mapping<T: Typed>(tally: &mut Tally, word: u64) {
    let value = T::of(word);
    let stored = value.theirs().to_u64();
    let (ours, read) = (value.to_stored(), T::from_stored(word).bits());
    if ours == stored && read == T::their_bits(T::Theirs::from_u64(word)) {
        tally.alike(format!("values mapped both ways, {}", T::NAME), 1);
    } else {
        tally.differ("mapping", None, 1, || format!("{} {word:x}: {ours:?}, {stored}; {read:?}", T::NAME));
    }
}

pub fn compare_mappings(tally: &mut Tally, random: &mut Random, many: u64) {
    for turn in 0..many {
        let word = if turn % 2 == 0 { random.next() } else { word_of_note(random) };
        compare_mapping::<i64>(tally, word);
        compare_mapping::<Date>(tally, word);
        compare_mapping::<bool>(tally, word);
        compare_mapping::<f64>(tally, word);
    }
}

/// Some lookups by values, with bounds from the list and at places of note, low above high too.
fn compare_lookups<T: Typed>(
    tally: &mut Tally,
    random: &mut Random,
    column: &Column<T, &[u8]>,
    theirs: &rust::Opened<T::Theirs>,
    words: &[u64],
) {
    for _ in 0..3 {
        let bound = |random: &mut Random| {
            let noted = word_of_note(random);
            let near = words.get(random.below(words.len().max(1))).map_or(noted, |&word| word);
            T::of(random.pick(&[near, near, noted]))
        };
        let (low, high) = (bound(random), bound(random));
        let first = random.below(column.len() as usize + 1) as u32 / 2;
        let ours = column.find(low..=high, first..);
        let found = theirs.find(low.theirs()..=high.theirs(), first..column.len());
        let (from, to) = (low.theirs().to_u64(), high.theirs().to_u64());
        let cause = match &ours {
            Ok(rows) if found.as_ref() == Ok(rows) => {
                tally.alike(format!("lookups of {}", T::NAME), 1);
                continue;
            }
            Ok(_) if column.codec() == Codec::Bitpacked && from <= to && to < column.stats().minimum => Some(Cause::BelowMinimum),
            Ok(_) if T::NAME == bool::NAME && high.bits() == 1 && column.stats().maximum > 1 => Some(Cause::TrueIsOne),
            _ => None,
        };
        let bytes = column.bytes();
        tally.differ("typed lookup", cause, bytes.len(), || {
            format!("{} {} {:x} to {:x}, rows from {first}: {ours:?}, {found:?}", crate::hex(bytes), T::NAME, low.bits(), high.bits())
        });
    }
}

/// A column as values of a type: every row, and some lookups.
fn compare_column<T: Typed>(tally: &mut Tally, random: &mut Random, bytes: &[u8], words: &[u64]) {
    let (Ok(column), Ok(theirs)) = (Column::open(bytes), rust::open::<T::Theirs>(bytes)) else {
        return tally.differ("typed opening", None, bytes.len(), || crate::hex(bytes));
    };
    let column = column.typed::<T>();
    let ours: Vec<_> = (0..column.len()).map(|row| column.get(row).ok().map(T::bits)).collect();
    let rows: Vec<_> = (0..column.len()).map(|row| theirs.row(row).ok().map(T::their_bits)).collect();
    let run = theirs.run(0, column.len() as usize).map(|run| run.into_iter().map(|value| Some(T::their_bits(value))).collect());
    let mut own = vec![T::of(0); rows.len()];
    let filled = column.read_into(0, &mut own);
    let own: Vec<_> = own.into_iter().map(|value| Some(value.bits())).collect();
    if ours == rows && run.as_ref() == Ok(&rows) && filled == Ok(()) && own == rows {
        tally.alike(format!("rows of {}", T::NAME), rows.len());
    } else {
        tally.differ("typed rows", None, bytes.len(), || format!("{} {}", crate::hex(bytes), T::NAME));
    }
    compare_lookups::<T>(tally, random, &column, &theirs, words);
    crate::compare_names(tally, &column, T::bits);
}

/// A list as values of a type: statistics, writing by each codec and by all, and what each column reads as.
fn compare_values<T: Typed>(tally: &mut Tally, random: &mut Random, words: &[u64]) {
    let values: Vec<T> = words.iter().map(|&word| T::of(word)).collect();
    let theirs: Vec<T::Theirs> = values.iter().map(|&value| value.theirs()).collect();
    let stored: Vec<u64> = theirs.iter().map(|&value| value.to_u64()).collect();
    let told = columnar::stats(&stored);
    let ours = stats(&values).map(|s| (s.minimum, s.maximum, s.gcd, s.rows));
    if ours != Ok((told.min_value, told.max_value, told.gcd.get(), told.num_rows)) {
        tally.differ("typed statistics", None, words.len(), || format!("{} {words:x?}", T::NAME));
    }
    for codecs in [&Codec::ALL[..1], &Codec::ALL[1..2], &Codec::ALL[2..], &Codec::ALL] {
        let codes: Vec<u8> = codecs.iter().map(|&codec| codec as u8).collect();
        match (encode_with(&values, codecs), rust::write(&theirs, &codes)) {
            (Ok(ours), Ok(theirs)) if ours == theirs => {
                tally.alike(format!("columns written of {}", T::NAME), 1);
                compare_column::<T>(tally, random, &ours, words);
            }
            (Err(Error::NoCodecApplies), Err(rust::Failed::Error)) => {}
            _ => tally.differ("typed writing", None, words.len(), || format!("{} codecs {codes:?}, {words:x?}", T::NAME)),
        }
    }
}

/// A list of words as values of each type, and a column of the words themselves read as each.
pub fn compare(tally: &mut Tally, random: &mut Random, words: &[u64]) {
    let mut words = words.to_vec();
    if random.below(3) == 0 {
        words.iter_mut().for_each(|word| *word = if random.below(4) == 0 { word_of_note(random) } else { *word });
    }
    compare_values::<i64>(tally, random, &words);
    compare_values::<Date>(tally, random, &words);
    compare_values::<bool>(tally, random, &words);
    compare_values::<f64>(tally, random, &words);
    let Ok(plain) = rust::write(&words, &[0, 1, 2]) else { return };
    compare_column::<i64>(tally, random, &plain, &words);
    compare_column::<bool>(tally, random, &plain, &words);
    compare_column::<f64>(tally, random, &plain, &words);
}

//! The verdict on one column.

use std::fmt::{self, Display};
use std::ops::Range;
use std::sync::{Mutex, PoisonError};

use anyhow::Result;
use hulemartob::{Codec, Column, Error, Mismatch, PartName, Sheet, Stats, encode_into, max_encoded_len, stats};
use serde::Serialize;

use super::differ;
use crate::console::many;
use crate::place::Place;
use crate::refusals::{self, Told};
use crate::values::Values;

/// Rows that are decoded at a time: the library then goes over them once.
const CHUNK: usize = 512;

/// Columns of more rows are judged one at a time, so that one of them alone asks for memory.
const MANY_ROWS: u32 = 1 << 21;

static ALONE: Mutex<()> = Mutex::new(());

/// So many ranges of refused rows are kept.
const KEPT_RANGES: usize = 1000;

/// A column over lent bytes.
type Lent<'a> = Column<u64, &'a [u8]>;

/// What is said of a column.
#[derive(Clone, Copy, Debug, PartialEq, Eq, Serialize)]
#[serde(rename_all = "lowercase")]
pub enum Verdict {
    /// The bytes are just what the rules write for the rows.
    Exact,
    /// All rows read and the statistics are theirs, but another writer chose otherwise.
    Other,
    /// Rows, statistics or the list contradict each other.
    Wrong,
    /// It does not open.
    Refused,
    /// Nothing can be said: the file or its list cannot be read, or there are too many rows.
    Trouble,
}

impl Verdict {
    pub const ALL: [Verdict; 5] = [Verdict::Exact, Verdict::Other, Verdict::Wrong, Verdict::Refused, Verdict::Trouble];
}

impl Display for Verdict {
    fn fmt(&self, f: &mut fmt::Formatter<'_>) -> fmt::Result {
        f.pad(match self {
            Verdict::Exact => "exact",
            Verdict::Other => "other",
            Verdict::Wrong => "wrong",
            Verdict::Refused => "refused",
            Verdict::Trouble => "trouble",
        })
    }
}

/// What is asked of each column.
#[derive(Clone, Copy, Debug)]
pub struct Asked {
    pub sheet: Sheet,
    /// Whether the rules choose this codec for the rows.
    pub choice: bool,
    pub max_rows: u32,
}

/// A verdict with its reasons.
#[derive(Clone, Debug, Serialize)]
pub struct Judgement {
    pub verdict: Verdict,
    #[serde(skip_serializing_if = "Option::is_none")]
    pub refusal: Option<u8>,
    #[serde(skip_serializing_if = "Option::is_none")]
    pub codec: Option<&'static str>,
    #[serde(skip_serializing_if = "Option::is_none")]
    pub rows: Option<u32>,
    pub bytes: u64,
    /// The part that decided, where it is one.
    #[serde(skip_serializing_if = "Option::is_none")]
    pub part: Option<String>,
    #[serde(skip_serializing_if = "Option::is_none")]
    pub offset: Option<usize>,
    #[serde(skip_serializing_if = "Option::is_none")]
    pub reason: Option<String>,
    /// The rows that lie outside the bounds, the first thousand ranges of them.
    #[serde(skip_serializing_if = "Vec::is_empty")]
    pub out_of_bounds: Vec<Range<u32>>,
}

impl Judgement {
    fn new(verdict: Verdict) -> Judgement {
        let (refusal, codec, rows, part, offset, reason) = (None, None, None, None, None, None);
        Judgement { verdict, refusal, codec, rows, bytes: 0, part, offset, reason, out_of_bounds: Vec::new() }
    }

    fn because(verdict: Verdict, reason: String) -> Judgement {
        Judgement { reason: Some(reason), ..Judgement::new(verdict) }
    }

    fn at(verdict: Verdict, place: Place) -> Judgement {
        let reason = place.to_string();
        Judgement { part: Some(place.part), offset: Some(place.offset), ..Judgement::because(verdict, reason) }
    }

    /// That nothing can be said.
    pub fn trouble(reason: String) -> Judgement {
        Judgement::because(Verdict::Trouble, reason)
    }

    /// That a column has more rows than are decoded: the refusal that a program has for its own limit.
    fn over(rows: u32, limit: &str) -> Judgement {
        let reason = format!("{} are more than {limit}", many(rows, "row"));
        Judgement { refusal: Some(Error::OverLimit.number()), ..Judgement::trouble(reason) }
    }

    fn refused(bytes: &[u8], error: Error) -> Judgement {
        let told = Told::of(bytes, error);
        let judgement = match told.place {
            Some(place) => Judgement::at(Verdict::Refused, place),
            None => Judgement::because(Verdict::Refused, told.reason()),
        };
        Judgement { refusal: Some(error.number()), ..judgement }
    }
}

/// Memory that is used from column to column.
#[derive(Default)]
pub struct Scratch {
    /// As long as the longest column so far: what stands there is left from columns before.
    values: Vec<u64>,
    out: Vec<u8>,
}

/// What reads the list of a column, if there is to be one. It is asked only of a column whose rows could be decoded.
pub type ReadList<'a> = &'a dyn Fn() -> Result<Option<Values>>;

/// Judges the column in some bytes, beside its list.
pub fn judge(bytes: &[u8], asked: Asked, list: ReadList, scratch: &mut Scratch) -> Judgement {
    let judgement = match Column::open_under(asked.sheet, bytes) {
        Ok(column) => {
            let alone = (MANY_ROWS < column.len()).then(|| ALONE.lock().unwrap_or_else(PoisonError::into_inner));
            let judgement = judge_opened(&column, asked, list, scratch);
            if alone.is_some() {
                *scratch = Scratch::default();
            }
            Judgement { codec: Some(column.codec().name()), rows: Some(column.len()), ..judgement }
        }
        Err(error) => Judgement::refused(bytes, error),
    };
    Judgement { bytes: bytes.len() as u64, ..judgement }
}

fn judge_opened(column: &Lent, asked: Asked, list: ReadList, scratch: &mut Scratch) -> Judgement {
    if asked.max_rows < column.len() {
        return Judgement::over(column.len(), "--max-rows");
    }
    let Some(values) = room(&mut scratch.values, column.len() as usize) else {
        return Judgement::over(column.len(), "the memory holds");
    };
    if decode(column, values).is_err() {
        return out_of_bounds(column);
    }
    match list() {
        Ok(None) => {}
        Ok(Some(list)) => {
            if let Err(mismatch) = list.check(asked.sheet, column.bytes()) {
                return Judgement::because(Verdict::Wrong, mismatched(mismatch, column, &list));
            }
        }
        Err(error) => return Judgement::trouble(format!("{error:#}")),
    }
    rewritten_verdict(column, values, asked.choice, &mut scratch.out)
}

/// The verdict on a column by its rows, written again.
fn rewritten_verdict(column: &Lent, values: &[u64], choice: bool, out: &mut Vec<u8>) -> Judgement {
    let (codec, bytes) = (column.codec(), column.bytes());
    let mut chosen = None;
    if choice {
        // With all codecs listed, one writing tells the choice and the bytes.
        match written(values, &Codec::ALL, bytes.len(), out) {
            Ok(again) if again == bytes => return Judgement::new(Verdict::Exact),
            Ok(again) => chosen = again.first().and_then(|&code| Codec::try_from(code).ok()).map(|codec| (codec, again.len())),
            Err(error) => return Judgement::because(Verdict::Wrong, refusals::reason(error)),
        }
    }
    let other = |place| Judgement::at(Verdict::Other, place);
    let again = written(values, &[codec], bytes.len(), out);
    if again == Ok(bytes) {
        return match chosen {
            Some((chosen, length)) if chosen != codec => {
                let matter = format!("{codec} in {} bytes, the rules choose {chosen} in {length}", bytes.len());
                other(Place::new(PartName::Code, 0, matter))
            }
            _ => Judgement::new(Verdict::Exact),
        };
    }
    match (stats(values), again) {
        (Ok(found), _) if found != column.stats() => Judgement::at(Verdict::Wrong, misstated(column, found, values)),
        (Ok(_), Ok(again)) => other(differ::first(column, again)),
        // It can be read, but is not written for so few rows.
        (Ok(_), Err(Error::NoCodecApplies)) => {
            let matter = format!("{codec} is not written for {}", many(column.len(), "row"));
            other(Place::new(PartName::Code, 0, matter))
        }
        (Err(error), _) | (_, Err(error)) => Judgement::because(Verdict::Wrong, refusals::reason(error)),
    }
}

/// What the rules write for the rows of a column with its codec; nothing where a row is refused or they write none.
pub fn rewritten(column: &Lent) -> Option<Vec<u8>> {
    let (mut values, mut out) = (Vec::new(), Vec::new());
    let values = room(&mut values, column.len() as usize)?;
    decode(column, values).ok()?;
    let length = written(values, &[column.codec()], column.bytes().len(), &mut out).ok()?.len();
    out.truncate(length);
    Some(out)
}

/// Room for so many values, where there is memory for them.
fn room(values: &mut Vec<u64>, rows: usize) -> Option<&mut [u64]> {
    if values.len() < rows {
        values.try_reserve_exact(rows - values.len()).ok()?;
        values.resize(rows, 0);
    }
    values.get_mut(..rows)
}

/// All rows' values, into a list as long as the column.
fn decode(column: &Lent, values: &mut [u64]) -> Result<(), Error> {
    values.chunks_mut(CHUNK).zip((0..=u32::MAX).step_by(CHUNK)).try_for_each(|(chunk, first)| column.read_into(first, chunk))
}

/// Writes a list. An output as long as the column is enough unless the rules write more bytes; what follows a column may be much longer than any.
fn written<'o>(values: &[u64], codecs: &[Codec], length: usize, out: &'o mut Vec<u8>) -> Result<&'o [u8], Error> {
    let length = length.min(max_encoded_len(values.len()));
    if out.len() < length {
        out.resize(length, 0);
    }
    let length = match encode_into(values, codecs, out) {
        Err(Error::OutputShort { needed }) => {
            out.resize(needed, 0);
            encode_into(values, codecs, out)?
        }
        answer => answer?,
    };
    Ok(&out[..length])
}

/// The verdict on a column with refused rows.
fn out_of_bounds(column: &Lent) -> Judgement {
    let (mut ranges, mut count) = (Vec::<Range<u32>>::new(), 0_u64);
    for (row, _) in (0..=u32::MAX).zip(column.iter()).filter(|(_, answer)| answer.is_err()) {
        count += 1;
        let room = ranges.len() < KEPT_RANGES;
        match ranges.last_mut() {
            Some(last) if last.end == row => last.end += 1,
            _ if room => ranges.push(row..row + 1),
            _ => {}
        }
    }
    let offset = ranges.first().and_then(|rows| byte_of(column, rows.start));
    let part = offset.map(|_| PartName::Area.to_string());
    let reason = format!("{} of {} out of bounds: {}", many(count, "row"), column.len(), few(&ranges));
    Judgement { part, offset, out_of_bounds: ranges, ..Judgement::because(Verdict::Wrong, reason) }
}

/// The first statistic that is not the rows'.
fn misstated(column: &Lent, found: Stats, values: &[u64]) -> Place {
    let stated = column.stats();
    let holds = |what, value| match values.iter().position(|&v| v == value) {
        Some(row) => format!("the {what} row holds {value} (row {row})"),
        None => format!("the rules write {value} where there are no rows"),
    };
    let (name, matter) = if stated.minimum != found.minimum {
        (PartName::Minimum, format!("{} is stated, {}", stated.minimum, holds("least", found.minimum)))
    } else if stated.gcd != found.gcd {
        (PartName::Gcd, format!("{} is stated, that of the rows is {}", stated.gcd, found.gcd))
    } else {
        (PartName::Count, format!("maximum {} is stated, {}", stated.maximum, holds("greatest", found.maximum)))
    };
    let offset = column.parts().flatten().find(|part| part.name == name).map_or(0, |part| part.offset);
    Place::new(name, offset, matter)
}

/// The first byte that has a bit of a row, found by halving: rows ascend with the area's bytes.
fn byte_of(column: &Lent, row: u32) -> Option<usize> {
    let area = column.area();
    let (mut low, mut high) = (area.start, area.end);
    while low < high {
        let middle = low + (high - low) / 2;
        if column.rows_of_byte(middle).ok()?.end <= row { low = middle + 1 } else { high = middle }
    }
    // A row of no bits has none.
    column.rows_of_byte(low).ok()?.contains(&row).then_some(low)
}

/// The first few ranges of rows.
fn few(ranges: &[Range<u32>]) -> String {
    const NAMED: usize = 6;
    let named = ranges.iter().take(NAMED).map(|rows| match rows.len() {
        1 => rows.start.to_string(),
        _ => format!("{}-{}", rows.start, rows.end - 1),
    });
    let more = (NAMED < ranges.len()).then(|| "..".into());
    named.chain(more).collect::<Vec<_>>().join(", ")
}

/// Why a column does not hold its list.
fn mismatched(mismatch: Mismatch, column: &Lent, list: &Values) -> String {
    match mismatch {
        Mismatch::Unequal { row } => {
            let listed = list.get(row as usize).map_or(String::new(), |value| value.to_string());
            let stored = column.get(row).map_or_else(refusals::reason, |value| list.stored(value).to_string());
            format!("list: row {row} is {stored}, the list has {listed}")
        }
        Mismatch::Counts { column, list } => format!("list: {} for {}", many(column, "row"), many(list as u64, "value")),
        other => format!("list: {other}"),
    }
}

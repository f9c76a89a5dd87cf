//! Holds the library beside the Rust of tantivy-columnar 0.27.0 on generated lists and on damaged copies of their columns:
//!
//!     compare [LISTS [SEED]]
//!
//! What both answer alike is counted. Every difference is put under its cause, with the smallest input met; one without a cause is an error.

mod compat;
mod lists;
mod rust;
mod tally;
mod typed;

use std::process::ExitCode;

use hulemartob::{Codec, Column, Error, Kind, Mismatch, Sheet, Value, check, max_encoded_len, raw, stats};
use lists::Random;
use tally::{Cause, Tally};

const LISTS: [&[u8]; 11] = [&[0], &[1], &[2], &[0, 1, 2], &[2, 1, 0], &[2, 0, 0], &[1, 2], &[0, 2], &[2, 0], &[1, 0], &[]];
const BLOCKWISE: u8 = Codec::Blockwise as u8;

/// A column of this library.
type Ours<'a> = Column<u64, &'a [u8]>;

/// So many rows of a damaged column are read at most: it may claim 2^32 of them.
const READ: u32 = 1800;

fn hex(bytes: &[u8]) -> String {
    bytes.iter().map(|byte| format!("{byte:02x}")).collect()
}

fn compare_statistics(tally: &mut Tally, values: &[u64]) {
    let ours = stats(values).map(|s| (s.minimum, s.maximum, s.gcd, s.rows));
    let theirs = columnar::stats(values);
    if ours == Ok((theirs.min_value, theirs.max_value, theirs.gcd.get(), theirs.num_rows)) {
        tally.alike("statistics", 1);
    } else {
        tally.differ("statistics", None, values.len(), || format!("{values:?}"));
    }
}

/// Writing, into an output that is just long enough; and into one that is a byte too short, which has to stay as it is.
fn write(tally: &mut Tally, values: &[u64], codecs: &[u8]) -> Result<Vec<u8>, Error> {
    let mut out = vec![0xA5; max_encoded_len(values.len())];
    let length = raw::serialize(Kind::U64, values, codecs, &mut out)?;
    let behind_kept = out[length..].iter().all(|&byte| byte == 0xA5);
    out.truncate(length);
    let mut short = vec![0xA5; length - 1];
    let refusal = raw::serialize(Kind::U64, values, codecs, &mut short);
    let kept = refusal == Err(Error::OutputShort { needed: length }) && short.iter().all(|&byte| byte == 0xA5);
    if behind_kept && kept {
        tally.alike("outputs too short refused, with nothing else changed", 1);
    } else {
        tally.differ("output", None, values.len(), || format!("codecs {codecs:?}, {values:?}"));
    }
    Ok(out)
}

fn compare_writing(tally: &mut Tally, values: &[u64], codecs: &[u8]) -> Option<Vec<u8>> {
    let theirs = rust::write(values, codecs);
    match (write(tally, values, codecs), theirs) {
        (Ok(ours), Ok(theirs)) if ours == theirs && compat::write(values, codecs).as_ref() == Ok(&ours) => {
            tally.alike(format!("columns written, codec {}", ours[0]), 1);
            return Some(ours);
        }
        (Err(Error::NoCodecApplies), Err(rust::Failed::Error)) if compat::write(values, codecs) == Err(compat::Failed::Error) => {
            tally.alike("lists that no listed codec takes", 1)
        }
        _ => tally.differ("writing", None, values.len(), || format!("codecs {codecs:?}, {values:?}")),
    }
    None
}

/// The four numbers of a head and the offset behind them.
fn head(bytes: &[u8]) -> Option<([u64; 4], usize)> {
    let (mut numbers, mut at) = ([0; 4], 1);
    for number in &mut numbers {
        let length = 1 + bytes.get(at..)?.iter().position(|&byte| byte >= 128)?;
        for &byte in bytes[at..at + length].iter().rev() {
            *number = *number << 7 | u64::from(byte % 128);
        }
        at += length;
    }
    Some((numbers, at))
}

/// Why the Rust opens a column that is refused here.
fn cause_of_opening(bytes: &[u8], error: Error) -> Option<Cause> {
    let codec = bytes[0];
    let ([minimum, gcd, count, rows], next) = head(bytes)?;
    let greatest = u128::from(minimum) + u128::from(gcd) * u128::from(count);
    let footer = || {
        let (rest, long) = bytes.split_last_chunk::<4>()?;
        rest.len().checked_sub(u32::from_le_bytes(*long) as usize).filter(|&footer| next <= footer)
    };
    match error {
        Error::OutOfRange if greatest >> 64 != 0 => Some(Cause::BoundsWrap),
        Error::OutOfRange if rows >> 32 != 0 => Some(Cause::RowsCut),
        Error::AreaShort if codec != BLOCKWISE => Some(Cause::AreaShort),
        Error::AreaShort if footer().is_some() => Some(Cause::AreaIntoFooter),
        Error::BadField { offset } if codec == BLOCKWISE && (footer()?..bytes.len() - 3).contains(&offset) => Some(Cause::FieldsPastFooter),
        _ => None,
    }
}

/// Why the Rust answers a row that is refused here.
fn cause_of_row(column: &Ours, row: u32, ours: Result<u64, Error>, theirs: Result<u64, rust::Failed>) -> Option<Cause> {
    let inside = |value| (column.minimum()..=column.maximum()).contains(&value);
    match (ours, theirs) {
        (Err(Error::OutOfBounds { row: refused }), Ok(answer)) if refused == row => {
            // The other two multiply by the gcd modulo 2^64, which may lead back inside.
            let outside = column.codec() != Codec::Linear || !inside(answer);
            outside.then_some(Cause::OutsideBounds)
        }
        _ => None,
    }
}

fn compare_rows(tally: &mut Tally, column: &Ours, theirs: &rust::Opened) {
    let rows = column.len().min(READ);
    let bytes = column.bytes();
    let mut answers = Vec::new();
    for row in 0..rows {
        let (ours, theirs) = (column.get(row), theirs.row(row));
        if ours.is_ok() && ours.ok() == theirs.ok() {
            answers.extend(ours);
        } else {
            let cause = cause_of_row(column, row, ours, theirs);
            tally.differ("row", cause, bytes.len(), || format!("{} row {row}: {ours:?}, {theirs:?}", hex(bytes)));
        }
    }
    tally.alike("rows", answers.len());
    if column.get(column.len()) != Err(Error::NoSuchRow) {
        tally.differ("row behind the last", None, bytes.len(), || hex(bytes));
    }
}

/// Runs of rows: as the rows one by one answer, and as the Rust does where none is refused.
fn compare_runs(tally: &mut Tally, random: &mut Random, column: &Ours, theirs: &rust::Opened) {
    let rows = column.len().min(READ);
    let bytes = column.bytes();
    for _ in 0..3 {
        let any = random.below(rows as usize + 1) as u32;
        let first = random.pick(&[0, any, any / 512 * 512]);
        let left = (rows - first) as usize;
        let some = random.below(left + 1);
        let many = random.pick(&[left, some, left.min(1)]);
        let mut out = vec![u64::MAX; many];
        let ours = column.read_into(first, &mut out).map(|()| out.clone());
        let singly: Result<Vec<u64>, Error> = (first..first + many as u32).map(|row| column.get(row)).collect();
        let untouched = ours.is_ok() || out.iter().all(|&value| value == u64::MAX);
        let same = ours.is_err() || theirs.run(first, many).as_ref() == Ok(&out);
        if ours == singly && untouched && same {
            tally.alike("runs of rows", 1);
        } else {
            tally.differ("run of rows", None, bytes.len(), || format!("{} {many} rows from {first}: {ours:?}", hex(bytes)));
        }
    }
    let behind = column.read_into(column.len(), &mut [0]);
    if behind != Err(Error::NoSuchRow) || column.read_into(column.len(), &mut []) != Ok(()) {
        tally.differ("run behind the last row", None, bytes.len(), || hex(bytes));
    }
}

fn compare_lookup(tally: &mut Tally, column: &Ours, theirs: &rust::Opened, (low, high): (u64, u64), (first, end): (u32, u32)) {
    let ours = column.find(low..=high, first..end);
    let theirs = theirs.find(low..=high, first..end);
    let bitpacked = column.codec() == Codec::Bitpacked;
    let cause = match &ours {
        Ok(found) if theirs.as_ref() == Ok(found) => return tally.alike("lookups", 1),
        Err(Error::OutOfBounds { .. }) => Some(Cause::OutsideBounds),
        Ok(_) if bitpacked && low <= high && high < column.minimum() => Some(Cause::BelowMinimum),
        Ok(_) if bitpacked && end > column.len() => Some(Cause::EndNotCut),
        _ => None,
    };
    let bytes = column.bytes();
    tally.differ("lookup", cause, bytes.len(), || format!("{} {low} to {high}, rows {first} to {end}: {ours:?}, {theirs:?}", hex(bytes)));
}

fn compare_lookups(tally: &mut Tally, random: &mut Random, column: &Ours, theirs: &rust::Opened, values: &[u64]) {
    let rows = column.len().min(READ);
    for _ in 0..3 {
        let any = random.below(rows as usize + 1) as u32;
        let first = random.pick(&[0, 0, any, u32::MAX]);
        let end = random.pick(&[rows, rows, any, (column.len() <= READ) as u32 * 3 + rows]);
        compare_lookup(tally, column, theirs, lists::range(random, values), (first, end));
    }
}

/// A window in a window: its run and its lookups are the Rust's at the column's rows, where none is refused; and refused rows count from its start.
fn compare_windows(tally: &mut Tally, random: &mut Random, column: &Ours, theirs: &rust::Opened, values: &[u64]) {
    let rows = column.len().min(READ);
    let bytes = column.bytes();
    let outer = random.below(rows as usize + 1) as u32;
    let inner = random.below((rows - outer) as usize + 1) as u32;
    let many = random.below((rows - outer - inner) as usize + 1);
    let first = outer + inner;
    let window = column.window(outer..rows).and_then(|page| page.window(inner..inner + many as u32));
    let Ok(window) = window else {
        return tally.differ("window", None, bytes.len(), || format!("{} {many} rows from {first}: {window:?}", hex(bytes)));
    };
    let mut out = vec![0; many];
    let ours = window.read_into(0, &mut out).map(|()| &out);
    let moved = |error| if let Error::OutOfBounds { row } = error { Error::OutOfBounds { row: row - first } } else { error };
    let here: Result<Vec<u64>, Error> = (first..first + many as u32).map(|row| column.get(row).map_err(moved)).collect();
    let (low, high) = lists::range(random, values);
    let found = window.find(low..=high, ..);
    let rows = column.find(low..=high, first..first + many as u32);
    let moved = rows.map(|rows| rows.into_iter().map(|row| row - first).collect::<Vec<_>>()).map_err(moved);
    let same = ours.is_err() || theirs.run(first, many).as_ref() == Ok(&out);
    if ours == here.as_ref().map_err(|&why| why) && same && found == moved && window.get(many as u32).is_err() {
        tally.alike("windows in windows", 1);
    } else {
        tally.differ("window", None, bytes.len(), || format!("{} {many} rows from {first}: {here:?}, {found:?}", hex(bytes)));
    }
}

fn compare_column(tally: &mut Tally, random: &mut Random, bytes: &[u8], values: &[u64], whose: &str) {
    match (Column::open(bytes), rust::open(bytes)) {
        (Ok(column), Ok(theirs)) => {
            if theirs.head() != (column.minimum(), column.maximum(), column.len()) {
                return tally.differ("head", None, bytes.len(), || hex(bytes));
            }
            tally.alike(format!("{whose} columns opened"), 1);
            compare_rows(tally, &column, &theirs);
            compare_runs(tally, random, &column, &theirs);
            compare_lookups(tally, random, &column, &theirs, values);
            compare_windows(tally, random, &column, &theirs, values);
            compare_names(tally, &column, |value| value);
        }
        _ if compat::open::<u64>(bytes).is_err_and(|failed| failed == compat::Failed::Panic) => {
            tally.differ("a panic of opening by the crate's names", None, bytes.len(), || hex(bytes));
        }
        (Err(error), Err(failed)) => {
            let how = if failed == rust::Failed::Panic { "a panic" } else { "an error" };
            tally.alike(format!("{whose} columns that neither opens: {} here, {how} there", error.number()), 1);
        }
        (Err(error), Ok(_)) => {
            tally.differ("opening", cause_of_opening(bytes, error), bytes.len(), || format!("{}: {error:?}", hex(bytes)));
        }
        (Ok(_), Err(failed)) => tally.differ("opening", None, bytes.len(), || format!("{} opens here, {failed:?}", hex(bytes))),
    }
}

/// A column by the crate's names over this library: each answer is that of the library's own call, and where that refuses a panic.
fn compare_names<T>(tally: &mut Tally, column: &Column<T, &[u8]>, bits: impl Fn(T) -> u64)
where
    T: Value + hulemartob::compat::MonotonicallyMappableToU64,
{
    let bytes = column.bytes();
    let Ok(named) = compat::open::<T>(bytes) else {
        return tally.differ("opening by the crate's names", None, bytes.len(), || hex(bytes));
    };
    let rows = column.len().min(READ);
    let mut random = Random::new(bytes.len() as u64);
    let first = random.below(rows as usize + 1) as u32;
    let many = random.below((rows - first) as usize + 1);
    let of = |value: Result<T, Error>| value.map(&bits).map_err(|_| compat::Failed::Panic);
    let of_run = |run: Vec<T>| run.into_iter().map(&bits).collect::<Vec<u64>>();
    let (least, greatest, rows_named) = named.head();
    let mut run = vec![T::default(); many];
    let run = column.read_into(first, &mut run).map(|()| of_run(run)).map_err(|_| compat::Failed::Panic);
    let (low, high) = (column.get(first).unwrap_or_default(), column.maximum());
    let found = column.find(low..=high, first..rows).map_err(|_| compat::Failed::Panic);
    let same = [
        (bits(least), bits(greatest), rows_named) == (bits(column.minimum()), bits(column.maximum()), column.len()),
        (first..rows).step_by(7).chain([column.len()]).all(|row| named.row(row).map(&bits) == of(column.get(row))),
        named.run(first, many).map(of_run) == run,
        named.find(low..=high, first..rows) == found,
    ];
    if same == [true; 4] {
        tally.alike("columns read by the crate's names", 1);
    } else {
        tally.differ("reading by the crate's names", None, bytes.len(), || format!("{} {many} rows from {first}: {same:?}", hex(bytes)));
    }
}

/// What the Rust wrote is passed for its list under both sheets, and not for another; of a damaged column that is passed the Rust reads the list too.
fn compare_checks(tally: &mut Tally, bytes: &[u8], values: &[u64], whose: &str) {
    let passed = Sheet::ALL.map(|sheet| check(sheet, bytes, values));
    let mut right = true;
    if whose == "written" {
        right = passed == [Ok(()), Ok(())];
        let mut other = values.to_vec();
        if let Some(value) = other.get_mut(values.len() / 2) {
            *value = value.wrapping_add(1);
            right &= check(Sheet::One, bytes, &other) == Err(Mismatch::Unequal { row: values.len() as u32 / 2 });
        }
    } else if passed[0].is_err() {
        return;
    }
    if right && rust::open(bytes).and_then(|column| column.run(0, values.len())).as_deref() == Ok(values) {
        tally.alike(format!("{whose} columns passed for their list"), 1);
    } else {
        tally.differ("check", None, bytes.len(), || format!("{} {values:?}: {passed:?}", hex(bytes)));
    }
}

fn compare_list(tally: &mut Tally, random: &mut Random, values: &[u64]) {
    compare_statistics(tally, values);
    if ties(values) {
        tally.alike("lists on which two sizes tie, written by every list of codecs", 1);
        LISTS.iter().for_each(|codecs| _ = compare_writing(tally, values, codecs));
    }
    let choice = 3 + random.below(LISTS.len() - 3);
    for codecs in LISTS[..3].iter().chain([&LISTS[choice]]) {
        let Some(column) = compare_writing(tally, values, codecs) else { continue };
        if codecs.len() > 1 {
            continue;
        }
        compare_column(tally, random, &column, values, "written");
        compare_checks(tally, &column, values, "written");
        for _ in 0..4 {
            let damaged = lists::damaged(random, &column);
            compare_column(tally, random, &damaged, values, "damaged");
            compare_checks(tally, &damaged, values, "damaged");
        }
    }
}

/// The choice between Bitpacked and Blockwise, with either listed first, and that of all three.
fn compare_choices(tally: &mut Tally, values: &[u64]) {
    for codecs in [[0, 2].as_slice(), &[2, 0], &[0, 1, 2], &[2, 1, 0]] {
        if compare_writing(tally, values, codecs).is_some() {
            tally.alike("choices where f32 may round", 1);
        }
    }
}

/// Whether two of the codecs take the same size, so that the order of the list decides.
fn ties(values: &[u64]) -> bool {
    let sizes = columnar::sizes(values, &rust::codec_types(&[0, 1, 2]));
    let applying: Vec<u64> = sizes.into_iter().flatten().collect();
    applying.iter().enumerate().any(|(i, size)| applying[..i].contains(size))
}

/// Lists whose choice hangs on the saving being worked out in f32, which a generated list meets too seldom; and long ones, where f32 rounds the rows or
/// their product with the exponent.
fn lists_of_note() -> Vec<Vec<u64>> {
    let falling = |step: u64, rows: u64| (0..rows).rev().map(|i| step * i).collect();
    let turning = |step: u64, rows: u64| (0..rows).map(|i| i % 2 * step).collect();
    vec![
        vec![0, u64::MAX],
        falling(2_097_151, 7),
        falling(2_097_150, 7),
        turning(1 << 63, 266_313),
        turning(u64::MAX, 266_313),
        turning((1 << 40) - 1, 1_048_577),
        falling(256, 16_777_217),
    ]
}

/// Whether a gcd, above the least, lies within 3 of a power of two.
fn is_near_power(gcd: u64) -> bool {
    gcd > 4 && (2..=64).any(|power| (1i128 << power).abs_diff(i128::from(gcd)) <= 3)
}

/// Whether this platform's log2 is that of the table that the saving goes by: each bound is the least f32 whose log2 reaches its power.
fn bounds_hold() -> bool {
    let source = include_str!("../../../../crates/float/src/saving.rt");
    let table = source.split_once("[u32; 65] = [").and_then(|(_, rest)| rest.split_once(']')).expect("the table of bounds").0;
    let bounds: Vec<f32> =
        table.split(',').filter_map(|word| u32::from_str_radix(word.trim().strip_prefix("0x")?, 16).ok()).map(f32::from_bits).collect();
    assert_eq!(bounds.len(), 65, "the table of bounds");
    bounds.into_iter().enumerate().all(|(power, bound)| bound.log2() >= power as f32 && bound.next_down().log2() < power as f32)
}

fn main() -> ExitCode {
    let mut words = std::env::args().skip(1).map(|word| word.parse().expect("compare [LISTS [SEED]]: whole numbers"));
    let (many, seed) = (words.next().unwrap_or(10_000), words.next().unwrap_or(1));
    std::panic::set_hook(Box::new(|_| {}));
    // Two sequences, so that what is drawn for one comparison leaves the other's inputs as they are.
    let (mut tally, mut random, mut typed_random) = (Tally::default(), Random::new(seed), Random::new(!seed));
    typed::compare_mappings(&mut tally, &mut typed_random, 100 * many);
    for values in lists_of_note() {
        compare_choices(&mut tally, &values);
    }
    let mut near = 0;
    for turn in 0..many {
        // Every third has a gcd on or near a power of two; how many really have is counted.
        let values = if turn % 3 == 2 {
            lists::near_power(&mut random)
        } else {
            lists::list(&mut random, (turn as usize / 3 * 2 + turn as usize % 3) % lists::KINDS)
        };
        compare_list(&mut tally, &mut random, &values);
        typed::compare(&mut tally, &mut typed_random, &values);
        if turn % 3 == 2 {
            near += usize::from(is_near_power(columnar::stats(&values).gcd.get()));
            compare_choices(&mut tally, &values);
        }
    }
    println!(
        "{many} lists: {near} of the {} made for it have a gcd above 4 within 3 of a power of two, the others are of {} kinds; seed {seed}",
        many / 3,
        lists::KINDS
    );
    let named_build = bounds_hold();
    if !named_build {
        println!("log2 of an f32 is another here than in the table of bounds (docs/DIFFERENCES.md): the choice of a codec may differ");
    }
    // Equal choice is claimed for one build. Elsewhere nothing is shown of it, unless that is known.
    let told = std::env::var_os("ANOTHER_BUILD").is_some();
    if tally.report() && (named_build || told) { ExitCode::SUCCESS } else { ExitCode::FAILURE }
}

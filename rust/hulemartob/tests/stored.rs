//! Every stored answer (`tests/stored`, laid out in `tools/answers/README.md`) asked of the archive itself: its own symbols, called as C calls them, with every lent
//! entry marked before the call. What is not proved, the compiler's back end and the calling convention, is what this tests.
//!
//! Every unsafe block is sound for one reason: each pointer is that of a live reference, with its own length beside it.
#![allow(clippy::undocumented_unsafe_blocks)]

use std::fs;
use std::path::{Path, PathBuf};

// Brings the archive in; the calls below go past the crate.
use hulemartob as _;

type Column = [u64; 12];
type Block = [u64; 4];
type Refusal = [u64; 2];

unsafe extern "C" {
    fn hulemartob_column_stats_as(kind: u32, values: *const u64, len: usize, stats: *mut [u64; 4], refusal: *mut Refusal);
    fn hulemartob_serialize_as(
        kind: u32,
        values: *const u64,
        len: usize,
        codecs: *const u8,
        codecs_len: usize,
        out: *mut u8,
        out_len: usize,
        refusal: *mut Refusal,
    ) -> usize;
    fn hulemartob_open_under(
        sheet: u32,
        bytes: *const u8,
        len: usize,
        table: *mut Block,
        blocks: usize,
        column: *mut Column,
        refusal: *mut Refusal,
    ) -> u64;
    fn hulemartob_narrow(column: *mut Column, first: u32, count: u32, refusal: *mut Refusal);
    fn hulemartob_row(
        column: *const Column,
        table: *const Block,
        blocks: usize,
        bytes: *const u8,
        len: usize,
        row: u32,
        refusal: *mut Refusal,
    ) -> u64;
    fn hulemartob_lookup(
        column: *const Column,
        table: *const Block,
        blocks: usize,
        bytes: *const u8,
        len: usize,
        low: u64,
        high: u64,
        first: u32,
        end: u32,
        found: *mut u32,
        found_len: usize,
        refusal: *mut Refusal,
    ) -> usize;
    fn hulemartob_run(
        column: *const Column,
        table: *const Block,
        blocks: usize,
        bytes: *const u8,
        len: usize,
        first: u32,
        out: *mut u64,
        out_len: usize,
        refusal: *mut Refusal,
    ) -> usize;
    fn hulemartob_sizes(kind: u32, values: *const u64, len: usize, sizes: *mut [u64; 3], refusal: *mut Refusal);
    fn hulemartob_stop(bytes: *const u8, len: usize, place: *mut [u64; 4]);
    fn hulemartob_parts(
        column: *const Column,
        bytes: *const u8,
        len: usize,
        cursor: *mut [u64; 2],
        numbers: *mut u64,
        numbers_len: usize,
        refusal: *mut Refusal,
    ) -> usize;
    fn hulemartob_difference(
        left: *const Column,
        ltable: *const Block,
        lblocks: usize,
        lbytes: *const u8,
        llen: usize,
        right: *const Column,
        rtable: *const Block,
        rblocks: usize,
        rbytes: *const u8,
        rlen: usize,
        from: u32,
        differing: *mut [u64; 7],
        refusal: *mut Refusal,
    );
    safe fn hulemartob_i64_of(stored: u64) -> i64;
    safe fn hulemartob_bool_of(stored: u64) -> bool;
    safe fn hulemartob_f64_bits_of(stored: u64) -> u64;
    fn hulemartob_i64_range(low: i64, high: i64, range: *mut [u64; 2]);
    fn hulemartob_bool_range(low: bool, high: bool, range: *mut [u64; 2]);
    fn hulemartob_f64_range(low: u64, high: u64, range: *mut [u64; 2]);
}

/// What lent memory holds before a call.
const MARK: u64 = 0xA5A5_A5A5_A5A5_A5A5;
const NO_SPELLING: u64 = u64::MAX;

// ---- the files

/// A file's words, one after another.
struct Words<'a> {
    rest: &'a [u8],
}

impl<'a> Words<'a> {
    fn bytes(&mut self, many: usize) -> &'a [u8] {
        let (taken, rest) = self.rest.split_at(many.next_multiple_of(8));
        self.rest = rest;
        &taken[..many]
    }

    fn word(&mut self) -> u64 {
        u64::from_le_bytes(self.bytes(8).try_into().unwrap())
    }

    fn size(&mut self) -> usize {
        self.word() as usize
    }

    fn words(&mut self, many: usize) -> Vec<u64> {
        (0..many).map(|_| self.word()).collect()
    }

    fn refusal(&mut self) -> Refusal {
        [self.word(), self.word()]
    }
}

/// A record's first word, and its other words.
fn record<'a>(file: &mut &'a [u8]) -> (u8, u32, Words<'a>) {
    let (kind, values) = (file[0], u32::from(file[2]));
    let length = u32::from_le_bytes(file[4..8].try_into().unwrap()) as usize;
    let (own, rest) = file.split_at(length);
    *file = rest;
    (kind, values, Words { rest: &own[8..] })
}

fn halves(word: u64) -> (u32, u32) {
    (word as u32, (word >> 32) as u32)
}

// ---- lists

/// A list by its rule, with the values that are written out in its front.
fn listed(rule: &[u64], first: &[u64]) -> Vec<u64> {
    let &[rows, start, step, along, seed, factor, noise] = rule else { panic!("a rule has seven words") };
    let mut state = seed;
    let mut values: Vec<u64> = (0..rows)
        .map(|row| {
            state = state.wrapping_mul(6364136223846793005).wrapping_add(1442695040888963407);
            start.wrapping_add(step.wrapping_mul(row & along)).wrapping_add(factor.wrapping_mul((state >> 20) & noise))
        })
        .collect();
    values[..first.len()].copy_from_slice(first);
    values
}

fn checksum(bytes: &[u8]) -> u64 {
    bytes.iter().fold(14695981039346656037, |sum: u64, &byte| sum.wrapping_add(byte.into()).wrapping_mul(1099511628211))
}

fn ask_list(kind: u32, mut words: Words) {
    let rule = words.words(7);
    let (literal, codecs, room) = (words.size(), words.size(), words.size());
    let stats: [u64; 4] = words.words(4).try_into().unwrap();
    let (refusal, length, sum, shown) = (words.refusal(), words.size(), words.word(), words.size());
    let values = listed(&rule, &words.words(literal));
    let codecs = words.bytes(codecs);
    let shown = words.bytes(shown);

    let (mut told, mut why) = ([MARK; 4], [MARK; 2]);
    unsafe { hulemartob_column_stats_as(kind, values.as_ptr(), values.len(), &mut told, &mut why) };
    assert_eq!((told, why), (stats, [0, 0]), "statistics");

    let mut out = vec![MARK as u8; room];
    let written = unsafe {
        hulemartob_serialize_as(kind, values.as_ptr(), values.len(), codecs.as_ptr(), codecs.len(), out.as_mut_ptr(), out.len(), &mut why)
    };
    assert_eq!(why, refusal, "refusal of writing");
    let written = if why[0] == 0 { written } else { 0 };
    let (column, behind) = out.split_at(written);
    assert_eq!((column.len(), checksum(column)), (length, sum), "the column");
    assert!(column.starts_with(shown), "the column's first bytes");
    assert!(behind.iter().all(|&byte| byte == MARK as u8), "the output behind the column");
    compare_sizes(kind, &values, codecs, refusal, column);
    if why[0] == 0 {
        read_back(kind, &values, column);
    }
}

/// The sizes explain the stored choice: the column is by the earliest listed codec of the least size, which but for Blockwise and the code byte is its length; where none
/// is chosen, none that is listed applies.
fn compare_sizes(kind: u32, values: &[u64], codecs: &[u8], refusal: Refusal, column: &[u8]) {
    let (mut sizes, mut why) = ([MARK; 3], [MARK; 2]);
    unsafe { hulemartob_sizes(kind, values.as_ptr(), values.len(), &mut sizes, &mut why) };
    assert_eq!(why, [0, 0], "sizes");
    let least = codecs.iter().filter_map(|&codec| Some((*sizes.get(usize::from(codec))?, codec))).min_by_key(|&(size, _)| size);
    match (refusal[0], least) {
        (0, Some((size, codec))) => {
            assert_eq!(column[0], codec, "the codec of the least size of {sizes:?}");
            assert!(codec == 2 || column.len() as u64 == size + 1, "a size, and the length of {}", column.len());
        }
        (3, least) => assert!(least.is_none_or(|(size, _)| size == u64::MAX), "no codec applies, of {sizes:?}"),
        _ => {}
    }
}

/// The column gives back its list: a bool as what it was, all other values bit for bit.
fn read_back(kind: u32, values: &[u64], bytes: &[u8]) {
    let mut table = vec![[MARK; 4]; values.len().div_ceil(512)];
    let (column, _, why) = open(1, bytes, &mut table);
    assert_eq!(why, [0, 0], "a written column opens");
    let mut run = vec![MARK; values.len()];
    let mut why = [MARK; 2];
    let read = unsafe {
        hulemartob_run(&column, table.as_ptr(), table.len(), bytes.as_ptr(), bytes.len(), 0, run.as_mut_ptr(), run.len(), &mut why)
    };
    assert_eq!((read, why), (values.len(), [0, 0]), "a written column's rows");
    for (&stored, &value) in run.iter().zip(values) {
        assert_eq!(read_as(kind, stored), if kind == 3 { u64::from(value != 0) } else { value }, "a row of what was written");
    }
}

// ---- columns

fn open(sheet: u32, bytes: &[u8], table: &mut [Block]) -> (Column, u64, Refusal) {
    let (mut column, mut why) = ([MARK; 12], [MARK; 2]);
    let longer =
        unsafe { hulemartob_open_under(sheet, bytes.as_ptr(), bytes.len(), table.as_mut_ptr(), table.len(), &mut column, &mut why) };
    (column, longer, why)
}

fn read_as(kind: u32, stored: u64) -> u64 {
    match kind {
        0 => stored,
        1 | 2 => hulemartob_i64_of(stored) as u64,
        3 => u64::from(hulemartob_bool_of(stored)),
        4 => hulemartob_f64_bits_of(stored),
        _ => panic!("no kind {kind}"),
    }
}

fn range_as(kind: u32, low: u64, high: u64) -> [u64; 2] {
    let mut range = [MARK; 2];
    match kind {
        0 => range = [low, high],
        1 | 2 => unsafe { hulemartob_i64_range(low as i64, high as i64, &mut range) },
        3 => unsafe { hulemartob_bool_range(low != 0, high != 0, &mut range) },
        4 => unsafe { hulemartob_f64_range(low, high, &mut range) },
        _ => panic!("no kind {kind}"),
    }
    range
}

/// A column with its table and its bytes.
struct Asked<'a> {
    column: Column,
    table: Vec<Block>,
    bytes: &'a [u8],
}

impl Asked<'_> {
    /// The parts, three at a time, are the column's bytes one after the other.
    fn parts(&self) {
        let (mut cursor, mut end) = ([0; 2], 0);
        loop {
            let (mut parts, mut why) = ([[MARK; 5]; 3], [MARK; 2]);
            let (numbers, room) = (parts.as_mut_ptr().cast(), 15);
            let many =
                unsafe { hulemartob_parts(&self.column, self.bytes.as_ptr(), self.bytes.len(), &mut cursor, numbers, room, &mut why) };
            assert_eq!(why, [0, 0], "parts");
            for part in &parts[..many] {
                assert_eq!(part[2], end, "a part begins where the one before ends");
                end += part[3];
            }
            assert!(parts[many..].iter().flatten().all(|&number| number == MARK), "the list behind the parts");
            if many < parts.len() {
                break;
            }
        }
        assert_eq!(end, self.bytes.len() as u64, "the parts are all bytes");
    }

    /// A column does not differ from itself.
    fn difference(&self) {
        let (mut differing, mut why) = ([MARK; 7], [MARK; 2]);
        let (column, table, blocks) = (&raw const self.column, self.table.as_ptr(), self.table.len());
        let (bytes, len) = (self.bytes.as_ptr(), self.bytes.len());
        unsafe {
            hulemartob_difference(column, table, blocks, bytes, len, column, table, blocks, bytes, len, 0, &mut differing, &mut why);
        }
        assert_eq!((differing, why), ([u64::MAX, 0, 0, 0, 0, 0, 0], [0, 0]), "a column beside itself");
    }

    fn row(&self, words: &mut Words) {
        let (row, kind) = halves(words.word());
        let (number, value) = (words.word(), words.word());
        let mut why = [MARK; 2];
        let read = unsafe {
            hulemartob_row(&self.column, self.table.as_ptr(), self.table.len(), self.bytes.as_ptr(), self.bytes.len(), row, &mut why)
        };
        match number {
            0 => assert_eq!((read_as(kind, read), why), (value, [0, 0]), "row {row}"),
            _ => assert_eq!(why, [number, value], "row {row}"),
        }
    }

    /// A lookup, a run or a narrowing: they have the same words.
    fn question(&self, kind: u8, words: &mut Words) {
        let (low, high) = (words.word(), words.word());
        let (first, values) = halves(words.word());
        let (end, length, refusal, many) = (words.word() as u32, words.size(), words.refusal(), words.size());
        let answer = words.words(many);
        match kind {
            RUN => self.run(first, length, refusal, &answer),
            NARROW => self.narrow(first, end, refusal, &answer),
            _ => self.lookup(range_as(values, low, high), first, end, length, refusal, &answer),
        }
    }

    fn lookup(&self, [low, high]: [u64; 2], first: u32, end: u32, length: usize, refusal: Refusal, rows: &[u64]) {
        let (mut found, mut why) = (vec![MARK as u32; length], [MARK; 2]);
        let many = unsafe {
            hulemartob_lookup(
                &self.column,
                self.table.as_ptr(),
                self.table.len(),
                self.bytes.as_ptr(),
                self.bytes.len(),
                low,
                high,
                first,
                end,
                found.as_mut_ptr(),
                found.len(),
                &mut why,
            )
        };
        assert_eq!(why, refusal, "lookup of {low} to {high}");
        let many = if why[0] == 0 { many } else { 0 };
        assert!(found[..many].iter().map(|&row| u64::from(row)).eq(rows.iter().copied()), "rows from {low} to {high}: {found:?}");
        assert!(found[many..].iter().all(|&row| row == MARK as u32), "the list behind the rows found");
    }

    fn run(&self, first: u32, length: usize, refusal: Refusal, values: &[u64]) {
        let (mut out, mut why) = (vec![MARK; length], [MARK; 2]);
        let many = unsafe {
            hulemartob_run(
                &self.column,
                self.table.as_ptr(),
                self.table.len(),
                self.bytes.as_ptr(),
                self.bytes.len(),
                first,
                out.as_mut_ptr(),
                out.len(),
                &mut why,
            )
        };
        assert_eq!(why, refusal, "run from {first}");
        if why[0] == 0 {
            assert_eq!((many, out.as_slice()), (values.len(), values), "run from {first}");
        } else {
            assert!(out.iter().all(|&value| value == MARK), "a refused run's list");
        }
    }

    fn narrow(&self, first: u32, count: u32, refusal: Refusal, window: &[u64]) {
        let (mut column, mut why) = (self.column, [MARK; 2]);
        unsafe { hulemartob_narrow(&mut column, first, count, &mut why) };
        assert_eq!((why, &column[10..]), (refusal, window), "window of {count} from {first}");
        assert_eq!(column[..10], self.column[..10], "the column's other numbers");
    }
}

const LIST: u8 = 1;
const OPEN: u8 = 2;
const UNDER: u8 = 4;
const RUN: u8 = 5;
const NARROW: u8 = 6;

fn blocks(numbers: &[u64]) -> Vec<Block> {
    numbers.as_chunks::<4>().0.to_vec()
}

/// Where opening stops is told by the stored refusal's number, and at the offset that comes with it; what opens, and what only a sheet refuses, stops nowhere. Other
/// numbers say nothing of the bytes.
fn compare_stop(number: u64, also: u64, bytes: &[u8]) {
    let mut place = [MARK; 4];
    unsafe { hulemartob_stop(bytes.as_ptr(), bytes.len(), &mut place) };
    match number {
        5..=10 => assert_eq!(place[0], number, "where opening stops"),
        0 | 17 => assert_eq!(place, [0; 4], "opening does not stop"),
        _ => {}
    }
    if matches!(number, 6 | 9) {
        assert_eq!(place[3], also, "the offset where opening stops");
    }
}

fn ask_column(kind: u8, mut words: Words) {
    let (room, sheet) = halves(words.word());
    let [number, also] = words.refusal();
    let numbers = words.words(10);
    let (table, size, rows, questions) = (words.size(), words.size(), words.size(), words.size());
    let table = blocks(&words.words(table));
    let bytes = words.bytes(size);

    let asked = if kind == OPEN || kind == UNDER {
        let sheet = if kind == UNDER { sheet } else { 1 };
        let mut lent = vec![[MARK; 4]; room as usize / 4];
        let (column, longer, why) = open(sheet, bytes, &mut lent);
        compare_stop(number, also, bytes);
        if number != 0 {
            assert_eq!(why, [number, also], "refusal of opening");
            assert!(lent.iter().flatten().chain(&column).all(|&entry| entry == MARK), "what a refused opening was lent");
            return;
        }
        assert_eq!((why, longer), ([0, 0], if also == 0 { NO_SPELLING } else { also }), "an opening, and its first longer spelling");
        assert_eq!((&column[..10], &column[10..]), (numbers.as_slice(), [0, numbers[4]].as_slice()), "the opened column");
        assert_eq!(lent[..table.len()], table, "the table");
        assert!(lent[table.len()..].iter().flatten().all(|&entry| entry == MARK), "the table behind the blocks");
        let asked = Asked { column, table: lent, bytes };
        asked.parts();
        // Of billions of rows without bits each is looked at.
        if column[4] < 1 << 20 {
            asked.difference();
        }
        asked
    } else {
        let mut column = [0; 12];
        column[..10].copy_from_slice(&numbers);
        column[10] = number;
        column[11] = u64::from((numbers[4] as u32).wrapping_sub(also as u32));
        Asked { column, table, bytes }
    };
    for _ in 0..rows {
        asked.row(&mut words);
    }
    for _ in 0..questions {
        asked.question(kind, &mut words);
    }
    assert!(words.rest.is_empty(), "a record has nothing left over");
}

fn files() -> Vec<PathBuf> {
    let folder = Path::new(env!("CARGO_MANIFEST_DIR")).join("../../tests/stored");
    let mut files: Vec<PathBuf> = fs::read_dir(folder).unwrap().map(|entry| entry.unwrap().path()).collect();
    files.retain(|path| path.extension().is_some_and(|end| end == "cases"));
    files.sort();
    files
}

#[test]
fn every_stored_answer_is_the_archives() {
    let mut records = 0;
    for path in files() {
        let bytes = fs::read(&path).unwrap();
        let mut file = bytes.as_slice();
        while !file.is_empty() {
            let (kind, values, words) = record(&mut file);
            match kind {
                LIST => ask_list(values, words),
                _ => ask_column(kind, words),
            }
            records += 1;
        }
    }
    assert_eq!(records, 1689, "records in all files");
}

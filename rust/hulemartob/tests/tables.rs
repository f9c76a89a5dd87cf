//! Block tables: what opening lays into a lent one, by the call of C, and what reading makes of any.

use hulemartob::raw::{Block, Numbers};
use hulemartob::{Codec, Column, Error, encode_with};

/// The rows 10, 30, 20 as a Blockwise column: its area is one byte.
const BLOCKWISE: [u8; 17] = [0x02, 0x8A, 0x8A, 0x82, 0x83, 0x08, 0x00, 0x00, 0x00, 0x00, 0x88, 0x80, 0x02, 0x07, 0x00, 0x00, 0x00];

/// A record that no column has.
const MARK: Block = Block { slope: 11, intercept: 12, width: 13, start: 14 };

unsafe extern "C" {
    fn hulemartob_open(
        bytes: *const u8,
        bytes_len: usize,
        table: *mut Block,
        table_len: usize,
        column: *mut [u64; 12],
        refusal: *mut [u64; 2],
    ) -> u64;
}

/// The twelve numbers of a column, which are 99 before, and the two of the refusal.
fn open(bytes: &[u8], table: &mut [Block]) -> ([u64; 12], [u64; 2]) {
    let (mut column, mut refusal) = ([99; 12], [99; 2]);
    // SAFETY: every pointer comes from a reference that lives through the call, with its own length beside it.
    unsafe { hulemartob_open(bytes.as_ptr(), bytes.len(), table.as_mut_ptr(), table.len(), &mut column, &mut refusal) };
    (column, refusal)
}

fn refused<T>(number: u64, value: u64) -> Result<T, Error> {
    Err(Error::from_numbers(number, value).unwrap())
}

/// A list of three blocks, and its column by a codec.
fn written(codec: Codec) -> Vec<u8> {
    let values: Vec<u64> = (0..1025).map(|i| 1000 * i + i * i % 97).collect();
    encode_with(&values, &[codec]).unwrap()
}

#[test]
fn no_records() {
    for codec in [Codec::Bitpacked, Codec::Linear] {
        let bytes = written(codec);
        let (column, refusal) = open(&bytes, &mut []);
        assert_eq!((&Numbers::from(column), refusal), (Column::open(&bytes).unwrap().raw().numbers, [0, 0]));
    }
    assert_eq!(open(&written(Codec::Blockwise), &mut []), ([99; 12], [11, 3]));
}

#[test]
fn a_record_too_few() {
    let mut table = [MARK; 2];
    assert_eq!(open(&written(Codec::Blockwise), &mut table), ([99; 12], [11, 3]));
    assert_eq!(table, [MARK; 2]);
}

#[test]
fn records_past_the_blocks() {
    let bytes = written(Codec::Blockwise);
    let opened = Column::open(&bytes).unwrap();
    let mut table = [MARK; 5];
    assert_eq!(open(&bytes, &mut table), ((*opened.raw().numbers).into(), [0, 0]));
    assert_eq!((&table[..3], &table[3..]), (opened.blocks(), &[MARK; 2][..]));
    for codec in [Codec::Bitpacked, Codec::Linear] {
        let mut table = [MARK; 5];
        assert_eq!(open(&written(codec), &mut table).1, [0, 0]);
        assert_eq!(table, [MARK; 5]);
    }
}

#[test]
fn any_record() {
    let column = Column::open(&BLOCKWISE).unwrap();
    let row = |block: Block| Column::from_raw(&BLOCKWISE, *column.raw().numbers, [block]).unwrap().get(0);
    let sound = column.blocks()[0];
    assert_eq!(row(sound), Ok(10));
    assert_eq!(row(Block::default()), Ok(10));
    assert_eq!(row(Block { slope: u64::MAX, intercept: u64::MAX, width: u64::MAX, start: u64::MAX }), refused(13, 0));
    assert_eq!(row(Block { slope: u64::MAX, intercept: u64::MAX, width: 0, start: 0 }), refused(14, 0));
    for width in [57, 63, 65, 256, 1 << 32, 1 << 63, u64::MAX] {
        assert_eq!(row(Block { width, ..sound }), refused(13, 0), "width {width}");
    }
    // A legal width whose bits leave the area.
    for width in [9, 56, 64] {
        assert_eq!(row(Block { width, ..sound }), refused(13, 0), "width {width}");
    }
    // Starts whose count of bits is 0, or next to it, modulo 2^64; a block without bits has none that could leave the area.
    for start in [1, (1 << 61) - 1, 1 << 61, (1 << 61) + 1, 1 << 63, u64::MAX - 1, u64::MAX] {
        assert_eq!(row(Block { start, ..sound }), refused(13, 0), "start {start}");
        assert_eq!(row(Block { start, width: 0, ..sound }), Ok(10), "start {start}");
    }
}

#[test]
fn wide_rows() {
    let stored = u64::MAX / 3;
    let bytes = stored.to_le_bytes();
    let numbers = [2, 0, 1, u64::MAX, 1, 0, 8, 0, 0, 0, 0, 1];
    let row = |width, start| {
        let table = [Block { width, start, ..Block::default() }];
        Column::from_raw(&bytes, numbers.into(), table).unwrap().get(0)
    };
    assert_eq!(row(64, 0), Ok(stored));
    assert_eq!(row(56, 0), Ok(stored % (1 << 56)));
    assert_eq!(row(56, 1), Ok(stored >> 8));
    for (width, start) in [(57, 0), (65, 0), (64, 1), (56, 2)] {
        assert_eq!(row(width, start), refused(13, 0), "width {width}, start {start}");
    }
}

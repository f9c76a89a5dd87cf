//! What each byte is, and the rows that it names.

use hulemartob::raw::{Cursor, Numbers};
use hulemartob::{Codec, Column, Error, Part, PartName, encode_with};

/// Three rows, Blockwise.
const BLOCKWISE: [u8; 17] = [0x02, 0x8A, 0x8A, 0x82, 0x83, 0x08, 0, 0, 0, 0, 0x88, 0x80, 0x02, 0x07, 0, 0, 0];

/// Four rows of five bits, and a byte behind the area.
const FIVES: [u8; 9] = [0x00, 0x80, 0x81, 0x9F, 0x84, 0x00, 0x00, 0x00, 0xFF];

#[test]
fn parts_follow_one_another() {
    let column = Column::open(&BLOCKWISE).unwrap();
    let parts: Vec<Part> = column.parts().map(Result::unwrap).collect();
    let mut at = 0;
    for part in &parts {
        assert_eq!(part.offset, at);
        for i in part.range() {
            assert_eq!(column.part_of_byte(i).unwrap(), *part);
        }
        at += part.len;
    }
    assert_eq!(at, BLOCKWISE.len());
    let field = |name, block, offset, len, value| Part { name, block, offset, len, value: Some(value) };
    assert_eq!(
        parts,
        [
            field(PartName::Code, None, 0, 1, 2),
            field(PartName::Minimum, None, 1, 1, 10),
            field(PartName::Gcd, None, 2, 1, 10),
            field(PartName::Count, None, 3, 1, 2),
            field(PartName::Rows, None, 4, 1, 3),
            Part { name: PartName::Area, block: None, offset: 5, len: 1, value: None },
            field(PartName::BlockSlope, Some(0), 6, 5, 1 << 31),
            field(PartName::BlockIntercept, Some(0), 11, 1, 0),
            field(PartName::BlockWidth, Some(0), 12, 1, 2),
            field(PartName::FooterLength, None, 13, 4, 7),
        ]
    );
}

#[test]
fn parts_in_words() {
    let values: Vec<u64> = (0..1025).map(|i| i * i % 97).collect();
    let words = |codec| -> Vec<String> {
        let column = Column::open(encode_with(&values, &[codec]).unwrap()).unwrap();
        column.parts().map(|part| part.unwrap().to_string()).collect()
    };
    assert_eq!(words(Codec::Bitpacked), ["code", "minimum", "gcd", "count", "rows", "area"]);
    assert_eq!(words(Codec::Linear)[5..], ["slope", "intercept", "width", "area"]);
    let blocks = words(Codec::Blockwise);
    assert_eq!(blocks[6..9], ["block 0 slope", "block 0 intercept", "block 0 width"]);
    assert_eq!(blocks[12..], ["block 2 slope", "block 2 intercept", "block 2 width", "footer length"]);
}

/// A stretch of any length goes on where the one before ended; empty parts are listed too. What a refused call was lent is as it was.
#[test]
fn in_stretches() {
    let values: Vec<u64> = (0..5000).map(|i| i * i % 9973).collect();
    for codec in Codec::ALL {
        let bytes = encode_with(&values, &[codec]).unwrap();
        let column = Column::open(&bytes).unwrap();
        let walk = |room: usize| {
            let (mut cursor, mut all) = (Cursor::default(), Vec::new());
            loop {
                let mut stretch = vec![[7; 5]; room];
                let many = column.raw().parts(&mut cursor, &mut stretch).unwrap();
                assert!(stretch[many..].iter().all(|part| *part == [7; 5]));
                all.extend_from_slice(&stretch[..many]);
                assert_eq!(cursor.number, all.len() as u64);
                if many < room {
                    assert_eq!(cursor.offset, bytes.len() as u64);
                    return all;
                }
            }
        };
        let whole = walk(100);
        assert_eq!(whole.len(), [7, 10, 39][codec as usize]);
        for room in [1, 2, 3, 7, 38, 39, 40] {
            assert_eq!(walk(room), whole);
        }
        let some: Vec<Part> = column.parts().map(Result::unwrap).collect();
        assert_eq!(some.len(), whole.iter().filter(|part| part[3] != 0).count());
        for part in some {
            assert_eq!(column.part_of_byte(part.offset).unwrap(), part);
        }
    }
    let column = Column::open(&BLOCKWISE).unwrap();
    let made = Numbers { area_start: 100, ..*column.raw().numbers };
    let (mut cursor, mut stretch) = (Cursor { number: 3, offset: 3 }, [[7; 5]; 2]);
    assert_eq!(Column::from_raw(&BLOCKWISE, made, []).unwrap().raw().parts(&mut cursor, &mut stretch), Err(Error::Unfit));
    assert_eq!((cursor, stretch), (Cursor { number: 3, offset: 3 }, [[7; 5]; 2]));
}

/// A column of many blocks is listed in one walk.
#[test]
fn many_blocks() {
    let values: Vec<u64> = (0..1_000_000).map(|i| i * 3 + i * i % 11).collect();
    let bytes = encode_with(&values, &[Codec::Blockwise]).unwrap();
    let column = Column::open(&bytes).unwrap();
    let blocks = values.len().div_ceil(512);
    let parts: Vec<Part> = column.parts().map(Result::unwrap).collect();
    assert_eq!(parts.len(), 6 + 3 * blocks + 1);
    assert_eq!(parts.iter().map(|part| part.len).sum::<usize>(), bytes.len());
}

#[test]
fn rows_of_a_byte() {
    let column = Column::open(&FIVES).unwrap();
    assert_eq!(column.rows_of_byte(4).unwrap(), 0..0);
    assert_eq!(column.rows_of_byte(5).unwrap(), 0..2);
    assert_eq!(column.rows_of_byte(6).unwrap(), 1..4);
    assert_eq!(column.rows_of_byte(7).unwrap(), 3..4);
    assert_eq!(column.rows_of_byte(8).unwrap(), 0..0);
    assert_eq!(column.part_of_byte(8).unwrap().name, PartName::Behind);
}

#[test]
fn past_the_last_byte() {
    let column = Column::open(&FIVES).unwrap();
    assert_eq!(column.part_of_byte(9), Err(Error::Unfit));
    assert_eq!(column.rows_of_byte(9), Err(Error::Unfit));
}

/// Of a made-up column that the bytes cannot hold the refusal is told once; others end with the bytes.
#[test]
fn parts_of_no_column() {
    let numbers = *Column::open(&BLOCKWISE).unwrap().raw().numbers;
    let parts = |made| Column::from_raw(&BLOCKWISE[..9], made, []).unwrap().parts().collect::<Vec<_>>();
    assert_eq!(parts(Numbers { area_start: 100, ..numbers }), [Err(Error::Unfit)]);
    assert_eq!(parts(Numbers { rows: 100_000, ..numbers }).len(), 9);
    assert_eq!(parts(Numbers { codec: 1, ..numbers }).len(), 8);
}

//! Runs of rows through this crate: their ends, refusals in each place of a chunk, and that they answer as the rows do one by one.

use hulemartob::{Codec, Column, Error, encode_with};

/// What the lists hold before a run: a refusal leaves it there.
const OLD: u64 = 0xDEAD_BEEF;

/// A run of so many rows: its answer, and what the lent list holds then.
fn run(column: &Column<u64, &[u8]>, first: u32, rows: usize) -> (Result<(), Error>, Vec<u64>) {
    let mut out = vec![OLD; rows];
    (column.read_into(first, &mut out), out)
}

#[track_caller]
fn refused(column: &Column<u64, &[u8]>, first: u32, rows: usize, number: u64, value: u64) {
    assert_eq!(run(column, first, rows), (Err(Error::from_numbers(number, value).unwrap()), vec![OLD; rows]));
}

#[track_caller]
fn found(column: &Column<u64, &[u8]>, first: u32, values: &[u64]) {
    assert_eq!(run(column, first, values.len()), (Ok(()), values.to_vec()));
}

/// A made-up Bitpacked column of bytes, of which those above the count are out of bounds.
fn bytewise(bytes: &[u8], count: u64, rows: u64, size: u64) -> Column<u64, &[u8]> {
    Column::from_raw(bytes, [0, 0, 1, count, rows, 0, size, 0, 0, 0, 0, rows].into(), []).unwrap()
}

fn noise(rows: u64, bits: u32) -> Vec<u64> {
    (1..=rows).map(|i| i.wrapping_mul(0x9E37_79B9_7F4A_7C15).rotate_left(23) >> (64 - bits)).collect()
}

#[test]
fn the_ends_of_a_run() {
    let values = noise(700, 20);
    for codec in Codec::ALL {
        let bytes = encode_with(&values, &[codec]).unwrap();
        let column = Column::open(&bytes[..]).unwrap();
        found(&column, 0, &values);
        found(&column, 699, &values[699..]);
        found(&column, 700, &[]);
        found(&column, 0, &[]);
        refused(&column, 0, 701, 12, 0);
        refused(&column, 699, 2, 12, 0);
        refused(&column, 700, 1, 12, 0);
        refused(&column, 701, 0, 12, 0);
        refused(&column, u32::MAX, 0, 12, 0);
        refused(&column, u32::MAX, 5000, 12, 0);
    }
}

#[test]
fn across_blocks() {
    let values = noise(1600, 13);
    for codec in Codec::ALL {
        let bytes = encode_with(&values, &[codec]).unwrap();
        let column = Column::open(&bytes[..]).unwrap();
        for (first, end) in [(511, 512), (511, 513), (511, 514), (512, 513), (0, 512), (0, 513), (1, 512), (1, 1025), (300, 1600)] {
            found(&column, first as u32, &values[first..end]);
        }
    }
}

#[test]
fn widths_and_short_areas() {
    let mut lists = vec![vec![7; 600], vec![10, 30, 20], vec![u64::MAX, 0, 5]];
    lists.extend([1, 7, 8, 31, 56, 57, 64].map(|bits| noise(1100, bits)));
    lists.extend([1, 2, 3, 4].map(|rows| noise(rows, 13)));
    for values in &lists {
        for codec in [Codec::Bitpacked, Codec::Blockwise] {
            let bytes = encode_with(values, &[codec]).unwrap();
            let column = Column::open(&bytes[..]).unwrap();
            found(&column, 0, values);
            found(&column, 1, &values[1..]);
        }
    }
}

/// The row that the area's missing byte belongs to is the last of its chunk: all rows before it can be read.
#[test]
fn one_byte_short() {
    let bytes: Vec<u8> = (0..1200).map(|i| i as u8).collect();
    let values: Vec<u64> = bytes.iter().map(|&byte| u64::from(byte)).collect();
    let column = bytewise(&bytes, 255, 1200, 511);
    found(&column, 0, &values[..511]);
    for (first, rows) in [(0, 512), (511, 1), (0, 1200), (512, 10)] {
        refused(&column, first, rows, 13, 0);
    }
    assert_eq!(column.iter().take_while(Result::is_ok).count(), 511);
    assert_eq!(column.to_vec(), Err(Error::Unfit));
}

#[test]
fn one_row_out_of_bounds() {
    for row in [0, 5, 511, 512, 700, 1023, 1024, 1199] {
        let mut bytes = vec![3; 1200];
        bytes[row] = 255;
        let column = bytewise(&bytes, 254, 1200, 1200);
        refused(&column, 0, 1200, 14, row as u64);
        refused(&column, row as u32, 1, 14, row as u64);
        found(&column, 0, &vec![3; row]);
        found(&column, row as u32 + 1, &vec![3; 1199 - row]);
        // The first refused row decides.
        bytes[1199] = 255;
        refused(&bytewise(&bytes, 254, 1200, 1200), 0, 1200, 14, row as u64);
    }
}

#[test]
fn values_in_turn() {
    let values = noise(1300, 20);
    for codec in Codec::ALL {
        let bytes = encode_with(&values, &[codec]).unwrap();
        let column = Column::open(&bytes[..]).unwrap();
        assert_eq!(column.iter().len(), 1300);
        assert_eq!(column.iter().collect::<Result<Vec<u64>, Error>>(), Ok(values.clone()));
        assert_eq!(column.iter().skip(600).map(Result::unwrap).collect::<Vec<u64>>(), values[600..]);
        assert_eq!(column.to_vec(), Ok(values.clone()));
        assert_eq!((&column).into_iter().rev().flatten().collect::<Vec<u64>>(), values.iter().rev().copied().collect::<Vec<u64>>());
    }
    let mut bytes = vec![3; 1200];
    bytes[700] = 255;
    let column = bytewise(&bytes, 254, 1200, 1100);
    let rows: Vec<_> = (0..1200).map(|row| column.get(row)).collect();
    assert_eq!(column.iter().collect::<Vec<_>>(), rows);
    assert!(rows[699].is_ok() && rows[700].is_err() && rows[701].is_ok() && rows[1100].is_err());
    assert_eq!(column.iter().rev().collect::<Vec<_>>(), rows.iter().rev().copied().collect::<Vec<_>>());
    assert_eq!(column.to_vec(), Err(Error::OutOfBounds { row: 700 }));
    let mut list = vec![OLD; 5];
    assert_eq!((column.read_all(&mut list), list), (Err(Error::OutOfBounds { row: 700 }), vec![]));
    assert_eq!(bytewise(&[], 0, 0, 0).iter().next(), None);
}

/// Both ends take turns in every rhythm, also where they meet, and past the end there is nothing.
#[test]
fn values_from_both_ends() {
    let values = noise(1300, 20);
    let bytes = encode_with(&values, &[Codec::Blockwise]).unwrap();
    let column = Column::open(&bytes[..]).unwrap();
    for (first, end) in [(0, 1300), (0, 1), (100, 611), (511, 513), (500, 1100), (700, 700)] {
        let window = column.window(first..end).unwrap();
        for (front, back) in [(1, 1), (3, 1), (1, 7), (300, 300), (0, 1), (1, 0), (511, 2)] {
            let (mut iter, mut left) = (window.iter(), first as usize..end as usize);
            while !left.is_empty() {
                for _ in 0..front {
                    assert_eq!(iter.next(), left.next().map(|row| Ok(values[row])));
                }
                for _ in 0..back {
                    assert_eq!(iter.next_back(), left.next_back().map(|row| Ok(values[row])));
                }
                assert_eq!(iter.len(), left.len());
            }
            assert_eq!((iter.next(), iter.next_back(), iter.nth(3), iter.len()), (None, None, None, 0));
        }
        assert_eq!(window.iter().nth(usize::MAX), None);
        assert_eq!(window.iter().nth(window.len() as usize), None);
    }
    assert_eq!(column.iter().nth(1299), Some(Ok(values[1299])));
}

/// Runs and lookups of a chunk at a time, as the library's one call for all rows answers.
#[test]
fn chunks_answer_as_the_whole() {
    let values = noise(2000, 16);
    for codec in Codec::ALL {
        let bytes = encode_with(&values, &[codec]).unwrap();
        let column = Column::open(&bytes[..]).unwrap();
        for (first, end) in [(0, 2000), (1, 1999), (511, 1025), (512, 1024), (300, 301), (1500, 1500)] {
            let window = column.window(first..end).unwrap();
            assert_eq!(window.to_vec().unwrap(), values[first as usize..end as usize]);
            for held in [0, 100, 5000] {
                let mut list = vec![OLD; held];
                window.read_all(&mut list).unwrap();
                assert_eq!(list, values[first as usize..end as usize]);
            }
            for rows in [0..u32::MAX, 0..window.len(), 1..window.len() / 2, 600..601] {
                let mut found = [0; 2000];
                let many = window.raw().lookup(1000, 30_000, rows.clone(), &mut found).unwrap();
                assert_eq!(window.find(1000..=30_000, rows).unwrap(), found[..many]);
            }
        }
    }
}

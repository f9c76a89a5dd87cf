//! Windows in a column: rows, runs and lookups count from the window's start, firsts add up, and what leaves a window or its column is refused.

use hulemartob::raw::{Numbers, View};
use hulemartob::{Codec, Column, Error, encode, encode_with};

fn refused<T>(number: u64, value: u64) -> Result<T, Error> {
    Err(Error::from_numbers(number, value).unwrap())
}

fn noise(rows: u64, bits: u32) -> Vec<u64> {
    (1..=rows).map(|i| i.wrapping_mul(0x9E37_79B9_7F4A_7C15).rotate_left(23) >> (64 - bits)).collect()
}

/// Whether a column shows these values: by rows, by a run, by its iterator, and by lookups.
#[track_caller]
fn shows(column: &Column<u64, &Vec<u8>>, values: &[u64]) {
    assert_eq!(column.len() as usize, values.len());
    for (row, &value) in values.iter().enumerate() {
        assert_eq!(column.get(row as u32), Ok(value));
    }
    assert_eq!(column.get(column.len()), refused(12, 0));
    assert_eq!(column.get(u32::MAX), refused(12, 0));
    let mut out = vec![0; values.len()];
    assert_eq!(column.read_into(0, &mut out), Ok(()));
    assert_eq!(out, values);
    assert_eq!(column.iter().collect::<Result<Vec<_>, _>>().unwrap(), values);
    assert_eq!(column.to_vec().unwrap(), values);
    let range = 1 << 9..=3 << 10;
    let found: Vec<u32> = (0..column.len()).filter(|&row| range.contains(&values[row as usize])).collect();
    assert_eq!(column.find(range, ..), Ok(found));
}

#[test]
fn parts_of_a_column() {
    let values = noise(1600, 12);
    for codec in Codec::ALL {
        let bytes = encode_with(&values, &[codec]).unwrap();
        let column = Column::open(&bytes).unwrap();
        for (first, end) in [(0, 0), (0, 1600), (1600, 1600), (511, 513), (512, 1024), (1, 1600), (700, 701), (300, 1500)] {
            let window = column.window(first..end).unwrap();
            shows(&window, &values[first as usize..end as usize]);
            assert_eq!((window.first_row(), window.column_len()), (first, 1600));
            assert_eq!((window.minimum(), window.maximum()), (column.minimum(), column.maximum()));
        }
    }
}

#[test]
fn windows_in_windows() {
    let values = noise(1200, 12);
    for codec in Codec::ALL {
        let bytes = encode_with(&values, &[codec]).unwrap();
        let column = Column::open(&bytes).unwrap();
        let page = column.window(100..1100).unwrap();
        let line = page.window(400..500).unwrap();
        shows(&line, &values[500..600]);
        assert_eq!(line.raw().numbers, column.window(500..600).unwrap().raw().numbers);
        assert_eq!(line.window(..).unwrap().raw().numbers, line.raw().numbers);
        assert_eq!(line.window(99..101).map(drop), refused(12, 0));
        assert_eq!(line.window(101..101).map(drop), refused(12, 0));
        assert_eq!(line.window(101..).map(drop), refused(12, 0));
        shows(&line.window(100..100).unwrap(), &[]);
    }
}

#[test]
fn sums_past_32_bits() {
    let bytes = encode(&[10u64, 30, 20]).unwrap();
    let column = Column::open(&bytes).unwrap();
    assert_eq!(column.window(0..4).map(drop), refused(12, 0));
    assert_eq!(column.window(u32::MAX..u32::MAX).map(drop), refused(12, 0));
    assert_eq!(column.window(..=u32::MAX).map(drop), refused(12, 0));
    assert_eq!(column.window((std::ops::Bound::Excluded(u32::MAX), std::ops::Bound::Unbounded)).map(drop), refused(12, 0));
    let numbers = Numbers { first_row: 1, window_rows: u64::from(u32::MAX), ..*column.raw().numbers };
    let made = Column::from_raw(&bytes, numbers, []).unwrap();
    assert_eq!(made.window(u32::MAX - 1..u32::MAX).map(drop), refused(13, 0));
    assert_eq!(made.window(..=u32::MAX).map(drop), refused(12, 0));
    assert_eq!(made.get(u32::MAX - 1), refused(13, 0));
    assert_eq!(made.get(u32::MAX), refused(12, 0));
}

#[test]
fn windows_that_leave_their_column() {
    let bytes = encode(&[10u64, 30, 20]).unwrap();
    let column = Column::open(&bytes).unwrap();
    for (first_row, window_rows) in [(0, 4), (2, 2), (3, 1), (4, 1), (u64::from(u32::MAX), 1), (u64::from(u32::MAX), u64::from(u32::MAX))] {
        let made = Column::from_raw(&bytes, Numbers { first_row, window_rows, ..*column.raw().numbers }, []).unwrap();
        assert_eq!(made.get(0), refused(13, 0));
        assert_eq!(made.get(made.len()), refused(12, 0));
        assert_eq!(made.read_into(0, &mut []), Ok(()));
        assert_eq!(made.read_into(0, &mut [0]), refused(13, 0));
        assert_eq!(made.find(.., 0..1), refused(13, 0));
        assert_eq!(made.find(.., 1..1), Ok(vec![]));
        assert_eq!(made.iter().next(), Some(refused(13, 0)));
        assert_eq!(made.iter().next_back(), Some(refused(13, 0)));
        assert_eq!(made.iter().nth(made.len() as usize - 1), Some(refused(13, 0)));
        assert_eq!(made.window(0..0).map(drop), refused(13, 0));
    }
    for (first_row, window_rows) in [(1 << 32, 1), (0, 1 << 32)] {
        let numbers = Numbers { first_row, window_rows, ..*column.raw().numbers };
        let view = View { numbers: &numbers, table: &[], bytes: &bytes };
        assert_eq!(view.row(0), refused(13, 0));
        assert_eq!(numbers.narrow(0, 0), refused(13, 0));
    }
}

#[test]
fn refused_rows_count_from_the_start() {
    // the second row's number is above the count
    let bytes = [0x00, 0x8A, 0x8A, 0x82, 0x83, 0x0C];
    let column = Column::open(&bytes).unwrap();
    assert_eq!(column.get(1), refused(14, 1));
    let window = column.window(1..3).unwrap();
    assert_eq!(window.get(0), refused(14, 0));
    assert_eq!(window.get(1), Ok(10));
    assert_eq!(window.read_into(0, &mut [0; 2]), refused(14, 0));
    assert_eq!(window.find(.., 0..9), refused(14, 0));
}

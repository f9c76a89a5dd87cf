//! Where two columns differ: each row once, ascending, with both answers, whatever the codecs, through windows, and in damaged columns.

use hulemartob::{Codec, Column, Difference, Error, encode_with};

fn refused<T>(number: u64, value: u64) -> Result<T, Error> {
    Err(Error::from_numbers(number, value).unwrap())
}

fn values() -> Vec<u64> {
    (0..1600u64).map(|i| 1000 * i + i * i % 97).collect()
}

#[test]
fn all_rows_that_differ() {
    let left = values();
    let mut right = values();
    for row in [0, 511, 512, 1023, 1024, 1599] {
        right[row] += 1;
    }
    let expected: Vec<Difference> = (0..1600)
        .filter(|&row| left[row] != right[row])
        .map(|row| Difference { row: row as u32, left: Ok(left[row]), right: Ok(right[row]) })
        .collect();
    for one in Codec::ALL {
        for other in Codec::ALL {
            let left = Column::open(encode_with(&left, &[one]).unwrap()).unwrap();
            let right = Column::open(encode_with(&right, &[other]).unwrap()).unwrap();
            assert_eq!(left.differences(&right).collect::<Vec<_>>(), expected);
            let same = Column::open(encode_with(&values(), &[other]).unwrap()).unwrap();
            assert_eq!(left.differences(&same).next(), None);
        }
    }
}

#[test]
fn rows_of_one_window_only() {
    let column = Column::open(encode_with(&values(), &[Codec::Blockwise]).unwrap()).unwrap();
    let (page, shorter) = (column.window(100..900).unwrap(), column.window(100..898).unwrap());
    let last: Vec<Difference> = page.differences(&shorter).collect();
    let of = |row: u32| Difference { row, left: Ok(values()[100 + row as usize]), right: refused(12, 0) };
    assert_eq!(last, [of(798), of(799)]);
    let moved = column.window(101..901).unwrap();
    assert_eq!(page.differences(&moved).count(), 800);
}

#[test]
fn refused_rows() {
    // Rows 10, 30, 20 as Blockwise; with 0C for the packed byte row 1 is out of bounds.
    let sound = [0x02, 0x8A, 0x8A, 0x82, 0x83, 0x08, 0, 0, 0, 0, 0x88, 0x80, 0x02, 0x07, 0, 0, 0];
    let mut damaged = sound;
    damaged[5] = 0x0C;
    let (left, right) = (Column::open(&sound[..]).unwrap(), Column::open(&damaged[..]).unwrap());
    assert_eq!(left.differences(&right).collect::<Vec<_>>(), [Difference { row: 1, left: Ok(30), right: refused(14, 1) }]);
    assert_eq!(right.differences(&right).next(), None);
}

#[test]
fn values_of_a_kind() {
    let open = |values: &[i64]| Column::open(encode_with(values, &[Codec::Bitpacked]).unwrap()).unwrap().typed::<i64>();
    let (left, right) = (open(&[-5, 0, 7]), open(&[-5, -1, 7]));
    assert_eq!(left.differences(&right).collect::<Vec<_>>(), [Difference { row: 1, left: Ok(0), right: Ok(-1) }]);
}

//! Recordings through this crate: what a replay reports, which bytes are none, and that a recording is read back as it was written.

use hulemartob::raw::{Numbers, View};
use hulemartob::{Codec, Column, Error, Recorded, Recording, RecordingBuilder, Replay, encode, encode_with};

/// 10, 30, 20.
const BITPACKED: [u8; 6] = [0x00, 0x8A, 0x8A, 0x82, 0x83, 0x18];

/// The same by Blockwise, with a byte changed: row 1 lies above the maximum.
const DAMAGED: [u8; 17] = [0x02, 0x8A, 0x8A, 0x82, 0x83, 0x0C, 0x00, 0x00, 0x00, 0x00, 0x88, 0x80, 0x02, 0x07, 0x00, 0x00, 0x00];

fn agree(run: u32) -> Result<Replay, Error> {
    Ok(Replay { differing: None, run })
}

fn differ(index: u32) -> Result<Replay, Error> {
    Ok(Replay { differing: Some(index), run: index + 1 })
}

fn words(numbers: &[u32]) -> Vec<u8> {
    numbers.iter().flat_map(|n| n.to_le_bytes()).collect()
}

/// A recording of one lookup, 10 to 25 in all rows, with its place and how many.
fn one(place: u32, many: u32, listed: &[u32]) -> Vec<u8> {
    let mut bytes = words(&[1, 16, listed.len() as u32, 48]);
    bytes.extend(10u64.to_le_bytes());
    bytes.extend(25u64.to_le_bytes());
    bytes.extend(words(&[0, 3, place, many]));
    bytes.extend(words(listed));
    bytes
}

fn noise(rows: u64) -> Vec<u64> {
    (1..=rows).map(|i| i.wrapping_mul(0x9E37_79B9_7F4A_7C15).rotate_left(23) % 1000).collect()
}

#[test]
fn reports() {
    let column = Column::open(&BITPACKED).unwrap();
    assert_eq!(column.replay(&one(0, 2, &[0, 2])), agree(1));
    assert_eq!(column.replay(&one(1, 2, &[7, 0, 2])), agree(1));
    assert_eq!(column.replay(&one(0, 2, &[0, 1])), differ(0));
    assert_eq!(column.replay(&one(0, 1, &[0, 2])), differ(0));
    assert_eq!(column.replay(&one(0, 3, &[0, 2, 2])), differ(0));
    assert_eq!(column.replay(&RecordingBuilder::new().finish()), agree(0));
}

#[test]
fn no_recording() {
    let column = Column::open(&BITPACKED).unwrap();
    let refused = Err(Error::BadRecording);
    let mut cut = one(0, 2, &[0, 2]);
    cut.pop();
    for bytes in
        [vec![], vec![0; 15], cut, one(1, 2, &[0, 2]), one(u32::MAX, 2, &[0, 2]), words(&[1 << 27, 16, 0, 0]), words(&[0, 0, 1, 12])]
    {
        assert_eq!(column.replay(&bytes), refused);
        assert_eq!(Recording::read(&bytes), Err(Error::BadRecording));
    }
    assert_eq!(column.replay(&[0; 16]), agree(0));
}

#[test]
fn refused_rows_differ() {
    let column = Column::open(&DAMAGED).unwrap();
    let mut builder = RecordingBuilder::new();
    assert_eq!(builder.record(&column, 10..=10, 0..2).err(), Some(Error::OutOfBounds { row: 1 }));
    assert!(builder.is_empty());
    builder.push(10..=10, 0..1, &[0]).unwrap().push(10..=10, 0..2, &[0]).unwrap();
    assert_eq!(column.replay(&builder.finish()), differ(1));
}

#[test]
fn a_column_of_no_parts_comes_first() {
    let view = View { numbers: &Numbers { codec: 3, gcd: 1, ..Numbers::default() }, table: &[], bytes: &BITPACKED };
    assert_eq!(view.replay(&[]), Err(Error::Unfit));
}

#[test]
fn what_was_looked_up_agrees() {
    let values = noise(1700);
    for codec in Codec::ALL {
        let bytes = encode_with(&values, &[codec]).unwrap();
        let column = Column::open(&bytes).unwrap();
        let mut builder = RecordingBuilder::new();
        for i in 0..200u32 {
            let low = u64::from(i * 37 % 1000);
            builder.record(&column, low..=low + u64::from(i % 50), i * 7..i * 7 + i * 11 % 900).unwrap();
        }
        let recording = builder.finish();
        assert_eq!(column.replay(&recording), agree(200));

        // another row number: the record that has it differs
        for k in [0, 99, 199] {
            let read: Vec<Recorded> = Recording::read(&recording).unwrap().iter().collect();
            let at = (k..200).find(|&k| !read[k].found.is_empty());
            let mut other = RecordingBuilder::new();
            for (i, r) in read.into_iter().enumerate() {
                let mut found = r.found;
                if Some(i) == at {
                    *found.last_mut().unwrap() += 1;
                }
                other.push(r.values, r.rows, &found).unwrap();
            }
            assert_eq!(column.replay(&other.finish()), at.map_or(agree(200), |k| differ(k as u32)));
        }
    }
}

#[test]
#[allow(clippy::reversed_empty_ranges)]
fn written_and_read_back() {
    let mut builder = RecordingBuilder::new();
    let records = [
        Recorded { values: 10..=25, rows: 0..3, found: vec![0, 2] },
        Recorded { values: u64::MAX..=0, rows: 9..4, found: vec![] },
        Recorded { values: 0..=u64::MAX, rows: 0..u32::MAX, found: vec![u32::MAX, 0, 7] },
    ];
    for r in &records {
        builder.push(r.values.clone(), r.rows.clone(), &r.found).unwrap();
    }
    assert_eq!(builder.len(), 3);
    let bytes = builder.finish();
    let recording = Recording::read(&bytes).unwrap();
    assert!(recording.iter().eq(records));
    assert_eq!(recording.get(3), None);
}

/// A lookup of values of a kind is recorded by stored numbers, and its rows count from a window's start.
#[test]
fn of_a_kind_and_through_a_window() {
    let bytes = encode(&[-1.5, 0.0, 2.5, f64::NAN]).unwrap();
    let column = Column::open(&bytes).unwrap().typed::<f64>();
    let mut builder = RecordingBuilder::new();
    builder.record(&column, 0.0..=2.5, ..).unwrap().record(&column, f64::NAN.., 1..).unwrap();
    let recording = builder.finish();
    let found: Vec<_> = Recording::read(&recording).unwrap().iter().map(|recorded| recorded.found).collect();
    assert_eq!(found, [vec![1, 2], vec![3]]);
    assert_eq!(column.replay(&recording), agree(2));
    let window = column.window(1..).unwrap();
    assert_eq!(window.replay(&recording), differ(0));
    let mut builder = RecordingBuilder::new();
    assert_eq!(window.replay(&builder.record(&window, 0.0..=2.5, ..).unwrap().finish()), agree(1));
}

/// Rows 1 and 2 of 10, 30, 20: a lookup whose end lies behind all rows finds both, by the window's rows.
#[test]
fn through_a_window_by_its_rows() {
    let whole = encode_with(&[10u64, 30, 20], &[Codec::Blockwise]).unwrap();
    for bytes in [&BITPACKED[..], &whole] {
        let column = Column::open(bytes).unwrap();
        let window = column.window(1..3).unwrap();
        let recorded = |found: &[u32]| RecordingBuilder::new().push(20..=30, 0..9, found).unwrap().finish();
        assert_eq!(window.replay(&recorded(&[0, 1])), agree(1));
        assert_eq!(window.replay(&recorded(&[1, 2])), differ(0));
        assert_eq!(column.replay(&recorded(&[1, 2])), agree(1));
        assert_eq!(column.replay(&recorded(&[0, 1])), differ(0));
    }
}

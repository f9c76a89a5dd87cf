//! Where opening stops.

use hulemartob::{Codec, Column, PartName, Sheet, encode_with, stop};

/// Of columns that are cut, lengthened or changed at a byte, the stop is opening's refusal, and its offset the one that it tells.
#[test]
fn as_opening() {
    let values: Vec<u64> = (0..1100_u64).map(|row| 5000 + 40 * row + row.wrapping_mul(0x9E37_79B9_7F4A_7C15) % 16).collect();
    let mut numbers = [0; 21];
    for codec in Codec::ALL {
        let bytes = encode_with(&values, &[codec]).unwrap();
        let head = bytes.len().min(24);
        let cuts = (0..head).chain((head..bytes.len()).step_by(13)).map(|length| bytes[..length].to_vec());
        let spots = (0..head).chain(bytes.len() - 24..bytes.len());
        let changes = spots.flat_map(|at| (0..=255).map(move |byte| (at, byte))).map(|(at, byte)| {
            let mut changed = bytes.clone();
            changed[at] = byte;
            changed
        });
        for case in cuts.chain(changes).chain([[&bytes[..], &[1]].concat()]) {
            for sheet in [Sheet::One, Sheet::Two] {
                let Err(error) = Column::open_under(sheet, &case) else {
                    assert_eq!(stop(sheet, &case), None);
                    continue;
                };
                numbers[usize::from(error.number())] += 1;
                let place = stop(sheet, &case).unwrap();
                assert_eq!(place.number, error.number());
                assert_eq!(error.offset().unwrap_or(place.offset), place.offset);
                assert!(place.offset <= case.len());
            }
        }
    }
    for number in [5, 6, 7, 8, 9, 10, 17] {
        assert_ne!(numbers[number], 0, "{number}");
    }
}

/// The part in words, with its block.
#[test]
fn in_words() {
    let values: Vec<u64> = (0..2000).map(|i| i * i).collect();
    let mut bytes = encode_with(&values, &[Codec::Blockwise]).unwrap();
    let column = Column::open(&bytes).unwrap();
    let width = column.parts().map(Result::unwrap).find(|part| part.name == PartName::BlockWidth && part.block == Some(3)).unwrap();
    drop(column);
    bytes[width.offset] = 60;
    let place = stop(Sheet::One, &bytes).unwrap();
    assert_eq!((place.number, place.offset), (9, width.offset));
    assert_eq!(place.to_string(), "block 3 width");
    assert_eq!(stop(Sheet::One, &[]).unwrap().to_string(), "code");
}

//! Where opening stops.

use std::fmt;

use crate::{Column, Error, Part, PartName, Sheet, ffi};

/// Where opening refuses some bytes: [`stop`]. Displayed, it is the part with the number of its block, as a [`Part`] is.
#[derive(Clone, Copy, Debug, PartialEq, Eq, Hash)]
pub struct Stop {
    /// The [number](Error::number) of the refusal.
    pub number: u8,
    /// The part that was being read; of 17 the part that the byte is in.
    pub name: PartName,
    /// The number of its block, if it is a block's.
    pub block: Option<u32>,
    /// The offset where the part begins; of 17 that of the byte. A footer's length that is missing would begin behind the head.
    pub offset: usize,
}

impl fmt::Display for Stop {
    fn fmt(&self, f: &mut fmt::Formatter<'_>) -> fmt::Result {
        let &Stop { name, block, offset, .. } = self;
        Part { name, block, offset, len: 0, value: None }.fmt(f)
    }
}

/// Where opening some bytes under a sheet stops, or none if they open. It is proved that the number is the one that opening refuses with, and the offset the one
/// that 6 and 9 tell; the byte of 17 is opening's own, and its part the one that [`Column::part_of_byte`] tells.
///
/// ```
/// use hulemartob::{PartName, Sheet, encode, stop};
///
/// let mut bytes = encode(&[10u64, 30, 20])?;
/// assert_eq!(stop(Sheet::One, &bytes), None);
/// bytes[2] = 0x80;
/// let place = stop(Sheet::One, &bytes).expect("a gcd of 0");
/// assert_eq!((place.number, place.name, place.offset), (7, PartName::Gcd, 2));
/// # Ok::<(), hulemartob::Error>(())
/// ```
#[must_use]
pub fn stop(sheet: Sheet, bytes: &[u8]) -> Option<Stop> {
    let [number, which, block, offset] = ffi::stop(bytes);
    if number != 0 {
        let name = PartName::ALL[which as usize];
        return Some(Stop { number: number as u8, name, block: name.is_of_block().then_some(block as u32), offset: offset as usize });
    }
    match Column::open_under(sheet, bytes) {
        Err(Error::Offending { offset }) => {
            let Part { name, block, .. } = Column::open(bytes).ok()?.part_of_byte(offset).ok()?;
            Some(Stop { number: 17, name, block, offset })
        }
        _ => None,
    }
}

//! Refusals in words.

use std::fmt::{self, Display};

use hulemartob::{Column, Error, PartName, Sheet, Stop, stop};

use crate::place::Place;

/// What a refusal says, without its number, which stands before it here.
pub fn reason(error: Error) -> String {
    let text = error.to_string();
    text.strip_suffix(&format!(" (refusal {})", error.number())).map(str::to_owned).unwrap_or(text)
}

/// What a number means, whatever the refusal also tells; nothing if none has the number.
pub fn meaning(number: u8) -> Option<String> {
    // A number that no text has by itself stands for what is told.
    const TOLD: u64 = 4_000_000_007;
    Error::from_numbers(number.into(), TOLD).map(|error| reason(error).replace(&TOLD.to_string(), "N"))
}

/// Where opening refused some bytes by an error, and what is the matter there; nothing where the refusal has no place.
fn place(bytes: &[u8], error: Error) -> Option<Place> {
    let place = stop(Sheet::Two, bytes).filter(|place| place.number == error.number())?;
    Some(Place::new(place, place.offset, matter(bytes, place)))
}

/// What is the matter at a place.
fn matter(bytes: &[u8], place: Stop) -> String {
    let byte = |offset: usize| bytes.get(offset).copied().unwrap_or_default();
    match (place.number, place.name) {
        (5, _) if bytes.is_empty() => "there are no bytes".into(),
        (5, _) => format!("{} is no codec", byte(0)),
        (6, _) => "cut off, or 2^64 or more".into(),
        (7, _) => "0".into(),
        (8, PartName::Count) => "minimum + gcd * count is 2^64 or more".into(),
        (8, _) => "2^32 or more".into(),
        (9, _) => format!("{} is no width", byte(place.offset)),
        (10, PartName::Area) => "does not fit into the bytes".into(),
        (10, _) => "missing, or too great".into(),
        _ => offending(bytes, place.offset).unwrap_or_default(),
    }
}

/// What sheet 2 has against a byte of a column that opens under sheet 1.
fn offending(bytes: &[u8], offset: usize) -> Option<String> {
    let part = Column::open(bytes).ok()?.part_of_byte(offset).ok()?;
    Some(match (part.name, part.value) {
        (PartName::Behind | PartName::Spare, _) => "belongs to no part".into(),
        (_, Some(value)) => format!("{value} is spelled in {} bytes, more than it needs", part.len),
        _ => "its filling bits are not 0".into(),
    })
}

/// A refusal of some bytes in a line: number, place, and what is the matter there.
#[derive(Clone, Debug)]
pub struct Told {
    pub error: Error,
    pub place: Option<Place>,
}

impl Told {
    /// Why opening refuses some bytes.
    pub fn of(bytes: &[u8], error: Error) -> Told {
        Told { error, place: place(bytes, error) }
    }

    /// What is the matter, and where.
    pub fn reason(&self) -> String {
        match &self.place {
            Some(place) => place.to_string(),
            None => reason(self.error),
        }
    }
}

impl Display for Told {
    fn fmt(&self, f: &mut fmt::Formatter<'_>) -> fmt::Result {
        write!(f, "refused {}: {}", self.error.number(), self.reason())
    }
}

#[cfg(test)]
mod tests {
    use super::*;

    #[test]
    fn words() {
        assert_eq!(reason(Error::BadField { offset: 2 }), "the field at byte 2 is cut off, or is 2^64 or more");
        assert_eq!(meaning(6).as_deref(), Some("the field at byte N is cut off, or is 2^64 or more"));
        assert_eq!(meaning(7).as_deref(), Some("the gcd is 0"));
        assert_eq!((meaning(0), meaning(21)), (None, None));
    }
}

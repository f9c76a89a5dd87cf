//! Values of whichever kind, as text and as JSON.

use std::fmt::{self, Display};

use hulemartob::{Date, Kind, Value};
use serde_json::Value as Json;

use crate::dates;

/// A value of one of the five kinds.
#[derive(Clone, Copy, Debug, PartialEq)]
pub enum Scalar {
    U64(u64),
    I64(i64),
    Date(Date),
    Bool(bool),
    F64(f64),
}

impl Scalar {
    /// What a stored number reads as.
    pub fn of_stored(kind: Kind, stored: u64) -> Scalar {
        match kind {
            Kind::U64 => Scalar::U64(stored),
            Kind::I64 => Scalar::I64(i64::from_stored(stored)),
            Kind::Date => Scalar::Date(Date::from_stored(stored)),
            Kind::Bool => Scalar::Bool(bool::from_stored(stored)),
            Kind::F64 => Scalar::F64(f64::from_stored(stored)),
        }
    }

    /// The value that a word stands for, in a list as [`hulemartob::raw`] takes it.
    pub fn of_word(kind: Kind, word: u64) -> Scalar {
        match kind {
            Kind::U64 => Scalar::U64(word),
            Kind::I64 => Scalar::I64(word as i64),
            Kind::Date => Scalar::Date(Date(word as i64)),
            Kind::Bool => Scalar::Bool(word != 0),
            Kind::F64 => Scalar::F64(f64::from_bits(word)),
        }
    }

    /// The word that stands for it.
    pub fn word(self) -> u64 {
        match self {
            Scalar::U64(value) => value,
            Scalar::I64(value) | Scalar::Date(Date(value)) => value as u64,
            Scalar::Bool(value) => value.into(),
            Scalar::F64(value) => value.to_bits(),
        }
    }

    /// A value from its text, as it is displayed; a bool may be 0 or 1, a date its nanoseconds.
    pub fn parse(kind: Kind, text: &str) -> Option<Scalar> {
        Some(match kind {
            Kind::U64 => Scalar::U64(text.parse().ok()?),
            Kind::I64 => Scalar::I64(text.parse().ok()?),
            Kind::Date => Scalar::Date(Date(dates::parse(text)?)),
            Kind::Bool => Scalar::Bool(match text {
                "true" | "1" => true,
                "false" | "0" => false,
                _ => return None,
            }),
            Kind::F64 => Scalar::F64(match text.strip_prefix("NaN:") {
                Some(bits) => u64::from_str_radix(bits, 16).ok().map(f64::from_bits).filter(|value| value.is_nan())?,
                None => text.parse().ok()?,
            }),
        })
    }

    /// As JSON; what JSON has no number for, as text.
    pub fn json(self) -> Json {
        match self {
            Scalar::U64(value) => value.into(),
            Scalar::I64(value) => value.into(),
            Scalar::Bool(value) => value.into(),
            Scalar::F64(value) if value.is_finite() => value.into(),
            Scalar::F64(_) | Scalar::Date(_) => self.to_string().into(),
        }
    }
}

impl Display for Scalar {
    fn fmt(&self, f: &mut fmt::Formatter<'_>) -> fmt::Result {
        match self {
            Scalar::U64(value) => value.fmt(f),
            Scalar::I64(value) => value.fmt(f),
            Scalar::Bool(value) => value.fmt(f),
            Scalar::Date(Date(nanoseconds)) => f.write_str(&dates::show(*nanoseconds)),
            // A NaN is told by its bits, unless they are the usual ones.
            Scalar::F64(value) if value.is_nan() && value.to_bits() != f64::NAN.to_bits() => write!(f, "NaN:{:016x}", value.to_bits()),
            // As short as tells it from every other float.
            Scalar::F64(value) => write!(f, "{value:?}"),
        }
    }
}

#[cfg(test)]
mod tests {
    use super::*;

    #[test]
    fn there_and_back() {
        for kind in Kind::ALL {
            for word in [0, 1, 7, 1 << 63, u64::MAX, f64::NAN.to_bits(), f64::NAN.to_bits() + 1, (-0.0f64).to_bits(), 1.5f64.to_bits()] {
                let value = Scalar::of_word(kind, word);
                let back = Scalar::parse(kind, &value.to_string()).map(Scalar::word);
                let expected = if kind == Kind::Bool { u64::from(word != 0) } else { word };
                assert_eq!(back, Some(expected), "{kind} {value}");
            }
        }
    }

    #[test]
    fn no_values() {
        for (kind, text) in [
            (Kind::U64, "-1"),
            (Kind::U64, ""),
            (Kind::I64, "9223372036854775808"),
            (Kind::Bool, "yes"),
            (Kind::F64, "NaN:0"),
            (Kind::Date, "x"),
        ] {
            assert_eq!(Scalar::parse(kind, text), None, "{kind} {text}");
        }
    }

    #[test]
    fn stored() {
        assert_eq!(Scalar::of_stored(Kind::I64, (1 << 63) - 1), Scalar::I64(-1));
        assert_eq!(Scalar::of_stored(Kind::Date, 1 << 63).to_string(), "1970-01-01T00:00:00Z");
        assert_eq!(Scalar::of_stored(Kind::Bool, 2), Scalar::Bool(true));
        assert_eq!(Scalar::F64(f64::INFINITY).json(), Json::from("inf"));
    }
}

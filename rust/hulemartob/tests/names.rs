//! Codecs, kinds, sheets and parts by their numbers and by their names, both ways.

use std::fmt::{Debug, Display};
use std::str::FromStr;

use hulemartob::{Codec, Column, Date, Error, Kind, PartName, Sheet, Value, encode};

/// Each one comes back by its number and by its name, no other number is one of them, and no two share a name.
fn named<T>(all: &[T], first: u8)
where
    T: Copy + Debug + PartialEq + Display + FromStr + TryFrom<u8> + Into<u8>,
{
    for (number, &one) in (first..).zip(all) {
        assert_eq!(one.into(), number);
        assert_eq!(T::try_from(number).ok(), Some(one));
        assert_eq!(one.to_string().parse().ok(), Some(one));
        assert_eq!(format!("{one:>20}").trim(), one.to_string());
    }
    let last = first + all.len() as u8;
    assert!((0..first).chain(last..=u8::MAX).all(|number| T::try_from(number).is_err()));
    assert!(["", "none", "0"].iter().all(|word| word.parse::<T>().is_err()));
}

#[test]
fn numbers_and_names() {
    named(&Codec::ALL, 0);
    named(&Kind::ALL, 0);
    named(&PartName::ALL, 0);
}

#[test]
fn any_case() {
    assert_eq!("BLOCKWISE".parse(), Ok(Codec::Blockwise));
    assert_eq!("U64".parse(), Ok(Kind::U64));
    assert_eq!("BlockwiseLinear".parse::<Codec>().unwrap_err().to_string(), "expected Bitpacked (0), Linear (1) or Blockwise (2)");
}

#[test]
fn sheets() {
    for (number, sheet) in [(1, Sheet::One), (2, Sheet::Two)] {
        assert_eq!((Sheet::try_from(number), sheet.to_string().parse()), (Ok(sheet), Ok(sheet)));
    }
    for word in ["0", "3", "", "01", "one"] {
        assert_eq!(word.parse::<Sheet>(), Err(Error::UnknownSheet));
    }
    assert_eq!(Sheet::default(), Sheet::One);
}

#[test]
fn kinds_of_types() {
    let kinds = [u64::KIND, i64::KIND, Date::KIND, bool::KIND, f64::KIND];
    assert_eq!(kinds, Kind::ALL);
    assert_eq!(kinds.map(|kind| kind.to_string()), ["u64", "i64", "date", "bool", "f64"]);
}

/// The first byte of a column is its codec's number.
#[test]
fn codes() {
    for codec in Codec::ALL {
        let bytes = hulemartob::encode_with(&[7u64; 512], &[codec]).unwrap();
        assert_eq!((Codec::try_from(bytes[0]), Column::open(&bytes).unwrap().codec()), (Ok(codec), codec));
    }
    assert_eq!(encode(&[1u64]).unwrap()[0], u8::from(Codec::Bitpacked));
}

/// The crate and the C header are of one version.
#[test]
fn one_version() {
    let header = include_str!("../../../include/hulemartob.h");
    assert!(header.contains(concat!("#define HULEMARTOB_VERSION \"", env!("CARGO_PKG_VERSION"), "\"\n")));
}

//! The errors beside the three tables of refusals: the format's own definition, its document, and the C header. A number that one of them has and another has
//! not, a refusal that tells a value in one and none in another, or another name, fails here.

use std::io;

use hulemartob::{Column, Error, Unknown};

const DEFINITION: &str = include_str!("../../../crates/format/specs/Refusals.antt");
const DOCUMENT: &str = include_str!("../../../docs/FORMAT.md");
const HEADER: &str = include_str!("../../../include/hulemartob.h");

/// A value that no field is by chance.
const VALUE: u64 = 7_654_321;

/// Number, name, the name of the field that has the value.
type Row = (u64, String, Option<String>);

/// Every error, from its own numbers.
fn errors() -> Vec<Row> {
    let row = |number| {
        let error = Error::from_numbers(number, VALUE)?;
        assert_eq!(u64::from(error.number()), number);
        assert!(error.value().is_none_or(|value| value == VALUE));
        // `Name`, or `Name { field: value }`
        let debug = format!("{error:?}");
        let mut words = debug.split([' ', ':']);
        let (name, field) = (words.next()?.to_owned(), words.nth(1).map(str::to_owned));
        assert_eq!(error.value().is_some(), field.is_some());
        Some((number, name, field))
    };
    (0..1000).filter_map(row).collect()
}

/// `paper (OutputShort needed) = (4, needed ∷ [])` and `paper GcdZero = (7, [])`.
#[test]
fn as_the_definition() {
    let row = |line: &str| -> Option<Row> {
        let (case, answer) = line.strip_prefix("paper ")?.split_once(" = (")?;
        let mut case = case.trim_matches(['(', ')']).split(' ');
        let name = case.next()?.to_owned();
        let number = answer.split_once(',')?.0.parse().ok()?;
        Some((number, name, case.next().map(str::to_owned)))
    };
    assert_eq!(DEFINITION.lines().filter_map(row).collect::<Vec<_>>(), errors());
}

/// `| 4 | `OutputShort` | when | what it also returns |`.
#[test]
fn as_the_document() {
    let row = |line: &str| {
        let cells: Vec<&str> = line.strip_prefix('|')?.split('|').map(str::trim).collect();
        let [number, name, _, also, _] = cells[..] else { return None };
        Some((number.parse::<u64>().ok()?, name.trim_matches('`').to_owned(), !also.is_empty()))
    };
    let section = DOCUMENT.split("\n## ").find(|section| section.starts_with("Refusals")).expect("the section of refusals");
    let listed: Vec<_> = section.lines().filter_map(row).collect();
    assert_eq!(listed, errors().into_iter().map(|(number, name, field)| (number, name, field.is_some())).collect::<Vec<_>>());
}

/// `HULEMARTOB_REFUSAL_OUTPUT_SHORT = 4, /* the length needed */`, where what stands behind the number is the value, and
/// `case HULEMARTOB_REFUSAL_OUTPUT_SHORT: return "a sentence";`. No call of C refuses 16 or 20, which is said behind these two.
#[test]
fn as_the_header() {
    let camel = |name: &str| -> String {
        let words = name.split('_').map(|word| word[..1].to_owned() + &word[1..].to_lowercase());
        words.collect()
    };
    let row = |line: &str| {
        let (name, rest) = line.trim().strip_prefix("HULEMARTOB_REFUSAL_")?.split_once(" = ")?;
        let number = rest.split([',', ' ']).next()?.parse::<u64>().ok()?;
        let told = rest.contains("/*") && !rest.contains("no call here refuses by it");
        let sentence = format!("case HULEMARTOB_REFUSAL_{name}: return \"");
        assert!(HEADER.contains(&sentence), "{sentence}");
        Some((number, camel(name), told))
    };
    let listed: Vec<_> = HEADER.lines().filter_map(row).filter(|&(number, ..)| number != 0).collect();
    assert_eq!(listed, errors().into_iter().map(|(number, name, field)| (number, name, field.is_some())).collect::<Vec<_>>());
}

/// One sentence each, with the value where there is one, and the number behind it.
#[test]
fn in_words() {
    for (number, ..) in errors() {
        let error = Error::from_numbers(number, VALUE).unwrap();
        let sentence = error.to_string();
        assert!(sentence.ends_with(&format!(" (refusal {number})")), "{sentence}");
        assert_eq!(sentence.contains(&VALUE.to_string()), error.value().is_some(), "{sentence}");
        assert!(!sentence.contains(['.', '\n']), "{sentence}");
    }
    assert_eq!(Error::OutOfBounds { row: 1 }.to_string(), "the value of row 1 lies outside the column's bounds (refusal 14)");
    assert_eq!(Error::Offending { offset: 6 }.to_string(), "sheet 2 does not accept byte 6 (refusal 17)");
}

#[test]
fn places_that_are_told() {
    let told = |number| Error::from_numbers(number, VALUE).map(|error| (error.offset(), error.row()));
    for number in 1..=20 {
        let place = match number {
            6 | 9 | 17 => (Some(VALUE as usize), None),
            14 => (None, Some(VALUE as u32)),
            _ => (None, None),
        };
        assert_eq!(told(number), Some(place));
    }
    assert_eq!((told(0), told(21), told(u64::MAX)), (None, None, None));
}

#[test]
fn among_other_errors() {
    fn opened(bytes: &[u8]) -> io::Result<u32> {
        Ok(Column::open(bytes)?.len())
    }
    let error = opened(&[]).unwrap_err();
    assert_eq!(error.kind(), io::ErrorKind::InvalidData);
    assert_eq!(error.get_ref().and_then(|inner| inner.downcast_ref()), Some(&Error::NotAColumn));
    let boxed: Box<dyn std::error::Error + Send + Sync> = "zip".parse::<hulemartob::Codec>().unwrap_err().into();
    assert!(boxed.is::<Unknown>());
}

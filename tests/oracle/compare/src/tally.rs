//! What was alike, and every difference under its cause.

use std::collections::BTreeMap;
use std::fmt;

/// Where the Rust answers otherwise: the rows of docs/DIFFERENCES.md that show in a result.
#[derive(Clone, Copy, Debug, PartialEq, Eq, PartialOrd, Ord)]
pub enum Cause {
    BelowMinimum,
    EndNotCut,
    RowsCut,
    BoundsWrap,
    FieldsPastFooter,
    AreaShort,
    AreaIntoFooter,
    OutsideBounds,
    TrueIsOne,
}

impl fmt::Display for Cause {
    fn fmt(&self, f: &mut fmt::Formatter<'_>) -> fmt::Result {
        f.write_str(match self {
            Cause::BelowMinimum => "Bitpacked: a range wholly below the minimum finds the rows at the minimum",
            Cause::EndNotCut => "Bitpacked: the end row is not cut to the rows",
            Cause::RowsCut => "rows are cut to 32 bits (8 here)",
            Cause::BoundsWrap => "minimum + gcd * count wraps (8 here)",
            Cause::FieldsPastFooter => "block fields are read on into the footer's length (6 here)",
            Cause::AreaShort => "a short area opens (10 here)",
            Cause::AreaIntoFooter => "an area that runs into the footer opens (10 here)",
            Cause::OutsideBounds => "a value outside the bounds is answered (14 here)",
            Cause::TrueIsOne => "a lookup of bools finds true as a stored 1 only",
        })
    }
}

/// How often, and the account of the smallest input.
#[derive(Default)]
struct Seen {
    times: u64,
    smallest: Option<(usize, String)>,
}

#[derive(Default)]
pub struct Tally {
    alike: BTreeMap<String, u64>,
    known: BTreeMap<Cause, Seen>,
    unknown: BTreeMap<&'static str, Seen>,
}

impl Seen {
    fn add(&mut self, size: usize, account: impl FnOnce() -> String) {
        self.times += 1;
        if self.smallest.as_ref().is_none_or(|&(least, _)| size < least) {
            self.smallest = Some((size, account()));
        }
    }
}

impl fmt::Display for Seen {
    fn fmt(&self, f: &mut fmt::Formatter<'_>) -> fmt::Result {
        let account: String = self.smallest.iter().flat_map(|(_, account)| account.chars()).take(300).collect();
        write!(f, "{:>9}; smallest: {account}", self.times)
    }
}

impl Tally {
    pub fn alike(&mut self, what: impl Into<String>, times: usize) {
        *self.alike.entry(what.into()).or_default() += times as u64;
    }

    /// A difference on an input of some size, by its cause; one without a cause is an error of one side or the other.
    pub fn differ(&mut self, what: &'static str, cause: Option<Cause>, size: usize, account: impl FnOnce() -> String) {
        match cause {
            Some(cause) => self.known.entry(cause).or_default().add(size, account),
            None => self.unknown.entry(what).or_default().add(size, account),
        }
    }

    /// Prints all, and returns whether every difference has a cause.
    pub fn report(&self) -> bool {
        println!("\nalike");
        self.alike.iter().for_each(|(what, times)| println!("  {times:>9}  {what}"));
        println!("\ndifferent, by cause");
        self.known.iter().for_each(|(cause, seen)| println!("  {cause}\n  {seen}"));
        println!("\ndifferent without a known cause: {}", self.unknown.values().map(|seen| seen.times).sum::<u64>());
        self.unknown.iter().for_each(|(what, seen)| println!("  {what}\n  {seen}"));
        self.unknown.is_empty()
    }
}

//! A place in a column's bytes.

use std::fmt::{self, Display};

/// A part, an offset in it, and what is the matter there.
#[derive(Clone, Debug)]
pub struct Place {
    pub part: String,
    pub offset: usize,
    pub matter: String,
}

impl Place {
    pub fn new(part: impl Display, offset: usize, matter: impl Into<String>) -> Place {
        Place { part: part.to_string(), offset, matter: matter.into() }
    }
}

impl Display for Place {
    fn fmt(&self, f: &mut fmt::Formatter<'_>) -> fmt::Result {
        write!(f, "{} at byte {}: {}", self.part, self.offset, self.matter)
    }
}

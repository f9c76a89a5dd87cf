//! The parts of a column.

use hulemartob::{Column, Part, PartName};

/// The parts of a column that have bytes, in their order. Bytes that do not open have none.
#[derive(Clone, Debug, Default)]
pub struct Layout {
    pub parts: Vec<Part>,
}

impl Layout {
    /// Those of a column, which no call refuses where it was opened.
    pub fn of(column: &Column<u64, &[u8]>) -> Layout {
        Layout { parts: column.parts().flatten().collect() }
    }

    /// Those of bytes, whether or not they open.
    pub fn of_bytes(bytes: &[u8]) -> Layout {
        Column::open(bytes).map_or_else(|_| Layout::default(), |column| Layout::of(&column))
    }

    /// The part of a name, the first if blocks have several.
    pub fn get(&self, name: PartName) -> Option<&Part> {
        self.parts.iter().find(|part| part.name == name)
    }

    /// The part of a byte.
    pub fn at(&self, offset: usize) -> Option<&Part> {
        self.parts.iter().find(|part| part.range().contains(&offset))
    }

    /// How many bytes the parts have that a test picks.
    pub fn bytes_of(&self, pick: impl Fn(PartName) -> bool) -> usize {
        self.parts.iter().filter(|part| pick(part.name)).map(|part| part.len).sum()
    }
}

//! What the page shows of one column: bytes, parts, the rows of each byte and their values, and what the rules write.

use std::ops::Range;

use hulemartob::{Column, Part, PartName};
use serde::Serialize;

use crate::bless::{Judgement, Verdict, rewritten};
use crate::layout::Layout;

/// So many rows are shown with their values.
const VALUES: u32 = 4096;

/// Above so many rows nothing is written again.
const REWRITTEN: u32 = 1 << 22;

#[derive(Serialize)]
pub struct Detail {
    /// The column's length, whatever is shown of it.
    length: usize,
    shown: Shown,
    /// What the rules write for its rows, where that is something else.
    #[serde(skip_serializing_if = "Option::is_none")]
    rules: Option<Shown>,
    /// Of the area's bytes that are shown: for each how far its first row lies behind the last one's end, less one, and how many rows it has; both
    /// as numbers of seven bits a byte, the lowest first.
    #[serde(skip_serializing_if = "String::is_empty")]
    owners: String,
    /// The first byte that has an entry there.
    owned_from: usize,
    /// The values of the rows from one on, as words of 64 bits.
    #[serde(skip_serializing_if = "String::is_empty")]
    values: String,
    first_value: u32,
    /// Rows that are refused 14.
    #[serde(skip_serializing_if = "Vec::is_empty")]
    out_of_bounds: Vec<[u32; 2]>,
    #[serde(skip_serializing_if = "Option::is_none")]
    bits: Option<u32>,
}

/// A window of some bytes, and the parts in it.
#[derive(Serialize)]
struct Shown {
    base: usize,
    bytes: String,
    parts: Vec<ShownPart>,
}

/// Offset, length, name, what group it belongs to, and the number that it spells, as text since JSON's numbers end early.
#[derive(Serialize)]
struct ShownPart(usize, usize, String, &'static str, Option<String>);

fn group(part: &Part) -> &'static str {
    match part.name {
        PartName::Code => "code",
        PartName::Minimum | PartName::Gcd | PartName::Count | PartName::Rows => "head",
        PartName::Slope | PartName::Intercept | PartName::Width => "line",
        PartName::Area => "area",
        PartName::Behind | PartName::Spare => "left",
        PartName::BlockSlope | PartName::BlockIntercept | PartName::BlockWidth => match part.block {
            Some(block) if block % 2 == 1 => "block odd",
            _ => "block",
        },
        PartName::FooterLength => "foot",
    }
}

/// A window of a length that shows a byte.
fn window(length: usize, byte: Option<usize>, size: usize) -> Range<usize> {
    let base = match byte {
        Some(byte) if size <= byte => (byte - size / 2) & !15,
        _ => 0,
    };
    base..length.min(base + size)
}

impl Shown {
    fn new(bytes: &[u8], layout: &Layout, window: Range<usize>) -> Shown {
        let window = window.start.min(bytes.len())..window.end.min(bytes.len());
        let inside = layout.parts.iter().filter(|p| p.offset < window.end && window.start < p.range().end);
        let part = |p: &Part| ShownPart(p.offset, p.len, p.to_string(), group(p), p.value.map(|value| value.to_string()));
        Shown { base: window.start, parts: inside.map(part).collect(), bytes: base64(&bytes[window]) }
    }
}

impl Detail {
    pub fn new(bytes: &[u8], judgement: &Judgement, size: usize) -> Detail {
        let window = window(bytes.len(), judgement.offset, size);
        let opened = Column::open(bytes).ok();
        let layout = opened.as_ref().map(Layout::of).unwrap_or_default();
        let mut detail = Detail {
            length: bytes.len(),
            shown: Shown::new(bytes, &layout, window.clone()),
            rules: None,
            owners: String::new(),
            owned_from: 0,
            values: String::new(),
            first_value: 0,
            out_of_bounds: judgement.out_of_bounds.iter().map(|rows| [rows.start, rows.end]).collect(),
            bits: opened.as_ref().and_then(Column::width),
        };
        if let Some(column) = &opened {
            detail.add_rows(column, window.clone());
            if judgement.verdict != Verdict::Exact && column.len() <= REWRITTEN {
                detail.rules =
                    rewritten(column).filter(|rules| rules != bytes).map(|rules| Shown::new(&rules, &Layout::of_bytes(&rules), window));
            }
        }
        detail
    }

    /// The rows of the bytes in a window, and the values of the first of them.
    fn add_rows(&mut self, column: &Column<u64, &[u8]>, window: Range<usize>) {
        let area = column.area();
        let owned = area.start.max(window.start)..area.end.min(window.end);
        let mut owners = Vec::new();
        let (mut last, mut first_row) = (0, None);
        for offset in owned.clone() {
            let Ok(rows) = column.rows_of_byte(offset) else { return };
            let first = *first_row.get_or_insert(rows.start);
            if owners.is_empty() {
                last = first;
            }
            leb(&mut owners, u64::from((rows.start + 1).saturating_sub(last)));
            leb(&mut owners, u64::from(rows.end - rows.start));
            last = rows.end;
        }
        let first = first_row.unwrap_or(0);
        let end = column.len().min(first.saturating_add(VALUES));
        let words: Vec<u8> = (first..end).flat_map(|row| column.get(row).unwrap_or(0).to_le_bytes()).collect();
        (self.owners, self.owned_from) = (base64(&owners), owned.start);
        (self.values, self.first_value) = (base64(&words), first);
    }

    /// About how many bytes it takes of the page.
    pub fn size(&self) -> usize {
        let shown = |shown: &Shown| shown.bytes.len() + 40 * shown.parts.len();
        200 + shown(&self.shown) + self.rules.as_ref().map_or(0, shown) + self.owners.len() + self.values.len()
    }
}

/// A number of seven bits a byte, the lowest first, with 128 added to all but the last.
fn leb(out: &mut Vec<u8>, mut number: u64) {
    while 128 <= number {
        out.push(number as u8 | 128);
        number >>= 7;
    }
    out.push(number as u8);
}

fn base64(bytes: &[u8]) -> String {
    const DIGITS: &[u8; 64] = b"ABCDEFGHIJKLMNOPQRSTUVWXYZabcdefghijklmnopqrstuvwxyz0123456789+/";
    let mut text = String::with_capacity(bytes.len().div_ceil(3) * 4);
    for three in bytes.chunks(3) {
        let bits = three.iter().fold(0_u32, |bits, &byte| bits << 8 | u32::from(byte)) << (8 * (3 - three.len()));
        for place in 0..4 {
            let digit = DIGITS[(bits >> (18 - 6 * place)) as usize & 63];
            text.push(if place <= three.len() { char::from(digit) } else { '=' });
        }
    }
    text
}

#[cfg(test)]
mod tests {
    use super::{base64, window};

    #[test]
    fn encoded() {
        for (bytes, text) in [("", ""), ("f", "Zg=="), ("fo", "Zm8="), ("foo", "Zm9v"), ("foobar", "Zm9vYmFy")] {
            assert_eq!(base64(bytes.as_bytes()), text);
        }
    }

    #[test]
    fn windows() {
        assert_eq!(window(100, None, 64), 0..64);
        assert_eq!(window(100, Some(63), 64), 0..64);
        assert_eq!(window(100, Some(99), 64), 64..100);
    }
}

//! What another writer chose otherwise: the first part of a column that is not what the rules write for its rows.

use hulemartob::{Column, Part, PartName};

use crate::console::many;
use crate::layout::Layout;
use crate::place::Place;

/// The first difference of a column from what the rules write for its rows. Fields come first, since bytes of the area follow from them; then the area's
/// filling bits, and bytes of no part.
pub fn first(column: &Column<u64, &[u8]>, rules: &[u8]) -> Place {
    let (ours, theirs) = (Layout::of(column), Layout::of_bytes(rules));
    let bytes = column.bytes();
    field(&ours, &theirs).or_else(|| filling(bytes, &ours, rules, &theirs)).or_else(|| left_over(&ours)).unwrap_or_else(|| {
        let offset = bytes.iter().zip(rules).position(|(a, b)| a != b).unwrap_or(rules.len().min(bytes.len()));
        let part = ours.at(offset).map_or_else(|| PartName::Code.to_string(), Part::to_string);
        Place::new(part, offset, "not what the rules write")
    })
}

/// The first field that spells another number, or the same in more bytes. The footer's length follows from the others.
fn field(ours: &Layout, theirs: &Layout) -> Option<Place> {
    let fields = |layout: &Layout| -> Vec<Part> {
        layout.parts.iter().filter(|part| part.name.is_field() && part.name != PartName::FooterLength).copied().collect()
    };
    fields(ours).iter().zip(&fields(theirs)).find_map(|(part, other)| {
        let (value, written) = (part.value.unwrap_or(0), other.value.unwrap_or(0));
        let matter = if value != written {
            format!("{value}, the rules write {written}")
        } else if part.len != other.len {
            format!("{value} in {} where {} would do", many(part.len as u64, "byte"), other.len)
        } else {
            return None;
        };
        Some(Place::new(part, part.offset, matter))
    })
}

/// The first byte of the area that differs: of two areas with the same rows, lines and widths only the filling bits can.
fn filling(bytes: &[u8], ours: &Layout, rules: &[u8], theirs: &Layout) -> Option<Place> {
    let (part, other) = (ours.get(PartName::Area)?, theirs.get(PartName::Area)?);
    let (area, written) = (bytes.get(part.range())?, rules.get(other.range())?);
    let place = area.iter().zip(written).position(|(a, b)| a != b)?;
    let matter = if place + 1 == part.len { "filling bits are not 0" } else { "other bytes than the rules write" };
    Some(Place::new(part, part.offset + place, matter))
}

/// Bytes that belong to no part.
fn left_over(ours: &Layout) -> Option<Place> {
    [(PartName::Behind, "behind the area"), (PartName::Spare, "left over in the footer")].into_iter().find_map(|(name, place)| {
        let part = ours.get(name)?;
        Some(Place::new(part, part.offset, format!("{} {place}", many(part.len as u64, "byte"))))
    })
}

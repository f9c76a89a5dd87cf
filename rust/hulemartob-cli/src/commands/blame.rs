//! `blame`: the bytes that differ, and the rows that they concern, as the program `blame` prints them.

use std::io::Write;

use anyhow::Result;
use hulemartob::{Error, Part};

use super::compare::opened;
use super::{Lent, answer};
use crate::cli;
use crate::console::{Ink, Inked, Status, stdout_unless};
use crate::sources;

pub fn run(args: &cli::Blame) -> Result<Status> {
    let (left, right) = sources::read_both(&args.left, &args.right)?;
    let mut out = stdout_unless(args.quiet);
    let same = match opened(&mut out, (&args.left, &left), (&args.right, &right))? {
        Some((left, right)) => blame(&mut out, args, &left, &right)?,
        None => false,
    };
    out.flush()?;
    Ok(Status::of(same))
}

fn blame(out: &mut impl Write, args: &cli::Blame, left: &Lent, right: &Lent) -> Result<bool> {
    let (ours, theirs) = (left.bytes(), right.bytes());
    if ours.len() != theirs.len() {
        writeln!(out, "lengths differ {} {}", ours.len(), theirs.len())?;
        return Ok(false);
    }
    let differing = || ours.iter().zip(theirs).enumerate().filter(|(_, (a, b))| a != b).map(|(offset, _)| offset);
    let mut parts = LastPart::default();
    for offset in differing() {
        let part = parts.at(left, offset)?;
        if part.name.is_field() {
            writeln!(out, "fields differ at byte {offset} {part}")?;
            return Ok(false);
        }
    }
    let (mut bytes, mut rows, mut told) = (0_u64, 0_u64, 0);
    for offset in differing() {
        bytes += 1;
        writeln!(out, "{}", Inked(Ink::Bold, format!("byte {offset} {}", parts.at(left, offset)?)))?;
        for row in left.rows_of_byte(offset)? {
            row_line(out, args, left, right, row)?;
            // Rows ascend with the bytes: one that was not told yet lies behind all that were.
            if told <= row {
                rows += 1;
                told = row + 1;
            }
        }
    }
    writeln!(out, "bytes {bytes} rows {rows}")?;
    Ok(bytes == 0)
}

/// The part that was asked for last. Asking for one goes over a footer, and most bytes that differ lie in one area.
#[derive(Default)]
struct LastPart(Option<Part>);

impl LastPart {
    fn at(&mut self, column: &Lent, offset: usize) -> Result<Part, Error> {
        let part = match self.0 {
            Some(part) if part.range().contains(&offset) => part,
            _ => column.part_of_byte(offset)?,
        };
        self.0 = Some(part);
        Ok(part)
    }
}

fn row_line(out: &mut impl Write, args: &cli::Blame, left: &Lent, right: &Lent, row: u32) -> Result<()> {
    let (ours, theirs) = (answer(left.get(row)), answer(right.get(row)));
    if ours != theirs {
        writeln!(out, "row {row} {} {}", Inked(Ink::Red, ours), Inked(Ink::Green, theirs))?;
    } else if !args.changed {
        writeln!(out, "{}", Inked(Ink::Faint, format!("row {row} {ours} {theirs}")))?;
    }
    Ok(())
}

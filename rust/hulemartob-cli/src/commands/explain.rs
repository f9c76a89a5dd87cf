//! `explain`: a column's parts, as the program `explain` prints them, or as a page.

use std::io::Write;

use anyhow::Result;
use hulemartob::PartName;

use crate::cli;
use crate::console::{Ink, Inked, Status, stdout};
use crate::layout::Layout;
use crate::page;
use crate::sources;

pub fn run(args: &cli::Explain) -> Result<Status> {
    if let Some(path) = &args.html {
        return page::write_one(path, &args.file);
    }
    let bytes = sources::read(&args.file)?;
    let mut out = stdout();
    let Some(column) = super::open(&mut out, "", &args.file, &bytes)? else { return Ok(Status::Not) };
    for part in Layout::of(&column).parts {
        write!(out, "{} {} {}", part.offset, part.len, Inked(ink(part.name), part))?;
        match (part.value, column.width()) {
            (Some(value), _) => writeln!(out, " {value}")?,
            (None, Some(bits)) if part.name == PartName::Area => writeln!(out, " bits {bits}")?,
            _ => writeln!(out)?,
        }
    }
    out.flush()?;
    Ok(Status::Good)
}

fn ink(name: PartName) -> Ink {
    match name {
        PartName::Area => Ink::Green,
        PartName::Behind | PartName::Spare => Ink::Red,
        PartName::Code | PartName::Minimum | PartName::Gcd | PartName::Count | PartName::Rows => Ink::Cyan,
        _ => Ink::Yellow,
    }
}

//! `compare`: the rows of two columns whose answers differ, as the program `compare` prints them. Of folders see [`folders`].

use std::io::Write;
use std::path::Path;

use anyhow::{Result, bail};
use hulemartob::{Difference, Error};
use serde_json::{Value as Json, json};

use super::{Lent, answer, folders};
use crate::cli;
use crate::console::{Ink, Inked, Named, Status, stdout_unless};
use crate::sources;

pub fn run(args: &cli::Compare) -> Result<Status> {
    match (args.left.is_dir(), args.right.is_dir()) {
        (true, true) => folders::run(args),
        (false, false) => files(args),
        _ => bail!("{} and {}: one is a folder, the other is none", Named(&args.left), Named(&args.right)),
    }
}

fn files(args: &cli::Compare) -> Result<Status> {
    let (left, right) = sources::read_both(&args.left, &args.right)?;
    let mut out = stdout_unless(args.quiet);
    let mut line = Vec::new();
    let Some((left, right)) = opened(&mut line, (&args.left, &left), (&args.right, &right))? else {
        match args.json {
            true => writeln!(out, "{}", json!({ "type": "summary", "is": String::from_utf8_lossy(&line).trim_end() }))?,
            false => out.write_all(&line)?,
        }
        out.flush()?;
        return Ok(Status::Not);
    };
    if args.quiet {
        return Ok(Status::of(first(&left, &right).is_none()));
    }
    let lines = if args.json { objects(&mut out, &left, &right)? } else { compare(&mut out, &left, &right)? };
    match args.json {
        true => writeln!(out, "{}", json!({ "type": "summary", "lines": lines }))?,
        false => writeln!(out, "lines {lines}")?,
    }
    out.flush()?;
    Ok(Status::of(lines == 0))
}

/// A file's name and bytes.
type File<'a> = (&'a Path, &'a [u8]);

/// Both columns; where one does not open, that line and nothing.
pub fn opened<'a>(out: &mut impl Write, left: File<'a>, right: File<'a>) -> Result<Option<(Lent<'a>, Lent<'a>)>> {
    let Some(ours) = super::open(out, "left ", left.0, left.1)? else { return Ok(None) };
    Ok(super::open(out, "right ", right.0, right.1)?.map(|theirs| (ours, theirs)))
}

/// The rows whose answers differ. Equal bytes need not be looked at.
pub fn differences<'a>(left: &'a Lent, right: &'a Lent) -> impl Iterator<Item = Difference> + 'a {
    (left.bytes() != right.bytes()).then(|| left.differences(right)).into_iter().flatten()
}

/// The first of them.
pub fn first(left: &Lent, right: &Lent) -> Option<Difference> {
    differences(left, right).next()
}

/// A line for each. How many.
pub fn compare(out: &mut impl Write, left: &Lent, right: &Lent) -> Result<u64> {
    let mut lines = 0;
    for Difference { row, left, right } in differences(left, right) {
        writeln!(out, "{row} {} {}", Inked(Ink::Red, answer(left)), Inked(Ink::Green, answer(right)))?;
        lines += 1;
    }
    Ok(lines)
}

/// An object for each. How many.
fn objects(out: &mut impl Write, left: &Lent, right: &Lent) -> Result<u64> {
    let mut lines = 0;
    for difference in differences(left, right) {
        let mut object = object(difference);
        object["type"] = "row".into();
        writeln!(out, "{object}")?;
        lines += 1;
    }
    Ok(lines)
}

/// A row with both answers: values as numbers, else text.
pub fn object(difference: Difference) -> Json {
    let value = |it: Result<u64, Error>| it.map_or_else(|error| answer(Err(error)).into(), Json::from);
    json!({ "row": difference.row, "left": value(difference.left), "right": value(difference.right) })
}

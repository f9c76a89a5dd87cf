//! `list`: a column's rows, as the program `list` prints them, as a table, or as JSON.

use std::io::Write;

use anyhow::{Result, bail};
use hulemartob::Kind;

use super::Lent;
use crate::cli::{self, Format};
use crate::console::{Named, Status, many, stdout};
use crate::scalar::Scalar;
use crate::sources;

pub fn run(args: &cli::List) -> Result<Status> {
    let bytes = sources::read(&args.file)?;
    let mut out = stdout();
    // A table or an object has no line for a column that does not open.
    let opened = match args.format {
        Format::Text => super::open(&mut out, "", &args.file, &bytes)?,
        Format::Csv | Format::Json => super::open(&mut Vec::new(), "", &args.file, &bytes)?,
    };
    let Some(column) = opened else { return Ok(Status::Not) };
    let Ok(window) = column.window(args.rows) else {
        bail!("{}: it has {}", Named(&args.file), many(column.len(), "row"));
    };
    let status = rows(&mut out, &window, args.kind, args.format)?;
    out.flush()?;
    Ok(status)
}

/// The rows of a window, between the head and the end of the format.
fn rows(out: &mut impl Write, column: &Lent, kind: Kind, format: Format) -> Result<Status> {
    let value = |stored| Scalar::of_stored(kind, stored);
    let (minimum, maximum, gcd) = (value(column.minimum()), value(column.maximum()), column.gcd());
    let (code, all, first) = (u8::from(column.codec()), column.column_len(), column.first_row());
    match format {
        Format::Text => writeln!(out, "codec {code} rows {all} min {minimum} max {maximum} gcd {gcd}")?,
        Format::Csv => writeln!(out, "row,value")?,
        Format::Json => {
            let (minimum, maximum) = (minimum.json(), maximum.json());
            write!(
                out,
                "{{\"codec\":{code},\"rows\":{all},\"min\":{minimum},\"max\":{maximum},\"gcd\":{gcd},\"first\":{first},\"values\":["
            )?;
        }
    }
    let mut refused = Vec::new();
    let mut comma = "";
    for (row, answer) in (first..=u32::MAX).zip(column.iter()) {
        match (format, answer.map(value)) {
            (Format::Text, Ok(value)) => writeln!(out, "{row} {value}")?,
            (Format::Text, Err(error)) => writeln!(out, "{row} refused {}", error.number())?,
            (Format::Csv, Ok(value)) => writeln!(out, "{row},{value}")?,
            (Format::Csv, Err(error)) => writeln!(out, "{row},refused {}", error.number())?,
            (Format::Json, Ok(value)) => write!(out, "{comma}{}", value.json())?,
            (Format::Json, Err(_)) => write!(out, "{comma}null")?,
        }
        if answer.is_err() {
            refused.push(row);
        }
        comma = ",";
    }
    match format {
        Format::Text => writeln!(out, "end {}", u64::from(first) + u64::from(column.len()))?,
        Format::Csv => {}
        Format::Json => writeln!(out, "],\"refused\":{}}}", serde_json::to_string(&refused)?)?,
    }
    Ok(Status::of(refused.is_empty()))
}

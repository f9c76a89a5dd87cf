//! `stats`: codec, head, bits a row, sizes by part and spelling.

use std::io::Write;
use std::path::Path;

use anyhow::Result;
use hulemartob::{Codec, Column, PartName};
use serde_json::{Map, json};

use super::Lent;
use crate::cli;
use crate::console::{Ink, Inked, Named, Status, complain, complain_of, stdout};
use crate::layout::Layout;
use crate::refusals::Told;
use crate::sources;

/// A group of parts: its name, and which belong to it.
type Group = (&'static str, fn(PartName) -> bool);

const GROUPS: [Group; 5] = [
    ("head", |p| matches!(p, PartName::Code | PartName::Minimum | PartName::Gcd | PartName::Count | PartName::Rows)),
    ("line", |p| matches!(p, PartName::Slope | PartName::Intercept | PartName::Width)),
    ("area", |p| p == PartName::Area),
    ("footer", |p| p.is_of_block() || p == PartName::FooterLength),
    ("leftover", |p| matches!(p, PartName::Behind | PartName::Spare)),
];

pub fn run(args: &cli::Stats) -> Result<Status> {
    let mut out = stdout();
    let mut status = Status::Good;
    for file in &args.files {
        let bytes = match sources::read(file) {
            Ok(bytes) => bytes,
            Err(error) => {
                complain(&format!("{error:#}"));
                status = Status::Trouble;
                continue;
            }
        };
        match Column::open(&*bytes) {
            Ok(column) if args.json => as_json(&mut out, file, &column)?,
            Ok(column) => as_text(&mut out, file, &column)?,
            Err(error) => {
                out.flush()?;
                complain_of(file, Told::of(&bytes, error));
                status = status.max(Status::Not);
            }
        }
    }
    out.flush()?;
    Ok(status)
}

/// The least, the mean and the greatest bits a row.
fn bits(column: &Lent) -> (u64, f64, u64) {
    let mean = if column.is_empty() { 0.0 } else { column.area().len() as f64 * 8.0 / f64::from(column.len()) };
    match column.width() {
        Some(bits) => (bits.into(), bits.into(), bits.into()),
        None => {
            let widths = || column.blocks().iter().map(|block| block.width);
            (widths().min().unwrap_or(0), mean, widths().max().unwrap_or(0))
        }
    }
}

fn sizes(layout: &Layout) -> impl Iterator<Item = (&'static str, usize)> {
    GROUPS.iter().map(|(name, pick)| (*name, layout.bytes_of(pick)))
}

fn as_text(out: &mut impl Write, file: &Path, column: &Lent) -> Result<()> {
    let layout = Layout::of(column);
    let length = column.bytes().len();
    let mut line = |name: &str, text: String| writeln!(out, "  {} {text}", Inked(Ink::Faint, format!("{name:<10}")));
    let blocks = if column.codec() == Codec::Blockwise { format!(", blocks {}", column.blocks().len()) } else { String::new() };
    line("file", Inked(Ink::Bold, Named(file)).to_string())?;
    line("codec", format!("{} ({}){blocks}", column.codec(), u8::from(column.codec())))?;
    line("rows", column.len().to_string())?;
    line("minimum", column.minimum().to_string())?;
    line("maximum", column.maximum().to_string())?;
    line("gcd", column.gcd().to_string())?;
    let bits = match bits(column) {
        (least, _, greatest) if least == greatest => least.to_string(),
        (least, mean, greatest) => format!("{least} to {greatest}, {mean:.2} in the mean"),
    };
    line("bits a row", bits)?;
    let sizes = sizes(&layout).filter(|(_, bytes)| *bytes != 0).map(|(name, bytes)| format!("{name} {bytes}"));
    line("bytes", format!("{length}: {}", sizes.collect::<Vec<_>>().join(", ")))?;
    if !column.is_empty() {
        line("of 8 a row", format!("{:.1} %", length as f64 * 100.0 / (f64::from(column.len()) * 8.0)))?;
    }
    let spelled = column.longer_spelling().map(|offset| {
        let part = layout.at(offset).map_or(String::new(), |part| format!(" ({part})"));
        format!("longer than need be, first at byte {offset}{part}")
    });
    line("spelled", spelled.unwrap_or_else(|| "as short as can be".into()))?;
    Ok(())
}

fn as_json(out: &mut impl Write, file: &Path, column: &Lent) -> Result<()> {
    let (least, mean, greatest) = bits(column);
    let parts: Map<_, _> = sizes(&Layout::of(column)).map(|(name, bytes)| (name.to_owned(), bytes.into())).collect();
    let object = json!({
        "path": file.to_string_lossy(),
        "codec": column.codec().name(),
        "rows": column.len(),
        "min": column.minimum(),
        "max": column.maximum(),
        "gcd": column.gcd(),
        "bits": { "least": least, "mean": mean, "greatest": greatest },
        "blocks": column.blocks().len(),
        "bytes": column.bytes().len(),
        "parts": parts,
        "longer_spelling": column.longer_spelling(),
    });
    writeln!(out, "{object}")?;
    Ok(())
}

//! A page of verdicts that needs nothing else: a table of columns, and for each its bytes coloured by part, with the rows of a byte.

mod detail;

use std::collections::BTreeMap;
use std::fs;
use std::path::Path;

use anyhow::{Context, Result};
use hulemartob::Sheet;
use serde::Serialize;

use crate::bless::{Asked, Judgement, Scratch, Verdict, judge};
use crate::console::{Named, Status};
use crate::sources::{self, Found};
use detail::Detail;

const TEMPLATE: &str = include_str!("page.html");

const TOOL: &str = concat!("hulemartob ", env!("CARGO_PKG_VERSION"));

/// Where the data stand in the template.
const DATA: &str = "\"DATA\"";

/// What a page may hold of columns' bytes: as text, for those that are not exact and for those that are; and of one column.
const BUDGET: usize = 12 << 20;
const BUDGET_EXACT: usize = 1 << 20;
const WINDOW: usize = 8 << 10;
const WINDOW_ALONE: usize = 64 << 10;

#[derive(Serialize)]
struct Data {
    tool: &'static str,
    /// Whether the rows were held against lists.
    lists: bool,
    files: Vec<Row>,
    details: BTreeMap<usize, Detail>,
}

/// A column's line of the table: path, verdict, refusal's number, codec, rows, bytes, reason and offset. Their names are short as there may be very many.
#[derive(Serialize)]
struct Row {
    p: String,
    v: Verdict,
    #[serde(skip_serializing_if = "Option::is_none")]
    n: Option<u8>,
    #[serde(skip_serializing_if = "Option::is_none")]
    c: Option<&'static str>,
    #[serde(skip_serializing_if = "Option::is_none")]
    r: Option<u32>,
    b: u64,
    #[serde(skip_serializing_if = "Option::is_none")]
    w: Option<String>,
    #[serde(skip_serializing_if = "Option::is_none")]
    o: Option<usize>,
}

impl Row {
    fn new(path: &Path, judgement: &Judgement) -> Row {
        Row {
            p: path.to_string_lossy().into_owned(),
            v: judgement.verdict,
            n: judgement.refusal,
            c: judgement.codec,
            r: judgement.rows,
            b: judgement.bytes,
            w: judgement.reason.clone(),
            o: judgement.offset,
        }
    }
}

/// Writes the page of some columns and their verdicts.
pub fn write(out: &Path, files: &[Found], judgements: &[Judgement], lists: bool) -> Result<()> {
    let mut details = BTreeMap::new();
    for (exact, budget) in [(false, BUDGET), (true, BUDGET_EXACT)] {
        let mut left = budget;
        let picked = files.iter().zip(judgements).enumerate().filter(|(_, (_, j))| (j.verdict == Verdict::Exact) == exact);
        for (place, (found, judgement)) in picked {
            // Standard input is gone, and a file may be by now.
            let Ok(bytes) = sources::load(&found.path) else { continue };
            let detail = Detail::new(&bytes, judgement, WINDOW);
            let Some(rest) = left.checked_sub(detail.size()) else { break };
            left = rest;
            details.insert(place, detail);
        }
    }
    let rows = files.iter().zip(judgements).map(|(found, judgement)| Row::new(&found.path, judgement)).collect();
    save(out, &Data { tool: TOOL, lists, files: rows, details })
}

/// Writes the page of one column, and says whether it opened.
pub fn write_one(out: &Path, file: &Path) -> Result<Status> {
    let bytes = sources::read(file)?;
    let asked = Asked { sheet: Sheet::One, choice: false, max_rows: 1 << 27 };
    let judgement = judge(&bytes, asked, &|| Ok(None), &mut Scratch::default());
    let detail = Detail::new(&bytes, &judgement, WINDOW_ALONE);
    let rows = vec![Row::new(file, &judgement)];
    save(out, &Data { tool: TOOL, lists: false, files: rows, details: BTreeMap::from([(0, detail)]) })?;
    Ok(Status::of(judgement.verdict != Verdict::Refused))
}

fn save(out: &Path, data: &Data) -> Result<()> {
    // Inside a script element only `<` could end it early.
    let data = serde_json::to_string(data)?.replace('<', "\\u003c");
    fs::write(out, TEMPLATE.replacen(DATA, &data, 1)).with_context(|| Named(out).to_string())
}

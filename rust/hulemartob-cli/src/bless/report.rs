//! Verdicts as lines of text or JSON, and their summary.

use std::io::{self, Write};
use std::path::Path;
use std::time::Duration;

use serde::Serialize;

use super::judge::{Judgement, Verdict};
use crate::console::{Ink, Inked, Named, Status, many};

fn ink(verdict: Verdict) -> Ink {
    match verdict {
        Verdict::Exact => Ink::Green,
        Verdict::Other => Ink::Yellow,
        Verdict::Wrong => Ink::Red,
        Verdict::Refused => Ink::Magenta,
        Verdict::Trouble => Ink::Bold,
    }
}

/// A line for a column: path, verdict, reason.
pub fn text(out: &mut impl Write, path: &Path, judgement: &Judgement) -> io::Result<()> {
    let number = judgement.refusal.map_or(String::new(), |number| format!(" {number}"));
    write!(out, "{}: {}", Named(path), Inked(ink(judgement.verdict), format!("{}{number}", judgement.verdict)))?;
    match &judgement.reason {
        Some(reason) => writeln!(out, ": {reason}"),
        None => writeln!(out),
    }
}

#[derive(Serialize)]
struct Line<'a> {
    r#type: &'static str,
    path: &'a str,
    #[serde(flatten)]
    judgement: &'a Judgement,
}

/// An object for a column.
pub fn json(out: &mut impl Write, path: &Path, judgement: &Judgement) -> io::Result<()> {
    serde_json::to_writer(&mut *out, &Line { r#type: "column", path: &path.to_string_lossy(), judgement })?;
    writeln!(out)
}

/// How many columns have which verdict.
#[derive(Clone, Debug, Default, Serialize)]
pub struct Summary {
    pub files: u64,
    pub exact: u64,
    pub other: u64,
    pub wrong: u64,
    pub refused: u64,
    pub trouble: u64,
    pub bytes: u64,
    pub rows: u64,
    /// Whether the rows were held against lists. Without, an exact column may hold the wrong rows.
    pub lists: bool,
    pub seconds: f64,
}

impl Summary {
    pub fn add(&mut self, judgement: &Judgement) {
        self.files += 1;
        *self.count_mut(judgement.verdict) += 1;
        self.bytes += judgement.bytes;
        if judgement.verdict != Verdict::Trouble {
            self.rows += u64::from(judgement.rows.unwrap_or(0));
        }
    }

    fn count_mut(&mut self, verdict: Verdict) -> &mut u64 {
        match verdict {
            Verdict::Exact => &mut self.exact,
            Verdict::Other => &mut self.other,
            Verdict::Wrong => &mut self.wrong,
            Verdict::Refused => &mut self.refused,
            Verdict::Trouble => &mut self.trouble,
        }
    }

    /// Something that is no column's.
    pub fn add_trouble(&mut self) {
        self.trouble += 1;
    }

    pub fn set_time(&mut self, time: Duration) {
        self.seconds = (time.as_secs_f64() * 1000.0).round() / 1000.0;
    }

    pub fn status(&self) -> Status {
        if 0 < self.trouble { Status::Trouble } else { Status::of(self.exact == self.files) }
    }

    /// The last line: all counts that are not 0.
    pub fn text(&self, out: &mut impl Write) -> io::Result<()> {
        write!(out, "{}:", many(self.files, "column"))?;
        let mut counts = self.clone();
        let mut comma = "";
        for verdict in Verdict::ALL {
            let count = *counts.count_mut(verdict);
            if 0 < count {
                write!(out, "{comma} {}", Inked(ink(verdict), format!("{count} {verdict}")))?;
                comma = ",";
            }
        }
        let held = if self.lists { "held against lists" } else { "not held against lists" };
        writeln!(out, "; {} {held}; {:.2} s", many(self.rows, "row"), self.seconds)
    }

    /// The last object.
    pub fn json(&self, out: &mut impl Write) -> io::Result<()> {
        #[derive(Serialize)]
        struct Last<'a> {
            r#type: &'static str,
            #[serde(flatten)]
            summary: &'a Summary,
        }
        serde_json::to_writer(&mut *out, &Last { r#type: "summary", summary: self })?;
        writeln!(out)
    }
}

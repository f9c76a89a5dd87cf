//! `compare` of two folders: their columns by relative paths, many at a time.

use std::collections::BTreeMap;
use std::io::Write;
use std::path::{Path, PathBuf};

use anyhow::{Context, Result, bail};
use hulemartob::Column;
use rayon::ThreadPoolBuilder;
use rayon::prelude::*;
use serde_json::json;

use super::Lent;
use super::compare::{compare, differences, first, object};
use crate::cli;
use crate::console::{Ink, Inked, Named, Out, Status, complain, progress, stdout_unless};
use crate::sources;

/// So many pairs are compared, then their lines printed in order.
const BATCH: usize = 512;

/// Lines of longer columns are not kept, but made again as they are printed: they may be very many.
const KEPT_ROWS: u32 = 1 << 20;

/// The files of a relative path, left and right.
type Pair = (PathBuf, [Option<PathBuf>; 2]);

/// What there is to say of a pair.
enum Outcome {
    Same,
    OnlyLeft,
    OnlyRight,
    /// A side does not open: the line that says so.
    Refused(String),
    /// Rows differ; their lines, if they are kept.
    Differ(Option<Vec<u8>>),
    /// The same for a run that prints objects: an object with the number of rows and the first.
    Told(String),
}

#[derive(Default)]
struct Counts {
    both: u64,
    differing: u64,
    alone: u64,
}

pub fn run(args: &cli::Compare) -> Result<Status> {
    let (pairs, mut status) = pairs(args)?;
    let pool = ThreadPoolBuilder::new().num_threads(args.jobs).build().context("threads")?;
    let bar = progress(pairs.len(), args.quiet);
    let mut out = stdout_unless(args.quiet);
    let mut counts = Counts::default();
    for batch in pairs.chunks(BATCH) {
        let look = |pair: &Pair| {
            let outcome = look(args, pair);
            bar.inc(1);
            outcome
        };
        let outcomes: Vec<Result<Outcome>> = pool.install(|| batch.par_iter().with_max_len(8).map(look).collect());
        bar.suspend(|| -> Result<()> {
            for (pair, outcome) in batch.iter().zip(outcomes) {
                match outcome {
                    Ok(outcome) => print(&mut out, args, pair, outcome, &mut counts)?,
                    Err(error) => {
                        complain(&format!("{error:#}"));
                        status = Status::Trouble;
                    }
                }
            }
            Ok(out.flush()?)
        })?;
    }
    bar.finish_and_clear();
    let Counts { both, differing, alone } = counts;
    match args.json {
        true => writeln!(out, "{}", json!({ "type": "summary", "columns": both, "differing": differing, "alone": alone }))?,
        false => writeln!(out, "columns {both} differing {differing} alone {alone}")?,
    }
    out.flush()?;
    Ok(status.max(Status::of(differing + alone == 0)))
}

/// The files of both folders by their relative paths.
fn pairs(args: &cli::Compare) -> Result<(Vec<Pair>, Status)> {
    let mut pairs: BTreeMap<PathBuf, [Option<PathBuf>; 2]> = BTreeMap::new();
    let mut status = Status::Good;
    for (side, folder) in [&args.left, &args.right].into_iter().enumerate() {
        let (files, troubles) = sources::gather(std::slice::from_ref(folder), |path| sources::has_extension(path, &args.extensions));
        for trouble in troubles {
            complain(&trouble);
            status = Status::Trouble;
        }
        for found in files {
            pairs.entry(found.relative).or_default()[side] = Some(found.path);
        }
    }
    if pairs.is_empty() {
        bail!("no columns found");
    }
    Ok((pairs.into_iter().collect(), status))
}

fn look(args: &cli::Compare, (relative, files): &Pair) -> Result<Outcome> {
    let (left, right) = match files {
        [Some(left), Some(right)] => (left, right),
        [Some(_), None] => return Ok(Outcome::OnlyLeft),
        [None, _] => return Ok(Outcome::OnlyRight),
    };
    let (ours, theirs) = (sources::read(left)?, sources::read(right)?);
    let (left, right) = match (Column::open(&*ours), Column::open(&*theirs)) {
        (Ok(left), Ok(right)) => (left, right),
        (Err(error), _) => return Ok(Outcome::Refused(format!("left refused {}", error.number()))),
        (_, Err(error)) => return Ok(Outcome::Refused(format!("right refused {}", error.number()))),
    };
    let Some(row) = first(&left, &right) else { return Ok(Outcome::Same) };
    Ok(if args.json {
        let lines = differences(&left, &right).count();
        let object =
            json!({ "type": "column", "path": relative.to_string_lossy(), "is": "differing", "lines": lines, "first": object(row) });
        Outcome::Told(object.to_string())
    } else if args.brief || args.quiet || KEPT_ROWS < left.len().max(right.len()) {
        Outcome::Differ(None)
    } else {
        let mut lines = Vec::new();
        print_rows(&mut lines, &left, &right)?;
        Outcome::Differ(Some(lines))
    })
}

fn print_rows(out: &mut impl Write, left: &Lent, right: &Lent) -> Result<()> {
    let lines = compare(out, left, right)?;
    Ok(writeln!(out, "lines {lines}")?)
}

fn print(out: &mut Out, args: &cli::Compare, (relative, files): &Pair, outcome: Outcome, counts: &mut Counts) -> Result<()> {
    let alone = matches!(outcome, Outcome::OnlyLeft | Outcome::OnlyRight);
    counts.alone += u64::from(alone);
    counts.both += u64::from(!alone);
    counts.differing += u64::from(!alone && !matches!(outcome, Outcome::Same));
    let name = Inked(Ink::Bold, Named(relative));
    let told = |is: &str| json!({ "type": "column", "path": relative.to_string_lossy(), "is": is });
    match outcome {
        Outcome::Same => {}
        Outcome::OnlyLeft if args.json => writeln!(out, "{}", told("only left"))?,
        Outcome::OnlyRight if args.json => writeln!(out, "{}", told("only right"))?,
        Outcome::Refused(line) if args.json => writeln!(out, "{}", told(&line))?,
        Outcome::OnlyLeft => writeln!(out, "only left: {name}")?,
        Outcome::OnlyRight => writeln!(out, "only right: {name}")?,
        Outcome::Refused(_) if args.brief => writeln!(out, "{name}")?,
        Outcome::Refused(line) => writeln!(out, "{name}\n{line}")?,
        Outcome::Told(object) => writeln!(out, "{object}")?,
        Outcome::Differ(lines) => {
            writeln!(out, "{name}")?;
            match (lines, files) {
                (Some(lines), _) => out.write_all(&lines)?,
                (None, [Some(left), Some(right)]) if !args.brief && !args.quiet => stream(out, left, right)?,
                _ => {}
            }
        }
    }
    Ok(())
}

/// The lines of a pair that were not kept.
fn stream(out: &mut Out, left: &Path, right: &Path) -> Result<()> {
    let (ours, theirs) = (sources::read(left)?, sources::read(right)?);
    print_rows(out, &Column::open(&*ours)?, &Column::open(&*theirs)?)
}

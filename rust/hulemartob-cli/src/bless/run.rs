//! Judging whole folders, many columns at a time.

use std::io::{self, Write};
use std::path::Path;
use std::time::Instant;

use anyhow::{Context, Result};
use rayon::ThreadPoolBuilder;
use rayon::prelude::*;

use super::judge::{Asked, Judgement, Scratch, Verdict, judge};
use super::lists::Lists;
use super::report::{self, Summary};
use crate::cli;
use crate::console::{Status, complain, complain_of, progress, stdout_unless};
use crate::page;
use crate::sources::{self, Found};

/// So many columns are judged, then their lines printed in order.
const BATCH: usize = 2048;

pub fn run(args: &cli::Bless) -> Result<Status> {
    let start = Instant::now();
    let lists = Lists::new(args);
    let asked = Asked { sheet: args.sheet, choice: args.choice || lists.is_some(), max_rows: args.max_rows };
    let is_list = |path: &Path| lists.as_ref().is_some_and(|lists| lists.is_list(path));
    let wanted = |path: &Path| sources::has_extension(path, &args.extensions) && !is_list(path);
    let (files, troubles) = sources::gather(&args.paths, wanted);
    let mut summary = Summary { lists: lists.is_some(), ..Summary::default() };
    for trouble in &troubles {
        complain(trouble);
        summary.add_trouble();
    }
    if files.is_empty() && troubles.is_empty() {
        // An empty folder is more likely a wrong path than a blessing.
        anyhow::bail!("no columns found");
    }
    let pool = ThreadPoolBuilder::new().num_threads(args.jobs).build().context("threads")?;
    let bar = progress(files.len(), args.quiet);
    let mut out = stdout_unless(args.quiet);
    let mut kept = Vec::new();
    for batch in files.chunks(BATCH) {
        let judgements: Vec<Judgement> = pool.install(|| {
            batch
                .par_iter()
                .with_max_len(16)
                .map_init(Scratch::default, |scratch, found| {
                    let judgement = judge_file(found, asked, lists.as_ref(), scratch);
                    bar.inc(1);
                    judgement
                })
                .collect()
        });
        bar.suspend(|| print(&mut out, args, batch, &judgements))?;
        judgements.iter().for_each(|judgement| summary.add(judgement));
        if args.html.is_some() {
            kept.extend(judgements);
        }
    }
    bar.finish_and_clear();
    summary.set_time(start.elapsed());
    if args.json {
        summary.json(&mut out)?;
    } else {
        summary.text(&mut out)?;
    }
    out.flush()?;
    if let Some(path) = &args.html {
        page::write(path, &files, &kept, lists.is_some())?;
    }
    Ok(summary.status())
}

fn judge_file(found: &Found, asked: Asked, lists: Option<&Lists>, scratch: &mut Scratch) -> Judgement {
    let bytes = match sources::load(&found.path) {
        Ok(bytes) => bytes,
        Err(error) => return Judgement::trouble(error.to_string()),
    };
    judge(&bytes, asked, &|| lists.map(|lists| lists.read(found)).transpose(), scratch)
}

fn print(out: &mut impl Write, args: &cli::Bless, batch: &[Found], judgements: &[Judgement]) -> io::Result<()> {
    for (found, judgement) in batch.iter().zip(judgements) {
        if judgement.verdict == Verdict::Trouble && !args.json {
            let number = judgement.refusal.map_or(String::new(), |number| format!("refused {number}: "));
            complain_of(&found.path, format_args!("{number}{}", judgement.reason.as_deref().unwrap_or("trouble")));
        } else if args.json {
            report::json(out, &found.path, judgement)?;
        } else if args.all || found.named || judgement.verdict != Verdict::Exact {
            report::text(out, &found.path, judgement)?;
        }
    }
    out.flush()
}

//! `replay`: recorded lookups run again, in the words of the program `replay`.

use std::io::Write;

use anyhow::Result;

use crate::cli;
use crate::console::{Status, complain_of, stdout_unless};
use crate::refusals::reason;
use crate::sources;

pub fn run(args: &cli::Replay) -> Result<Status> {
    let (bytes, recording) = sources::read_both(&args.column, &args.recording)?;
    let mut out = stdout_unless(args.quiet);
    let Some(column) = super::open(&mut out, "column ", &args.column, &bytes)? else { return Ok(Status::Not) };
    let status = match column.replay(&recording) {
        Ok(replay) => {
            match replay.differing {
                None => writeln!(out, "agree {}", replay.run)?,
                Some(index) => writeln!(out, "differ {index} run {}", replay.run)?,
            }
            Status::of(replay.all_agree())
        }
        Err(error) => {
            writeln!(out, "recording refused {}", error.number())?;
            out.flush()?;
            complain_of(&args.recording, format_args!("refused {}: {}", error.number(), reason(error)));
            Status::Trouble
        }
    };
    out.flush()?;
    Ok(status)
}

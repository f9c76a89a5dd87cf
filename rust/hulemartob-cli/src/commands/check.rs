//! `check`: does a column hold a list of values? In the words of the program `check`.

use std::io::Write;

use anyhow::{Result, bail};
use hulemartob::{Error, Mismatch};

use crate::cli;
use crate::console::{Status, complain_of, stdout_unless};
use crate::refusals::Told;
use crate::{sources, values};

pub fn run(args: &cli::Check) -> Result<Status> {
    if sources::is_stdin(&args.column) && sources::is_stdin(&args.values) {
        bail!("standard input can stand for one file only");
    }
    let mut out = stdout_unless(args.quiet);
    let Some(list) = values::read(&args.values, args.kind)? else {
        writeln!(out, "values refused {}", Error::Unfit.number())?;
        out.flush()?;
        complain_of(&args.values, values::NO_WORDS);
        return Ok(Status::Trouble);
    };
    let bytes = sources::read(&args.column)?;
    let verdict = list.check(args.sheet, &bytes);
    match verdict {
        Ok(()) => writeln!(out, "yes")?,
        Err(Mismatch::Unopened(error)) => {
            writeln!(out, "no column refused {}", error.number())?;
            out.flush()?;
            complain_of(&args.column, Told::of(&bytes, error));
        }
        Err(Mismatch::Counts { column, list }) => writeln!(out, "no rows {column} values {list}")?,
        Err(Mismatch::Unequal { row }) => writeln!(out, "no row {row}")?,
        Err(Mismatch::Minimum) => writeln!(out, "no minimum")?,
        Err(Mismatch::Gcd) => writeln!(out, "no gcd")?,
        Err(Mismatch::Maximum) => writeln!(out, "no maximum")?,
        Err(other) => bail!("{other}"),
    }
    out.flush()?;
    Ok(Status::of(verdict.is_ok()))
}

//! The subcommands.

mod blame;
mod check;
mod compare;
mod explain;
mod folders;
mod list;
mod replay;
mod stats;
mod write;

use std::io::Write;
use std::path::Path;

use anyhow::Result;
use clap::CommandFactory;
use hulemartob::{Column, Error};

use crate::bless;
use crate::cli::{self, Command};
use crate::console::{Status, complain_of, stdout};
use crate::refusals::{self, Told};

/// A column over lent bytes.
type Lent<'a> = Column<u64, &'a [u8]>;

pub fn run(command: Command) -> Result<Status> {
    match command {
        Command::Bless(args) => bless::run(&args),
        Command::List(args) => list::run(&args),
        Command::Stats(args) => stats::run(&args),
        Command::Explain(args) => explain::run(&args),
        Command::Compare(args) => compare::run(&args),
        Command::Blame(args) => blame::run(&args),
        Command::Check(args) => check::run(&args),
        Command::Replay(args) => replay::run(&args),
        Command::Write(args) => write::run(&args),
        Command::Refusals(args) => tell_refusals(&args),
        Command::Completions(args) => complete(&args),
    }
}

/// The column in some bytes. Where it does not open, the line that a program writes then, before which a few words may stand, and on standard error why.
fn open<'a>(out: &mut impl Write, words: &str, path: &Path, bytes: &'a [u8]) -> Result<Option<Lent<'a>>> {
    match Column::open(bytes) {
        Ok(column) => Ok(Some(column)),
        Err(error) => {
            writeln!(out, "{words}refused {}", error.number())?;
            out.flush()?;
            complain_of(path, Told::of(bytes, error));
            Ok(None)
        }
    }
}

/// What a row answers, in the words of the programs: a value, `none` behind the last row, or a refusal.
fn answer(answer: Result<u64, Error>) -> String {
    match answer {
        Ok(value) => value.to_string(),
        Err(Error::NoSuchRow) => "none".into(),
        Err(error) => format!("refused {}", error.number()),
    }
}

fn tell_refusals(args: &cli::Refusals) -> Result<Status> {
    let asked = args.number.map_or(1..=u8::MAX, |number| number..=number);
    let mut told = false;
    let mut out = stdout();
    for (number, meaning) in asked.map_while(|number| Some((number, refusals::meaning(number)?))) {
        writeln!(out, "{number:>2}  {meaning}")?;
        told = true;
    }
    out.flush()?;
    Ok(Status::of(told))
}

fn complete(args: &cli::Completions) -> Result<Status> {
    // Made in memory: the generator itself does not expect its output to fail.
    let mut script = Vec::new();
    clap_complete::generate(args.shell, &mut cli::Cli::command(), "hulemartob", &mut script);
    let mut out = stdout();
    out.write_all(&script)?;
    out.flush()?;
    Ok(Status::Good)
}

//! `write`: a list of values as a column.

use std::fs;
use std::io::Write;

use anyhow::{Context, Result};
use hulemartob::{Codec, Column};

use crate::cli;
use crate::console::{Named, Status, complain, complain_of, many, stdout};
use crate::refusals::reason;
use crate::{sources, values};

pub fn run(args: &cli::Write) -> Result<Status> {
    let list = values::read_list(&args.values, args.kind)?;
    let codecs = if args.codecs.is_empty() { &Codec::ALL[..] } else { &args.codecs };
    let bytes = match list.encode(codecs) {
        Ok(bytes) => bytes,
        Err(error) => {
            complain_of(&args.values, format_args!("refused {}: {}", error.number(), reason(error)));
            return Ok(Status::Not);
        }
    };
    if args.explain {
        explain(list.sizes()?, codecs);
    }
    let mut out = stdout();
    if sources::is_stdin(&args.output) {
        out.write_all(&bytes)?;
    } else {
        fs::write(&args.output, &bytes).with_context(|| Named(&args.output).to_string())?;
        let (codec, rows) = (Column::open(&*bytes)?.codec(), many(list.len() as u64, "row"));
        writeln!(out, "{}: {codec}, {rows}, {}", Named(&args.output), many(bytes.len() as u64, "byte"))?;
    }
    out.flush()?;
    Ok(Status::Good)
}

/// What the choice compared, a line a codec. Its sizes leave the code byte out, and Blockwise's is an estimate.
fn explain(sizes: [u64; 3], codecs: &[Codec]) {
    for (codec, size) in Codec::ALL.into_iter().zip(sizes) {
        let size = match size {
            u64::MAX => "does not apply".to_owned(),
            _ if codec == Codec::Blockwise => format!("about {} and the code byte", many(size, "byte")),
            _ => format!("{} and the code byte", many(size, "byte")),
        };
        let listed = if codecs.contains(&codec) { "" } else { ", not listed" };
        complain(&format!("{codec}: {size}{listed}"));
    }
}

//! One command for everyday work on columns: judging whole folders without golden files, listing, explaining, comparing, writing.
//!
//! Every answer about a column is the library's, which is proved. What is decided here is what is said of it, and in which words.

mod bless;
mod cli;
mod commands;
mod console;
mod dates;
mod layout;
mod page;
mod place;
mod refusals;
mod scalar;
mod sources;
mod values;

use std::process::ExitCode;

use clap::Parser;

fn main() -> ExitCode {
    let cli = cli::Cli::parse();
    console::choose_color(cli.color);
    match commands::run(cli.command) {
        Ok(status) => status.into(),
        Err(error) if console::is_broken_pipe(&error) => console::Status::BrokenPipe.into(),
        Err(error) => {
            console::complain(&format!("{error:#}"));
            console::Status::Trouble.into()
        }
    }
}

//! Standard output, standard error, colours, progress and exit statuses.

use std::fmt::{self, Display};
use std::io::{self, BufWriter, ErrorKind, IsTerminal, StdoutLock, Write};
use std::path::Path;
use std::process::ExitCode;
use std::sync::atomic::{AtomicBool, Ordering};

use clap::ValueEnum;
use indicatif::{ProgressBar, ProgressDrawTarget, ProgressStyle};

/// How a run ended. A later one is worse.
#[derive(Clone, Copy, Debug, PartialEq, Eq, PartialOrd, Ord)]
pub enum Status {
    /// What was asked holds: all exact, no difference, yes.
    Good = 0,
    /// It does not.
    Not = 1,
    /// It could not be asked of everything: a file that cannot be read, a list that is none.
    Trouble = 2,
    /// Whoever reads the output went away; what a shell reports of a program that SIGPIPE ended.
    BrokenPipe = 141,
}

impl Status {
    /// Whether what was asked holds.
    pub fn of(holds: bool) -> Status {
        if holds { Status::Good } else { Status::Not }
    }
}

impl From<Status> for ExitCode {
    fn from(status: Status) -> ExitCode {
        ExitCode::from(status as u8)
    }
}

/// Whether an error came of a reader that went away.
pub fn is_broken_pipe(error: &anyhow::Error) -> bool {
    error.chain().any(|cause| cause.downcast_ref::<io::Error>().is_some_and(|e| e.kind() == ErrorKind::BrokenPipe))
}

/// One line on standard error. Where that is closed, nobody is left to be told.
pub fn complain(line: &str) {
    let _ = writeln!(io::stderr(), "hulemartob: {line}");
}

/// The same of a file.
pub fn complain_of(path: &Path, line: impl Display) {
    complain(&format!("{}: {line}", Named(path)));
}

/// A path in a line: what would end the line or move the terminal's cursor is escaped.
pub struct Named<'a>(pub &'a Path);

impl Display for Named<'_> {
    fn fmt(&self, f: &mut fmt::Formatter<'_>) -> fmt::Result {
        let text = self.0.to_string_lossy();
        text.chars().try_for_each(|c| if c.is_control() { write!(f, "{}", c.escape_default()) } else { write!(f, "{c}") })
    }
}

/// Standard output, buffered; or nothing, where a command is to be quiet.
pub enum Out {
    Stdout(BufWriter<StdoutLock<'static>>),
    Quiet,
}

/// Standard output.
pub fn stdout() -> Out {
    Out::Stdout(BufWriter::with_capacity(1 << 16, io::stdout().lock()))
}

/// Standard output, unless a command is to be quiet.
pub fn stdout_unless(quiet: bool) -> Out {
    if quiet { Out::Quiet } else { stdout() }
}

impl Write for Out {
    fn write(&mut self, bytes: &[u8]) -> io::Result<usize> {
        match self {
            Out::Stdout(out) => out.write(bytes),
            Out::Quiet => Ok(bytes.len()),
        }
    }

    fn flush(&mut self) -> io::Result<()> {
        match self {
            Out::Stdout(out) => out.flush(),
            Out::Quiet => Ok(()),
        }
    }
}

/// A bar on standard error, unless that is no terminal or a command is to be quiet.
pub fn progress(columns: usize, quiet: bool) -> ProgressBar {
    if quiet {
        return ProgressBar::hidden();
    }
    // Where standard error is no terminal nothing is drawn.
    let bar = ProgressBar::with_draw_target(Some(columns as u64), ProgressDrawTarget::stderr_with_hz(10));
    match ProgressStyle::with_template("{bar:32.green} {pos}/{len} columns, {eta} left") {
        Ok(style) => bar.with_style(style),
        Err(_) => bar,
    }
}

/// When to colour: always, never, or on a terminal unless NO_COLOR is set.
#[derive(Clone, Copy, Debug, PartialEq, Eq, ValueEnum)]
pub enum Color {
    Auto,
    Always,
    Never,
}

/// Whether colours are on.
static COLOR: AtomicBool = AtomicBool::new(false);

/// Decides on colours, once.
pub fn choose_color(color: Color) {
    let on = match color {
        Color::Always => true,
        Color::Never => false,
        Color::Auto => io::stdout().is_terminal() && std::env::var_os("NO_COLOR").is_none_or(|no| no.is_empty()),
    };
    COLOR.store(on, Ordering::Relaxed);
}

/// A colour of the terminal's own.
#[derive(Clone, Copy)]
pub enum Ink {
    Bold = 1,
    Faint = 2,
    Red = 31,
    Green = 32,
    Yellow = 33,
    Magenta = 35,
    Cyan = 36,
}

/// Something in a colour, where colours are on.
pub struct Inked<T>(pub Ink, pub T);

impl<T: Display> Display for Inked<T> {
    fn fmt(&self, f: &mut fmt::Formatter<'_>) -> fmt::Result {
        if COLOR.load(Ordering::Relaxed) { write!(f, "\x1b[{}m{}\x1b[0m", self.0 as u8, self.1) } else { self.1.fmt(f) }
    }
}

/// A count with its noun, in the plural where it is not one.
pub fn many(count: impl Into<u64>, noun: &str) -> String {
    let count = count.into();
    format!("{count} {noun}{}", if count == 1 { "" } else { "s" })
}

#[cfg(test)]
mod tests {
    use std::path::Path;

    use super::{Named, many};

    #[test]
    fn words() {
        assert_eq!((many(1_u32, "row"), many(0_u32, "row")), ("1 row".into(), "0 rows".into()));
        assert_eq!(Named(Path::new("a\nb: exact\u{1b}[2J é")).to_string(), "a\\nb: exact\\u{1b}[2J é");
    }
}

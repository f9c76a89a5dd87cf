//! The command line.

use std::ops::Bound;
use std::path::PathBuf;

use clap::builder::{PossibleValuesParser, TypedValueParser};
use clap::{Args, Parser, Subcommand, ValueEnum};
use clap_complete::Shell;
use hulemartob::{Codec, Kind, Sheet};

use crate::console::Color;

/// Columns of 64-bit numbers as tantivy-columnar 0.27.0 writes them: judged, listed, explained, compared and written by a library whose every
/// answer is proved.
#[derive(Parser)]
#[command(name = "hulemartob", version, arg_required_else_help = true, after_help = STATUSES)]
pub struct Cli {
    /// When to colour; auto is on a terminal, unless NO_COLOR is set
    #[arg(long, global = true, value_enum, default_value_t = Color::Auto, value_name = "WHEN", display_order = 100)]
    pub color: Color,
    #[command(subcommand)]
    pub command: Command,
}

const STATUSES: &str = "\
Exit status: 0 what was asked holds (all exact, no difference, yes), 1 it does
not, 2 trouble (a file that cannot be read, a wrong argument).
A file `-` is standard input. `refusals` says what the numbers mean.";

const VERDICTS: &str = "\
Each column is opened, all its rows are decoded, and the proved writer writes
them again with the column's own codec.

  exact      the bytes are just what the rules write for these rows
  other      all rows read and the statistics are theirs, but another writer
             chose otherwise: a longer spelling, another line ..
  wrong      rows lie outside the head's bounds, the statistics are not the
             rows', or the list beside it is another
  refused N  it does not open, by the refusal's number

So exact says that the file is what the rules write, not that its rows are the
right ones: a changed bit of a packed row mostly makes another exact column.
Whether they are the right rows, --values and --against ask of lists of values,
and `compare` of another column.

Files named on the command line are always listed, those found in folders where
they are not exact. Hidden files of folders are left out.
Exit status: 0 all exact, 1 some are not, 2 trouble.";

#[derive(Subcommand)]
pub enum Command {
    /// Judge columns without golden files: is each what the rules write for its rows?
    #[command(after_help = VERDICTS)]
    Bless(Bless),
    /// List a column's rows
    List(List),
    /// Codec, head, bits a row and sizes by part
    Stats(Stats),
    /// Say what each byte of a column is
    Explain(Explain),
    /// Compare two columns row by row, or two folders of them
    Compare(Compare),
    /// Say which bytes of two columns differ, and which rows that concerns
    Blame(Blame),
    /// Does a column hold a list of values?
    Check(Check),
    /// Rerun recorded lookups over a column
    Replay(Replay),
    /// Write a list of values as a column
    Write(Write),
    /// What the refusals' numbers mean
    Refusals(Refusals),
    /// Print a completion script for a shell
    Completions(Completions),
}

#[derive(Args)]
pub struct Bless {
    /// Columns, or folders of columns
    #[arg(required = true, value_name = "PATH")]
    pub paths: Vec<PathBuf>,
    /// Acceptance sheet: 2 also refuses longer spellings, bytes of no part and filling bits
    #[arg(long, default_value_t = Sheet::One, value_parser = sheets())]
    pub sheet: Sheet,
    /// Of folders, take only files with this extension
    #[arg(short, long = "extension", value_name = "EXT")]
    pub extensions: Vec<String>,
    /// Check each column against the list beside it, NAME.EXT, and its codec against the rules' choice
    #[arg(long, value_name = "EXT")]
    pub values: Option<String>,
    /// Look for the lists below this folder instead, by the columns' relative paths
    #[arg(long, value_name = "DIR")]
    pub against: Option<PathBuf>,
    /// Ask of each codec whether the rules choose it for the rows, also without lists
    #[arg(long)]
    pub choice: bool,
    /// How the lists' values are to be read
    #[arg(long, default_value_t = Kind::U64, value_parser = kinds())]
    pub kind: Kind,
    /// List exact columns in folders too
    #[arg(short, long)]
    pub all: bool,
    /// One JSON object a line
    #[arg(long, conflicts_with = "all")]
    pub json: bool,
    /// Print nothing; the exit status tells
    #[arg(short, long, conflicts_with_all = ["json", "all"])]
    pub quiet: bool,
    /// Write a page with all verdicts, and the bytes coloured by part
    #[arg(long, value_name = "OUT")]
    pub html: Option<PathBuf>,
    /// So many at a time; 0 is one for each processor
    #[arg(short, long, default_value_t = 0, value_name = "N")]
    pub jobs: usize,
    /// Do not decode columns of more rows: they are refused 16
    #[arg(long, default_value_t = 1 << 27, value_name = "N")]
    pub max_rows: u32,
}

#[derive(Clone, Copy, Debug, PartialEq, Eq, ValueEnum)]
pub enum Format {
    Text,
    Csv,
    Json,
}

#[derive(Args)]
pub struct List {
    /// A column
    pub file: PathBuf,
    /// How the stored numbers are to be read
    #[arg(long, default_value_t = Kind::U64, value_parser = kinds())]
    pub kind: Kind,
    /// Only these rows: A..B, A.. or ..B, without row B
    #[arg(long, value_parser = rows, value_name = "A..B", default_value = "..", hide_default_value = true)]
    pub rows: Rows,
    /// Lines as the program in Rattle writes them, a table, or one object
    #[arg(long, value_enum, default_value_t = Format::Text)]
    pub format: Format,
}

#[derive(Args)]
pub struct Stats {
    /// Columns
    #[arg(required = true, value_name = "FILE")]
    pub files: Vec<PathBuf>,
    /// One JSON object a line
    #[arg(long)]
    pub json: bool,
}

#[derive(Args)]
pub struct Explain {
    /// A column
    pub file: PathBuf,
    /// Write a page with the bytes coloured by part instead
    #[arg(long, value_name = "OUT")]
    pub html: Option<PathBuf>,
}

#[derive(Args)]
pub struct Compare {
    /// A column, or a folder of columns
    pub left: PathBuf,
    /// Another
    pub right: PathBuf,
    /// Of folders, take only files with this extension
    #[arg(short, long = "extension", value_name = "EXT")]
    pub extensions: Vec<String>,
    /// Of folders, only say which columns differ
    #[arg(long)]
    pub brief: bool,
    /// One JSON object a line: of two files for each row that differs, of folders for each column that does
    #[arg(long, conflicts_with = "brief")]
    pub json: bool,
    /// Print nothing; the exit status tells
    #[arg(short, long, conflicts_with = "json")]
    pub quiet: bool,
    /// Of folders, so many columns at a time; 0 is one for each processor
    #[arg(short, long, default_value_t = 0, value_name = "N")]
    pub jobs: usize,
}

#[derive(Args)]
pub struct Blame {
    /// A column
    pub left: PathBuf,
    /// Another of the same length
    pub right: PathBuf,
    /// Leave out rows whose answers are the same
    #[arg(long)]
    pub changed: bool,
    /// Print nothing; the exit status tells
    #[arg(short, long)]
    pub quiet: bool,
}

#[derive(Args)]
pub struct Check {
    /// A column
    pub column: PathBuf,
    /// 64-bit words, little end first; or a value a line, if the name ends in .txt or .csv or is -
    pub values: PathBuf,
    /// Acceptance sheet: 2 also refuses longer spellings, bytes of no part and filling bits
    #[arg(long, default_value_t = Sheet::One, value_parser = sheets())]
    pub sheet: Sheet,
    /// How the values are to be read
    #[arg(long, default_value_t = Kind::U64, value_parser = kinds())]
    pub kind: Kind,
    /// Print nothing; the exit status tells
    #[arg(short, long)]
    pub quiet: bool,
}

#[derive(Args)]
pub struct Replay {
    /// A column
    pub column: PathBuf,
    /// Lookups and the rows that they found
    pub recording: PathBuf,
    /// Print nothing; the exit status tells
    #[arg(short, long)]
    pub quiet: bool,
}

#[derive(Args)]
pub struct Write {
    /// 64-bit words, little end first; or a value a line, if the name ends in .txt or .csv or is -
    pub values: PathBuf,
    /// Where the column is written; - is standard output
    #[arg(short, long, value_name = "COLUMN")]
    pub output: PathBuf,
    /// Choose among these; without it, among all three
    #[arg(long = "codec", value_parser = codecs(), value_name = "CODEC", value_delimiter = ',', ignore_case = true)]
    pub codecs: Vec<Codec>,
    /// How the values are to be read
    #[arg(long, default_value_t = Kind::U64, value_parser = kinds())]
    pub kind: Kind,
    /// Say the sizes that the choice compared, on standard error
    #[arg(long)]
    pub explain: bool,
}

#[derive(Args)]
pub struct Refusals {
    /// Only this one
    pub number: Option<u8>,
}

#[derive(Args)]
pub struct Completions {
    /// The shell
    #[arg(value_enum)]
    pub shell: Shell,
}

/// A sheet by its number.
fn sheets() -> impl TypedValueParser<Value = Sheet> {
    PossibleValuesParser::new(["1", "2"]).try_map(|word| word.parse())
}

/// A kind by its name.
fn kinds() -> impl TypedValueParser<Value = Kind> {
    PossibleValuesParser::new(Kind::ALL.map(Kind::name)).try_map(|word| word.parse())
}

/// A codec by its name, in letters of any case.
fn codecs() -> impl TypedValueParser<Value = Codec> {
    PossibleValuesParser::new(["bitpacked", "linear", "blockwise"]).try_map(|word| word.parse())
}

/// A range of rows.
pub type Rows = (Bound<u32>, Bound<u32>);

/// `A..B`, either of which may be missing.
fn rows(text: &str) -> Result<Rows, String> {
    let (first, end) = text.split_once("..").ok_or("rows are A..B")?;
    let number = |text: &str| text.parse::<u32>().map_err(|_| format!("`{text}` is no row"));
    let first = if first.is_empty() { 0 } else { number(first)? };
    match end {
        "" => Ok((Bound::Included(first), Bound::Unbounded)),
        end if number(end)? < first => Err("the first row is behind the last".into()),
        end => Ok((Bound::Included(first), Bound::Excluded(number(end)?))),
    }
}

#[cfg(test)]
mod tests {
    use std::ops::Bound::{Excluded, Included, Unbounded};

    use clap::CommandFactory;

    use super::{Cli, rows};

    #[test]
    fn the_command_line_is_sound() {
        Cli::command().debug_assert();
    }

    #[test]
    fn ranges() {
        assert_eq!(rows(".."), Ok((Included(0), Unbounded)));
        assert_eq!(rows("3.."), Ok((Included(3), Unbounded)));
        assert_eq!(rows("..7"), Ok((Included(0), Excluded(7))));
        assert_eq!(rows("3..3"), Ok((Included(3), Excluded(3))));
        for bad in ["", "3", "3..2", "-1..", "a..b", "4294967296.."] {
            assert!(rows(bad).is_err(), "{bad}");
        }
    }
}

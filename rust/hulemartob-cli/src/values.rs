//! Lists of values: files of 64-bit words, or of text.

use std::path::Path;

use anyhow::{Context, Result, bail};
use hulemartob::{Codec, Error, Kind, Mismatch, Sheet, raw};

use crate::scalar::Scalar;
use crate::sources;

/// A list of values of a kind, as the words that stand for them.
pub struct Values {
    kind: Kind,
    words: Vec<u64>,
}

impl Values {
    pub fn len(&self) -> usize {
        self.words.len()
    }

    /// The value at a place.
    pub fn get(&self, place: usize) -> Option<Scalar> {
        self.words.get(place).map(|&word| Scalar::of_word(self.kind, word))
    }

    /// What a stored number reads as, in a column of the list's kind.
    pub fn stored(&self, stored: u64) -> Scalar {
        Scalar::of_stored(self.kind, stored)
    }

    /// Whether a column holds the list.
    pub fn check(&self, sheet: Sheet, bytes: &[u8]) -> Result<(), Mismatch> {
        raw::check(self.kind, sheet as u32, bytes, &self.words)
    }

    /// The size by each codec that a choice compares, `u64::MAX` where one does not apply.
    pub fn sizes(&self) -> Result<[u64; 3], Error> {
        raw::sizes(self.kind, &self.words)
    }

    /// The list as a column.
    pub fn encode(&self, codecs: &[Codec]) -> Result<Vec<u8>, Error> {
        raw::encode(self.kind, &self.words, codecs)
    }
}

/// The list in a file: text if its name ends in .txt or .csv or it is standard input, else words of 64 bits, little end first. Nothing where the bytes
/// are no words: the programs refuse them 13.
pub fn read(path: &Path, kind: Kind) -> Result<Option<Values>> {
    let bytes = sources::read(path)?;
    let extension = path.extension().and_then(|e| e.to_str()).map(str::to_ascii_lowercase);
    let words = match extension.as_deref() {
        Some("csv") => texts(&bytes, kind, true).with_context(|| path.display().to_string())?,
        Some("txt") => texts(&bytes, kind, false).with_context(|| path.display().to_string())?,
        _ if sources::is_stdin(path) => texts(&bytes, kind, false).context("standard input")?,
        _ => match bytes.as_chunks::<8>() {
            (words, []) => words.iter().map(|&word| u64::from_le_bytes(word)).collect(),
            _ => return Ok(None),
        },
    };
    Ok(Some(Values { kind, words }))
}

/// The same where only a list will do.
pub fn read_list(path: &Path, kind: Kind) -> Result<Values> {
    read(path, kind)?.with_context(|| format!("{}: {NO_WORDS}", path.display()))
}

/// What is said of a file that is no list of words.
pub const NO_WORDS: &str = "its length is no multiple of 8, so it is no list of 64-bit words (a text needs a name in .txt or .csv)";

/// A value a line; of fields between commas the last. The first line of a table may be names.
fn texts(bytes: &[u8], kind: Kind, table: bool) -> Result<Vec<u64>> {
    let text = std::str::from_utf8(bytes).context("no text")?;
    let mut list = Vec::new();
    for (number, line) in text.lines().enumerate() {
        let field = if table { line.rsplit(',').next().unwrap_or(line) } else { line }.trim();
        match Scalar::parse(kind, field) {
            Some(value) => list.push(value.word()),
            None if line.trim().is_empty() || table && number == 0 => {}
            None => bail!("line {}: `{}` is no {kind}", number + 1, field.escape_debug()),
        }
    }
    Ok(list)
}

#[cfg(test)]
#[allow(clippy::unwrap_used)]
mod tests {
    use hulemartob::Kind;

    use super::texts;

    #[test]
    fn tables_and_lines() {
        assert_eq!(texts(b"row,value\n0,5\r\n\n1, 7 \n", Kind::U64, true).unwrap(), [5, 7]);
        assert_eq!(texts(b"5\n7", Kind::U64, true).unwrap(), [5, 7]);
        assert_eq!(texts(b" 5\n\n7\n", Kind::U64, false).unwrap(), [5, 7]);
        assert_eq!(texts(b"", Kind::U64, true).unwrap(), [0; 0]);
        // A row without its value would move those behind it.
        assert!(texts(b"row,value\n0,\n1,7\n", Kind::U64, true).is_err());
        assert!(texts(b"value\n5\n", Kind::U64, false).is_err());
        assert!(texts(b"\xFF", Kind::U64, false).is_err());
    }
}

//! Files and folders.

use std::ffi::OsStr;
use std::fs::File;
use std::io::{self, ErrorKind, Read};
use std::ops::Deref;
use std::path::{Path, PathBuf};

use anyhow::{Context, Result, bail};
use memmap2::Mmap;
use walkdir::{DirEntry, WalkDir};

use crate::console::Named;

/// From this length on a file is mapped. Shorter ones are read, so that no one can change them under a call.
const MAPPED_FROM: u64 = 1 << 26;

/// The bytes of a file.
pub enum Bytes {
    Read(Vec<u8>),
    Mapped(Mmap),
}

impl Deref for Bytes {
    type Target = [u8];

    fn deref(&self) -> &[u8] {
        match self {
            Bytes::Read(bytes) => bytes,
            Bytes::Mapped(bytes) => bytes,
        }
    }
}

/// Whether a path stands for standard input.
pub fn is_stdin(path: &Path) -> bool {
    path.as_os_str() == "-"
}

/// The bytes of a file, or of standard input.
pub fn load(path: &Path) -> io::Result<Bytes> {
    let mut bytes = Vec::new();
    if is_stdin(path) {
        io::stdin().lock().read_to_end(&mut bytes)?;
        return Ok(Bytes::Read(bytes));
    }
    let mut file = File::open(path)?;
    let about = file.metadata()?;
    if about.is_dir() {
        return Err(ErrorKind::IsADirectory.into());
    }
    if about.is_file() && MAPPED_FROM <= about.len() {
        // SAFETY: the file is only read. That nobody cuts it short or writes to it meanwhile is asked of whoever has files of this size read, and said in
        // the README.
        return Ok(Bytes::Mapped(unsafe { Mmap::map(&file)? }));
    }
    // One more byte, so that reading to the end finds it without growing.
    bytes.try_reserve_exact(about.len() as usize + 1).map_err(|_| ErrorKind::OutOfMemory)?;
    file.read_to_end(&mut bytes)?;
    Ok(Bytes::Read(bytes))
}

/// The same, with the file's name in an error.
pub fn read(path: &Path) -> Result<Bytes> {
    load(path).with_context(|| Named(path).to_string())
}

/// Two files, of which one at most may be standard input.
pub fn read_both(left: &Path, right: &Path) -> Result<(Bytes, Bytes)> {
    if is_stdin(left) && is_stdin(right) {
        bail!("standard input can stand for one file only");
    }
    Ok((read(left)?, read(right)?))
}

/// Whether a file has one of some extensions, which may be given with their dot; any does if there are none.
pub fn has_extension(path: &Path, extensions: &[String]) -> bool {
    let matches = |has: &OsStr| extensions.iter().any(|extension| has == extension.trim_start_matches('.'));
    extensions.is_empty() || path.extension().is_some_and(matches)
}

/// A file to be judged.
#[derive(Debug, Clone)]
pub struct Found {
    pub path: PathBuf,
    /// Below the folder that was named; the file's name where it was named itself.
    pub relative: PathBuf,
    /// Whether the command line names it.
    pub named: bool,
}

/// The files of some paths, those of folders in the order of their names, and what could not be looked at. Hidden files of folders are left out; links are
/// followed. What is neither file nor folder (a pipe, a socket) is not opened: it might never end.
pub fn gather(paths: &[PathBuf], wanted: impl Fn(&Path) -> bool) -> (Vec<Found>, Vec<String>) {
    let (mut files, mut troubles) = (Vec::new(), Vec::new());
    for path in paths {
        if is_stdin(path) || !path.is_dir() {
            let relative = path.file_name().map_or_else(|| path.clone(), PathBuf::from);
            files.push(Found { path: path.clone(), relative, named: true });
            continue;
        }
        for entry in WalkDir::new(path).follow_links(true).sort_by_file_name().into_iter().filter_entry(|e| !hidden(e)) {
            match entry {
                Ok(entry) if entry.file_type().is_dir() || !wanted(entry.path()) => {}
                Ok(entry) if !entry.file_type().is_file() => troubles.push(format!("{}: not a file", Named(entry.path()))),
                Ok(entry) => {
                    let relative = entry.path().strip_prefix(path).unwrap_or(entry.path()).to_path_buf();
                    files.push(Found { path: entry.into_path(), relative, named: false });
                }
                Err(trouble) => troubles.push(trouble.to_string()),
            }
        }
    }
    (files, troubles)
}

fn hidden(entry: &DirEntry) -> bool {
    0 < entry.depth() && entry.file_name().as_encoded_bytes().starts_with(b".")
}

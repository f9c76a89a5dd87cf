//! Where the list of values of a column is.

use std::path::{Path, PathBuf};

use anyhow::{Result, bail};
use hulemartob::Kind;

use crate::cli;
use crate::sources::{self, Found};
use crate::values::{self, Values};

/// Extensions that are tried below --against where --values names none.
const USUAL: [&str; 4] = ["values", "u64", "txt", "csv"];

/// How to find lists.
pub struct Lists {
    extensions: Vec<String>,
    folder: Option<PathBuf>,
    kind: Kind,
}

impl Lists {
    /// As the command line says; none where no lists are asked for.
    pub fn new(args: &cli::Bless) -> Option<Lists> {
        if args.values.is_none() && args.against.is_none() {
            return None;
        }
        let given = args.values.as_deref().map(|extension| vec![extension.trim_start_matches('.').to_owned()]);
        let extensions = given.unwrap_or_else(|| USUAL.map(String::from).to_vec());
        Some(Lists { extensions, folder: args.against.clone(), kind: args.kind })
    }

    /// Whether a file beside columns is a list and no column.
    pub fn is_list(&self, path: &Path) -> bool {
        self.folder.is_none() && sources::has_extension(path, &self.extensions)
    }

    /// The list of a column: NAME.EXT with the column's whole name, or with its own extension replaced.
    pub fn read(&self, found: &Found) -> Result<Values> {
        let base = match &self.folder {
            Some(folder) => folder.join(&found.relative),
            None => found.path.clone(),
        };
        let place = if self.folder.is_some() { "below the folder" } else { "beside it" };
        let names = self.extensions.iter().flat_map(|extension| {
            let mut appended = base.clone().into_os_string();
            appended.push(".");
            appended.push(extension);
            [PathBuf::from(appended), base.with_extension(extension)]
        });
        match names.into_iter().find(|name| name.is_file()) {
            Some(name) => values::read_list(&name, self.kind),
            None => {
                let extensions = self.extensions.join(" or .");
                bail!("no list of values {place}: its name with .{extensions} behind it, or in the place of its extension")
            }
        }
    }
}

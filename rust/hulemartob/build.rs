//! Finds the library's archive and links it. It is looked for in this order:
//!
//! 1. in the folder that HULEMARTOB_LIB names;
//! 2. in `crates/hulemartob/out` of the repository that this crate stands in;
//! 3. where pkg-config finds `hulemartob`;
//! 4. with `rt` at hand, in that repository: `rt lib` in `crates/hulemartob` makes it, which proves everything first.
//!
//! The archive is x86-64 code for Linux. HULEMARTOB_NATIVE says that it is code for another machine, as tools/native makes it for tests.

use std::env;
use std::path::{Path, PathBuf};
use std::process::{Command, ExitCode, Stdio};

/// The archive's name without `lib` and `.a`, which is that of the crate that `rt lib` makes it of.
const ARCHIVE: &str = "hulemartob";

/// Two lines: what is the matter, and what to do.
type Trouble = [String; 2];

/// Whether a folder has the archive.
fn holds(folder: &Path) -> bool {
    folder.join(format!("lib{ARCHIVE}.a")).is_file()
}

/// The platform of the archive, unless it was made for another.
fn right_platform() -> Result<(), Trouble> {
    let [arch, os] = ["CARGO_CFG_TARGET_ARCH", "CARGO_CFG_TARGET_OS"].map(|name| env::var(name).unwrap_or_default());
    if (arch == "x86_64" && os == "linux") || env::var_os("HULEMARTOB_NATIVE").is_some() {
        return Ok(());
    }
    Err([
        format!("lib{ARCHIVE}.a is x86-64 code for Linux, and this is a build for {arch} and {os}"),
        "build for x86_64-unknown-linux-gnu; tools/native in the repository makes an archive for tests on another Linux".into(),
    ])
}

/// The folder that pkg-config names.
fn installed() -> Option<PathBuf> {
    let told = Command::new("pkg-config").args(["--variable=libdir", "hulemartob"]).stderr(Stdio::null()).output().ok()?;
    let folder = PathBuf::from(String::from_utf8(told.stdout).ok()?.trim_end());
    (told.status.success() && holds(&folder)).then_some(folder)
}

/// Has `rt` make the archive in a repository.
fn made(top: &Path, folder: PathBuf) -> Option<PathBuf> {
    let here = top.join("crates.txt").is_file();
    let rt = here.then(|| Command::new("rt").arg("lib").current_dir(top.join("crates").join(ARCHIVE)).stdout(Stdio::null()).status())?;
    (rt.ok()?.success() && holds(&folder)).then_some(folder)
}

/// The folder of the archive.
fn folder() -> Result<PathBuf, Trouble> {
    right_platform()?;
    if let Some(folder) = env::var_os("HULEMARTOB_LIB").map(PathBuf::from) {
        let trouble = || {
            [
                format!("HULEMARTOB_LIB is {}, where there is no lib{ARCHIVE}.a", folder.display()),
                format!("set it to the folder of the archive that `rt lib` in the repository's crates/{ARCHIVE} makes, or unset it"),
            ]
        };
        return if holds(&folder) { Ok(folder) } else { Err(trouble()) };
    }
    let top = Path::new(env!("CARGO_MANIFEST_DIR")).join("../..");
    let own = top.join("crates").join(ARCHIVE).join("out");
    if holds(&own) {
        return Ok(own);
    }
    installed().or_else(|| made(&top, own)).ok_or_else(|| {
        [
            format!("there is no lib{ARCHIVE}.a: not in the repository's crates/{ARCHIVE}/out, not by pkg-config, and `rt` did not make it"),
            format!("run `rt lib` in the repository's crates/{ARCHIVE}, or set HULEMARTOB_LIB to the folder that has the archive"),
        ]
    })
}

fn main() -> ExitCode {
    for name in ["HULEMARTOB_LIB", "HULEMARTOB_NATIVE", "PKG_CONFIG_PATH"] {
        println!("cargo::rerun-if-env-changed={name}");
    }
    println!("cargo::rerun-if-changed=build.rs");
    match folder() {
        Ok(folder) => {
            println!("cargo::rerun-if-changed={}", folder.join(format!("lib{ARCHIVE}.a")).display());
            println!("cargo::rustc-link-search=native={}", folder.display());
            println!("cargo::rustc-link-lib=static={ARCHIVE}");
            ExitCode::SUCCESS
        }
        Err(lines) => {
            lines.iter().for_each(|line| println!("cargo::error={line}"));
            ExitCode::FAILURE
        }
    }
}

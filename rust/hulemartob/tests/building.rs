//! How build.rs finds the archive: it is compiled as that of a crate in a made-up repository and run with nothing but what each case says.

use std::fs;
use std::path::{Path, PathBuf};
use std::process::{Command, Output};

const SCRIPT: &str = include_str!("../build.rs");
const X86_64_LINUX: [(&str, &str); 2] = [("CARGO_CFG_TARGET_ARCH", "x86_64"), ("CARGO_CFG_TARGET_OS", "linux")];

/// A repository without an archive, and the build script of its crate.
struct Repository {
    top: PathBuf,
    archive: String,
}

impl Repository {
    fn new(name: &str) -> Repository {
        let top = std::env::temp_dir().join(format!("hulemartob-{name}-{}", std::process::id()));
        let archive = SCRIPT.split_once("ARCHIVE: &str = \"").and_then(|(_, rest)| rest.split_once('"')).expect("the archive's name").0;
        let repository = Repository { top, archive: archive.to_owned() };
        fs::create_dir_all(repository.top.join("rust/hulemartob")).unwrap();
        fs::create_dir_all(repository.top.join("tools")).unwrap();
        fs::create_dir_all(repository.top.join("crates").join(&repository.archive)).unwrap();
        fs::write(repository.top.join("crates.txt"), "").unwrap();
        fs::write(repository.top.join("build.rs"), SCRIPT).unwrap();
        let compiled = Command::new("rustc")
            .args(["--edition", "2024", "build.rs"])
            .env("CARGO_MANIFEST_DIR", repository.top.join("rust/hulemartob"))
            .current_dir(&repository.top)
            .status();
        assert!(compiled.expect("rustc").success());
        repository
    }

    /// Where `rt lib` makes the archive.
    fn own(&self) -> String {
        format!("crates/{}/out", self.archive)
    }

    /// Puts an archive into a folder of the repository.
    fn put(&self, folder: &str) -> PathBuf {
        let folder = self.top.join(folder);
        fs::create_dir_all(&folder).unwrap();
        fs::write(folder.join(format!("lib{}.a", self.archive)), "").unwrap();
        folder
    }

    /// A program of the repository's `tools`, the only ones that are found.
    fn tool(&self, name: &str, script: &str) {
        let path = self.top.join("tools").join(name);
        fs::write(&path, format!("#!/bin/sh\n{script}\n")).unwrap();
        let executable = std::os::unix::fs::PermissionsExt::from_mode(0o755);
        fs::set_permissions(path, executable).unwrap();
    }

    fn run(&self, environment: &[(&str, &str)]) -> Output {
        let mut script = Command::new(self.top.join("build"));
        script.env_clear().env("PATH", self.top.join("tools")).envs(environment.iter().copied()).output().unwrap()
    }

    #[track_caller]
    fn links(&self, environment: &[(&str, &str)], folder: &Path) {
        let output = self.run(environment);
        let told = String::from_utf8(output.stdout).unwrap();
        assert!(output.status.success(), "{told}");
        let searched = told.lines().find_map(|line| line.strip_prefix("cargo::rustc-link-search=native=")).expect("a folder");
        assert_eq!(fs::canonicalize(searched).unwrap(), fs::canonicalize(folder).unwrap());
        assert!(told.contains(&format!("cargo::rustc-link-lib=static={}\n", self.archive)));
    }

    /// Two lines, each of which has a word.
    #[track_caller]
    fn refuses(&self, environment: &[(&str, &str)], words: [&str; 2]) {
        let output = self.run(environment);
        let told = String::from_utf8(output.stdout).unwrap();
        let errors: Vec<&str> = told.lines().filter_map(|line| line.strip_prefix("cargo::error=")).collect();
        assert!(!output.status.success() && !told.contains("rustc-link"), "{told}");
        assert_eq!(errors.len(), 2);
        assert!(errors.iter().zip(words).all(|(line, word)| line.contains(word)), "{errors:?}");
    }
}

impl Drop for Repository {
    fn drop(&mut self) {
        _ = fs::remove_dir_all(&self.top);
    }
}

#[test]
fn in_their_order() {
    let repository = Repository::new("order");
    let nothing = ["there is no lib", "HULEMARTOB_LIB"];
    repository.refuses(&X86_64_LINUX, nothing);

    let made = repository.top.join(repository.own());
    let archive = made.join(format!("lib{}.a", repository.archive));
    repository.tool(
        "rt",
        &format!("[ \"$*\" = lib ] && /bin/mkdir -p out && : > out/lib{}.a", repository.archive),
    );
    repository.links(&X86_64_LINUX, &made);
    fs::remove_file(&archive).unwrap();

    let installed = repository.put("installed");
    repository.tool("pkg-config", &format!("[ \"$*\" = '--variable=libdir hulemartob' ] && echo {}", installed.display()));
    repository.links(&X86_64_LINUX, &installed);

    let own = repository.put(&repository.own());
    repository.links(&X86_64_LINUX, &own);

    let named = repository.put("a folder of its own");
    let [arch, os] = X86_64_LINUX;
    repository.links(&[arch, os, ("HULEMARTOB_LIB", named.to_str().unwrap())], &named);
    repository.refuses(&[arch, os, ("HULEMARTOB_LIB", "/nowhere")], ["HULEMARTOB_LIB is /nowhere", "rt lib"]);
}

#[test]
fn where_nothing_makes_it() {
    let repository = Repository::new("nothing");
    repository.tool("rt", "exit 1");
    repository.tool("pkg-config", "exit 1");
    repository.refuses(&X86_64_LINUX, ["there is no lib", "rt lib"]);
    repository.tool("pkg-config", "echo /nowhere");
    repository.refuses(&X86_64_LINUX, ["there is no lib", "rt lib"]);
    // outside a repository `rt` is not asked
    fs::remove_file(repository.top.join("crates.txt")).unwrap();
    repository.tool("rt", &format!("/bin/mkdir -p out && : > out/lib{}.a", repository.archive));
    repository.refuses(&X86_64_LINUX, ["there is no lib", "rt lib"]);
}

#[test]
fn for_another_platform() {
    let repository = Repository::new("platform");
    let own = repository.put(&repository.own());
    for (arch, os) in [("x86_64", "macos"), ("x86_64", "windows"), ("aarch64", "linux"), ("x86", "linux")] {
        let mut environment = vec![("CARGO_CFG_TARGET_ARCH", arch), ("CARGO_CFG_TARGET_OS", os)];
        repository.refuses(&environment, ["x86-64 code for Linux", "x86_64-unknown-linux-gnu"]);
        environment.push(("HULEMARTOB_NATIVE", "1"));
        repository.links(&environment, &own);
    }
}

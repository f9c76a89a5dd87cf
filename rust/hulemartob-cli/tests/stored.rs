//! The texts of the programs in Rattle, byte for byte: each program's own input, and the cases whose texts the model in Python wrote. `tests/parity` holds the
//! command against the programs themselves.

#![allow(clippy::unwrap_used, clippy::expect_used)]

use std::fs;
use std::path::{Path, PathBuf};
use std::process::{Command, Stdio};

/// The command's standard output, in a folder of the programs' crates.
fn out(folder: &Path, arguments: &[&str]) -> String {
    let output = Command::new(env!("CARGO_BIN_EXE_hulemartob")).args(arguments).current_dir(folder).stdin(Stdio::null()).output().unwrap();
    String::from_utf8(output.stdout).unwrap()
}

fn crates(name: &str) -> PathBuf {
    Path::new(env!("CARGO_MANIFEST_DIR")).join("../../crates").join(name)
}

#[test]
fn programs() {
    for (name, arguments) in [
        ("tool_list", &["list", "stdin"][..]),
        ("tool_explain", &["explain", "stdin"]),
        ("tool_compare", &["compare", "data/left", "data/right"]),
        ("tool_blame", &["blame", "data/left", "data/right"]),
        ("tool_replay", &["replay", "data/column", "data/recording"]),
        ("tool_check", &["check", "--sheet", "2", "data/column", "data/values"]),
    ] {
        let stored = fs::read_to_string(crates(name).join("stdout")).unwrap();
        assert_eq!(out(&crates(name), arguments), stored, "{name}");
    }
}

/// A case of `test_text`: the program that it is of, its title, and three pieces.
struct Case {
    word: u32,
    title: String,
    pieces: [Vec<u8>; 3],
}

/// The stored cases, each a word, the lengths of its title and of three pieces, and then these.
fn cases() -> Vec<Case> {
    let file = fs::read(crates("test_text").join("data/cases")).unwrap();
    let mut rest = &file[..];
    let mut cases = Vec::new();
    while let Some((head, tail)) = rest.split_first_chunk::<20>() {
        let head: Vec<u32> = head.as_chunks().0.iter().map(|&number| u32::from_le_bytes(number)).collect();
        rest = tail;
        let mut piece = |place: usize| {
            let (piece, tail) = rest.split_at(head[place] as usize);
            rest = tail;
            piece.to_vec()
        };
        let title = String::from_utf8(piece(1)).unwrap();
        cases.push(Case { word: head[0], title, pieces: [piece(2), piece(3), piece(4)] });
    }
    cases
}

/// What the command is asked of a case, whose pieces are files: nothing, if it does not take that.
fn asked(case: &Case) -> Option<&'static str> {
    let whole = [0, u32::MAX, 0, u32::MAX].map(u32::to_le_bytes).concat();
    match (case.word, &case.pieces[0][..]) {
        (0, _) => Some("list a"),
        // Those that look through a window at less than all rows are left out.
        (1, _) => (case.pieces[2] == whole).then_some("compare a b"),
        (2, _) => Some("replay a b"),
        (3, b"1") => Some("check --sheet 1 b c"),
        (3, b"2") => Some("check --sheet 2 b c"),
        // No sheet: the command does not take it.
        _ => None,
    }
}

/// Holds the stored text, by its titles, against what the command prints for the pieces behind them. What a program refuses by its own limit, 16, is left out.
#[test]
fn stored_cases() {
    let folder = Path::new(env!("CARGO_TARGET_TMPDIR")).join("stored");
    fs::create_dir_all(&folder).unwrap();
    let stored = fs::read_to_string(crates("test_text").join("stdout")).unwrap();
    let cases = cases();
    let (mut rest, mut held) = (&stored[..], [0; 4]);
    for (place, case) in cases.iter().enumerate() {
        rest = rest.strip_prefix(&case.title[..]).unwrap_or_else(|| panic!("{}", case.title));
        // A title stands at the start of a line.
        let end = cases.get(place + 1).map_or(rest.len(), |next| rest.find(&format!("\n{}", next.title)).expect(&next.title) + 1);
        let text;
        (text, rest) = rest.split_at(end);
        let Some(line) = asked(case).filter(|_| !text.ends_with("refused 16\n")) else { continue };
        for (piece, name) in case.pieces.iter().zip(["a", "b", "c"]) {
            fs::write(folder.join(name), piece).unwrap();
        }
        assert_eq!(out(&folder, &line.split(' ').collect::<Vec<_>>()), text, "{}", case.title);
        held[case.word as usize] += 1;
    }
    assert!(held.iter().all(|&many| 10 < many), "{held:?}");
    fs::remove_dir_all(folder).unwrap();
}

//! The command as a user runs it: texts, exit statuses, damaged files, folders, and readers that go away.

#![allow(clippy::unwrap_used, clippy::expect_used)]

use std::fs;
use std::io::{Read, Write};
use std::path::{Path, PathBuf};
use std::process::{Command, Output, Stdio};
use std::sync::atomic::{AtomicU32, Ordering};

use hulemartob::{Codec, RecordingBuilder, encode, encode_with};

/// A folder of a test's own.
struct Folder(PathBuf);

impl Folder {
    fn new() -> Folder {
        static NEXT: AtomicU32 = AtomicU32::new(0);
        let name = format!("t{}-{}", std::process::id(), NEXT.fetch_add(1, Ordering::Relaxed));
        let path = Path::new(env!("CARGO_TARGET_TMPDIR")).join(name);
        fs::create_dir_all(&path).unwrap();
        Folder(path)
    }

    fn put(&self, name: &str, bytes: impl AsRef<[u8]>) -> &Folder {
        let path = self.0.join(name);
        fs::create_dir_all(path.parent().unwrap()).unwrap();
        fs::write(path, bytes).unwrap();
        self
    }

    fn command(&self, arguments: &str) -> Command {
        let mut command = Command::new(env!("CARGO_BIN_EXE_hulemartob"));
        command.args(arguments.split_whitespace()).current_dir(&self.0).env("NO_COLOR", "1");
        command
    }

    fn output(&self, arguments: &str) -> Output {
        let output = self.command(arguments).stdin(Stdio::null()).output().unwrap();
        let errors = String::from_utf8_lossy(&output.stderr);
        assert!(!errors.contains("panicked"), "{arguments}: {errors}");
        output
    }

    /// Exit status, standard output and standard error.
    fn run(&self, arguments: &str) -> (i32, String, String) {
        let Output { status, stdout, stderr } = self.output(arguments);
        (status.code().unwrap(), String::from_utf8(stdout).unwrap(), String::from_utf8(stderr).unwrap())
    }

    /// That a command prints a text and ends with a status.
    fn expect(&self, arguments: &str, status: i32, text: &str) {
        let (code, out, errors) = self.run(arguments);
        assert_eq!((code, out.as_str()), (status, text), "{arguments}: {errors}");
    }
}

impl Drop for Folder {
    fn drop(&mut self) {
        let _ = fs::remove_dir_all(&self.0);
    }
}

const ROWS: [u64; 3] = [10, 30, 20];

fn column(codec: Codec) -> Vec<u8> {
    encode_with(&ROWS, &[codec]).unwrap()
}

/// 1200 rows near a line.
fn sloped() -> Vec<u64> {
    (0..1200).map(|row: u64| 5000 + 40 * row + row.wrapping_mul(0x9E37_79B9_7F4A_7C15) % 16).collect()
}

fn words(values: &[u64]) -> Vec<u8> {
    values.iter().flat_map(|value| value.to_le_bytes()).collect()
}

/// The lines of a bless, without the summary.
fn verdicts(out: &str) -> Vec<&str> {
    let mut lines: Vec<&str> = out.lines().collect();
    assert!(lines.pop().unwrap().contains("column"));
    lines
}

// ---- the words of the programs in Rattle

#[test]
fn the_readme() {
    let folder = Folder::new();
    let readings = [1840_u64, 1850, 1870, 1900, 1890, 1910, 1940, 2010, 2000, 1960, 1920, 1880];
    let bytes = encode(&readings).unwrap();
    let mut damaged = bytes.clone();
    damaged[8] = 0xFF;
    folder.put("example.column", &bytes).put("damaged.column", &damaged);
    let mut listing = "codec 0 rows 12 min 1840 max 2010 gcd 10\n".to_owned();
    readings.iter().enumerate().for_each(|(row, value)| listing.push_str(&format!("{row} {value}\n")));
    folder.expect("list example.column", 0, &(listing + "end 12\n"));
    let (status, out, _) = folder.run("compare example.column damaged.column");
    assert_eq!(status, 1);
    assert!(out.contains("refused 14") && out.ends_with("lines 2\n"), "{out}");
    folder.expect("compare example.column example.column", 0, "lines 0\n");
}

#[test]
fn explained_and_blamed() {
    let folder = Folder::new();
    let left = column(Codec::Blockwise);
    let mut right = left.clone();
    right[5] = 0x18;
    folder.put("left", &left).put("right", &right).put("longer", [left.as_slice(), &[0]].concat());
    folder.expect(
        "explain left",
        0,
        "0 1 code 2\n1 1 minimum 10\n2 1 gcd 10\n3 1 count 2\n4 1 rows 3\n5 1 area\n6 5 block 0 slope 2147483648\n\
         11 1 block 0 intercept 0\n12 1 block 0 width 2\n13 4 footer length 7\n",
    );
    folder.expect("blame left right", 1, "byte 5 area\nrow 0 10 10\nrow 1 30 30\nrow 2 20 30\nbytes 1 rows 3\n");
    folder.expect("blame --changed left right", 1, "byte 5 area\nrow 2 20 30\nbytes 1 rows 3\n");
    folder.expect("blame left left", 0, "bytes 0 rows 0\n");
    let mut head = left.clone();
    head[1] = 0x8B;
    folder.put("head", &head);
    folder.expect("blame left head", 1, "fields differ at byte 1 minimum\n");
    folder.put("six", column(Codec::Bitpacked)).put("seven", [column(Codec::Bitpacked).as_slice(), &[0]].concat());
    folder.expect("blame six seven", 1, "lengths differ 6 7\n");
    folder.expect("explain seven", 0, "0 1 code 0\n1 1 minimum 10\n2 1 gcd 10\n3 1 count 2\n4 1 rows 3\n5 1 area bits 2\n6 1 behind\n");
}

#[test]
fn refusals_are_one_line_with_the_place() {
    let folder = Folder::new();
    folder.put("none", []).put("code", [7]).put("cut", [0, 5, 5]).put("gcd", [0, 0x80, 0x80, 0x80, 0x80]);
    folder
        .put("short", [0, 0x80, 0x81, 0xFF, 0x90, 1])
        .put("range", [0, 0x81, 0x81, 127, 127, 127, 127, 127, 127, 127, 127, 127, 0x81, 0x81]);
    for (name, number, place) in [
        ("none", 5, "code at byte 0: there are no bytes"),
        ("code", 5, "code at byte 0: 7 is no codec"),
        ("cut", 6, "minimum at byte 1: cut off, or 2^64 or more"),
        ("gcd", 7, "gcd at byte 2: 0"),
        ("range", 8, "count at byte 3: minimum + gcd * count is 2^64 or more"),
        ("short", 10, "area at byte 5: does not fit into the bytes"),
    ] {
        let told = format!("hulemartob: {name}: refused {number}: {place}\n");
        for command in ["list", "explain"] {
            let answer = folder.run(&format!("{command} {name}"));
            assert_eq!(answer, (1, format!("refused {number}\n"), told.clone()), "{command} {name}");
        }
        folder.expect(&format!("compare {name} code"), 1, &format!("left refused {number}\n"));
        folder.expect(&format!("replay {name} code"), 1, &format!("column refused {number}\n"));
        assert_eq!(folder.run(&format!("stats {name}")), (1, String::new(), told));
        let (status, out, _) = folder.run(&format!("bless {name}"));
        assert_eq!((status, verdicts(&out)), (1, vec![format!("{name}: refused {number}: {place}").as_str()]));
    }
}

#[test]
fn checked_and_replayed() {
    let folder = Folder::new();
    let bytes = column(Codec::Bitpacked);
    let mut builder = RecordingBuilder::new();
    builder.push(10..=25, 0..3, &[0, 2]).unwrap().push(30..=30, 0..3, &[0]).unwrap();
    folder.put("column", &bytes).put("recording", builder.finish()).put("values", words(&ROWS)).put("text.txt", "10\n30\n20\n");
    folder.put("other", words(&[10, 30, 25])).put("two", words(&ROWS[..2])).put("seven", [0; 7]).put("bad.txt", "10\nx\n");
    folder.expect("replay column recording", 1, "differ 1 run 2\n");
    folder.expect("replay column values", 2, "recording refused 19\n");
    folder.expect("check --sheet 2 column values", 0, "yes\n");
    folder.expect("check column text.txt", 0, "yes\n");
    folder.expect("check column other", 1, "no row 2\n");
    folder.expect("check column two", 1, "no rows 3 values 2\n");
    folder.expect("check other values", 1, "no column refused 5\n");
    let (status, out, errors) = folder.run("check column seven");
    assert_eq!((status, out.as_str()), (2, "values refused 13\n"));
    assert!(errors.starts_with("hulemartob: seven: its length is no multiple of 8"), "{errors}");
    assert_eq!(folder.run("check column bad.txt").2, "hulemartob: bad.txt: line 2: `x` is no u64\n");
    assert_eq!(folder.run("check - -"), (2, String::new(), "hulemartob: standard input can stand for one file only\n".into()));
    for command in ["check column values", "check column other", "replay column recording", "blame column column", "compare column other"] {
        let (status, ..) = folder.run(command);
        let (quiet, out, _) = folder.run(&format!("{command} -q"));
        assert_eq!((quiet, out.as_str()), (status, ""), "{command}");
    }
    assert_eq!(folder.run("check --sheet 3 column values").0, 2);
}

// ---- listing, writing, kinds

#[test]
fn kinds_there_and_back() {
    let folder = Folder::new();
    for (kind, lines) in [
        ("u64", "0\n18446744073709551615\n7\n"),
        ("i64", "-10\n10\n0\n"),
        ("f64", "-1.5\n-0.0\ninf\nNaN\nNaN:fff8000000000001\n1e-300\n"),
        ("bool", "true\nfalse\ntrue\n"),
        ("date", "2024-02-29T12:00:00.5Z\n1677-09-21T00:12:43.145224192Z\n"),
    ] {
        folder.put("v.txt", lines);
        assert_eq!(folder.run(&format!("write v.txt -o c --kind {kind}")).0, 0, "{kind}");
        let (status, out, _) = folder.run(&format!("list c --kind {kind} --format csv"));
        let values: String = out.lines().skip(1).map(|line| line.split_once(',').unwrap().1.to_owned() + "\n").collect();
        assert_eq!((status, values.as_str()), (0, lines), "{kind}");
        folder.put("c.csv", out);
        folder.expect(&format!("check c c.csv --kind {kind}"), 0, "yes\n");
    }
    folder.put("c", encode(&[-10_i64, 10, 0]).unwrap());
    folder.expect("list c --kind i64 --rows 1..", 0, "codec 0 rows 3 min -10 max 10 gcd 10\n1 10\n2 0\nend 3\n");
    folder.expect(
        "list c --kind i64 --format json",
        0,
        "{\"codec\":0,\"rows\":3,\"min\":-10,\"max\":10,\"gcd\":10,\"first\":0,\"values\":[-10,10,0],\"refused\":[]}\n",
    );
    assert_eq!(folder.run("list c --rows 2..1").0, 2);
    assert_eq!(folder.run("list c --rows 0..4").0, 2);
}

#[test]
fn written_by_a_named_codec() {
    let folder = Folder::new();
    folder.put("v", words(&sloped())).put("three", words(&ROWS));
    for (codec, code) in [("bitpacked", 0), ("linear", 1), ("blockwise", 2)] {
        assert_eq!(folder.run(&format!("write v -o c --codec {codec}")).0, 0);
        assert_eq!(fs::read(folder.0.join("c")).unwrap()[0], code);
        assert_eq!(folder.run("bless c").0, 0, "{codec}");
        assert_eq!(folder.run("check --sheet 2 c v").1, "yes\n");
    }
    let (status, _, errors) = folder.run("write three -o d --codec linear");
    assert_eq!((status, errors.as_str()), (1, "hulemartob: three: refused 3: none of the listed codecs applies\n"));
    assert!(!folder.0.join("d").exists());
}

#[test]
fn choice_explained() {
    let folder = Folder::new();
    folder.put("v", words(&(0..600).map(|i| 1000 + 7 * i).collect::<Vec<u64>>())).put("three", words(&ROWS));
    let said = |lines: [&str; 3]| lines.map(|line| format!("hulemartob: {line}\n")).concat();
    let sizes =
        ["Bitpacked: 757 bytes and the code byte", "Linear: 15 bytes and the code byte", "Blockwise: about 0 bytes and the code byte"];
    let (status, out, errors) = folder.run("write v -o c --explain");
    assert_eq!((status, out.as_str(), errors), (0, "c: Blockwise, 600 rows, 27 bytes\n", said(sizes)));
    let (status, out, errors) = folder.run("write three -o d --explain --codec bitpacked,linear");
    let sizes =
        ["Bitpacked: 5 bytes and the code byte", "Linear: does not apply", "Blockwise: about 16 bytes and the code byte, not listed"];
    assert_eq!((status, out.as_str(), errors), (0, "d: Bitpacked, 3 rows, 6 bytes\n", said(sizes)));
}

// ---- bless

#[test]
fn verdicts_by_their_reasons() {
    let folder = Folder::new();
    let sound = column(Codec::Bitpacked);
    let longer = [&[0, 0x0A, 0x80], &sound[2..]].concat();
    let trailing = [sound.as_slice(), &[1, 2, 3]].concat();
    let mut filling = sound.clone();
    filling[5] |= 0x80;
    let mut bounds = sound.clone();
    bounds[5] |= 0x0C;
    let mut stated = sound.clone();
    stated[3] = 0x83;
    let linear = vec![1, 0x8A, 0x8A, 0x82, 0x83, 0x80, 0x8A, 5, 0b1000_0000, 0b0010_1010];
    let mut misstated = linear.clone();
    misstated[3] = 0x83;
    let mut line = encode_with(&sloped(), &[Codec::Linear]).unwrap();
    let width = line.iter().enumerate().filter(|(_, b)| 128 <= **b).nth(5).unwrap().0;
    line[width] -= 128;
    line.insert(width + 1, 0x80);
    let cases = [
        ("sound", sound, 0, "exact".to_owned()),
        ("longer", longer, 1, "other: minimum at byte 1: 10 in 2 bytes where 1 would do".into()),
        ("trailing", trailing, 1, "other: behind at byte 6: 3 bytes behind the area".into()),
        ("filling", filling, 1, "other: area at byte 5: filling bits are not 0".into()),
        ("bounds", bounds, 1, "wrong: 1 row of 3 out of bounds: 1".into()),
        ("stated", stated, 1, "wrong: count at byte 3: maximum 40 is stated, the greatest row holds 30 (row 1)".into()),
        ("linear", linear, 1, "other: code at byte 0: Linear is not written for 3 rows".into()),
        ("misstated", misstated, 1, "wrong: count at byte 3: maximum 40 is stated, the greatest row holds 30 (row 1)".into()),
    ];
    for (name, bytes, status, verdict) in &cases {
        folder.put(name, bytes);
        let (code, out, errors) = folder.run(&format!("bless {name}"));
        assert_eq!((code, verdicts(&out)), (*status, vec![format!("{name}: {verdict}").as_str()]), "{errors}");
    }
    folder.put("line", line);
    let (_, out, _) = folder.run("bless line");
    assert!(out.contains("other: intercept at byte"), "{out}");
    let (status, out, _) = folder.run("bless --sheet 2 longer trailing filling");
    let lines = verdicts(&out);
    assert_eq!(status, 1);
    assert_eq!(lines[0], "longer: refused 17: minimum at byte 1: 10 is spelled in 2 bytes, more than it needs");
    assert_eq!(lines[1], "trailing: refused 17: behind at byte 6: belongs to no part");
    assert_eq!(lines[2], "filling: refused 17: area at byte 5: its filling bits are not 0");
}

#[test]
fn folders_are_judged_in_order() {
    let folder = Folder::new();
    let sound = column(Codec::Bitpacked);
    for file in 0..300 {
        folder.put(&format!("all/{:02}/{file:03}.col", file % 7), &sound);
    }
    folder.expect_summary("bless all", 0, &[], "300 columns: 300 exact; 900 rows");
    folder
        .put("all/03/bad.col", [9])
        .put("all/01/long.col", [sound.as_slice(), &[0]].concat())
        .put("all/.hidden", [9])
        .put("all/notes.txt", "no");
    let lines =
        ["all/01/long.col: other: behind at byte 6: 1 byte behind the area", "all/03/bad.col: refused 5: code at byte 0: 9 is no codec"];
    for jobs in [1, 2, 5] {
        folder.expect_summary(&format!("bless all -e col -j {jobs}"), 1, &lines, "302 columns: 300 exact, 1 other, 1 refused; 903 rows");
    }
    folder.expect("bless -q all", 1, "");
    let (status, out, _) = folder.run("bless all --json -e .col");
    assert_eq!((status, out.lines().count()), (1, 303));
    for line in out.lines() {
        let object: serde_json::Value = serde_json::from_str(line).unwrap();
        assert!(object["type"] == "column" || object["exact"] == 300, "{line}");
    }
    let (_, out, _) = folder.run("bless --all all/00");
    assert!(out.lines().next().unwrap().ends_with("all/00/000.col: exact"));
}

impl Folder {
    fn expect_summary(&self, arguments: &str, status: i32, lines: &[&str], summary: &str) {
        let (code, out, errors) = self.run(arguments);
        assert_eq!((code, verdicts(&out).as_slice()), (status, lines), "{arguments}: {errors}");
        assert!(out.lines().last().unwrap().starts_with(summary), "{out}");
    }
}

#[test]
fn lists_beside_the_columns() {
    let folder = Folder::new();
    let rows = sloped();
    let chosen = encode(&rows).unwrap();
    let other = encode_with(&rows, &[Codec::Bitpacked]).unwrap();
    assert_ne!(chosen[0], other[0]);
    let mut changed = rows.clone();
    changed[7] += 1;
    folder.put("c/a.col", &chosen).put("c/a.values", words(&rows)).put("c/b.col", &other).put("c/b.col.values", words(&rows));
    folder.put("c/c.col", &chosen).put("c/c.values", words(&changed)).put("c/d.col", &chosen);
    let (status, out, errors) = folder.run("bless c --values values");
    assert_eq!(status, 2);
    let lines = verdicts(&out);
    assert!(
        lines[0].starts_with(&format!("c/b.col: other: code at byte 0: Bitpacked in {} bytes, the rules choose ", other.len())),
        "{out}"
    );
    assert_eq!(lines[1], format!("c/c.col: wrong: list: row 7 is {}, the list has {}", rows[7], changed[7]));
    assert!(errors.starts_with("hulemartob: c/d.col: no list of values"), "{errors}");
    folder.put("lists/a.txt", rows.iter().map(|v| format!("{v}\n")).collect::<String>()).put("one/a.col", &chosen);
    folder.expect_summary("bless one --against lists", 0, &[], "1 column: 1 exact; 1200 rows");
    assert_eq!(folder.run("bless c/b.col").0, 0);
    assert_eq!(folder.run("bless --choice c/b.col").0, 1);
}

#[test]
fn trouble_is_no_verdict() {
    let folder = Folder::new();
    folder.put("sound", column(Codec::Bitpacked));
    fs::create_dir(folder.0.join("empty")).unwrap();
    let (status, out, errors) = folder.run("bless gone sound");
    assert_eq!((status, verdicts(&out)), (2, vec!["sound: exact"]));
    assert_eq!(errors.lines().count(), 1);
    assert!(errors.starts_with("hulemartob: gone: "), "{errors}");
    assert_eq!(folder.run("bless empty"), (2, String::new(), "hulemartob: no columns found\n".into()));
    for command in
        ["list empty", "list gone", "stats gone sound", "explain empty", "compare sound empty", "blame gone sound", "check sound gone"]
    {
        let (status, _, errors) = folder.run(command);
        assert_eq!((status, errors.lines().count()), (2, 1), "{command}: {errors}");
    }
    // A few bytes that claim 2^32 - 1 rows of no bits.
    folder.put("many", [0, 0x80, 0x81, 0x80, 127, 127, 127, 127, 0x8F]);
    let (status, _, errors) = folder.run("bless many");
    assert_eq!((status, errors.as_str()), (2, "hulemartob: many: refused 16: 4294967295 rows are more than --max-rows\n"));
    folder.expect("list many --rows 4294967294..", 0, "codec 0 rows 4294967295 min 0 max 0 gcd 1\n4294967294 0\nend 4294967295\n");
}

#[test]
fn every_cut_and_every_changed_byte() {
    let folder = Folder::new();
    let mut files = 0;
    for codec in Codec::ALL {
        let bytes = encode_with(&sloped()[..600], &[codec]).unwrap();
        for length in (0..bytes.len()).step_by(5) {
            folder.put(&format!("all/cut-{codec:?}-{length}"), &bytes[..length]);
            files += 1;
        }
        for at in (0..bytes.len()).step_by(3) {
            for change in [0x01, 0x80, 0xFF] {
                let mut changed = bytes.clone();
                changed[at] ^= change;
                folder.put(&format!("all/changed-{codec:?}-{at}-{change}"), &changed);
                files += 1;
            }
        }
    }
    let (status, out, errors) = folder.run("bless all --html page.html");
    assert_eq!(status, 1, "{errors}");
    assert!(out.lines().last().unwrap().starts_with(&format!("{files} columns: ")), "{out}");
    let page = fs::read_to_string(folder.0.join("page.html")).unwrap();
    assert!(page.contains("</html>") || page.contains("</script>"));
    assert!(!page.contains("\"DATA\"") && !page.contains("http://") && !page.contains("https://"));
}

#[test]
fn rows_without_bits_are_at_no_byte() {
    // Linear: three rows of no bits on a line from 10 on that rises by 1, in a column whose head states 10 to 11.
    let folder = Folder::new();
    folder.put("line", [1, 0x8A, 0x81, 0x81, 0x83, 0, 0, 0, 0, 0x90, 0x8A, 0]);
    let (status, out, errors) = folder.run("bless --json line");
    assert_eq!(status, 1, "{errors}");
    let object: serde_json::Value = serde_json::from_str(out.lines().next().unwrap()).unwrap();
    assert_eq!((&object["verdict"], &object["reason"]), (&"wrong".into(), &"1 row of 3 out of bounds: 2".into()), "{out}");
    assert!(object["offset"].is_null(), "{out}");
}

#[test]
fn columns_of_no_rows() {
    let folder = Folder::new();
    folder.put("none", encode::<u64>(&[]).unwrap()).put("stated", [0, 0x85, 0x81, 0x80, 0x80]);
    folder.expect_summary("bless none", 0, &["none: exact"], "1 column: 1 exact; 0 rows not held against lists");
    let line = "stated: wrong: minimum at byte 1: 5 is stated, the rules write 0 where there are no rows";
    folder.expect_summary("bless stated", 1, &[line], "1 column: 1 wrong");
    folder.expect("list none", 0, "codec 0 rows 0 min 0 max 0 gcd 1\nend 0\n");
}

#[test]
fn many_blocks() {
    let folder = Folder::new();
    let rows: Vec<u64> = (0..200_000_u64).map(|row| row * 3 + row.wrapping_mul(0x9E37_79B9_7F4A_7C15) % 7).collect();
    let bytes = encode_with(&rows, &[Codec::Blockwise]).unwrap();
    let mut changed = bytes.clone();
    changed[100] ^= 1;
    folder.put("c", &bytes).put("d", &changed);
    let (status, out, _) = folder.run("explain c");
    // Five of the head, the area, three of each block, and the footer's length.
    assert_eq!((status, out.lines().count()), (0, 5 + 1 + 3 * 391 + 1));
    assert!(out.ends_with(&format!("{} 4 footer length {}\n", bytes.len() - 4, bytes.len() - 4 - footer(&out))), "{out}");
    let (status, out, _) = folder.run("blame c d --changed");
    assert!(status == 1 && out.starts_with("byte 100 area\nrow ") && out.lines().count() == 3, "{out}");
    folder.expect_summary("bless c", 0, &["c: exact"], "1 column: 1 exact; 200000 rows");
}

/// Where the footer starts, by an explanation.
fn footer(explained: &str) -> usize {
    let line = explained.lines().find(|line| line.contains("block 0 slope")).unwrap();
    line.split(' ').next().unwrap().parse().unwrap()
}

// ---- folders compared

#[test]
fn folders_compared() {
    let folder = Folder::new();
    let sound = column(Codec::Bitpacked);
    let changed = encode(&[10_u64, 30, 40]).unwrap();
    folder.put("l/same", &sound).put("r/same", &sound).put("l/s/x", &sound).put("r/s/x", &changed).put("l/a", &sound).put("r/z", &sound);
    folder.put("l/codec", &sound).put("r/codec", column(Codec::Blockwise)).put("l/bad", &sound).put("r/bad", [5]);
    let text = "only left: a\nbad\nright refused 5\ns/x\n2 20 40\nlines 1\nonly right: z\ncolumns 4 differing 2 alone 2\n";
    folder.expect("compare l r", 1, text);
    folder.expect("compare --brief l r", 1, "only left: a\nbad\ns/x\nonly right: z\ncolumns 4 differing 2 alone 2\n");
    for jobs in [1, 2, 5] {
        folder.expect(&format!("compare -j {jobs} l r"), 1, text);
    }
    folder.expect("compare l l", 0, "columns 5 differing 0 alone 0\n");
    folder.expect("compare -q l r", 1, "");
    folder.expect("compare -q l l", 0, "");
    let (status, out, _) = folder.run("compare --json l r");
    let objects: Vec<serde_json::Value> = out.lines().map(|line| serde_json::from_str(line).unwrap()).collect();
    assert_eq!((status, objects.len()), (1, 5), "{out}");
    assert_eq!(objects[1]["is"], "right refused 5");
    assert_eq!((&objects[2]["path"], &objects[2]["lines"], &objects[2]["first"]["right"]), (&"s/x".into(), &1.into(), &40.into()));
    assert_eq!((&objects[4]["type"], &objects[4]["differing"]), (&"summary".into(), &2.into()));
    folder.expect(
        "compare --json l/s/x r/s/x",
        1,
        "{\"left\":20,\"right\":40,\"row\":2,\"type\":\"row\"}\n{\"lines\":1,\"type\":\"summary\"}\n",
    );
    assert_eq!(folder.run("compare l l/same").0, 2);
    folder.put("l/c.col", &sound).put("r/c.col", &sound);
    folder.expect("compare -e col l r", 0, "columns 1 differing 0 alone 0\n");
    fs::remove_file(folder.0.join("l/c.col")).unwrap();
    fs::remove_file(folder.0.join("r/c.col")).unwrap();
    fs::create_dir(folder.0.join("empty")).unwrap();
    assert_eq!(folder.run("compare empty empty"), (2, String::new(), "hulemartob: no columns found\n".into()));
    // A file that cannot be read is trouble; the others are compared.
    std::os::unix::fs::symlink("gone", folder.0.join("l/dangling")).unwrap();
    let (status, out, errors) = folder.run("compare l r");
    assert_eq!((status, out.as_str()), (2, text), "{errors}");
    assert_eq!(errors.lines().count(), 1, "{errors}");
}

/// Lines of long columns are not kept in memory, but they are the same.
#[test]
fn folders_of_long_columns() {
    let folder = Folder::new();
    let rows = vec![7_u64; (1 << 20) + 5];
    let mut others = rows.clone();
    others[1 << 20] = 8;
    folder.put("l/x", encode(&rows).unwrap()).put("r/x", encode(&others).unwrap());
    folder.expect("compare l r", 1, "x\n1048576 7 8\nlines 1\ncolumns 1 differing 1 alone 0\n");
    folder.expect("compare --brief l r", 1, "x\ncolumns 1 differing 1 alone 0\n");
}

// ---- pipes

#[test]
fn a_reader_that_goes_away() {
    let folder = Folder::new();
    folder.put("many", [0, 0x80, 0x81, 0x80, 127, 127, 127, 127, 0x8F]);
    for command in ["list many", "list many --format json", "compare many one"] {
        folder.put("one", encode(&[5_u64]).unwrap());
        let mut child = folder.command(command).stdout(Stdio::piped()).stderr(Stdio::piped()).spawn().unwrap();
        let mut some = [0; 64];
        child.stdout.take().unwrap().read_exact(&mut some).unwrap();
        let output = child.wait_with_output().unwrap();
        assert_eq!((output.status.code(), output.stderr.as_slice()), (Some(141), b"".as_slice()), "{command}");
    }
}

#[test]
fn an_output_that_is_full() {
    let folder = Folder::new();
    folder.put("c", column(Codec::Bitpacked));
    for command in ["list c", "explain c", "bless c", "compare c c", "stats c"] {
        let full = fs::OpenOptions::new().write(true).open("/dev/full").unwrap();
        let output = folder.command(command).stdout(full).output().unwrap();
        let errors = String::from_utf8(output.stderr).unwrap();
        assert_eq!((output.status.code(), errors.lines().count()), (Some(2), 1), "{command}: {errors}");
    }
}

/// A pipe in a folder would be waited for for ever.
#[test]
fn no_files() {
    let folder = Folder::new();
    folder.put("all/c", column(Codec::Bitpacked));
    assert!(Command::new("mkfifo").arg(folder.0.join("all/pipe")).status().unwrap().success());
    let (status, out, errors) = folder.run("bless all");
    assert_eq!((status, errors.as_str()), (2, "hulemartob: all/pipe: not a file\n"));
    assert!(out.starts_with("1 column: 1 exact, 1 trouble; "), "{out}");
}

#[test]
fn standard_input() {
    let folder = Folder::new();
    let mut child = folder.command("list -").stdin(Stdio::piped()).stdout(Stdio::piped()).spawn().unwrap();
    child.stdin.take().unwrap().write_all(&column(Codec::Bitpacked)).unwrap();
    let output = child.wait_with_output().unwrap();
    assert_eq!(String::from_utf8(output.stdout).unwrap(), "codec 0 rows 3 min 10 max 30 gcd 10\n0 10\n1 30\n2 20\nend 3\n");
}

#[test]
fn help_and_completions() {
    let folder = Folder::new();
    assert_eq!(folder.run("--help").0, 0);
    assert_eq!(folder.run("").0, 2);
    assert_eq!(folder.run("nonsense").0, 2);
    for shell in ["bash", "zsh", "fish"] {
        let (status, out, _) = folder.run(&format!("completions {shell}"));
        assert!(status == 0 && out.contains("bless"), "{shell}");
    }
    assert_eq!(folder.run("refusals").1.lines().count(), 20);
    folder.expect("refusals 6", 0, " 6  the field at byte N is cut off, or is 2^64 or more\n");
    folder.expect("refusals 21", 1, "");
    // It says what it does not promise.
    let (_, help, _) = folder.run("bless --help");
    assert!(help.split_whitespace().collect::<Vec<_>>().join(" ").contains("not that its rows are the right ones"), "{help}");
}

//! This library beside the Rust of tantivy-columnar 0.27.0, in one run:
//!
//!     bench times [REPEATS]          the tables of times
//!     bench names [WORD]             the cases whose names have the word, with their rows, for `once`
//!     bench once NAME SIDE TIMES     one side of one case so many times, for a counter of instructions

mod cases;
mod inputs;
mod typed;

use std::hint::black_box;
use std::time::Instant;

use cases::Case;

/// Rows of a column whose work is timed, and of one whose instructions are counted.
const TIMED: usize = 65_536;
const COUNTED: usize = 8_192;

fn nanoseconds(work: &mut dyn FnMut() -> u64) -> f64 {
    let start = Instant::now();
    black_box(work());
    start.elapsed().as_nanos() as f64
}

/// The median times of both sides, which take turns.
fn medians(case: &mut Case, repeats: usize) -> (f64, f64) {
    assert_eq!((case.ours)(), (case.theirs)(), "{}: the two sides differ", case.name);
    let (mut ours, mut theirs): (Vec<f64>, Vec<f64>) =
        (0..repeats).map(|_| (nanoseconds(&mut case.ours), nanoseconds(&mut case.theirs))).unzip();
    let median = |times: &mut Vec<f64>| {
        times.sort_by(f64::total_cmp);
        times[times.len() / 2]
    };
    (median(&mut ours), median(&mut theirs))
}

fn times(repeats: usize) {
    println!("Columns of {TIMED} rows, median of {repeats} repeats.\n");
    println!("| case | the Rust, ns a row | here | ratio |\n|---|---|---|---|");
    for mut case in cases::all(TIMED) {
        let (ours, theirs) = medians(&mut case, repeats);
        let rows = case.rows as f64;
        println!("| {} | {:.3} | {:.3} | {:.2} |", case.name, theirs / rows, ours / rows, ours / theirs);
    }
    println!("\nGrowth with the rows: writing by any codec, reading all rows back.\n");
    println!("| rows | work | the Rust, ns a row | here | ratio |\n|---|---|---|---|---|");
    for rows in [1_000, 10_000, 100_000, 1_000_000] {
        for mut case in cases::growing(rows) {
            let (ours, theirs) = medians(&mut case, repeats.min(9));
            println!("| {rows} | {} | {:.3} | {:.3} | {:.2} |", case.name, theirs / rows as f64, ours / rows as f64, ours / theirs);
        }
    }
}

fn once(name: &str, side: &str, many: usize) {
    let mut case = cases::all(COUNTED).into_iter().find(|case| case.name == name).expect("a case's name");
    let work = if side == "ours" { &mut case.ours } else { &mut case.theirs };
    (0..many).for_each(|_| _ = black_box(work()));
}

fn main() {
    let words: Vec<String> = std::env::args().skip(1).collect();
    let words: Vec<&str> = words.iter().map(String::as_str).collect();
    match words[..] {
        ["times"] => times(25),
        ["times", repeats] => times(repeats.parse().expect("how many repeats")),
        ["names", word] => {
            cases::all(COUNTED).iter().filter(|case| case.name.contains(word)).for_each(|case| println!("{}\t{}", case.name, case.rows));
        }
        ["once", name, side, many] => once(name, side, many.parse().expect("how many times")),
        _ => eprintln!("usage: bench times [REPEATS] | names WORD | once NAME ours|theirs TIMES"),
    }
}

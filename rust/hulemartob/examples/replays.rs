//! Times a recording of 100,000 lookups beside as many calls of `lookup`, each compared with the recorded rows:
//!
//!     cargo run --offline --release --example replays [REPEATS]
//!
//! Both sides run over one column of 65,536 rows of each codec, taking turns. A replay decodes each chunk once; a lookup over several chunks that finds rows decodes them twice, but stores them.

use std::hint::black_box;
use std::time::Instant;

use hulemartob::{Codec, Column, Recorded, Recording, RecordingBuilder, encode_with};

const ROWS: u32 = 65_536;
const LOOKUPS: u32 = 100_000;

/// A number for each place, spread over all 64 bits.
fn spread(place: u32) -> u64 {
    u64::from(place + 1).wrapping_mul(0x9E37_79B9_7F4A_7C15).rotate_left(23)
}

/// So many lookups, each over a run of rows, for a tenth of the values.
fn record(column: &Column<u64, Vec<u8>>, run: u32) -> Vec<u8> {
    let mut builder = RecordingBuilder::new();
    for k in 0..LOOKUPS {
        let (low, first) = (spread(k) % 900, spread(k + LOOKUPS) as u32 % (ROWS - run));
        builder.record(column, low..=low + 99, first..first + run).expect("a sound column");
    }
    builder.finish()
}

fn by_lookup(column: &Column<u64, Vec<u8>>, records: &[Recorded], found: &mut [u32]) -> u32 {
    let agrees = |r: &&Recorded| {
        let many = column.raw().lookup(*r.values.start(), *r.values.end(), r.rows.clone(), found).expect("a sound column");
        found[..many] == r.found
    };
    records.iter().take_while(agrees).count() as u32
}

fn microseconds(work: impl FnOnce() -> u32) -> f64 {
    let start = Instant::now();
    assert_eq!(black_box(work()), LOOKUPS);
    start.elapsed().as_nanos() as f64 / 1000.0
}

fn median(mut times: Vec<f64>) -> f64 {
    times.sort_by(f64::total_cmp);
    times[times.len() / 2]
}

fn main() {
    let repeats: usize = std::env::args().nth(1).map_or(9, |n| n.parse().expect("how many repeats"));
    let values: Vec<u64> = (0..ROWS).map(|row| spread(row) % 1000).collect();
    println!("{LOOKUPS} lookups, median of {repeats} repeats.\n");
    println!("| codec | rows a lookup | lookups, µs each | replayed | ratio |\n|---|---|---|---|---|");
    for codec in Codec::ALL {
        let column = Column::open(encode_with(&values, &[codec]).expect("a codec that applies")).expect("a column");
        for run in [16, 512] {
            let recording = record(&column, run);
            let records: Vec<Recorded> = Recording::read(&recording).expect("a recording").iter().collect();
            let mut found = vec![0; run as usize];
            let (calls, replays): (Vec<f64>, Vec<f64>) = (0..repeats)
                .map(|_| {
                    let calls = microseconds(|| by_lookup(&column, &records, &mut found));
                    (calls, microseconds(|| column.replay(&recording).expect("a recording").run))
                })
                .unzip();
            let (calls, replays) = (median(calls) / f64::from(LOOKUPS), median(replays) / f64::from(LOOKUPS));
            println!("| {codec} | {run} | {calls:.3} | {replays:.3} | {:.2} |", replays / calls);
        }
    }
}

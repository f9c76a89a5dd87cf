//! Fills a folder with columns to judge: `cargo run --release --example fill -- FOLDER FILES [--lists]`.
//!
//! Lengths lie mostly between 100 bytes and 64 KB, evenly by their logarithm. Shapes and codecs take turns; one file of two hundred is damaged. With `--lists` each
//! has its list of values beside it, as words.

use std::path::Path;
use std::{env, fs, io};

use hulemartob::{Codec, encode, encode_with};

/// Numbers that look random, the same in every run (splitmix64).
struct Numbers(u64);

impl Numbers {
    fn next(&mut self) -> u64 {
        self.0 = self.0.wrapping_add(0x9E37_79B9_7F4A_7C15);
        let mut z = self.0;
        z = (z ^ (z >> 30)).wrapping_mul(0xBF58_476D_1CE4_E5B9);
        z = (z ^ (z >> 27)).wrapping_mul(0x94D0_49BB_1331_11EB);
        z ^ (z >> 31)
    }

    fn below(&mut self, end: u64) -> u64 {
        self.next() % end
    }
}

/// So many values of a shape, and about how many bits a row they take.
fn values(shape: u64, rows: usize, numbers: &mut Numbers) -> Vec<u64> {
    let base = 1_700_000_000 + numbers.below(1 << 30);
    (0..rows as u64)
        .map(|row| match shape {
            0 => base + numbers.below(1 << 10),                                   // noise of ten bits
            1 => base + row * 60 + numbers.below(1 << 5),                         // a clock with jitter
            2 => 100 * (50 + numbers.below(400)),                                 // prices
            3 => base + (row / 700) * 100_000 + row % 700 * 3 + numbers.below(8), // steps, for Blockwise
            4 => numbers.next(),                                                  // all 64 bits
            5 => numbers.below(2),                                                // flags
            _ => (1 << 63) + row * row + numbers.below(1 << 12),                  // a curve
        })
        .collect()
}

const BITS: [f64; 7] = [10.0, 6.0, 9.0, 6.0, 64.0, 1.0, 14.0];

fn damage(bytes: &mut Vec<u8>, numbers: &mut Numbers) {
    let length = bytes.len() as u64;
    match numbers.below(5) {
        0 => bytes.truncate(numbers.below(length) as usize),
        1 => bytes.extend(numbers.next().to_le_bytes().iter().take(3)),
        2 => bytes[numbers.below(8.min(length)) as usize] ^= 1 << numbers.below(8),
        3 => bytes[numbers.below(length) as usize] ^= 1 << numbers.below(8),
        // A longer spelling of the minimum: its last byte loses 128, and a byte of 128 follows.
        _ => {
            if let Some(last) = bytes.iter().skip(1).position(|&b| 128 <= b) {
                bytes[last + 1] -= 128;
                bytes.insert(last + 2, 128);
            }
        }
    }
}

fn main() -> io::Result<()> {
    let arguments: Vec<String> = env::args().collect();
    let (Some(folder), Some(files)) = (arguments.get(1), arguments.get(2).and_then(|n| n.parse::<u64>().ok())) else {
        return Err(io::Error::other("fill FOLDER FILES [--lists]"));
    };
    let lists = arguments.iter().any(|a| a == "--lists");
    let mut numbers = Numbers(files);
    for file in 0..files {
        let shape = numbers.below(7);
        let length = 100.0 * 655.36_f64.powf(numbers.below(1 << 20) as f64 / f64::from(1 << 20));
        let rows = ((length * 8.0 / BITS[shape as usize]) as usize).max(1);
        let list = values(shape, rows, &mut numbers);
        let codecs: &[Codec] = match numbers.below(6) {
            0 => &[Codec::Bitpacked],
            1 if 512 <= rows => &[Codec::Linear],
            2 => &[Codec::Blockwise],
            _ => &Codec::ALL,
        };
        let mut bytes = encode_with(&list, codecs).map_err(io::Error::other)?;
        if 1 << 16 < bytes.len() {
            bytes = encode(&list).map_err(io::Error::other)?;
        }
        if numbers.below(200) == 0 {
            damage(&mut bytes, &mut numbers);
        }
        let place = Path::new(folder).join(format!("{:02}", file % 100));
        fs::create_dir_all(&place)?;
        fs::write(place.join(format!("{file:05}.col")), &bytes)?;
        if lists {
            let words: Vec<u8> = list.iter().flat_map(|v| v.to_le_bytes()).collect();
            fs::write(place.join(format!("{file:05}.values")), words)?;
        }
    }
    Ok(())
}

//! What is measured on. Every run has the same inputs.

use hulemartob::Codec;

/// SplitMix64.
pub struct Random(pub u64);

impl Random {
    pub fn next(&mut self) -> u64 {
        self.0 = self.0.wrapping_add(0x9E37_79B9_7F4A_7C15);
        let z = (self.0 ^ self.0 >> 30).wrapping_mul(0xBF58_476D_1CE4_E5B9);
        let z = (z ^ z >> 27).wrapping_mul(0x94D0_49BB_1331_11EB);
        z ^ z >> 31
    }

    fn bits(&mut self, bits: u32) -> u64 {
        if bits == 0 { 0 } else { self.next() >> (64 - bits) }
    }
}

/// Numbers whose packed form has so many bits a row: noise, on a line for Linear, on a line for each block for Blockwise.
pub fn values(codec: Codec, bits: u32, rows: usize) -> Vec<u64> {
    let mut random = Random(u64::from(bits));
    let mut value = |row: u64| {
        let noise = random.bits(bits);
        match codec {
            Codec::Bitpacked => noise,
            Codec::Linear => 1_000_000 + 3000 * row + noise,
            Codec::Blockwise => 5_000_000 + (1 + row / 512 % 7) * 1000 * (row % 512) + noise,
        }
    };
    (0..rows as u64).map(&mut value).collect()
}

/// Times in nanoseconds, whole seconds, a little out of step: the gcd is 10^9.
pub fn times(rows: usize) -> Vec<u64> {
    let mut random = Random(60);
    (0..rows as u64).map(|row| (1_700_000_000 + 60 * row + random.bits(3)) * 1_000_000_000).collect()
}

/// Rows in no order.
pub fn some_rows(many: usize, rows: usize) -> Vec<u32> {
    let mut random = Random(1);
    (0..many).map(|_| (random.next() % rows as u64) as u32).collect()
}

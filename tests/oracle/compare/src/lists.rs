//! What is compared on: lists of every kind, ranges near their values, and damaged columns. The same seed gives the same inputs.

/// SplitMix64.
pub struct Random(u64);

impl Random {
    pub fn new(seed: u64) -> Random {
        Random(seed)
    }

    pub fn next(&mut self) -> u64 {
        self.0 = self.0.wrapping_add(0x9E37_79B9_7F4A_7C15);
        let z = (self.0 ^ self.0 >> 30).wrapping_mul(0xBF58_476D_1CE4_E5B9);
        let z = (z ^ z >> 27).wrapping_mul(0x94D0_49BB_1331_11EB);
        z ^ z >> 31
    }

    pub fn below(&mut self, end: usize) -> usize {
        (self.next() % end as u64) as usize
    }

    pub fn bits(&mut self, bits: u32) -> u64 {
        if bits == 0 { 0 } else { self.next() >> (64 - bits) }
    }

    pub fn pick<T: Copy>(&mut self, of: &[T]) -> T {
        of[self.below(of.len())]
    }
}

/// So many kinds of lists there are.
pub const KINDS: usize = 15;

/// A number of rows: few, or on either side of the end of a block, or any up to some blocks.
fn rows(random: &mut Random) -> u64 {
    let any = 1 + random.below(1800) as u64;
    let few = 1 + random.below(40) as u64;
    random.pick(&[0, 1, 2, 3, few, few, few, 511, 512, 513, 1023, 1024, 1025, any, any])
}

/// A list of a kind.
pub fn list(random: &mut Random, kind: usize) -> Vec<u64> {
    let rows = rows(random);
    let bits = random.below(65) as u32;
    let noise = random.below(24) as u32;
    let power = 1u64 << random.below(64);
    let any = random.next();
    let step = random.pick(&[1, 2, 3, 7, 10, 1000, 3600, 86_400_000_000_000, power, power.wrapping_add(1), power - 1, any >> bits % 64]);
    let start = random.pick(&[0, 1, u64::MAX, u64::MAX - rows, 1 << 63, (1 << 63) - 1, any, any >> 20]);
    let up = |i: u64| start.wrapping_add(step.wrapping_mul(i));
    let down = |i: u64| start.wrapping_sub(step.wrapping_mul(i));
    let mut each = |f: &mut dyn FnMut(u64, &mut Random) -> u64| (0..rows).map(|i| f(i, random)).collect();
    match kind {
        0 => each(&mut |_, r| r.bits(bits)),
        1 => each(&mut |i, _| up(i)),
        2 => each(&mut |i, _| down(i)),
        3 => each(&mut |_, _| start),
        // multiples of a step
        4 => each(&mut |_, r| up(r.bits(bits / 2))),
        // multiples that do not leave 64 bits, so that the step may be the gcd
        5 => each(&mut |_, r| (r.bits(bits) / step.max(1)).wrapping_mul(step)),
        // a line with noise, either way
        6 => each(&mut |i, r| up(i).wrapping_add(r.bits(noise))),
        7 => each(&mut |i, r| down(i).wrapping_sub(r.bits(noise))),
        // few values
        8 => each(&mut |_, r| r.pick(&[0, u64::MAX, start, step])),
        // another line in each block
        9 => each(&mut |i, r| (i / 512 + 1).wrapping_mul(step).wrapping_mul(i % 512).wrapping_add(r.bits(noise / 4))),
        // one far value among near ones
        10 => each(&mut |i, r| if i == 300.min(rows - 1) { any } else { start ^ r.bits(noise) }),
        // first and last of a block about 2^31, 2^32 or 2^63 apart, where training turns
        11 => {
            let apart = [1u64 << 31, 1 << 32, 1 << 63][bits as usize % 3].wrapping_add(u64::from(noise % 5)).wrapping_sub(2);
            each(&mut |i, r| if i % 512 == 0 { start } else { start.wrapping_add(apart).wrapping_sub(r.bits(1) * (i % 2)) })
        }
        // times in nanoseconds, whole seconds, a little out of step
        12 => each(&mut |i, r| (1_700_000_000 + 60 * i + r.bits(noise / 6)) * 1_000_000_000),
        // so few rows, rising by one, that Blockwise's line takes about as much as Bitpacked's rows: sizes that tie
        13 => (0..14 + rows % 10).map(|i| (start >> (noise + 40)) + i).collect(),
        // measurements as the bits of a float
        _ => each(&mut |_, r| ((r.bits(12) as f64 - 2048.0) / 16.0).to_bits() ^ 1 << 63),
    }
}

/// Few multiples of a number that is a power of two, or up to three away from one: there f32 may round the gcd, or its logarithm, up to the power. The first
/// two are 0 and the number itself, so that it is the gcd.
pub fn near_power(random: &mut Random) -> Vec<u64> {
    let power = 3 + random.below(62) as u32;
    let away = random.below(7) as i128 - 3;
    let step = ((1i128 << power) + away).clamp(2, i128::from(u64::MAX)) as u64;
    let most = (u64::MAX / step).min(1 << random.below(9));
    let rows = 2 + random.below(40) as u64;
    let rising = |i: u64| i % (most + 1);
    let mut each = |f: &mut dyn FnMut(u64, &mut Random) -> u64| (0..rows).map(|i| step * if i < 2 { i } else { f(i, random) }).collect();
    match most % 3 {
        0 => each(&mut |_, r| r.next() % (most + 1)),
        1 => each(&mut |i, _| rising(i)),
        _ => each(&mut |i, _| rising(rows - i)),
    }
}

/// A range of values whose bounds are near those of a list.
pub fn range(random: &mut Random, values: &[u64]) -> (u64, u64) {
    let bound = |random: &mut Random| {
        let value = if values.is_empty() { 0 } else { values[random.below(values.len())] };
        random.pick(&[0, u64::MAX, value, value, value.saturating_add(1), value.saturating_sub(1), value / 2])
    };
    (bound(random), bound(random))
}

/// A column's bytes with one or two of them changed, put in or put behind, or with its end cut off.
pub fn damaged(random: &mut Random, column: &[u8]) -> Vec<u8> {
    let mut bytes = column.to_vec();
    for _ in 0..=random.below(2) {
        let at = random.below(bytes.len().clamp(1, 40));
        let any = random.next() as u8;
        let byte = random.pick(&[0, 1, 2, 0x7F, 0x80, 0x81, 0xFF, any]);
        match (random.below(6), bytes.len()) {
            (0, length) => bytes.truncate(random.below(length + 1)),
            (1 | 2, length) if at < length => bytes[at] = byte,
            (3, length) if at < length => bytes[length - 1 - at] = byte,
            (4, _) => bytes.insert(at, byte),
            _ => bytes.extend([byte, any]),
        }
    }
    bytes
}

//! STAND-IN for `fastdivide`: division by a number that is known beforehand, as a multiplication and two shifts.

/// For a divisor d of l bits (d - 1 below 2^l): n / d is n · (2^64 + magic) / 2^(64 + l), where magic = floor(2^64 · (2^l - d) / d) + 1.
#[derive(Clone, Copy, Debug)]
pub struct DividerU64 {
    magic: u64,
    shift: u32,
}

impl DividerU64 {
    pub fn divide_by(divisor: u64) -> DividerU64 {
        assert!(divisor > 0);
        let bits = 64 - (divisor - 1).leading_zeros();
        let above = (1u128 << bits) - u128::from(divisor);
        DividerU64 { magic: ((above << 64) / u128::from(divisor) + 1) as u64, shift: bits }
    }

    #[inline(always)]
    pub fn divide(&self, n: u64) -> u64 {
        if self.shift == 0 {
            return n;
        }
        let high = (u128::from(self.magic) * u128::from(n) >> 64) as u64;
        (high + (n - high) / 2) >> (self.shift - 1)
    }
}

#[cfg(test)]
mod tests {
    use super::DividerU64;

    #[test]
    fn divides() {
        let near = |n: u64| [n.wrapping_sub(1), n, n.wrapping_add(1)];
        let numbers: Vec<u64> = (0..64).flat_map(|k| near(1 << k)).chain([3, 10, 3600, 1_000_000_007, u64::MAX / 3]).collect();
        for &d in numbers.iter().filter(|&&d| d > 0) {
            let divider = DividerU64::divide_by(d);
            for &n in &numbers {
                assert_eq!(divider.divide(n), n / d, "{n} / {d}");
            }
        }
    }
}

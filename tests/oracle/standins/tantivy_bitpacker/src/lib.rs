//! STAND-IN for `tantivy_bitpacker`, written from the format's rules on widths and packing. It goes through words of eight bytes, so that a
//! benchmark beside it is a fair one.

use std::io::{self, Write};
use std::ops::{Range, RangeInclusive};

/// The bit length, none for 0; no width from 57 to 63 is used, 64 stands in.
pub fn compute_num_bits(n: u64) -> u8 {
    let bits = (64 - n.leading_zeros()) as u8;
    if bits > 56 { 64 } else { bits }
}

/// Packs numbers without gap, lowest bit first.
#[derive(Default)]
pub struct BitPacker {
    hold: u64,
    held: u32,
}

impl BitPacker {
    pub fn new() -> BitPacker {
        BitPacker::default()
    }

    #[inline]
    pub fn write<W: Write + ?Sized>(&mut self, val: u64, num_bits: u8, out: &mut W) -> io::Result<()> {
        debug_assert!(num_bits == 64 || val >> num_bits == 0, "a number wider than its width");
        let (held, bits) = (self.held, self.held + u32::from(num_bits));
        self.hold |= val << held;
        self.held = bits;
        if bits >= 64 {
            out.write_all(&self.hold.to_le_bytes())?;
            self.hold = if held == 0 { 0 } else { val >> (64 - held) };
            self.held = bits - 64;
        }
        Ok(())
    }

    pub fn close<W: Write + ?Sized>(&mut self, out: &mut W) -> io::Result<()> {
        let bytes = self.held.div_ceil(8) as usize;
        out.write_all(&self.hold.to_le_bytes()[..bytes])?;
        (self.hold, self.held) = (0, 0);
        Ok(())
    }
}

/// Reads numbers of one width. An illegal width, and bits outside `data`, are panics here.
#[derive(Clone, Copy, Debug, Default)]
pub struct BitUnpacker {
    num_bits: u8,
    mask: u64,
}

impl BitUnpacker {
    #[inline]
    pub fn new(num_bits: u8) -> BitUnpacker {
        assert!(num_bits <= 56 || num_bits == 64, "illegal width");
        BitUnpacker { num_bits, mask: if num_bits == 64 { !0 } else { (1 << num_bits) - 1 } }
    }

    pub fn bit_width(&self) -> u8 {
        self.num_bits
    }

    #[inline]
    pub fn get(&self, idx: u32, data: &[u8]) -> u64 {
        let bit = idx as usize * self.num_bits as usize;
        let word = match data.get(bit / 8..).and_then(|rest| rest.first_chunk()) {
            Some(&eight) => u64::from_le_bytes(eight),
            None => self.word_at_end(bit, data),
        };
        word >> (bit % 8) & self.mask
    }

    /// The bytes from the number's first bit on, where fewer than eight are left.
    #[cold]
    fn word_at_end(&self, bit: usize, data: &[u8]) -> u64 {
        if self.num_bits == 0 {
            return 0;
        }
        assert!(bit + self.num_bits as usize <= 8 * data.len(), "bits outside the data");
        data[bit / 8..].iter().rev().fold(0, |word, &byte| word << 8 | u64::from(byte))
    }

    pub fn get_range(&self, start: u32, data: &[u8], output: &mut [u64]) {
        for (idx, out) in (start..).zip(output) {
            *out = self.get(idx, data);
        }
    }

    pub fn get_ids_for_value_range(&self, range: RangeInclusive<u64>, id_range: Range<u32>, data: &[u8], positions: &mut Vec<u32>) {
        positions.clear();
        for id in id_range {
            if range.contains(&self.get(id, data)) {
                positions.push(id);
            }
        }
    }
}

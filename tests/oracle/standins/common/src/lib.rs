//! STAND-IN for tantivy's `common`: the names that the crate's files use. The varint is written from the format's rules.

use std::io::{self, Read, Write};
use std::ops::Deref;
use std::sync::Arc;

pub trait BinarySerializable: Sized {
    fn serialize<W: Write + ?Sized>(&self, writer: &mut W) -> io::Result<()>;
    fn deserialize<R: Read>(reader: &mut R) -> io::Result<Self>;

    fn num_bytes(&self) -> u64 {
        let mut counting = CountingWriter::wrap(io::sink());
        self.serialize(&mut counting).unwrap();
        counting.written_bytes()
    }
}

fn read_byte<R: Read>(reader: &mut R) -> io::Result<u8> {
    let mut one = [0u8];
    reader.read_exact(&mut one)?;
    Ok(one[0])
}

impl BinarySerializable for u8 {
    fn serialize<W: Write + ?Sized>(&self, writer: &mut W) -> io::Result<()> {
        writer.write_all(&[*self])
    }

    fn deserialize<R: Read>(reader: &mut R) -> io::Result<u8> {
        read_byte(reader)
    }
}

impl BinarySerializable for u32 {
    fn serialize<W: Write + ?Sized>(&self, writer: &mut W) -> io::Result<()> {
        writer.write_all(&self.to_le_bytes())
    }

    fn deserialize<R: Read>(reader: &mut R) -> io::Result<u32> {
        let mut four = [0u8; 4];
        reader.read_exact(&mut four)?;
        Ok(u32::from_le_bytes(four))
    }
}

/// Seven bits a byte, lowest first, 128 added to the last; at most ten bytes, of which the tenth is `80` or `81`.
#[derive(Clone, Copy, Debug, PartialEq, Eq)]
pub struct VInt(pub u64);

impl BinarySerializable for VInt {
    fn serialize<W: Write + ?Sized>(&self, writer: &mut W) -> io::Result<()> {
        let (mut spelled, mut length, mut rest) = ([0u8; 10], 0, self.0);
        while rest > 127 {
            spelled[length] = (rest % 128) as u8;
            length += 1;
            rest /= 128;
        }
        spelled[length] = rest as u8 + 128;
        writer.write_all(&spelled[..=length])
    }

    fn deserialize<R: Read>(reader: &mut R) -> io::Result<VInt> {
        let mut value = 0u64;
        for place in 0..9 {
            let byte = read_byte(reader)?;
            value |= u64::from(byte % 128) << (7 * place);
            if byte >= 128 {
                return Ok(VInt(value));
            }
        }
        match read_byte(reader)? {
            0x80 => Ok(VInt(value)),
            0x81 => Ok(VInt(value | 1 << 63)),
            _ => Err(io::Error::new(io::ErrorKind::InvalidData, "varint too large")),
        }
    }
}

pub trait DeserializeFrom<T: BinarySerializable> {
    fn deserialize(&mut self) -> io::Result<T>;
}

impl<T: BinarySerializable> DeserializeFrom<T> for &[u8] {
    fn deserialize(&mut self) -> io::Result<T> {
        T::deserialize(self)
    }
}

/// Shared bytes, and the part of them that is in view.
#[derive(Clone)]
pub struct OwnedBytes {
    view: &'static [u8],
    owner: Arc<Vec<u8>>,
}

impl OwnedBytes {
    pub fn new(bytes: Vec<u8>) -> OwnedBytes {
        let owner = Arc::new(bytes);
        // SAFETY: the vector is never changed or moved out of its Arc, every view is held beside a share of the Arc, and no view is handed
        // out but behind a borrow of both.
        let view = unsafe { &*(owner.as_slice() as *const [u8]) };
        OwnedBytes { view, owner }
    }

    pub fn advance(&mut self, by: usize) {
        self.view = &self.view[by..];
    }

    pub fn split(self, at: usize) -> (OwnedBytes, OwnedBytes) {
        let (left, right) = self.view.split_at(at);
        (OwnedBytes { view: left, owner: self.owner.clone() }, OwnedBytes { view: right, owner: self.owner })
    }
}

impl Deref for OwnedBytes {
    type Target = [u8];

    #[inline(always)]
    fn deref(&self) -> &[u8] {
        self.view
    }
}

impl Read for OwnedBytes {
    fn read(&mut self, buf: &mut [u8]) -> io::Result<usize> {
        self.view.read(buf)
    }
}

pub struct CountingWriter<W> {
    under: W,
    written: u64,
}

impl<W: Write> CountingWriter<W> {
    pub fn wrap(under: W) -> CountingWriter<W> {
        CountingWriter { under, written: 0 }
    }

    pub fn written_bytes(&self) -> u64 {
        self.written
    }
}

impl<W: Write> Write for CountingWriter<W> {
    fn write(&mut self, buf: &[u8]) -> io::Result<usize> {
        let many = self.under.write(buf)?;
        self.written += many as u64;
        Ok(many)
    }

    fn flush(&mut self) -> io::Result<()> {
        self.under.flush()
    }
}

// ---- mentioned by monotonic_mapping.rs, and not compared here

const SIGN: u64 = 1 << 63;

pub fn i64_to_u64(val: i64) -> u64 {
    (val as u64) ^ SIGN
}

pub fn u64_to_i64(val: u64) -> i64 {
    (val ^ SIGN) as i64
}

pub fn f64_to_u64(val: f64) -> u64 {
    let bits = val.to_bits();
    if bits & SIGN != 0 { !bits } else { bits ^ SIGN }
}

pub fn u64_to_f64(val: u64) -> f64 {
    f64::from_bits(if val & SIGN != 0 { val ^ SIGN } else { !val })
}

/// A date as signed nanoseconds.
#[derive(Clone, Copy, Debug, PartialEq, Eq, PartialOrd, Ord)]
pub struct DateTime(i64);

impl DateTime {
    pub fn from_timestamp_nanos(nanos: i64) -> DateTime {
        DateTime(nanos)
    }

    pub fn into_timestamp_nanos(self) -> i64 {
        self.0
    }
}

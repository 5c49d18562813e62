//! Fields of bits, most significant bit first.

use super::Refused;

/// Bits written one behind the other.
#[derive(Default, Clone)]
pub struct Writer {
    pub bits: Vec<bool>,
}

impl Writer {
    pub fn put(&mut self, value: u64, width: u32) {
        self.bits.extend((0..width).rev().map(|i| value >> i & 1 == 1));
    }

    /// The bytes, the last one filled with zero bits.
    pub fn bytes(&self) -> Vec<u8> {
        self.bits
            .chunks(8)
            .map(|chunk| (0..8).fold(0, |byte, i| byte * 2 + u8::from(chunk.get(i) == Some(&true))))
            .collect()
    }
}

/// Bits taken off the front.
pub struct Reader {
    bits: Vec<bool>,
    at: usize,
}

impl Reader {
    pub fn new(bytes: &[u8]) -> Self {
        let bits = bytes
            .iter()
            .flat_map(|byte| (0..8).rev().map(move |i| byte >> i & 1 == 1))
            .collect();
        Reader { bits, at: 0 }
    }

    /// The next field, or 1 if the bits run out.
    pub fn take(&mut self, width: usize) -> Result<u64, Refused> {
        let field = self.bits.get(self.at..self.at + width).ok_or(1u32)?;
        self.at += width;
        Ok(field.iter().fold(0, |value, bit| value * 2 + u64::from(*bit)))
    }

    /// 5 unless fewer than eight bits are left, all zero.
    pub fn end(&self) -> Result<(), Refused> {
        let rest = &self.bits[self.at..];
        if rest.len() < 8 && !rest.contains(&true) {
            Ok(())
        } else {
            Err(5)
        }
    }
}

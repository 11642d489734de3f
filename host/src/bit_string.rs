//! Strings of bits.

use std::fmt;
use std::str::FromStr;

use crate::{Refusal, MAX_BITS};

/// A string of 0 to 65,536 bits that keeps the string rule: exactly ceil(bits/8) bytes,
/// the first bit in the most significant place, spare bits zero.
///
/// It is made from bytes and a bit count, or from zeros and ones:
///
/// ```
/// use lunetteorris::BitString;
///
/// let s: BitString = "1011".parse()?;
/// assert_eq!(s.as_bytes(), [0xb0]);
/// assert_eq!(s.bits(), 4);
/// assert_eq!(s.to_string(), "1011");
/// # Ok::<(), lunetteorris::Refusal>(())
/// ```
#[derive(Clone, Debug, Default, PartialEq, Eq, Hash)]
pub struct BitString {
    bytes: Vec<u8>,
    bits: usize,
}

impl BitString {
    /// The string of `bits` bits packed in `bytes`; refusal 2 if it breaks the string rule.
    pub fn from_bytes(bytes: Vec<u8>, bits: usize) -> Result<BitString, Refusal> {
        if bits > MAX_BITS || bytes.len() != bits.div_ceil(8) {
            return Err(Refusal::BadString);
        }
        if bits % 8 != 0 && bytes[bits / 8] & (0xff >> (bits % 8)) != 0 {
            return Err(Refusal::BadString);
        }
        Ok(BitString { bytes, bits })
    }

    /// The string of the given bits; refusal 2 if there are more than 65,536.
    pub fn from_bits<I: IntoIterator<Item = bool>>(bits: I) -> Result<BitString, Refusal> {
        let mut s = BitString::default();
        for bit in bits {
            if s.bits == MAX_BITS {
                return Err(Refusal::BadString);
            }
            if s.bits % 8 == 0 {
                s.bytes.push(0);
            }
            s.bytes[s.bits / 8] |= (bit as u8) << (7 - s.bits % 8);
            s.bits += 1;
        }
        Ok(s)
    }

    /// The packed bytes.
    pub fn as_bytes(&self) -> &[u8] {
        &self.bytes
    }

    /// The packed bytes, given away.
    pub fn into_bytes(self) -> Vec<u8> {
        self.bytes
    }

    /// The number of bits.
    pub fn bits(&self) -> usize {
        self.bits
    }

    /// Whether the string has no bits.
    pub fn is_empty(&self) -> bool {
        self.bits == 0
    }

    /// The bit at place `i`, counted from 0, if there is one.
    pub fn get(&self, i: usize) -> Option<bool> {
        (i < self.bits).then(|| self.bytes[i / 8] >> (7 - i % 8) & 1 == 1)
    }

    /// The bits from first to last.
    pub fn iter(&self) -> impl ExactSizeIterator<Item = bool> + '_ {
        (0..self.bits).map(|i| self.bytes[i / 8] >> (7 - i % 8) & 1 == 1)
    }
}

impl FromStr for BitString {
    type Err = Refusal;

    /// Reads zeros and ones; anything else is refusal 2.
    fn from_str(text: &str) -> Result<BitString, Refusal> {
        if text.len() > MAX_BITS || !text.bytes().all(|c| c == b'0' || c == b'1') {
            return Err(Refusal::BadString);
        }
        BitString::from_bits(text.bytes().map(|c| c == b'1'))
    }
}

impl fmt::Display for BitString {
    fn fmt(&self, f: &mut fmt::Formatter<'_>) -> fmt::Result {
        let text: String = self.iter().map(|bit| if bit { '1' } else { '0' }).collect();
        f.pad(&text)
    }
}

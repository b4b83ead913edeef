//! Bit strings, most significant bit first, bits numbered from 0 (ICD 2.1).

use crate::refusal::Refusal;

/// A refusal and the bit place that it names.
#[derive(Clone, Copy, Debug, PartialEq, Eq)]
pub struct Refused {
    pub refusal: Refusal,
    pub place: usize,
}

pub fn refused<T>(refusal: Refusal, place: usize) -> Result<T, Refused> {
    Err(Refused { refusal, place })
}

/// Reads fields one after another.
pub struct Cursor<'a> {
    octets: &'a [u8],
    length: usize,
    at: usize,
}

impl<'a> Cursor<'a> {
    /// The first `length` bits of the octets.
    pub fn new(octets: &'a [u8], length: usize) -> Cursor<'a> {
        assert!(length <= octets.len() * 8);
        Cursor { octets, length, at: 0 }
    }

    pub fn whole(octets: &'a [u8]) -> Cursor<'a> {
        Cursor::new(octets, octets.len() * 8)
    }

    pub fn at(&self) -> usize {
        self.at
    }

    /// A field that does not fit is SHORT at its first bit.
    fn fit(&self, width: usize) -> Result<(), Refused> {
        if self.length - self.at < width {
            return refused(Refusal::Short, self.at);
        }
        Ok(())
    }

    fn bit(&mut self) -> bool {
        let bit = self.octets[self.at / 8] >> (7 - self.at % 8) & 1 == 1;
        self.at += 1;
        bit
    }

    /// A field of up to 64 bits.
    pub fn field(&mut self, width: usize) -> Result<u64, Refused> {
        self.fit(width)?;
        Ok((0..width).fold(0, |value, _| value << 1 | self.bit() as u64))
    }

    /// A field in two's complement.
    pub fn signed(&mut self, width: usize) -> Result<i32, Refused> {
        let value = self.field(width)? as i32;
        Ok(if value >> (width - 1) == 1 { value - (1 << width) } else { value })
    }

    /// One field of any width, bit by bit.
    pub fn raw(&mut self, width: usize) -> Result<Vec<bool>, Refused> {
        self.fit(width)?;
        Ok((0..width).map(|_| self.bit()).collect())
    }
}

/// A bit string that grows at its end.
#[derive(Clone, Default)]
pub struct Bits {
    octets: Vec<u8>,
    length: usize,
}

impl Bits {
    pub fn len(&self) -> usize {
        self.length
    }

    pub fn is_empty(&self) -> bool {
        self.length == 0
    }

    /// The bits left-aligned; the rest of the last octet is 0.
    pub fn octets(&self) -> &[u8] {
        &self.octets
    }

    pub fn push(&mut self, bit: bool) {
        if self.length.is_multiple_of(8) {
            self.octets.push(0);
        }
        if bit {
            self.octets[self.length / 8] |= 128 >> (self.length % 8);
        }
        self.length += 1;
    }

    /// The low bits of a value, highest first; negative values in two's complement.
    pub fn put(&mut self, value: i64, width: usize) {
        for i in (0..width).rev() {
            self.push(value >> i & 1 == 1);
        }
    }
}

#[cfg(test)]
mod tests {
    use super::*;

    #[test]
    fn fields() {
        let octets = [0b1010_0001, 0b1111_1110];
        let mut cursor = Cursor::new(&octets, 15);
        assert_eq!(cursor.field(3), Ok(5));
        assert_eq!(cursor.field(0), Ok(0));
        assert_eq!(cursor.raw(5), Ok(vec![false, false, false, false, true]));
        assert_eq!(cursor.field(8), refused(Refusal::Short, 8));
        assert_eq!(cursor.signed(7), Ok(-1));
        assert_eq!(cursor.raw(0), Ok(vec![]));
        assert_eq!(cursor.field(1), refused(Refusal::Short, 15));
    }

    #[test]
    fn most_negative() {
        let octets = [0b1000_0000, 0];
        assert_eq!(Cursor::whole(&octets).signed(13), Ok(-4096));
    }

    #[test]
    fn put_and_read() {
        let mut bits = Bits::default();
        bits.put(-3, 13);
        bits.put(9, 4);
        assert_eq!(bits.len(), 17);
        let mut cursor = Cursor::new(bits.octets(), 17);
        assert_eq!(cursor.signed(13), Ok(-3));
        assert_eq!(cursor.field(4), Ok(9));
    }
}

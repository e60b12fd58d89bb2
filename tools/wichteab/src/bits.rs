//! Fields of records, packed most significant bit first.

/// The number in so many bits from this bit on. They have to be there.
pub fn field(bytes: &[u8], first: usize, width: usize) -> usize {
    (first..first + width).fold(0, |value, bit| value << 1 | usize::from(bytes[bit / 8] >> (7 - bit % 8) & 1))
}

/// A record as it is written, field by field.
#[derive(Default)]
pub struct Writer {
    bytes: Vec<u8>,
    used: usize, // bits of the last byte, 0 if it is full
}

impl Writer {
    /// Writes the number in so many bits. It has to fit: a larger one would be another number.
    pub fn put(&mut self, value: usize, width: usize) {
        assert!(value >> width == 0, "{value} does not fit {width} bits");
        for bit in (0..width).rev() {
            if self.used == 0 {
                self.bytes.push(0);
            }
            let last = self.bytes.len() - 1;
            self.bytes[last] |= ((value >> bit & 1) as u8) << (7 - self.used);
            self.used = (self.used + 1) % 8;
        }
    }

    /// The record; its pad is the zero bits that fill its last byte.
    pub fn record(self) -> Vec<u8> {
        self.bytes
    }
}

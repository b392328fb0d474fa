//! Fields, most significant bit first. What is cut is `None`.

/// Reads fields one after the other.
pub struct Reader<'a> {
    bytes: &'a [u8],
    /// How many bits were read.
    at: usize,
}

impl<'a> Reader<'a> {
    pub fn new(bytes: &'a [u8]) -> Self {
        Reader { bytes, at: 0 }
    }

    /// A field of at most 64 bits.
    pub fn take(&mut self, width: usize) -> Option<u64> {
        if self.left() < width {
            return None;
        }
        let (mut value, end) = (0, self.at + width);
        while self.at < end {
            let (byte, bit) = (self.bytes[self.at / 8], self.at % 8);
            let step = (8 - bit).min(end - self.at);
            value = value << step | u64::from(byte << bit >> (8 - step));
            self.at += step;
        }
        Some(value)
    }

    /// Zero bits up to a whole byte.
    pub fn pad(&mut self) -> Option<()> {
        let width = self.at.next_multiple_of(8) - self.at;
        (self.take(width)? == 0).then_some(())
    }

    /// Bytes from a whole byte on.
    pub fn bytes(&mut self, count: usize) -> Option<&'a [u8]> {
        let start = self.at / 8;
        let part = self.bytes.get(start..start.checked_add(count)?)?;
        self.at += 8 * count;
        Some(part)
    }

    /// How many bits are left.
    pub fn left(&self) -> usize {
        8 * self.bytes.len() - self.at
    }
}

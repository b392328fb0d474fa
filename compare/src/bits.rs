//! Fields packed most significant bit first.

#[derive(Default)]
pub struct BitWriter {
    bytes: Vec<u8>,
    /// Bits still free in the last byte.
    free: u32,
}

impl BitWriter {
    /// The low `width` bits of `value`.
    pub fn put(&mut self, width: u32, value: u64) {
        let mut left = width;
        while left > 0 {
            if self.free == 0 {
                self.bytes.push(0);
                self.free = 8;
            }
            let step = left.min(self.free);
            let part = (value >> (left - step)) as u32 & ((1 << step) - 1);
            if let Some(last) = self.bytes.last_mut() {
                *last |= (part << (self.free - step)) as u8;
            }
            self.free -= step;
            left -= step;
        }
    }

    /// Zero bits to a whole byte.
    pub fn align(&mut self) {
        self.free = 0;
    }

    pub fn put_bytes(&mut self, bytes: &[u8]) {
        self.align();
        self.bytes.extend_from_slice(bytes);
    }

    pub fn into_bytes(self) -> Vec<u8> {
        self.bytes
    }
}

pub struct BitReader<'a> {
    bytes: &'a [u8],
    /// In bits.
    at: usize,
}

impl<'a> BitReader<'a> {
    pub fn new(bytes: &'a [u8]) -> Self {
        BitReader { bytes, at: 0 }
    }

    /// The next `width` bits, at most 64, if they are there.
    pub fn take(&mut self, width: u32) -> Option<u64> {
        let end = self.at + width as usize;
        if end > self.bytes.len() * 8 {
            return None;
        }
        let (byte, bit) = (self.at / 8, self.at % 8);
        self.at = end;
        match self.bytes[byte..].first_chunk::<16>() {
            Some(ahead) => Some(field(u128::from_be_bytes(*ahead), bit, width)),
            // The last bytes, with zeros behind them.
            None => {
                let mut ahead = [0; 16];
                ahead[..self.bytes.len() - byte].copy_from_slice(&self.bytes[byte..]);
                Some(field(u128::from_be_bytes(ahead), bit, width))
            }
        }
    }

    /// Goes to a whole byte; whether the bits passed over are zeros.
    pub fn align(&mut self) -> bool {
        let pad = (8 - self.at % 8) % 8;
        self.take(pad as u32) == Some(0)
    }

    /// The next `count` bytes from a whole byte, if they are there.
    pub fn take_bytes(&mut self, count: usize) -> Option<&'a [u8]> {
        let start = self.at / 8;
        let part = self.bytes.get(start..)?.get(..count)?;
        self.at = (start + count) * 8;
        Some(part)
    }

    pub fn at_end(&self) -> bool {
        self.at == self.bytes.len() * 8
    }

    /// How many bytes are left.
    pub fn left(&self) -> usize {
        self.bytes.len() - self.at.div_ceil(8)
    }
}

/// `width` bits of the 128 after the first `skip`, which are fewer than 8.
fn field(ahead: u128, skip: usize, width: u32) -> u64 {
    if width == 0 { 0 } else { (ahead << skip >> (128 - width)) as u64 }
}

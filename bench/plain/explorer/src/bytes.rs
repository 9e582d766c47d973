//! The bytes of a module, read one after the other. The module is taken to be valid.

pub struct Bytes<'m> {
    bytes: &'m [u8],
    at: usize,
}

impl<'m> Bytes<'m> {
    pub fn new(bytes: &'m [u8]) -> Self {
        Bytes { bytes, at: 0 }
    }

    pub fn is_empty(&self) -> bool {
        self.at == self.bytes.len()
    }

    pub fn byte(&mut self) -> u8 {
        self.at += 1;
        self.bytes[self.at - 1]
    }

    pub fn take(&mut self, count: usize) -> &'m [u8] {
        self.at += count;
        &self.bytes[self.at - count..self.at]
    }

    pub fn number(&mut self) -> u32 {
        let (mut value, mut shift) = (0, 0);
        loop {
            let byte = self.byte();
            value |= u64::from(byte & 0x7f) << shift;
            shift += 7;
            if byte < 0x80 {
                return value as u32;
            }
        }
    }

    pub fn signed(&mut self) -> i64 {
        let (mut value, mut shift) = (0i64, 0);
        loop {
            let byte = self.byte();
            value |= i64::from(byte & 0x7f) << shift;
            shift += 7;
            if byte < 0x80 {
                let unused = 64u32.saturating_sub(shift);
                return value << unused >> unused;
            }
        }
    }

    pub fn name(&mut self) -> String {
        let count = self.number() as usize;
        String::from_utf8(self.take(count).to_vec()).expect("a name in UTF-8")
    }

    /// A constant expression of one instruction; `globals` have the values of those before.
    pub fn constant(&mut self, globals: &[u64]) -> u64 {
        let value = match self.byte() {
            0x23 => globals[self.number() as usize],
            0x41 => u64::from(self.signed() as u32),
            0x42 => self.signed() as u64,
            0x43 => u64::from(u32::from_le_bytes(
                self.take(4).try_into().expect("4 bytes"),
            )),
            0x44 => u64::from_le_bytes(self.take(8).try_into().expect("8 bytes")),
            byte => panic!("no constant begins with {byte:#x}"),
        };
        assert_eq!(self.byte(), 0x0b, "the end of a constant");
        value
    }
}

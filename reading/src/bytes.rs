//! Bytes that are taken from the front, as much as is there.

pub struct Reader<'a> {
    pub left: &'a [u8],
}

impl<'a> Reader<'a> {
    pub fn bytes(&mut self, n: usize) -> Option<&'a [u8]> {
        if n > self.left.len() {
            return None;
        }
        let (front, left) = self.left.split_at(n);
        self.left = left;
        Some(front)
    }

    pub fn byte(&mut self) -> Option<u8> {
        Some(self.bytes(1)?[0])
    }

    /// A number of so many bytes, 8 at most, little-endian.
    pub fn number(&mut self, width: usize) -> Option<u64> {
        Some(self.bytes(width)?.iter().rev().fold(0, |n, byte| n * 256 + u64::from(*byte)))
    }

    /// A one-byte count, and that many bytes.
    pub fn counted(&mut self) -> Option<Vec<u8>> {
        let n = self.byte()?;
        Some(self.bytes(n.into())?.to_vec())
    }
}

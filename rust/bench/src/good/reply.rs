//! The reply, written in place.

pub(super) struct Reply<'a> {
    bytes: &'a mut [u8],
    at: usize,
}

impl<'a> Reply<'a> {
    pub fn new(bytes: &'a mut [u8]) -> Reply<'a> {
        Reply { bytes, at: 0 }
    }

    /// The place of the next byte.
    pub fn at(&self) -> usize {
        self.at
    }

    fn take(&mut self, count: usize) -> &mut [u8] {
        let start = self.at;
        self.at += count;
        &mut self.bytes[start..self.at]
    }

    pub fn raw(&mut self, bytes: &[u8]) {
        self.take(bytes.len()).copy_from_slice(bytes);
    }

    pub fn zeros(&mut self, count: usize) {
        self.take(count).fill(0);
    }

    pub fn u32(&mut self, value: u32) {
        self.raw(&value.to_be_bytes());
    }

    pub fn u64(&mut self, value: u64) {
        self.raw(&value.to_be_bytes());
    }

    pub fn boolean(&mut self, value: bool) {
        self.u32(value.into());
    }

    /// The zeros behind that many bytes.
    pub fn pad(&mut self, length: usize) {
        self.zeros(length.next_multiple_of(4) - length);
    }

    pub fn opaque(&mut self, bytes: &[u8]) {
        self.u32(bytes.len() as u32);
        self.raw(bytes);
        self.pad(bytes.len());
    }

    /// Another value of a number that has been written.
    pub fn set(&mut self, at: usize, value: u32) {
        self.bytes[at..at + 4].copy_from_slice(&value.to_be_bytes());
    }
}

//! XDR by RFC 4506: big-endian, padded to four with zeros.

/// Missing bytes, or bytes that stand for no value, and the place of the first fault: the first
/// missing byte, a pad byte that isn't zero, or the first byte of a number out of range.
#[derive(Clone, Copy, Debug, PartialEq, Eq)]
pub struct BadXdr {
    pub place: usize,
}

/// Reads a request or a reply, onward.
#[derive(Clone)]
pub struct Reader<'a> {
    bytes: &'a [u8],
    at: usize,
}

impl<'a> Reader<'a> {
    pub fn new(bytes: &'a [u8]) -> Reader<'a> {
        Reader { bytes, at: 0 }
    }

    /// Reads on from a place; nothing where it is past the end.
    pub fn from(bytes: &'a [u8], at: u64) -> Option<Reader<'a>> {
        let at = usize::try_from(at).ok()?;
        (at <= bytes.len()).then_some(Reader { bytes, at })
    }

    /// The place of the next byte.
    pub fn at(&self) -> usize {
        self.at
    }

    pub fn is_at_end(&self) -> bool {
        self.at == self.bytes.len()
    }

    /// Bytes without a length before them or a pad behind them.
    pub fn take(&mut self, count: usize) -> Result<&'a [u8], BadXdr> {
        let rest = &self.bytes[self.at..];
        let missing = BadXdr {
            place: self.bytes.len(),
        };
        let taken = rest.get(..count).ok_or(missing)?;
        self.at += count;
        Ok(taken)
    }

    pub fn array<const COUNT: usize>(&mut self) -> Result<[u8; COUNT], BadXdr> {
        let taken = self.take(COUNT)?;
        Ok(taken.try_into().expect("as many bytes as were taken"))
    }

    pub fn u32(&mut self) -> Result<u32, BadXdr> {
        self.array().map(u32::from_be_bytes)
    }

    pub fn u64(&mut self) -> Result<u64, BadXdr> {
        self.array().map(u64::from_be_bytes)
    }

    /// An enum whose values are 0 to `last`.
    pub fn up_to(&mut self, last: u32) -> Result<u32, BadXdr> {
        let place = self.at;
        let value = self.u32()?;
        (value <= last).then_some(value).ok_or(BadXdr { place })
    }

    pub fn boolean(&mut self) -> Result<bool, BadXdr> {
        self.up_to(1).map(|value| value == 1)
    }

    /// Numbers with their count before them, at most `most`.
    pub fn words(&mut self, most: u32) -> Result<Vec<u32>, BadXdr> {
        let count = self.up_to(most)?;
        (0..count).map(|_| self.u32()).collect()
    }

    /// Bytes with their length before them and zeros after them, at most `longest`.
    pub fn opaque(&mut self, longest: u32) -> Result<&'a [u8], BadXdr> {
        let length = self.up_to(longest)? as usize;
        let bytes = self.take(length)?;
        for _ in 0..pad_of(length) {
            self.zero()?;
        }
        Ok(bytes)
    }

    fn zero(&mut self) -> Result<(), BadXdr> {
        let place = self.at;
        match self.take(1)? {
            [0] => Ok(()),
            _ => Err(BadXdr { place }),
        }
    }
}

fn pad_of(length: usize) -> usize {
    (4 - length % 4) % 4
}

/// Gathers a reply, or a part of one.
#[derive(Default)]
pub(crate) struct Writer {
    bytes: Vec<u8>,
}

impl Writer {
    pub fn u32(&mut self, value: u32) {
        self.raw(&value.to_be_bytes());
    }

    pub fn u64(&mut self, value: u64) {
        self.raw(&value.to_be_bytes());
    }

    pub fn boolean(&mut self, value: bool) {
        self.u32(u32::from(value));
    }

    /// Numbers with their count before them.
    pub fn words(&mut self, words: &[u32]) {
        self.u32(words.len() as u32);
        words.iter().for_each(|&word| self.u32(word));
    }

    pub fn opaque(&mut self, bytes: &[u8]) {
        self.u32(bytes.len() as u32);
        self.raw(bytes);
        self.raw(&[0; 3][..pad_of(bytes.len())]);
    }

    /// Bytes of a known length, a multiple of four, or parts already written.
    pub fn raw(&mut self, bytes: &[u8]) {
        self.bytes.extend_from_slice(bytes);
    }

    pub fn into_bytes(self) -> Vec<u8> {
        self.bytes
    }
}

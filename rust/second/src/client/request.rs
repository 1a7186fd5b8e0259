//! A request written from a tag and records of ten numbers: an operation, the start and length of
//! two spans of the data, and five numbers.

use crate::compound::{MINOR_VERSION, OPERATIONS_MAX, REQUEST_MAX, TAG_MAX};
use crate::operation::{number, BITMAP_MAX, HANDLE_MAX};
use crate::status::Refusal;
use crate::xdr::Writer;

const RECORD_LENGTH: usize = 10;
const STATEID_LENGTH: usize = 16;
const WORD_LENGTH: usize = 4;

/// The answer of `write_request`: 0 and the request's length, or a refusal's number and 0.
#[derive(Clone, Copy, Debug, PartialEq, Eq)]
pub struct Written {
    pub number: u32,
    pub written: usize,
}

impl Written {
    fn refused(refusal: Refusal) -> Written {
        Written {
            number: refusal.number(),
            written: 0,
        }
    }
}

/// Writes the request to the buffer's start, or nothing on a refusal.
pub fn write_request(tag: &[u8], records: &[u64], data: &[u8], buffer: &mut [u8]) -> Written {
    let Some(request) = encoded(tag, records, data) else {
        return Written::refused(Refusal::Unwritable);
    };
    let written = request.len();
    match buffer.get_mut(..written) {
        None => Written::refused(Refusal::BufferTooShort),
        Some(start) => {
            start.copy_from_slice(&request);
            Written { number: 0, written }
        }
    }
}

/// The whole request; nothing where it can't be written.
fn encoded(tag: &[u8], records: &[u64], data: &[u8]) -> Option<Vec<u8>> {
    let operations = records.len() / RECORD_LENGTH;
    let whole = operations * RECORD_LENGTH == records.len();
    if !whole || operations > OPERATIONS_MAX as usize || tag.len() > TAG_MAX as usize {
        return None;
    }
    let mut request = Writer::default();
    request.opaque(tag);
    request.u32(MINOR_VERSION);
    request.u32(operations as u32);
    for record in records.chunks(RECORD_LENGTH) {
        Record::new(record, data).encode(&mut request)?;
    }
    let request = request.into_bytes();
    (request.len() <= REQUEST_MAX).then_some(request)
}

struct Record<'a> {
    number: u64,
    spans: [Span; 2],
    numbers: [u64; 5],
    data: &'a [u8],
}

#[derive(Clone, Copy)]
struct Span {
    start: u64,
    length: u64,
}

impl<'a> Record<'a> {
    fn new(record: &[u64], data: &'a [u8]) -> Record<'a> {
        let span = |at: usize| Span {
            start: record[at],
            length: record[at + 1],
        };
        Record {
            number: record[0],
            spans: [span(1), span(3)],
            numbers: [5, 6, 7, 8, 9].map(|at: usize| record[at]),
            data,
        }
    }

    fn encode(&self, request: &mut Writer) -> Option<()> {
        let number = at_most(u32::MAX, self.number)?;
        request.u32(number);
        match number {
            number::GETATTR => self.bitmap(request),
            number::GETFH | number::RESTOREFH | number::SAVEFH => Some(()),
            number::PUTFH => self.handle(request),
            number::READ | number::READ_PLUS | number::SEEK => self.look(request, u32::MAX),
            number::WRITE => {
                self.look(request, 2)?;
                request.opaque(self.bytes(1)?);
                Some(())
            }
            number::ALLOCATE | number::DEALLOCATE => self.region(request),
            number::COPY => {
                self.transfer(request)?;
                request.u32(at_most(1, self.numbers[3])?);
                request.u32(at_most(1, self.numbers[4])?);
                request.u32(0); // no source server
                Some(())
            }
            number::CLONE => self.transfer(request),
            _ => None,
        }
    }

    /// A span's part of the data.
    fn bytes(&self, span: usize) -> Option<&'a [u8]> {
        let Span { start, length } = self.spans[span];
        let rest = self.data.get(usize::try_from(start).ok()?..)?;
        rest.get(..usize::try_from(length).ok()?)
    }

    fn bitmap(&self, request: &mut Writer) -> Option<()> {
        let words = self.bytes(0)?;
        let count = words.len() / WORD_LENGTH;
        if count * WORD_LENGTH != words.len() || count > BITMAP_MAX as usize {
            return None;
        }
        request.u32(count as u32);
        request.raw(words);
        Some(())
    }

    fn handle(&self, request: &mut Writer) -> Option<()> {
        let handle = self.bytes(0)?;
        if handle.len() > HANDLE_MAX as usize {
            return None;
        }
        request.opaque(handle);
        Some(())
    }

    fn stateid(&self, span: usize, request: &mut Writer) -> Option<()> {
        let stateid = self.bytes(span)?;
        if stateid.len() != STATEID_LENGTH {
            return None;
        }
        request.raw(stateid);
        Some(())
    }

    /// A stateid, an offset and a number of 32 bits.
    fn look(&self, request: &mut Writer, most: u32) -> Option<()> {
        self.stateid(0, request)?;
        request.u64(self.numbers[0]);
        request.u32(at_most(most, self.numbers[1])?);
        Some(())
    }

    fn region(&self, request: &mut Writer) -> Option<()> {
        self.stateid(0, request)?;
        request.u64(self.numbers[0]);
        request.u64(self.numbers[1]);
        Some(())
    }

    /// What COPY and CLONE have in common.
    fn transfer(&self, request: &mut Writer) -> Option<()> {
        self.stateid(0, request)?;
        self.stateid(1, request)?;
        for &number in &self.numbers[..3] {
            request.u64(number);
        }
        Some(())
    }
}

/// A number of 32 bits that is at most `most`.
fn at_most(most: u32, number: u64) -> Option<u32> {
    u32::try_from(number).ok().filter(|&number| number <= most)
}
